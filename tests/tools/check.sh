#!/bin/sh
# Checks tools/listing.py and tools/view.py: the messages on bad listings, the examples' texts, and over all stored pictures what
# the tools say against what the pass does. Needs target/lib/libvirdzeba.a (`make lib`), target/bin/sinkrounds
# (`tools/build.sh sinkrounds`), python3 and a C compiler. The last line is `tools: N checks passed`; ends with 1 where one fails.
#
#   check.sh            checks
#   check.sh --write    writes the expected texts anew (bad/*.say here, examples/expected, views): read them before you commit
set -eu
exec python3 "$(dirname "$0")/check.py" "$@"
