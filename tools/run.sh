#!/bin/sh
# Runs the pass on a listing (tools/listing.py says how one is written): what `sinkrounds` prints for it, then the listing after
# the pass, through the host's entry. Ends with 0 where the listing was sunk, with 1 where it is none, is refused or is not read,
# which it says in words, and with 2 where nothing could be run.
#
#   tools/run.sh [FILE]    examples/listing.txt where none is given
set -eu
root=$(cd "$(dirname "$0")/.." && pwd)
file=${1:-$root/examples/listing.txt}
if [ -d "$file" ] || ! [ -r "$file" ]; then
    echo "There is no listing $file that can be read." >&2
    exit 2
fi
made=$(mktemp -d)
trap 'rm -r "$made"' EXIT
"$root/tools/listing.py" pack "$file" >"$made/before" || exit 1
cd "$root"

tools/build.sh sinkrounds || exit 2
target/bin/sinkrounds <"$made/before" >"$made/text"
cat "$made/text"
answer=$(tail -n 1 "$made/text")
case $answer in
'refused '*)
    cause=${answer#refused }
    echo "The listing is refused, cause $cause: $(sed -n "s/^$cause //p" tools/causes.txt)." >&2
    exit 1
    ;;
'unread '*)
    echo "The listing is not read: it is larger than the program's sizes." >&2
    exit 1
    ;;
esac

if ! command -v cc >/dev/null 2>&1; then
    echo "The listing after the pass needs a C compiler, cc." >&2
    exit 0
fi
tools/lib.sh || exit 2
cc -O2 -I include tests/c/example.c target/lib/libvirdzeba.a -o "$made/sink"
"$made/sink" <"$made/before" >"$made/after" 2>"$made/answer"
echo
tools/listing.py show "$made/after"
