#!/bin/sh
# Holds include/virdzeba.h and docs/REFERENCE.md to what they speak of: the header compiles alone, strictly, as C and C++; the kinds
# in both are those of crates/model/specs/Kinds.antt; the archive takes of C's library what the header says; and over it, the two
# programs here give what they must, and so does each example of the reference (examples.py). Ends with 0 and a last line `c: N checks passed`, or with 1.
#
#   tests/c/check.sh [ARCHIVE]    else target/lib/libvirdzeba.a, which `make lib` writes
#
# What is left out, for want of a compiler, of nm, of python3 or of the archive, is said. Where CI=true it fails without the archive, a C
# compiler or nm.
set -u
cd "$(dirname "$0")/../.."
archive=${1:-target/lib/libvirdzeba.a}
made=$(mktemp -d)
trap 'rm -r "$made"' EXIT
checks=0 failed=0
passes() { checks=$((checks + ${1:-1})); }
fails() { echo "c: failed: $1" >&2; failed=1; }
lacks() { echo "c: left out: $1" >&2; }
needs() {
    lacks "$1"
    [ "${CI:-}" != true ] || failed=1
}
there() { command -v "$1" >/dev/null 2>&1; }
strict="-Wall -Wextra -pedantic -Werror"

# The header by itself, twice in one file.
printf '#include "virdzeba.h"\n#include "virdzeba.h"\n' >"$made/header.c"
compiles() {
    if $1 $strict -I include -fsyntax-only "$made/header.c"; then passes; else fails "the header by $1"; fi
}
cc= cxx=
for compiler in gcc clang cc; do
    there $compiler || continue
    cc=$compiler
    for std in c99 c11; do
        compiles "$compiler -std=$std"
    done
done
for compiler in g++ clang++ c++; do
    there $compiler || continue
    cxx=$compiler
    compiles "$compiler -std=c++17 -x c++"
done
[ -n "$cc" ] || needs "the header as C, and all that calls, since there is no C compiler"
[ -n "$cxx" ] || lacks "the header as C++, since there is no C++ compiler"

# The kinds, as they are printed.
if there python3; then
    if tools/kinds.py --check; then passes 2; else fails "tools/kinds.py prints other kinds"; fi
else
    lacks "the printed kinds and the reference's examples, since there is no python3"
fi

# A program of this folder over the archive: NAME and words for the compiler.
build() {
    name=$1
    shift
    "$cc" -std=c99 $strict -O2 -I include "$@" "tests/c/$name.c" "$archive" -o "$made/$name" && return
    fails "$name.c does not build"
    return 1
}

# What example.c ends with and says, when it is run so.
ends() {
    want=$1 said=$2
    shift 2
    "$made/example" "$@" 2>"$made/say"
    status=$?
    if [ $status -eq "$want" ] && [ "$(head -n 1 "$made/say")" = "$said" ]; then
        passes
    else
        fails "example.c $* ended with $status: $(cat "$made/say")"
    fi
}

calls() {
    if build picture -pthread; then
        if n=$("$made/picture"); then passes "$n"; else fails "picture.c"; fi
    fi
    build example || return
    ends 1 "unread 0" </dev/null
    ends 2 "usage: example [REGISTERS OPERANDS] <before >after" 8 </dev/null
    there python3 || return
    tools/listing.py pack examples/listing.txt >"$made/before" || { fails "examples/listing.txt"; return; }
    ends 0 "done 1" <"$made/before" >"$made/after"
    ends 0 "short 0" 11 0 <"$made/before" >"$made/short"
    if cmp "$made/before" "$made/short"; then passes; else fails "short 0 leaves another picture"; fi
    ends 1 "refused 1" 8 0 <"$made/before"
    if [ -w /dev/full ]; then ends 2 "done 1" <"$made/before" >/dev/full; fi
    if n=$(tests/c/examples.py "$made/example"); then passes "$n"; else fails "an example of docs/REFERENCE.md, or a stored picture"; fi
}
# What the archive wants from outside.
asks() {
    there nm || { needs "what the archive asks for, since there is no nm"; return; }
    nm -u "$archive" >"$made/asked" || { fails "nm of $archive"; return; }
    others=$(awk '$1 == "U" && $2 != "memcpy" && $2 != "memset" { print $2 }' "$made/asked" | sort -u | tr '\n' ' ')
    if [ -z "$others" ]; then passes; else fails "the archive asks for more than memcpy and memset: $others"; fi
}
[ ! -f "$archive" ] || asks
if [ ! -f "$archive" ]; then
    needs "all that calls, since $archive is not there"
elif [ -n "$cc" ]; then
    calls
fi

[ $failed -eq 0 ] || exit 1
echo "c: $checks checks passed"
