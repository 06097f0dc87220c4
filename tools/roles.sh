#!/bin/sh
# The table of roles: what rolesource prints from the list of kinds, crates/rolesource/stdin. It stands in two files, that program's
# stdout, which `rt ci` compares with what it prints, and crates/inst/src/roles.rt, which crate `inst` is made of. Where a line of the
# list cannot stand, this says which, changes nothing and ends with 1.
#
#   tools/roles.sh            prints both anew
#   tools/roles.sh --check    compares the two, and ends with 1 where they differ
set -eu
cd "$(dirname "$0")/.."
list=crates/rolesource/stdin printed=crates/rolesource/stdout source=crates/inst/src/roles.rt
case ${1:-} in
'') ;;
--check)
    cmp -s "$printed" "$source" || {
        diff -u "$source" "$printed" | head -n 20
        echo "$source is not what rolesource prints: tools/roles.sh prints it anew." >&2
        exit 1
    }
    exit 0
    ;;
*)
    sed -n '2,/^set /s/^# \{0,1\}//p' "$0" >&2
    exit 2
    ;;
esac
tools/build.sh rolesource
made=$(mktemp)
trap 'rm -f "$made"' EXIT
target/bin/rolesource <"$list" >"$made"
case $(head -n 1 "$made") in
'unread '*)
    n=$(sed 's/^unread //' "$made")
    echo "$list:$n: this line cannot stand here, or the list is not complete before it: $(sed -n "${n}p" "$list")" >&2
    exit 1
    ;;
esac
cp "$made" "$printed"
cp "$made" "$source"
