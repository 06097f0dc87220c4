#!/bin/sh
# What a crate makes, proved first where it is not: target/bin/NAME of a program, an archive in target/lib of a static library
# (host_c: libvirdzeba.a, any other NAME_c: libNAME.a). What stands there is made again only where it was made of something else.
# What the toolchain says is shown only if it fails; what takes longer than a few seconds says so.
#
#   tools/build.sh NAME               by `rt run` or `rt lib` in the crate's folder
#   tools/build.sh --after-ci NAME    by what `rt ci` left: it has passed just now, where no check had left a library before
set -eu
cd "$(dirname "$0")/.."
command -v rt >/dev/null 2>&1 || { echo "rt, the Rattle toolchain, is not installed." >&2; exit 2; }
after_ci=
[ "$1" != --after-ci ] || { after_ci=1; shift; }
name=$1

# The crates below NAME, each once, lowest last; with `of` the libraries that its own line lists.
listed() {
    awk -v name="$name" -v only="${1:-}" '
        function visit(crate,    all, n, i) {
            if (seen[crate]++) return
            if (crate != name) print crate
            n = split(below[crate], all, " ")
            for (i = 1; i <= n; i++) if (all[i] in below && !(only && crate != name)) visit(all[i])
        }
        { sub(/#.*/, "") }
        /:/ { at = index($0, ":"); split(substr($0, 1, at - 1), head, " "); below[head[1]] = substr($0, at + 1) }
        END { if (name in below) visit(name) }' crates.txt
}
below=$(listed)

out=crates/$name/out
if [ -f "crates/$name/src/main.rt" ]; then
    kind=run built=$out/$name made=target/bin/$name
elif [ "$name" = host_c ]; then
    kind=lib built=$out/lib$name.a made=target/lib/libvirdzeba.a
else
    kind=lib built=$out/lib$name.a made=target/lib/lib${name%_c}.a
fi
record=target/made/$name

# A sum of all that NAME is made of: the toolchain, the list of crates, the files of each crate; and one of what was made.
sources() {
    {
        rt version
        cat crates.txt
        for crate in $name $below; do
            for part in src specs proofs; do
                [ ! -d "crates/$crate/$part" ] || find "crates/$crate/$part" -type f -print0
            done
        done | LC_ALL=C sort -z | xargs -0 sha256sum
    } | sha256sum
}
stands() { [ -f "$made" ] && [ -f "$record" ] && { printf '%s\n' "$1"; sha256sum <"$made"; } | cmp -s - "$record"; }

before=$(sources)
! stands "$before" || exit 0

said=$(mktemp)
began=$(date +%s)
watcher=
trap 'rm -f "$said"; [ -z "$watcher" ] || kill "$watcher" 2>/dev/null || true' EXIT
trap 'exit 130' INT TERM

# The archive over the libraries that `rt ci` left: NAME alone is checked again. (`rt lib` does not take them, and proves each once more.)
over_left() {
    for crate in $below; do
        [ -f "crates/$crate/out/rlib/$crate.rlib/format" ] && [ ! -e "crates/$crate/out/rlib/stamp" ] || return 1
    done
    kit=$(dirname "$(rt doc)")
    set -- --extern "std=$kit/rlibs/std.rlib" -L "dependency=$kit/rlibs"
    for crate in $(listed of); do
        set -- "$@" --extern "$crate=../$crate/out/rlib/$crate.rlib"
    done
    for crate in $below; do
        set -- "$@" -L "dependency=../$crate/out/rlib"
    done
    mkdir -p "$out"
    (cd "crates/$name" && "$kit/bin/rattle" build --crate-name "$name" src/lib.rt "$@" --antt-project "$kit/rattle/logic/antt-project.json" \
        --logic-built "$kit/logic_built" --toolchain "$kit/toolchain" --crate-type staticlib --backend llvm -o "out/lib$name.a") >"$said" 2>&1
}

seconds() { echo $(($(date +%s) - began)); }
proved() { sed -n 's/^crate \([A-Za-z_0-9]*\): modules .*/\1/p' "$said"; }
watch() {
    sleep 3 >/dev/null 2>&1
    echo "rt $kind in crates/$name: what is not proved yet of it and of the $(echo "$below" | wc -w) crates below is proved first; all of them take some minutes"
    while sleep 10 >/dev/null 2>&1; do
        last=$(proved | tail -n 1)
        echo "  $(proved | wc -l) proved${last:+ (last: $last)}, $(seconds) s so far"
    done
}

# By `rt run` or `rt lib`; a program is run once, on nothing.
by_rt() {
    watch >&2 &
    watcher=$!
    status=0
    (cd "crates/$name" && rt "$kind" </dev/null) >"$said" 2>&1 || status=$?
    if [ "$status" -ne 0 ]; then
        cat "$said" >&2
        echo "rt $kind failed in crates/$name." >&2
        exit "$status"
    elif [ "$(seconds)" -gt 3 ]; then
        echo "  done after $(seconds) s" >&2
    fi
}

rm -f "$record"
case $after_ci$kind in
1run) [ -f "$built" ] || by_rt ;;
1lib) over_left || by_rt ;;
*) by_rt ;;
esac
mkdir -p "$(dirname "$made")" "$(dirname "$record")"
rm -f "$made"
cp "$built" "$made"
[ "$before" != "$(sources)" ] || { echo "$before"; sha256sum <"$made"; } >"$record"
