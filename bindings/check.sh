#!/bin/sh
# The library as its users have it: the crate's tests and its example, the example from C by pkg-config's words, and what is said
# where there is no library. Makes the library where it does not stand. Ends with 0 where all is as it must be, else with 1; with 2
# where cargo or the toolchain is missing.
set -eu
cd "$(dirname "$0")/.."
root=$(pwd)
command -v cargo >/dev/null 2>&1 || { echo "bindings: cargo is not installed." >&2; exit 2; }
tools/lib.sh
VIRDZEBA_LIB_DIR=$root/target/lib
export VIRDZEBA_LIB_DIR
made=$(mktemp -d)
trap 'rm -r "$made"' EXIT
passed=0
fails() { echo "bindings: FAILED: $1" >&2; [ ! -f "$made/said" ] || cat "$made/said" >&2; exit 1; }
crate() { (cd bindings/rust && cargo "$@" --offline --locked --quiet) >"$made/said" 2>&1; }

crate test || fails "the crate's tests"
counted=$(sed -n 's/^test result: ok\. \([0-9]*\) passed; 0 failed.*/\1/p' "$made/said" | awk '{ n += $1 } END { print n + 0 }')
[ "$counted" -gt 0 ] || fails "no test was run"
passed=$counted

# The example builds the picture of examples/listing.txt.
cat >"$made/wanted" <<'SUNK'
done 1
block 0: instructions [0, 9]
block 1: instructions [1, 2, 3, 4, 5, 6, 7, 8, 10, 11]
block 2: instructions [12]
SUNK
crate run --example sink && cmp -s "$made/said" "$made/wanted" || fails "the example"
passed=$((passed + 1))

# From C, by pkg-config where there is one. Both languages write the same picture, and say the same.
flags="-Iinclude -Ltarget/lib -lvirdzeba"
! command -v pkg-config >/dev/null 2>&1 || flags=$(PKG_CONFIG_PATH=target/lib pkg-config --cflags --libs virdzeba)
if command -v cc >/dev/null 2>&1; then
    # shellcheck disable=SC2086
    cc -O2 tests/c/example.c $flags -o "$made/example" >"$made/said" 2>&1 || fails "the example in C by: $flags"
    tools/listing.py pack examples/listing.txt >"$made/before"
    "$made/example" <"$made/before" >"$made/c" 2>"$made/c-said"
    bindings/rust/target/debug/examples/sink - <"$made/before" >"$made/rust" 2>"$made/said"
    cmp "$made/c" "$made/rust" && cmp "$made/c-said" "$made/said" || fails "C and Rust differ"
    passed=$((passed + 2))
fi

# Refused, in words; no library, in words.
if bindings/rust/target/debug/examples/sink - </dev/null >"$made/rust" 2>"$made/said"; then fails "an empty picture is sunk"; fi
grep -q 'unread' "$made/said" && [ ! -s "$made/rust" ] || fails "an empty picture"
if VIRDZEBA_LIB_DIR=$made crate build --target-dir "$made/none"; then fails "built without a library"; fi
grep -qF "libhost_c.a is in $made. Run \`make lib\`" "$made/said" || fails "what is said without a library"
passed=$((passed + 2))
echo "bindings: $passed checks passed"
