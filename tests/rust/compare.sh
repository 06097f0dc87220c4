#!/bin/sh
# Holds the definitions and the port against the Rust of the pass: the table of roles, the oracle against itself, the plain check
# and demand 3, the rows of crate `crossed`, made anew, the layers of the port and the pass over slices, through crate `probe`, the
# host's entry, and what `sinkrounds` prints. See README.md; tests/c calls the entry from C.
#
#   compare.sh              needs the Rust; without it, or without cargo or rt, it says so and ends with 2
#   compare.sh --if-there   for .ci/run: without the Rust the comparison is left out, except that it fails where CI=true
#   compare.sh --listing    only shows document 01's listing and what the Rust makes of it
#   compare.sh --bench      only prints docs/BENCH.md
#   compare.sh --live       only prints the times of liveness, as in docs/SPEED.md
#
# YAVS_SRC names the folder that holds crates/yavs-ir/src; else shared/docs/src beside the repository is taken.
# PICTURES and SEED say how many pictures are drawn, and which (4000 and 1); for the plain check and the port's layers a quarter or
# an eighth as many.
# SUNK and LARGE say how many go through the host's entry and over slices (10000 and 40).
set -eu
sources=${YAVS_SRC:-$(dirname "$0")/../../../shared/docs/src}
missing=
for file in crates/yavs-ir/src/opt/sink.rs crates/yavs-ir/src/inst.rs; do
    [ -f "$sources/$file" ] || missing="The Rust of the pass is not at $sources (no $file); YAVS_SRC can name the place."
done
command -v cargo >/dev/null 2>&1 || missing="cargo is not installed."
[ "${1:-}" = --listing ] || command -v rt >/dev/null 2>&1 || missing="rt is not installed."
if [ -n "$missing" ]; then
    echo "$missing" >&2
    if [ "${1:-}" = --if-there ]; then
        if [ "${CI:-}" = true ]; then
            echo "compare: failed: nothing could be compared with the Rust." >&2
            exit 1
        fi
        echo "compare: the comparison with the Rust was left out."
        exit 0
    fi
    exit 2
fi

YAVS_SRC=$(cd "$sources" && pwd)
export YAVS_SRC
cd "$(dirname "$0")"
compare=target/release/compare
if [ "${1:-}" = --listing ]; then
    cargo build --release --offline --locked --quiet
    exec $compare listing
fi

# The port, proved where it is not yet.
made=$(mktemp -d)
trap 'rm -r "$made"' EXIT
built() {
    ../../tools/"$@" || { echo "compare: failed: tools/$* gave nothing to compare." >&2; exit 1; }
}
built build.sh probe_c
built lib.sh
VIRDZEBA_LIB_DIR=$(cd ../../target/lib && pwd)
export VIRDZEBA_LIB_DIR
cargo build --release --offline --locked --quiet --features port,host
case ${1:-} in
--bench | --live)
    $compare "${1#--}" "${SEED:-1}"
    exit
    ;;
esac

# The comparisons themselves: a slip that is put in is found.
cargo test --release --offline --locked --quiet --features port,host

$compare roles ../../crates/model/specs/Kinds.antt
$compare selfcheck "${PICTURES:-4000}" "${SEED:-1}"
$compare plain $((${PICTURES:-4000} / 4)) "${SEED:-1}"
$compare walks "${PICTURES:-4000}" "${SEED:-1}"
$compare refusals $((${PICTURES:-4000} / 4)) "${SEED:-1}"
$compare flow $((${PICTURES:-4000} / 4)) "${SEED:-1}"
$compare facts $((${PICTURES:-4000} / 8)) "${SEED:-1}"
$compare sink "${SUNK:-10000}" "${SEED:-1}"
$compare large "${LARGE:-40}" "${SEED:-1}"

# The stored pictures are what the command writes, and what `sinkrounds` prints for them is what the Rust gives.
listed() {
    grep -q "^$1:" ../../crates.txt || { echo "compare: $1 is not there yet"; return 1; }
}
if listed sinkrounds; then
    built build.sh sinkrounds
    $compare program ../../target/bin/sinkrounds
fi
$compare vectors "$made"
if listed vectors; then
    for file in stdin README.md; do
        cmp "$made/$file" "../../crates/vectors/$file"
    done
fi
if command -v python3 >/dev/null 2>&1; then
    ../../tools/listing.py check "$made/stdin"
fi
rm "$made/stdin" "$made/README.md"

# The rows of `crossed` are what the command prints, word for word.
$compare crossed "$made"
(cd "$made" && find . -type f) | sort | while read -r file; do
    diff -u "../../crates/crossed/$file" "$made/$file"
done
for file in ../../crates/crossed/specs/Rows*.antt; do
    [ -f "$made/specs/$(basename "$file")" ] || { echo "compare: $file is not made any more." >&2; exit 1; }
done
echo "crossed: the rows are what the Rust gives"
