#!/bin/sh
# `make run` and `make lib`: what each sort of listing ends with and says, and when the library is made anew, the latter with a
# toolchain that only notes what it is asked for. Takes seconds where the library stands; `make` itself ends with 2 where what it
# runs ends with 1.
set -eu
cd "$(dirname "$0")/.."
made=$(mktemp -d)
trap 'rm -r "$made"' EXIT
passed=0

# wants STATUS TEXTS COMMAND..: it ends so, and prints these texts, one a line.
wants() {
    status=$1 texts=$2 got=0
    shift 2
    "$@" >"$made/said" 2>&1 || got=$?
    missing=$(printf '%s\n' "$texts" | while IFS= read -r text; do grep -qF -- "$text" "$made/said" || echo "$text"; done)
    if [ "$got" -ne "$status" ] || [ -n "$missing" ]; then
        echo "run: FAILED: $* ended with $got, wanted $status${missing:+; not said: $missing}. It said:" >&2
        cat "$made/said" >&2
        exit 1
    fi
    passed=$((passed + 1))
}

# ---- listings

sunk='done 1
  Output r9, r1'
wants 0 "$sunk" tools/run.sh
cp examples/listing.txt "$made/it's my \"file\".txt"
wants 0 "$sunk" make run FILE="$made/it's my \"file\".txt"

# The same picture with a kind that there is not, and one of 65 blocks, as listings.
tools/listing.py pack examples/listing.txt >"$made/bytes"
python3 - "$made" <<'DAMAGE'
import struct, sys
data = bytearray(open(sys.argv[1] + '/bytes', 'rb').read())
struct.pack_into('<I', data, 4 * (8 + 2 * 3), 101)
open(sys.argv[1] + '/kind', 'wb').write(data)
open(sys.argv[1] + '/blocks', 'wb').write(struct.pack('<138I', 65, *[0] * 137))
DAMAGE
tools/listing.py show "$made/kind" >"$made/refused"
tools/listing.py show "$made/blocks" >"$made/unread"
wants 1 'refused 4
The listing is refused, cause 4: a kind above 100, a form that its kind does not have' tools/run.sh "$made/refused"
wants 2 'cause 4' make run FILE="$made/refused"
wants 1 "unread 0
The listing is not read: it is larger than the program's sizes" tools/run.sh "$made/unread"
printf 'registers 1\nblock 0\n  Nothing r0\n' >"$made/mistaken"
wants 1 "$made/mistaken:3:" tools/run.sh "$made/mistaken"
wants 2 "There is no listing $made/nosuch that can be read" tools/run.sh "$made/nosuch"
wants 2 'There is no listing nosuch that can be read' make run FILE=nosuch
wants 2 'There is no listing examples that can be read' tools/run.sh examples

# ---- the library

before=$(ls -l --time-style=full-iso target/lib/libvirdzeba.a)
wants 0 'target/lib has libvirdzeba.a' make lib
[ "$before" = "$(ls -l --time-style=full-iso target/lib/libvirdzeba.a)" ] || { echo "run: FAILED: the library was made again." >&2; exit 1; }

# A repository of two crates, and a toolchain that proves in a moment and notes what it is asked for, and where.
repo=$made/repo
mkdir -p "$repo/tools" "$repo/crates/words/src" "$repo/crates/host_c/src" "$made/bin" "$made/kit/bin"
cp -r bindings "$repo/bindings"
cp tools/build.sh tools/lib.sh "$repo/tools"
printf 'words:\nhost_c staticlib: words\n' >"$repo/crates.txt"
echo 'first' >"$repo/crates/words/src/lib.rt"
cat >"$made/bin/rt" <<RT
#!/bin/sh
case \$1 in
version) echo toolchain; exit ;;
doc) echo "$made/kit/START-HERE.md"; exit ;;
esac
echo "\$1 in \${PWD##*/}" >>"$repo/asked"
sleep "\${SLOW:-0}"
[ ! -e "$repo/broken" ] || { echo "crate words: modules loaded=0 checked=1"; echo "logic=not-proved"; exit 1; }
echo "crate words: modules loaded=0 checked=1"
mkdir -p out && echo archive >"out/lib\${PWD##*/}.a"
RT
cat >"$made/kit/bin/rattle" <<RATTLE
#!/bin/sh
echo "\$1 in \${PWD##*/}" >>"$repo/asked"
for last; do :; done
echo archive >"\$last"
RATTLE
chmod +x "$made/bin/rt" "$made/kit/bin/rattle"
PATH=$made/bin:$PATH
export PATH

# asks WORDS WHY COMMAND..: it asks the toolchain for this, and then the library stands.
asks() {
    words=$1 why=$2
    shift 2
    rm -f "$repo/asked"
    "$@" >"$made/said" 2>&1 || { cat "$made/said" >&2; echo "run: FAILED: $why" >&2; exit 1; }
    asked=$(cat "$repo/asked" 2>/dev/null || true)
    if [ "$asked" != "$words" ] || ! [ -s "$repo/target/lib/libvirdzeba.a" ]; then
        echo "run: FAILED: $why: it asked for: $asked" >&2
        exit 1
    fi
    passed=$((passed + 1))
}
lib=$repo/tools/lib.sh
asks 'lib in host_c' 'no library' "$lib"
asks '' 'nothing changed' "$lib"
echo '# changed' >>"$repo/crates.txt"
asks 'lib in host_c' 'the list of crates changed' "$lib"
echo 'changed' >>"$repo/crates/words/src/lib.rt"
asks 'lib in host_c' 'a crate below changed' "$lib"
asks '' 'nothing changed since' "$lib"
echo other >"$repo/target/lib/libvirdzeba.a"
asks 'lib in host_c' 'another archive lies there' "$lib"
rm "$repo/target/lib/libvirdzeba.a"
asks 'lib in host_c' 'the archive is gone' "$lib"

# Over what `rt ci` left, where it left all.
rm "$repo/target/lib/libvirdzeba.a"
asks 'lib in host_c' 'no library below' "$repo/tools/build.sh" --after-ci host_c
mkdir -p "$repo/crates/words/out/rlib/words.rlib"
touch "$repo/crates/words/out/rlib/words.rlib/format"
rm "$repo/target/lib/libvirdzeba.a"
asks 'build in host_c' 'rt ci left the library below' "$repo/tools/build.sh" --after-ci host_c
asks '' 'it stands' "$lib"
touch "$repo/crates/words/out/rlib/stamp"
rm "$repo/target/lib/libvirdzeba.a"
asks 'lib in host_c' 'a check left the library below' "$repo/tools/build.sh" --after-ci host_c

rm "$repo/target/lib/libvirdzeba.a"
wants 0 'of the 1 crates below' env SLOW=4 "$lib"
touch "$repo/broken"
rm "$repo/target/lib/libvirdzeba.a"
wants 1 'logic=not-proved' "$lib"
[ ! -e "$repo/target/lib/libvirdzeba.a" ] || { echo "run: FAILED: a library of what is not proved." >&2; exit 1; }
echo "run: $passed checks passed"
