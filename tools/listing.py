#!/usr/bin/env python3
"""A picture as text and as bytes.

    tools/listing.py pack FILE     the text of FILE, or of standard input, as a picture's bytes
    tools/listing.py show [FILE]   a picture's bytes as text
    tools/listing.py check LIST    both ways over a list of stored pictures (crates/vectors/stdin)

One thing a line; `#` begins a comment. Numbers are in base ten.

    registers 9                      registers in use, r0 to r8
    types r2=Ptr r5=Sig r6=7         I64 (0), Ptr (1), Sig (4) or a number; I64 where nothing is said
    table 0 -> 2, 1                  a case table, the default first; tables come in order
    replay 1 2                       blocks in replay
    vias                             there are via words; `via 3` in one line says so too
    block 0                          blocks come in order
      Const r1 = 8
      Bin.Add r4, r1, r1             a form other than 0 stands behind the name, by its name or number
      Cat r2, r1, r1 [r3, r1]        a list of operands; scalars 1 may follow
      Cmp r3, r1, r1  loc 12 via 3   loc and via words are 0 where nothing is said
      Ret                            registers that may be absent are left out at the end, or are -
      CondBr r0 -> 1, 2              Br -> 1 and Case r0 table 0 likewise

Kinds, forms and their registers are those of tools/kinds.py. A list that is not where the next one would go says its place,
`[r3, r1]@4`; what lies there already must be the same. `operands r3 r1 ..` gives the operands themselves. Payload words that are
not 0 and have no name follow in braces, `{11: 5}`.

What the pass would refuse or not read is said with its line. To write such a picture all the same, `as-is` is the first line;
what no line can say then still has a text: `raw` and sixteen words for a record, and `bounds`, `pairs`, `targets` and `via-words`
with their words. `show` puts `as-is` there where it is needed, so that its text always reads back.

Ends with 0; with 1 where the input is wrong, which standard error says as FILE:LINE: what; with 2 where the command is."""
import os
import struct
import sys

sys.dont_write_bytecode = True
sys.path.insert(0, os.path.dirname(os.path.abspath(__file__)))
from listings.read import parse, picture_of
from listings.shape import Wrong, pack, unpack
from listings.show import show


def stored(data):
    """A list of stored pictures: registers and operands lent, the answer, the picture's bytes, those of the result."""
    at = 0
    while True:
        length, = struct.unpack_from('<I', data, at)
        if not length:
            return
        registers, operands, answer, result = struct.unpack_from('<4I', data, at + 4)
        at += 20
        yield registers, operands, answer, data[at:at + length], data[at + length:at + length + result]
        at += length + result


def check(data):
    """Every picture of the list that can be read: bytes to text to the same bytes."""
    done = left = 0
    for n, (_, _, _, before, after) in enumerate(stored(data)):
        for picture in filter(None, (before, after)):
            try:
                p = unpack(picture)
            except Wrong:
                left += 1
                continue
            if pack(parse(show(p).split('\n'))) != picture:
                raise Wrong(f'picture {n}, or its result, comes back otherwise')
            done += 1
    return done, left


def main(args):
    if '--help' in args or '-h' in args:
        print(__doc__)
        return
    if len(args) < 2 or args[1] not in ('pack', 'show', 'check') or len(args) > 3 or args[1] == 'check' and len(args) < 3:
        print(__doc__, file=sys.stderr)
        sys.exit(2)
    path = args[2] if len(args) > 2 and args[2] != '-' else None
    try:
        data = open(path, 'rb').read() if path else sys.stdin.buffer.read()
        if args[1] == 'pack':
            sys.stdout.buffer.write(pack(picture_of(data, path or 'standard input')))
        elif args[1] == 'show':
            sys.stdout.write(show(unpack(data)))
        else:
            done, left = check(data)
            print(f'listing: {done} pictures to text and back, {left} that cannot be read left out')
    except Wrong as e:
        sys.exit(str(e))
    except OSError as e:
        sys.exit(f'{path}: {e.strerror}')


if __name__ == '__main__':
    main(sys.argv)
