#!/usr/bin/env python3
"""examples.py PROGRAM: what docs/REFERENCE.md shows, held to what the pass does, by example.c. Run by check.sh.

A block of the page whose first line is `# done 1`, `# short 0`, `# refused 4` or the like is a listing with the answer that it must
get; behind the number may stand `8 registers lent`. A block that begins with `# after` is what then becomes of the listing before
it. Each refusal that the entry can give has one. The stored pictures (crates/vectors) show what else is said of a further call.
Prints how many checks passed; ends with 1 where one did not."""
import os
import re
import struct
import subprocess
import sys

ROOT = os.path.join(os.path.dirname(os.path.abspath(__file__)), '../..')


def listing(word, data):
    """A listing as bytes (`pack`), or bytes as a listing (`show`); nothing, and what is wrong is said, where it is none."""
    return subprocess.run([os.path.join(ROOT, 'tools/listing.py'), word, '-'], input=data, stdout=subprocess.PIPE).stdout


def call(program, picture, registers=512):
    """The answer in words, and the picture that is left."""
    run = subprocess.run([program, str(registers), '2048'], input=picture, capture_output=True)
    return run.stderr.decode().strip(), run.stdout


def page(program):
    """Checks each example of the reference, and yields what is wrong, or None."""
    text = open(os.path.join(ROOT, 'docs/REFERENCE.md'), encoding='utf-8').read()
    refused, left = set(), None
    for block in re.findall(r'^```\n(.*?)^```$', text, re.M | re.S):
        head = re.match(r'# (?:(done|short|refused) (\d+)(?:, (\d+) registers lent)?|(after))\n', block)
        if not head:
            continue
        picture = listing('pack', block.encode())
        if head[4]:
            yield None if picture == left else f'something else comes after:\n{listing("show", left).decode()}'
            continue
        answer, left = call(program, picture, int(head[3] or 512))
        refused |= {int(head[2])} if head[1] == 'refused' else set()
        yield None if answer == f'{head[1]} {head[2]}' else f'the answer is {answer} to\n{block}'
    missing = set(range(1, 10)) - refused
    yield f'no example of refusal {missing}' if missing else None


def stored():
    """The stored pictures, by the words of crates/vectors/README.md."""
    data = open(os.path.join(ROOT, 'crates/vectors/stdin'), 'rb').read()
    names = re.findall(r'^\d+\. (.*): \d+$', open(os.path.join(ROOT, 'crates/vectors/README.md'), encoding='utf-8').read(), re.M)
    at, found = 0, {}
    for name in names:
        length, _, _, _, result = struct.unpack_from('<5I', data, at)
        found[name] = data[at + 20:at + 20 + length], data[at + 20 + length:at + 20 + length + result]
        at += 20 + length + result
    return found


def again(program):
    """A call with the result of a call: after eight rounds, and after fewer. The listing is sunk as by the Rust."""
    pictures = stored()
    for name, first, second in ('the listing', 1, 0), ('9 rounds to be had', 8, 1), ('a register with one writer after round 1', 1, 1):
        before, result = pictures[name]
        answer, left = call(program, before)
        yield None if (answer, left) == (f'done {first}', result) else f'stored picture "{name}": {answer}'
        answer, _ = call(program, left)
        yield None if answer == f'done {second}' else f'stored picture "{name}", again: {answer}'


def main(args):
    if len(args) != 2:
        sys.exit(__doc__)
    wrong = [w for part in (page, again) for w in part(args[1])]
    for w in filter(None, wrong):
        print(f'examples.py: {w}', file=sys.stderr)
    print(wrong.count(None))
    sys.exit(1 if any(wrong) else 0)


if __name__ == '__main__':
    main(sys.argv)
