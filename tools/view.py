#!/usr/bin/env python3
"""What the pass did with a function: before and after, each instruction with its old place.

    tools/view.py [OPTIONS] FILE    FILE is a listing, or a picture's bytes

    --rounds           the text round by round, not all rounds at once
    --html             one page of HTML, without scripts or other files
    --dot              the graph of blocks, for graphviz
    --color            colours in the text, also where standard output is no terminal; --no-color for none
    --registers N      registers lent, up to 512; --operands N likewise, up to 2048

In the text, a number is an instruction's place before. `-` marks one that leaves its block, `+` one that came, `~` one that
stays and whose registers are renamed; `r2->r9` says that r9 stands there now for r2. What stops each block stands below.

The pass is target/lib/libvirdzeba.a, which `make lib` writes, or libvirdzeba.a or libhost_c.a in the folder that VIRDZEBA_LIB_DIR
names; a C compiler links it into target/view.

Ends with 0; with 1 where the picture is refused, or the input is wrong; with 2 where the command is."""
import os
import sys

sys.dont_write_bytecode = True
sys.path.insert(0, os.path.dirname(os.path.abspath(__file__)))
from listings.read import picture_of
from listings.shape import Wrong, unpack
from views import calls, dot, page, text
from views.steps import steps

FLAGS = ('--rounds', '--html', '--dot', '--color', '--no-color')


def arguments(args):
    """The flags, the room lent, and the file; none where the command is wrong."""
    flags, room, files, args = set(), {'--registers': calls.REGISTERS, '--operands': calls.OPERANDS}, [], list(args)
    while args:
        word = args.pop(0)
        if word in FLAGS:
            flags.add(word)
        elif word in room and args and args[0].isdigit() and int(args[0]) <= room[word]:
            room[word] = int(args.pop(0))
        elif word.startswith('--'):
            return None
        else:
            files.append(word)
    return (flags, room, files[0]) if len(files) == 1 and len(flags & {'--html', '--dot', '--rounds'}) < 2 else None


def shown(flags, room, path):
    """The view, and the answer's number."""
    data = open(path, 'rb').read()
    name = os.path.basename(path)
    p = unpack(data) if b'\0' in data else picture_of(data, path)
    number, found = steps(calls.Pass(), p, *room.values())
    if '--html' in flags:
        return page.view(p, number, found, name), number
    if '--dot' in flags:
        return dot.view(p, number, found), number
    colour = '--color' in flags or sys.stdout.isatty() and '--no-color' not in flags and 'NO_COLOR' not in os.environ
    return text.view(p, number, found, name, colour, '--rounds' in flags), number


def main(args):
    if '--help' in args or '-h' in args:
        print(__doc__)
        return
    asked = arguments(args[1:])
    if not asked:
        print(__doc__, file=sys.stderr)
        sys.exit(2)
    try:
        lines, number = shown(*asked)
    except Wrong as e:
        sys.exit(str(e))
    except OSError as e:
        sys.exit(f'{asked[2]}: {e.strerror}')
    try:
        print('\n'.join(lines), flush=True)
    except BrokenPipeError:
        os.dup2(os.open(os.devnull, os.O_WRONLY), sys.stdout.fileno())
    sys.exit(1 if number >= calls.REFUSED else 0)


if __name__ == '__main__':
    main(sys.argv)
