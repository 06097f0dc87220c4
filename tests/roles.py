#!/usr/bin/env python3
"""rolesource on the list of kinds and on lists that are broken in one place each, whole ones, which are too long to be computed in the
proofs: what it prints is the table that stands in crate inst, or one line `unread N`. Needs target/bin/rolesource
(`tools/build.sh rolesource`). The last line is `roles: N checks passed`; ends with 1 where one fails."""
import os
import subprocess
import sys

os.chdir(os.path.join(os.path.dirname(os.path.abspath(__file__)), '..'))
with open('crates/rolesource/stdin', encoding='ascii') as file:
    LINES = file.read().split('\n')[:-1]
with open('crates/inst/src/roles.rt', encoding='ascii') as file:
    TABLE = file.read()
passed = 0


def place(number):
    """The line of a kind, counted from 0."""
    return next(n for n, line in enumerate(LINES) if not line.startswith('#') and line.split()[0] == str(number))


def text(lines):
    return ''.join(line + '\n' for line in lines)


def wants(wanted, what, given):
    """It prints this for that list."""
    global passed
    said = subprocess.run(['target/bin/rolesource'], input=given.encode(), capture_output=True, check=True).stdout.decode()
    if said != wanted:
        sys.exit(f'roles: FAILED: {what}: it printed {said[:60]!r}, wanted {wanted[:60]!r}')
    passed += 1


def unread(n, what, given):
    wanted = f'unread {n}\n'
    wants(wanted, what, given)


def other(number, old, new):
    """The list with another text in the line of a kind, and the number of that line, counted from 1."""
    n = place(number)
    if LINES[n].count(old) != 1:
        sys.exit(f'roles: {old!r} does not stand once in the line of kind {number}')
    return n + 1, text(LINES[:n] + [LINES[n].replace(old, new)] + LINES[n + 1:])


def broken(number, old, new, what):
    unread(other(number, old, new)[0], what, other(number, old, new)[1])


last, middle = place(100), place(40)
wants(TABLE, 'the list', text(LINES))
wants(TABLE, 'the list without its notes', text(line for line in LINES if not line.startswith('#')))
wants(TABLE, 'more notes', text(['', '   ', '  # Stmt', '# Stmt'] + LINES + ['#', '']))

# kinds
unread(len(LINES), 'the last kind is missing', text(LINES[:-1]))
unread(middle + 1, 'a kind is missing', text(LINES[:middle] + LINES[middle + 1:]))
unread(middle + 2, 'a kind twice', text(LINES[:middle + 1] + LINES[middle:]))
unread(last + 2, 'a kind too many', text(LINES[:last + 1] + ['101 More - - - other - 0..0'] + LINES[last + 1:]))
broken(99, 'CoverCond', 'Const', 'a name for the second time')
broken(99, 'CoverCond', 'Cover-Cond', 'a name with another sign than letters and digits')
broken(0, '  0 Const', ' 00 Const', 'a number written another way')

# words
broken(54, 'cases', 'case', 'unknown successors')
broken(54, 'other', 'others', 'an unknown arm')
broken(54, 'quiet', 'Quiet', 'another word than quiet')
broken(39, 'list', 'lists', 'another word than list')
broken(15, 'wrrrr', 'wrrrrr', 'a slot too many')
broken(15, 'wrrrr', 'wrrru', 'a slot of an unknown letter')
broken(3, '0..5', '0..7', 'a form above 6')
broken(9, '1..4', '4..1', 'the least form above the greatest')
broken(3, '0..5', '0-5', 'forms with another sign')
broken(54, '0..0', '', 'a word too few')
broken(28, '1=wr-', '2=wr-', 'a change of a form that is not allowed')
broken(28, '1=wr-', '1=wr- 1=wrr', 'a form changed twice')
broken(40, '0=rr- 1=r--', '1=r-- 0=rr-', 'changes not in order')
broken(28, '1=wr-', '1=wr------', 'a change of too many slots')
broken(28, '1=wr-', '1=', 'a change of no slot')

# lengths
n, fits = other(54, '0..0', '0..0' + ' ' * (100 - len(LINES[place(54)])))
wants(TABLE.replace(LINES[place(54)] + '\n', fits.split('\n')[n - 1] + '\n'), 'a line of 100 bytes', fits)
broken(54, '0..0', '0..0' + ' ' * (101 - len(LINES[place(54)])), 'a line of 101 bytes')
unread(len(LINES), 'the last line is cut', text(LINES)[:-1])
unread(len(LINES) + 1, 'a byte behind the last line', text(LINES) + '#')
room = 32768 - len(text(LINES)) - 1
wants(TABLE, 'a list of 32,768 bytes', '#' * room + '\n' + text(LINES))
unread(len(LINES) + 2, 'a list of 32,769 bytes', '#' * (room + 1) + '\n' + text(LINES))
unread(1, 'nothing', '')

# the first of several
n, twice = other(20, 'wrr', 'wrx')
unread(n, 'the first of two', twice.replace('deref ', 'derefs'))
print(f'roles: {passed} checks passed')
