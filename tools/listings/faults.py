"""Why the pass refuses a picture, or does not read it: each fault with its place. `CAUSES` has the numbers in words,
those of tools/causes.txt."""
import os
from typing import NamedTuple

from listings.shape import ABSENT, KINDS, SIZES, blocks, counts, no_form, records, roles

HERE = os.path.dirname(os.path.abspath(__file__))
CAUSES = {int(n): text for n, text in (row.split(None, 1) for row in open(os.path.join(HERE, '../causes.txt'), encoding='utf-8').read().splitlines())}
UNREAD = 0


class Fault(NamedTuple):
    cause: int   # a number of CAUSES, or UNREAD
    part: str    # where: a name of SIZES, or 'bounds', 'type'
    number: int  # which of them
    text: str

    def __str__(self):
        return self.text + (' (unread: past the program\'s sizes)' if self.cause == UNREAD else f' (cause {self.cause})')


def in_sizes(p):
    for (part, most), n in zip(SIZES.items(), counts(p)):
        if n > most:
            yield Fault(UNREAD, part, most, f'{n} {part}s, the program takes {most}')


def in_parts(p):
    """Causes 2 and 3."""
    n, many = len(p['locs']), len(p['vias'])
    if many not in (0, n):
        yield Fault(2, 'via word', 0, f'{many} via words for {n} instructions: one each, or none')
    if len(p['pairs']) % 2:
        yield Fault(2, 'pair word', len(p['pairs']) - 1, f'{len(p["pairs"])} pair words, an odd number: a start and a length each')
    at = 0
    for b, (start, end) in enumerate(blocks(p)):
        if start != at or end < start:
            yield Fault(3, 'bounds', b, f'block {b} lies from {start} to {end}, not from {at} on')
            return
        at = end
    if at != n:
        yield Fault(3, 'bounds', len(blocks(p)) - 1, f'the blocks end at {at}, there are {n} instructions')


def no_block(b, many):
    return f'there is no block {b}; ' + (f'the last one is {many - 1}' if many else 'there is none at all')


def in_tables(p):
    """Causes 6, 7 and 9, but for those of records."""
    many, regs = len(blocks(p)), len(p['types'])
    for k, reg in enumerate(p['ops']):
        if reg >= regs:
            yield Fault(6, 'operand', k, f'r{reg} in a list is not below the {regs} registers in use')
    for k, b in enumerate(p['targets']):
        if b >= many:
            yield Fault(7, 'target', k, no_block(b, many))
    for k, (start, n) in enumerate(zip(p['pairs'][::2], p['pairs'][1::2])):
        if not n or start + n > len(p['targets']):
            what = 'is empty' if not n else f'goes to target {start + n} of {len(p["targets"])}'
            yield Fault(7, 'pair word', 2 * k, f'table {k} {what}')
    for k, t in enumerate(p['types']):
        if t > 7:
            yield Fault(9, 'type', k, f'type {t} of r{k}; types are 0 to 7')


def in_kind(k, r):
    """Cause 4."""
    if r[0] > 100:
        yield Fault(4, 'instruction', k, f'there is no kind {r[0]}; kinds are 0 to 100')
        return
    kind = KINDS[r[0]]
    if not kind.least <= r[1] <= kind.most:
        yield Fault(4, 'instruction', k, no_form(kind, r[1]))
    if kind.name == 'Cat' and r[9] > 65535:
        yield Fault(4, 'instruction', k, f'scalars {r[9]} is above 65535')


def in_slots(k, r, regs):
    """Cause 5."""
    kind = KINDS[r[0]]
    for at, (role, reg) in enumerate(zip(roles(kind, r[1]), r[2:7]), 1):
        if role == 'off' and reg != ABSENT:
            yield Fault(5, 'instruction', k, f'{kind.name} has no register {at} at this form')
        elif role == 'must' and reg == ABSENT:
            yield Fault(5, 'instruction', k, f'register {at} of {kind.name} may not be absent')
        elif role != 'off' and reg != ABSENT and reg >= regs:
            yield Fault(5, 'instruction', k, f'r{reg} is not below the {regs} registers in use')
    if kind.name == 'SigGather' and (r[4] == ABSENT) != (r[5] == ABSENT):
        yield Fault(5, 'instruction', k, 'SigGather has both of its part registers or neither')


def in_list(k, r, opers):
    """Causes 6 and 8."""
    kind, start, n = KINDS[r[0]], r[7], r[8]
    if kind.listed and start + n > opers:
        yield Fault(6, 'instruction', k, f'a list of {n} at {start}, there are {opers} operands')
    if not kind.listed and (start or n):
        yield Fault(6, 'instruction', k, f'{kind.name} has no list')
    if kind.name == 'Cat' and n > 33:
        yield Fault(8, 'instruction', k, f'a Cat list may have 33 registers, here are {n}')


def in_branch(k, r, many):
    """Cause 7."""
    for b in {'Br': r[9:10], 'CondBr': r[9:11]}.get(KINDS[r[0]].name, []):
        if b >= many:
            yield Fault(7, 'instruction', k, no_block(b, many))


def in_records(p):
    for k, r in enumerate(records(p)):
        found = list(in_kind(k, r))
        yield from found
        if not found:
            yield from in_slots(k, r, len(p['types']))
            yield from in_list(k, r, len(p['ops']))
            yield from in_branch(k, r, len(blocks(p)))


def faults(p):
    """All faults of a picture, lent as much as the program has."""
    for found in in_sizes, in_parts, in_records, in_tables:
        yield from found(p)


def named(p, fault):
    """The place of a fault in a picture that has no lines."""
    if fault.part == 'instruction':
        b = next((b for b, (s, e) in enumerate(blocks(p)) if s <= fault.number < e), None)
        return f'instruction {fault.number}' + ('' if b is None else f' (block {b})')
    return f'{fault.part} {fault.number}'
