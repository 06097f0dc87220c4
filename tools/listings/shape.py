"""What a picture is made of: its parts, its records, the program's sizes; and its bytes, both ways."""
import difflib
import struct

from kinds import KINDS

ABSENT = 0xFFFFFFFF
TYPES = {0: 'I64', 1: 'Ptr', 4: 'Sig'}
BY_NAME = {k.name: k for k in KINDS}
# The payload words that the pass reads: the sign they stand behind in a line, and how many there are.
NAMED = {'Const': '=', 'ConstF': '=', 'Br': '->', 'CondBr': '->', 'Case': 'table', 'Cat': 'scalars'}
READ = {'Const': 2, 'ConstF': 2, 'Br': 1, 'CondBr': 2, 'Case': 1, 'Cat': 1}
PARTS = ['bounds', 'recs', 'locs', 'vias', 'types', 'ops', 'pairs', 'targets', 'replay']
# The program's sizes: blocks, instructions, registers, operands, pair words, target words, replay and via words.
SIZES = {'block': 64, 'instruction': 512, 'register': 512, 'operand': 2048, 'pair word': 256, 'target': 1024, 'replay word': 64, 'via word': 512}
ROLES = {'Def': 'must', 'Use': 'must', 'Def?': 'may', 'Use?': 'may', 'Def-if-1': 'must'}


class Wrong(Exception):
    """What is said of an input that cannot be taken."""


def roles(kind, form):
    """What each of a record's five registers is: must be there, may, or is off."""
    out = []
    for s in kind.slots:
        out.append(ROLES.get(s) or ('off' if s == 'Use-but-1' and form == 1 or s == 'Use-from-2' and form < 2 else 'must'))
    return out + ['off'] * (5 - len(out))


def no_form(kind, form):
    """What is said of a form that a kind has not."""
    there = ', '.join(f'{n} {kind.forms[n]}' if n in kind.forms else str(n) for n in range(kind.least, kind.most + 1))
    return f'{kind.name} has no form {form}' + (f'; forms: {there}' if kind.most else ', only 0')


def near(word, names):
    """A hint at names like this one."""
    low = {n.lower(): n for n in names}
    found = [low[n] for n in difflib.get_close_matches(word.lower(), low, 3, 0.6)]
    return f'; near: {", ".join(found)}' if found else ''


def records(p):
    return [p['recs'][16 * k:16 * k + 16] for k in range(len(p['locs']))]


def blocks(p):
    """Start and end of each block."""
    return list(zip(p['bounds'][::2], p['bounds'][1::2]))


def unpack(data):
    if len(data) < 32 or len(data) % 4:
        raise Wrong(f'{len(data)} bytes are no picture; a listing is read by `pack`')
    words = struct.unpack(f'<{len(data) // 4}I', data)
    many = words[:8]
    p, at = {}, 8
    for part, n in zip(PARTS, [2 * many[0], 16 * many[1], many[1], many[7], many[2], many[3], many[4], many[5], many[6]]):
        p[part] = list(words[at:at + n])
        at += n
    if at != len(words):
        raise Wrong(f'{len(words)} words are no picture: its counts make {at}')
    return p


def pack(p):
    words = counts(p) + [w for part in PARTS for w in p[part]]
    return struct.pack(f'<{len(words)}I', *words)


def counts(p):
    """The eight counts, in the order of SIZES."""
    return [len(p['bounds']) // 2, len(p['locs'])] + [len(p[part]) for part in ('types', 'ops', 'pairs', 'targets', 'replay', 'vias')]
