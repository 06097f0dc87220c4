"""Bytes to text: a picture as a listing, which reads back as the same bytes."""
import struct

from listings.faults import faults
from listings.shape import ABSENT, KINDS, NAMED, READ, TYPES, blocks, records, roles


def numbers(words):
    return ' '.join(map(str, words))


def regular(p):
    """Whether the blocks lie end to end over all instructions."""
    b = p['bounds']
    if not b:
        return not p['locs']
    return b[::2] == [0] + b[1:-1:2] and all(s <= e for s, e in blocks(p)) and b[-1] == len(p['locs'])


def lists_in_order(p):
    """Whether each list begins within, or right behind, what those before it gave, and all operands are given so."""
    next_ = 0
    for r in records(p):
        text, after = show_record(r, p['ops'], next_)
        if not text.startswith('raw ') and r[7] > next_:
            return False
        next_ = after
    return next_ == len(p['ops'])


def show_registers(kind, r):
    """The registers as text; nothing where a line cannot say them."""
    given = []
    for role, reg in zip(roles(kind, r[1]), r[2:7]):
        if role == 'off' and reg != ABSENT or role == 'must' and reg == ABSENT:
            return None
        if role != 'off':
            given.append('-' if reg == ABSENT else f'r{reg}')
    while given and given[-1] == '-':
        given.pop()
    return (' ' + ', '.join(given)) if given else ''


def show_payload(name, r):
    """The payload words that are read, by name, and the others that are not 0, by number."""
    read, text = READ.get(name, 0), ''
    if name == 'Const':
        text = f' = {struct.unpack("<q", struct.pack("<2I", *r[9:11]))[0]}'
    elif name == 'ConstF':
        text = f' = 0x{r[10]:08x}{r[9]:08x}'
    elif read and (name != 'Cat' or r[9]):
        text = f' {NAMED[name]} ' + ', '.join(map(str, r[9:9 + read]))
    rest = [f'{k}: {r[k]}' for k in range(9 + read, 16) if r[k]]
    return text + (' {' + ', '.join(rest) + '}' if rest else '')


def show_record(r, ops, next_):
    """The text of one record, and the place behind the lists so far."""
    raw = ('raw ' + numbers(r), next_)
    if r[0] > 100:
        return raw
    kind = KINDS[r[0]]
    given = show_registers(kind, r)
    start, length = r[7:9]
    if given is None or (start + length > len(ops) if kind.listed else (start, length) != (0, 0)):
        return raw
    text = kind.name + (f'.{kind.forms.get(r[1], r[1])}' if r[1] else '') + given
    if kind.listed:
        text += ' [' + ', '.join(f'r{o}' for o in ops[start:start + length]) + ']' + ('' if start == next_ else f'@{start}')
        next_ = max(next_, start + length)
    return text + show_payload(kind.name, r), next_


def line(r, ops):
    """The text of one record alone, without its list's place."""
    return show_record(r, ops, r[7])[0]


def type_name(t):
    return TYPES.get(t, str(t))


def show_tables(p):
    starts, lengths = p['pairs'][::2], p['pairs'][1::2]
    if starts == [sum(lengths[:k]) for k in range(len(lengths))] and sum(lengths) == len(p['targets']) and all(lengths):
        return [f'table {k} -> ' + ', '.join(map(str, p['targets'][s:s + n])) for k, (s, n) in enumerate(zip(starts, lengths))]
    return [f'{part} {numbers(p[part])}' for part in ('targets', 'pairs') if p[part]]


def show_head(p, ordered):
    """The lines before the blocks."""
    out = ['as-is'] if next(faults(p), None) else []
    out.append(f'registers {len(p["types"])}')
    other = [f'r{k}={type_name(t)}' for k, t in enumerate(p['types']) if t]
    if other:
        out.append('types ' + ' '.join(other))
    if not ordered:
        out.append('operands ' + ' '.join(f'r{o}' for o in p['ops']))
    out += show_tables(p)
    if p['replay']:
        out.append('replay ' + numbers(p['replay']))
    if p['vias']:
        out.append('vias' if len(p['vias']) == len(p['locs']) else 'via-words ' + numbers(p['vias']))
    return out


def show(p):
    ordered = lists_in_order(p)
    out, heads = show_head(p, ordered), {}
    if regular(p):
        for b, (start, _) in enumerate(blocks(p)):
            heads.setdefault(start, []).append(f'block {b}')
    else:
        out.append('bounds ' + numbers(p['bounds']))
    each = p['vias'] and len(p['vias']) == len(p['locs'])
    next_ = 0 if ordered else len(p['ops'])
    for k, r in enumerate(records(p)):
        out += heads.pop(k, [])
        text, next_ = show_record(r, p['ops'], next_)
        more = [f'loc {p["locs"][k]}'] if p['locs'][k] else []
        more += [f'via {p["vias"][k]}'] if each and p['vias'][k] else []
        out.append('  ' + '  '.join([text, ' '.join(more)]).rstrip())
    for k in sorted(heads):
        out += heads[k]
    return '\n'.join(line.rstrip() for line in out) + '\n'
