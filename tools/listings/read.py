"""Text to a picture. What a line says twice, or in vain, is refused with its line, and so is what the pass would refuse; but
where the first line is `as-is`, pictures that the pass refuses can be written too."""
import re

from listings.faults import faults
from listings.line import Line, number, register
from listings.shape import BY_NAME, PARTS, SIZES, TYPES, Wrong, near

NAMES = {name.lower(): n for n, name in TYPES.items()}


class Listing:
    """A picture as it is read; `lines` has for each part the line that gave each of its words."""
    def __init__(self):
        self.p = {part: [] for part in PARTS}
        self.lines = {part: [] for part in SIZES}
        self.types, self.once, self.n, self.as_is = {}, {}, 0, False
        self.vias, self.via_words = [], None
        self.heads = {
            'as-is': self.on_as_is, 'registers': self.on_registers, 'types': self.on_types, 'operands': self.on_operands,
            'table': self.on_table, 'targets': self.on_targets, 'pairs': self.on_pairs, 'replay': self.on_replay,
            'vias': self.on_vias, 'via-words': self.on_via_words, 'bounds': self.on_bounds, 'block': self.on_block,
        }

    def line(self, n, text):
        self.n = n
        word, *rest = text.split(None, 1)
        if word in self.heads:
            self.heads[word](*rest or [''])
        else:
            self.instruction(word, text)
        self.once.setdefault('line', n)

    # ---- helpers

    def only(self, word, but=()):
        """The word may come once, and not with those others."""
        if word in self.once:
            raise Wrong(f'`{word}` was said in line {self.once[word]} already')
        self.not_with(word, *but)
        self.once[word] = self.n

    def not_with(self, word, *but):
        for other in but:
            if other in self.once:
                raise Wrong(f'`{word}` cannot go with `{other}`, which line {self.once[other]} has')

    def none(self, word, rest):
        if rest:
            raise Wrong(f'{rest!r} is left over behind `{word}`')

    def numbers(self, word, rest):
        if not rest:
            raise Wrong(f'`{word}` says nothing')
        return [number(w) for w in rest.split()]

    def add(self, part, name, words):
        self.p[part] += words
        self.lines[name] += [self.n] * len(words)

    # ---- the lines of the head

    def on_as_is(self, rest):
        self.none('as-is', rest)
        if self.once:
            raise Wrong('`as-is` is the first line or none')
        self.as_is = True

    def on_registers(self, rest):
        self.only('registers')
        self.p['types'] = [0] * number(rest, 1 << 20)

    def on_types(self, rest):
        if not rest:
            raise Wrong('`types` says nothing')
        for word in re.sub(r'\s*=\s*', '=', rest).split():
            reg, sign, ty = word.partition('=')
            reg = register(reg)
            if not sign:
                raise Wrong(f'{word!r}: a type is given as r2=Ptr')
            if reg >= len(self.p['types']):
                raise Wrong(f'r{reg} is not below the registers in use; `registers` comes first')
            if reg in self.types:
                raise Wrong(f'r{reg} has a type since line {self.types[reg]}')
            if ty.lower() not in NAMES and not re.fullmatch('[0-9]+', ty):
                raise Wrong(f'{ty!r} is no type: I64, Ptr, Sig or a number up to 7{near(ty, TYPES.values())}')
            self.types[reg] = self.n
            self.p['types'][reg] = NAMES[ty.lower()] if ty.lower() in NAMES else number(ty)

    def on_operands(self, rest):
        if not rest:
            raise Wrong('`operands` says nothing')
        if self.lines['instruction']:
            raise Wrong('`operands` comes before the instructions')
        self.add('ops', 'operand', [register(w) for w in rest.split()])

    def on_table(self, rest):
        self.not_with('table', 'pairs', 'targets')
        self.once['table'] = self.n
        many = len(self.p['pairs']) // 2
        n, sign, to = rest.partition('->')
        if not sign or number(n.strip()) != many:
            raise Wrong(f'the next table is given as: table {many} -> 1, 2')
        to = [number(w.strip()) for w in to.split(',')]
        self.add('pairs', 'pair word', [len(self.p['targets']), len(to)])
        self.add('targets', 'target', to)

    def on_targets(self, rest):
        self.only('targets', ['table'])
        self.add('targets', 'target', self.numbers('targets', rest))

    def on_pairs(self, rest):
        self.only('pairs', ['table'])
        self.add('pairs', 'pair word', self.numbers('pairs', rest))

    def on_replay(self, rest):
        self.add('replay', 'replay word', self.numbers('replay', rest))

    def on_vias(self, rest):
        self.only('vias', ['via-words'])
        self.none('vias', rest)

    def on_via_words(self, rest):
        self.only('via-words', ['vias', 'via'])
        self.via_words = self.numbers('via-words', rest)

    # ---- blocks and instructions

    def on_bounds(self, rest):
        self.only('bounds', ['block'])
        words = [number(w) for w in rest.split()]
        if len(words) % 2:
            raise Wrong(f'{len(words)} words: a block has a start and an end')
        self.p['bounds'] = words

    def on_block(self, rest):
        self.not_with('block', 'bounds')
        self.once.setdefault('block', self.n)
        if number(rest) != len(self.lines['block']):
            raise Wrong(f'the next block is {len(self.lines["block"])}')
        self.lines['block'].append(self.n)
        self.p['bounds'] += [len(self.p['locs'])] * 2

    def instruction(self, word, text):
        if 'block' not in self.once and 'bounds' not in self.once:
            if word.partition('.')[0] in BY_NAME or word == 'raw':
                raise Wrong(f'{word} stands before the first `block`')
            raise Wrong(f'{word!r} is no word of a listing{near(word, self.heads)}')
        if word[:1].islower() and word != 'raw' and word.partition('.')[0] not in BY_NAME:
            raise Wrong(f'{word!r} is neither a kind nor a word of a listing{near(word, [*self.heads, *BY_NAME])}')
        made = Line(text, self.as_is, self.take_list)
        if 'via' in made.said:
            self.not_with('via', 'via-words')
            self.once.setdefault('via', self.n)
        self.p['recs'] += made.record
        self.add('locs', 'instruction', [made.said.get('loc', 0)])
        self.vias.append(made.said.get('via', 0))
        if 'bounds' not in self.once:
            self.p['bounds'][-1] = len(self.p['locs'])

    def take_list(self, regs, place):
        """Start and length of a list, put where it is to lie."""
        ops = self.p['ops']
        start = len(ops) if place is None else place
        if start > len(ops):
            raise Wrong(f'a list at {start} would leave a gap behind the {len(ops)} operands so far')
        here = ops[start:start + len(regs)]
        if here != regs[:len(here)]:
            raise Wrong(f'at {start} lie other operands: ' + ' '.join(f'r{o}' for o in here))
        self.add('ops', 'operand', regs[len(here):])
        return [start, len(regs)]

    # ---- the end

    def picture(self):
        if 'registers' not in self.once:
            raise Wrong('no line says `registers`')
        if self.via_words is not None:
            self.p['vias'] = self.via_words
        elif 'vias' in self.once or 'via' in self.once:
            self.p['vias'] = self.vias
        return self.p

    def line_of(self, fault):
        """The line that a fault is in."""
        if fault.part == 'type':
            return self.types[fault.number]
        word = {'register': 'registers', 'bounds': 'bounds', 'via word': 'via-words'}.get(fault.part)
        if fault.part == 'block' and 'bounds' in self.once:
            word = 'bounds'
        return self.once.get(word, self.n) if word else self.lines[fault.part][fault.number]


def parse(lines, name='listing'):
    """The picture of a listing's lines."""
    listing, n = Listing(), 0
    try:
        for n, line in enumerate(lines, 1):
            line = line.partition('#')[0].strip()
            if line:
                listing.line(n, line)
        p = listing.picture()
    except Wrong as e:
        raise Wrong(f'{name}:{n}: {e}')
    if not listing.as_is:
        found = sorted((listing.line_of(f), str(f)) for f in faults(p))
        if found:
            raise Wrong('\n'.join(f'{name}:{n}: {text}' for n, text in dict.fromkeys(found)))
    return p


def picture_of(data, name):
    """The picture that a file holds, as a listing or as bytes."""
    try:
        return parse(data.decode('utf-8-sig').split('\n'), name)
    except UnicodeDecodeError:
        raise Wrong(f'{name} is no text; a picture\'s bytes are read by `show`')
