"""The view as text for a terminal."""
from listings.faults import faults, named
from listings.shape import blocks, counts
from listings.show import line, type_name
from views.calls import REFUSED, plural, said
from views.steps import rows, whole
from views.why import why

CODES = {'came': '\033[32m', 'left': '\033[31m', 'renamed': '\033[33m', 'place': '\033[36m', 'dim': '\033[2m', 'bold': '\033[1m'}


def changed(step, what):
    """Registers or operands in use, before and after."""
    at = {'registers': 2, 'operands': 3}[what]
    x, y = counts(step.before)[at], counts(step.after)[at]
    return f'{x} {what}' if x == y else f'{what} {x} -> {y}'


def heading(step):
    """What a step did."""
    moved = ', '.join(f'{n} from block {x} into block {t}' for (x, t), n in step.moves().items())
    return f'{step.name()}: {moved}'


def new_registers(step):
    types = step.after['types']
    return ' '.join(f'r{k}={type_name(types[k])}' for k in range(len(step.before['types']), len(types)))


def summary(found, step):
    """What all rounds did."""
    moved, moves = len(step.moved), sum(len(s.moved) for s in found)
    said = f'{moved} of {plural(len(step.old), "instruction")} moved' + (f', {moves} moves in all' if moves != moved else '')
    return f'{said}; {changed(step, "registers")}, {changed(step, "operands")}'


def place(way, row, b):
    """Where a moved instruction of block b is from, or goes."""
    return f'{way} block {row.other}' if row.other != b else 'out and back'


class Text:
    def __init__(self, colour):
        self.colour, self.out = colour, []

    def paint(self, what, text):
        return f'{CODES[what]}{text}\033[0m' if self.colour and text else text

    def say(self, text=''):
        self.out.append(text.rstrip())

    def row(self, mark, row, p, note):
        what = {'+': 'came', '-': 'left', '~': 'renamed'}.get(mark)
        text = line(row.record, p['ops'])
        body = f'{mark} {text:<46}' if note else f'{mark} {text}'
        body = self.paint(what, body) if what else body
        self.say(f'{self.paint("dim", f"{row.number:5}")} {body}' + (f'  {note}' if note else ''))

    def renames(self, row):
        return self.paint('dim', ' '.join(f'r{x}->r{y}' for x, y in row.renamed()))

    def block(self, step, b, before, after):
        """What came, then the old code with what left it."""
        self.say(self.paint('bold', f'block {b}'))
        for row in after:
            if row.other is not None:
                self.row('+', row, step.after, f'{self.paint("place", place("from", row, b))}  {self.renames(row)}'.rstrip())
        own = {row.number: row for row in after if row.other is None}
        for row in before:
            if row.other is not None:
                self.row('-', row, step.before, self.paint('place', place('to', row, b)))
            else:
                now = own[row.number]
                self.row('~' if now.renamed() else ' ', now, step.after, self.renames(now))

    def step(self, step):
        before, after = rows(step)
        for b in range(len(before)):
            self.block(step, b, before[b], after[b])

    def rounds(self, found, each):
        for step in found:
            self.say(self.paint('bold', heading(step)))
            if new_registers(step):
                self.say(f'  new registers {new_registers(step)}')
            if each:
                self.step(step)
                self.say()

    def stops(self, p, number, found):
        all_, each = why(p, number)
        self.say(self.paint('bold', 'why no more' if found else 'why nothing moved'))
        if all_:
            self.say(f'  {all_}')
        for b, verdict in enumerate(each):
            self.say(f'  block {b}: {verdict.text}')


def refused(p, number, name, colour):
    text = Text(colour)
    text.say(f'{name}: {said(number)}')
    for fault in faults(p):
        text.say(f'  {named(p, fault)}: {fault}')
    return text.out


def view(p, number, found, name, colour=False, each=False):
    """The lines of the view; with `each`, round by round."""
    if number >= REFUSED:
        return refused(p, number, name, colour)
    text, all_ = Text(colour), whole(p, found)
    text.say(f'{name}: {said(number)}')
    text.say(summary(found, all_))
    text.rounds(found, each)
    if not each or not found:
        text.say()
        text.step(all_)
        text.say()
    text.stops(all_.after, number, found)
    return text.out
