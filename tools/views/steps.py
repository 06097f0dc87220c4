"""The rounds of a call, one by one, each instruction with its old place.

Old places are exact: each instruction's number is put in its loc word for the call, travels with it, and is put back after; the
pass reads no loc word. The picture after a round comes from lending exactly the registers and operands that are in use after it,
which are found by lending less and less. Rounds that take neither cannot be told apart in this way, and are one step."""
from typing import NamedTuple

from listings.shape import ABSENT, Wrong, blocks, counts, pack, records, unpack
from views.calls import OPERANDS, REFUSED, REGISTERS


class Step(NamedTuple):
    """Rounds `first` to `last`, mostly one. Instruction i of the picture after was instruction `old[i]` of the one before; `moved`
    has the numbers before of those that moved, back to their block too."""
    first: int
    last: int
    before: dict
    after: dict
    old: list
    moved: set

    def name(self):
        return f'round {self.first}' if self.first == self.last else f'rounds {self.first} to {self.last}'

    def moves(self):
        """(from, into): how many, in the order of the target's code."""
        found, was = {}, block_of(self.before)
        for i, b in enumerate(block_of(self.after)):
            if self.old[i] in self.moved:
                found[was[self.old[i]], b] = found.get((was[self.old[i]], b), 0) + 1
        return found


def step_of(first, last, before, after, old):
    """A step of one round, or of some that cannot be told apart."""
    was, now = block_of(before), block_of(after)
    return Step(first, last, before, after, old, {k for i, k in enumerate(old) if was[k] != now[i]})


def block_of(p):
    """The block of each instruction."""
    return [b for b, (s, e) in enumerate(blocks(p)) for _ in range(s, e)]


def sink(entry, p, registers, operands):
    """The answer's number, and the picture after with each instruction's number before; none where it is refused."""
    number, data = entry.call(pack(dict(p, locs=list(range(len(p['locs']))))), registers, operands)
    if number >= REFUSED:
        return number, None, None
    after = unpack(data)
    old = after['locs']
    after['locs'] = [p['locs'][k] for k in old]
    return number, after, old


def least(low, high, enough):
    """The least number from low to high that is enough; high is."""
    while low < high:
        middle = (low + high) // 2
        low, high = (low, middle) if enough(middle) else (middle + 1, high)
    return low


def in_use(entry, p, k, registers, operands):
    """Registers and operands in use after round k, which that room allows."""
    data, (_, _, now, opers, *_) = pack(p), counts(p)
    return (least(now, registers, lambda r: entry.call(data, r, operands)[0] % 100 >= k),
            least(opers, operands, lambda o: entry.call(data, registers, o)[0] % 100 >= k))


def steps(entry, p, registers=REGISTERS, operands=OPERANDS):
    """The answer's number, and a step for each round."""
    number, _, _ = sink(entry, p, registers, operands)
    found, before, was, k = [], p, list(range(len(p['locs']))), 0
    while number < REFUSED and k < number % 100:
        there, after, old = sink(entry, p, *in_use(entry, p, k + 1, registers, operands))
        if not k < there % 100 <= number % 100:
            raise Wrong(f'with the room of round {k + 1} the pass answers {there}, with all {number}')
        at = {tag: i for i, tag in enumerate(was)}
        found.append(step_of(k + 1, there % 100, before, after, [at[tag] for tag in old]))
        before, was, k = after, old, there % 100
    return number, found


def whole(p, found):
    """All steps as one."""
    old, moved = list(range(len(p['locs']))), set()
    for step in found:
        moved |= {old[k] for k in step.moved}
        old = [old[k] for k in step.old]
    return Step(1, found[-1].last if found else 0, p, found[-1].after if found else p, old, moved)


def all_moves(found):
    """(from, into): how many in all steps, and in which."""
    out = {}
    for step in found:
        for edge, n in step.moves().items():
            many, names = out.get(edge, (0, []))
            out[edge] = many + n, names + [step.name()]
    return out


def registers_of(r, p):
    """The registers of a record as its text has them: slots, then the list."""
    return [reg for reg in r[2:7] if reg != ABSENT] + p['ops'][r[7]:r[7] + r[8]]


class Row(NamedTuple):
    """An instruction in a listing: its number before, the record, the block it goes to or comes from (none if it stays), its
    loc, its place in the other picture, and (old, new) for each of its registers."""
    number: int
    record: list
    other: object
    loc: int
    place: int
    registers: list

    def renamed(self):
        return list(dict.fromkeys((x, y) for x, y in self.registers if x != y))


def rows(step):
    """The rows of each block, before and after."""
    was, now = block_of(step.before), block_of(step.after)
    old, new = records(step.before), records(step.after)
    before, after = [[] for _ in blocks(step.before)], [[] for _ in blocks(step.after)]
    for i, k in enumerate(step.old):
        pairs = list(zip(registers_of(old[k], step.before), registers_of(new[i], step.after)))
        moved = k in step.moved
        after[now[i]].append(Row(k, new[i], was[k] if moved else None, step.after['locs'][i], i, pairs))
        before[was[k]].append(Row(k, old[k], now[i] if moved else None, step.before['locs'][k], i, pairs))
    return [sorted(block) for block in before], after
