"""Which test stops each block of an accepted picture, in the order of the pass. What the six rules say of each instruction is not
found here: a block that passes every test is `tried`, and of that the place for more is `Verdict.text`."""
from typing import NamedTuple

from listings.shape import KINDS, blocks, records


class Verdict(NamedTuple):
    test: str      # small, chain, few, long, cat, target or tried
    text: str
    targets: list  # of tried


def name(r):
    return KINDS[r[0]].name


def is_cat(r):
    return name(r) == 'Cat' and r[1] == 0


class Graph:
    """The blocks of a picture, their code, successors and predecessors."""
    def __init__(self, p):
        all_ = records(p)
        self.code = [all_[s:e] for s, e in blocks(p)]
        self.replay, self.p = set(p['replay']), p
        self.succs = [self.leads(b) for b in range(len(self.code))]
        self.preds = [[c for c, to in enumerate(self.succs) if b in to] for b in range(len(self.code))]

    def end(self, b):
        return name(self.code[b][-1]) if self.code[b] else ''

    def leads(self, b):
        end, last = self.end(b), self.code[b][-1] if self.code[b] else []
        if end == 'Case':
            start, n = self.p['pairs'][2 * last[9]:2 * last[9] + 2] or (0, 0)
            return self.p['targets'][start:start + n]
        return last[9:10] if end == 'Br' else last[9:11] if end == 'CondBr' else []

    def chain(self, x):
        """The chain from x, and none; or none, and why not."""
        chain = [x]
        while self.end(chain[-1]) == 'Br':
            last, to = chain[-1], self.succs[chain[-1]][0]
            if len(chain) == 6:
                return None, f'six blocks, and block {last} goes on to block {to}'
            if to == 0:
                return None, f'block {last} goes on to block 0, where the function begins'
            if len(self.preds[to]) != 1:
                return None, f'block {last} goes on to block {to}, which has {len(self.preds[to])} predecessors'
            if to in chain:
                return None, f'block {last} goes back to block {to}'
            chain.append(to)
        if self.end(chain[-1]) != 'CondBr':
            end = self.end(chain[-1])
            return None, f'block {chain[-1]} ' + (f'ends in {end}' if end else 'is empty')
        return chain, None

    def no_target(self, chain, to):
        """Why a branch is no target."""
        if to in chain:
            return f'block {to} is in the chain'
        if to == 0:
            return 'block 0 is where the function begins'
        if self.preds[to] != [chain[-1]]:
            return f'block {to} has {len(self.preds[to])} predecessors'
        return None

    def verdict(self, x):
        code = self.code[x]
        if len(code) <= 3:
            return Verdict('small', f'{len(code)} instruction{"s" * (len(code) != 1)}, more than 3 are needed', [])
        chain, why = self.chain(x)
        if not chain:
            return Verdict('chain', f'no chain: {why}', [])
        to = list(dict.fromkeys(self.succs[chain[-1]]))
        replay = bool(self.replay & set(to))
        need = 3 if replay else 8
        if len(code) - 1 < need:
            return Verdict('few', f'{len(code) - 1} instructions before its end, {need} are needed', [])
        long = sum(len(self.code[b]) for b in chain) - len(chain) + 1
        if long > 800:
            return Verdict('long', f'a chain of {long} instructions, 800 are taken', [])
        if not replay and not any(map(is_cat, code[:-1])):
            return Verdict('cat', 'no Cat of form 0', [])
        left = [b for b in to if not self.no_target(chain, b)]
        if not left:
            return Verdict('target', 'no target: ' + ', '.join(self.no_target(chain, b) for b in to), [])
        return Verdict('tried', f'tried into block {" and ".join(map(str, left))}: fewer than {need} can move', left)


def gate(p):
    """Why nothing is tried at all, if so. The third gate, registers times blocks, lies past the program's sizes."""
    if not p['bounds']:
        return 'there are no blocks'
    if not any(map(is_cat, records(p))):
        return 'there is no Cat of form 0 in the function'
    return None


def verdicts(p):
    graph = Graph(p)
    return [graph.verdict(x) for x in range(len(graph.code))]


def why(p, number):
    """What stops the pass after an answer: a line for the whole function, and one for each block."""
    if number >= 100:
        return 'the next move needs more registers or operands than are lent', []
    if gate(p):
        return f'nothing is tried: {gate(p)}', []
    if number == 8:
        return 'eight rounds are done, and no more is tried', []
    return None, verdicts(p)
