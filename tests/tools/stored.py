"""All stored pictures (crates/vectors): what the tools say of them against what the pass does."""
import re
import subprocess
from html.parser import HTMLParser

from listing import stored
from listings.faults import UNREAD, faults
from listings.read import parse
from listings.shape import ABSENT, Wrong, blocks, counts, pack, records, unpack
from listings.show import show
from views import dot, page, text, why
from views.calls import REFUSED
from views.steps import block_of, rows, steps, whole

# What is said of a block of some stored pictures, by the name that crates/vectors/README.md gives them.
STOPS = {
    'a chain of 7 blocks': (0, 'no chain: six blocks, and block 7 goes on to block 8'),
    'block 0 comes back to itself': (0, 'no chain: block 0 goes on to block 0, where the function begins'),
    'x ends in a Case': (0, 'no chain: block 0 ends in Case'),
    'the target has two predecessors': (0, 'tried into block 2: '),
    'both branches to 1': (0, 'tried into block 1'),
    "the chain's second block has a second predecessor": (0, 'no chain: block 0 goes on to block'),
    "the Cat in the chain's second block": (0, 'no Cat of form 0'),
    '2 members with replay': (0, 'tried into block 1'),
    'Stmt after the Cat': (0, 'tried into block 1'),
    'the chain comes back to x': (1, 'no chain: block 1 goes back to block 1'),
    'the target is x itself, the other has two predecessors': (1, 'no target: block 1 is in the chain, block 3 has 2 predecessors'),
    'block 0 is no target, though nothing else leads to it': (2, 'tried into block 1: '),
    'no chain goes on in block 0, though nothing else leads to it': (3, 'no chain: block 3 goes on to block 0, where the function begins'),
}


def round_trip(checks, n, data):
    """Bytes to text to the same bytes."""
    try:
        p = unpack(data)
    except Wrong:
        return None
    checks.holds(f'picture {n} comes back', pack(parse(show(p).split('\n'))) == data)
    return p


def refusals(checks, entry, n, data, p):
    """A fault is found exactly where the pass refuses, and its lowest cause is the pass's number; without `as-is` the text of such
    a picture is refused."""
    number = entry.call(data)[0]
    if p is None:
        checks.same(f'picture {n} is not read', number, 300)
        return
    causes = [f.cause for f in faults(p)]
    want = 300 if UNREAD in causes else 200 + min(causes) if causes else None
    checks.holds(f'picture {n}: {number}, but the faults say {want}', number == want if want else number < REFUSED)
    lines = show(p).split('\n')
    checks.same(f'picture {n} has `as-is`', lines[0] == 'as-is', bool(causes))
    if causes:
        try:
            parse(lines[1:])
            checks.holds(f'picture {n} is taken without `as-is`', False)
        except Wrong as e:
            checks.holds(f'picture {n}: each fault has a line', all(re.match(r'listing:\d+: ', line) for line in str(e).split('\n')))


def places(checks, n, step):
    """Each old place once; kind, form, payload, absent slots and list length kept; what stays in its block keeps its order."""
    old, new = records(step.before), records(step.after)
    checks.same(f'picture {n}: old places', sorted(step.old), list(range(len(old))))
    kept = [[r[:2], [s == ABSENT for s in r[2:7]], r[8:]] for r in old]
    checks.holds(f'picture {n}: what is kept', all([r[:2], [s == ABSENT for s in r[2:7]], r[8:]] == kept[k] for r, k in zip(new, step.old)))
    was, now = block_of(step.before), block_of(step.after)
    stay = [k for k in step.old if k not in step.moved]
    checks.holds(f'picture {n}: what stays is in its block', all(was[k] == now[i] for i, k in enumerate(step.old) if k not in step.moved))
    checks.same(f'picture {n}: the order of what stays', stay, sorted(stay))


def renamed(checks, n, step):
    """New registers stand where members write, and where what moved or the target reads; each has the type of the old one."""
    first, types = len(step.before['types']), step.after['types']
    targets = {into for _, into in step.moves()}
    for b, block in enumerate(rows(step)[1]):
        for row in block:
            good = all(y >= first and types[x] == types[y] for x, y in row.renamed())
            checks.holds(f'picture {n}: renamed in instruction {row.number}', good and (b in targets or not row.renamed()))


def by_line(checks, n, p, found, answer):
    """The lines that sinkrounds prints are those of the steps."""
    out = subprocess.run(['target/bin/sinkrounds'], input=pack(p), capture_output=True).stdout.decode().split('\n')
    ran = [list(map(int, line.split())) for line in out if line[:1].isdigit()]
    lines = []
    for step in found:
        ((x, into), many), *more = step.moves().items()
        checks.same(f'picture {n}: {step.name()} is one round', (more, step.first), ([], step.last))
        lines.append([step.first, x, into, many, *counts(step.after)[2:4]])
    checks.same(f'picture {n}: its rounds', lines, ran)
    checks.holds(f'picture {n}: {out[-2]}', out[-2] == (f'done {answer}' if answer < 100 else f'short {answer - 100}'))


def reasons(checks, n, name, number, p, found):
    """A block that moves was tried into its target, past the gates; where none is tried, the pass does nothing."""
    for step in found:
        checks.holds(f'picture {n}: no gate', not why.gate(step.before))
        for x, into in step.moves():
            checks.holds(f'picture {n}: block {x} was tried', into in why.verdicts(step.before)[x].targets)
    tried = not why.gate(p) and any(v.test == 'tried' for v in why.verdicts(p))
    checks.holds(f'picture {n}: nothing is tried, nothing moves', tried or number == 0)
    if name in STOPS:
        block, says = STOPS[name]
        said = why.verdicts(p)[block].text
        checks.holds(f'picture {n}, {name}: {said}', said.startswith(says))


class Page(HTMLParser):
    """The ids, links and tags of a page, which id leads to which, and whether tags close in order."""
    def __init__(self, text_):
        super().__init__()
        self.ids, self.links, self.leads, self.tags, self.open, self.right = [], [], set(), set(), [], True
        self.feed(text_)

    def handle_starttag(self, tag, attrs):
        self.tags.add(tag)
        self.ids += [v for k, v in attrs if k == 'id']
        self.links += [v for k, v in attrs if k in ('href', 'src')]
        self.leads.add((dict(attrs).get('id'), dict(attrs).get('href')))
        if tag != 'meta':
            self.open.append(tag)

    def handle_startendtag(self, tag, attrs):
        self.handle_starttag(tag, attrs)
        self.open.pop()

    def handle_endtag(self, tag):
        self.right = self.right and bool(self.open) and self.open.pop() == tag


def pages(checks, n, number, p, found):
    """The page holds together by itself: each link leads into it, each moved line to its other place; no script, no other file."""
    made = Page('\n'.join(page.view(p, number, found, 'a & b')))
    checks.holds(f'picture {n}: the page is well formed', made.right and not made.open)
    checks.holds(f'picture {n}: ids once', len(set(made.ids)) == len(made.ids))
    checks.holds(f'picture {n}: links lead into the page', all(link[:1] == '#' and link[1:] in made.ids for link in made.links))
    checks.holds(f'picture {n}: no script', not made.tags & {'script', 'link', 'img', 'iframe'})
    if number < REFUSED:
        moved = [row for block in rows(whole(p, found))[1] for row in block if row.other is not None]
        both = {(f'all-{x}{row.number}', f'#all-{y}{row.number}') for row in moved for x, y in ('ab', 'ba')}
        checks.holds(f'picture {n}: moved lines lead to their other place', both <= made.leads)
        edges = sum(' -> ' in line and 'moved' in line for line in dot.view(p, number, found))
        checks.same(f'picture {n}: moves in the graph', edges, len({edge for step in found for edge in step.moves()}))


def texts(checks, n, number, p, found):
    """In the text each instruction stands once where it stays, and twice where it moved."""
    lines = [line for line in text.view(p, number, found, 'p') if re.match(r' {0,4}\d+ [-+~ ] ', line)]
    moved = len(whole(p, found).moved)
    checks.same(f'picture {n}: lines of the text', len(lines), len(p['locs']) + moved)
    checks.same(f'picture {n}: lines that came', sum(line[6] == '+' for line in lines), moved)


def one(checks, entry, n, name, item):
    registers, operands, answer, before, after = item
    p = round_trip(checks, n, before)
    refusals(checks, entry, n, before, p)
    if answer >= REFUSED:
        if p and not any(f.cause == UNREAD for f in faults(p)):
            pages(checks, n, entry.call(before)[0], p, [])
        return
    round_trip(checks, n, after)
    number, found = steps(entry, p, registers, operands)
    checks.same(f'picture {n}: the answer', number, answer)
    checks.holds(f'picture {n}: the picture after, locs and all', pack(whole(p, found).after) == after)
    checks.same(f'picture {n}: rounds', found[-1].last if found else 0, number % 100)
    for step in [*found, whole(p, found)]:
        places(checks, n, step)
    for step in found:
        renamed(checks, n, step)
    if (registers, operands) == (512, 2048):
        by_line(checks, n, p, found, answer)
        reasons(checks, n, name, number, p, found)
        pages(checks, n, number, p, found)
        texts(checks, n, number, p, found)


def run(checks, entry):
    names = re.findall(r'^\d+\. (.*): \d+$', open('crates/vectors/README.md', encoding='utf-8').read(), re.M)
    items = list(stored(open('crates/vectors/stdin', 'rb').read()))
    checks.same('stored pictures and their names', len(items), len(names))
    for name in STOPS:
        checks.holds(f'there is {name}', name in names)
    for n, (name, item) in enumerate(zip(names, items)):
        one(checks, entry, n, name, item)
