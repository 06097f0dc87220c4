"""The graph of blocks as SVG: blocks with their sizes before and after, branches, and the moves."""
from listings.shape import blocks
from views.layout import HIGH, POINT, WIDE, placed
from views.steps import all_moves
from views.why import Graph

EDGE, SIDE = 24, 56  # room above and below the drawing, and beside it, where moves go round


def marker(name, style, size):
    """An arrow's head."""
    return (f'<marker id="{name}" viewBox="0 0 8 8" refX="7" refY="4" markerWidth="{size}" markerHeight="{size}" orient="auto-start-reverse">'
            f'<path class="{style}" d="M0,0 L8,4 L0,8 z"/></marker>')


def curve(points):
    """A path through points, upright at each."""
    (x, y), *rest = points
    out = f'M{x:.0f},{y:.0f}'
    for to_x, to_y in rest:
        half = (to_y - y) / 2
        out += f' C{x:.0f},{y + half:.0f} {to_x:.0f},{to_y - half:.0f} {to_x:.0f},{to_y:.0f}'
        x, y = to_x, to_y
    return out


def branch(way, turned, at, label):
    """One edge, with its arrow at the block that it leads to."""
    between = [(at[point][0], at[point][1] + side * HIGH / 2) for point in way[1:-1] for side in (-1, 1)]
    ends = [(at[way[0]][0], at[way[0]][1] + HIGH / 2), *between, (at[way[-1]][0], at[way[-1]][1] - HIGH / 2)]
    shape = f'<path class="edge" d="{curve(ends)}" marker-{"start" if turned else "end"}="url(#arrow)"/>'
    if not label:
        return shape
    (x, y), (to_x, _) = (ends[-1], ends[-2]) if turned else (ends[0], ends[1])
    step = -1 if turned else 1
    side = 1 if to_x >= x else -1
    return shape + f'<text class="label" x="{x + side * 9 + (to_x - x) * 0.08:.0f}" y="{y + step * 15:.0f}">{label}</text>'


def ring(b, at, label):
    """An edge from a block to itself."""
    x, y = at[b][0] - WIDE / 2, at[b][1]
    shape = f'<path class="edge" d="M{x:.0f},{y + 9:.0f} c-26,8 -26,-26 0,-18" marker-end="url(#arrow)"/>'
    return shape + (f'<text class="label" x="{x - 12:.0f}" y="{y - 16:.0f}">{label}</text>' if label else '')


def beside(x, into, at, side):
    """How far out, to the right (1) or left (-1), a way from one block to another stays clear of all that lies between; and how
    many blocks it passes under to get there."""
    low, high = sorted((at[x][1], at[into][1]))
    half = {True: WIDE / 2, False: POINT / 2}
    out = max(side * px + half[isinstance(thing, int)] for thing, (px, py) in at.items() if low <= py <= high) + 16
    under = sum(side * px > side * at[b][0] and py == at[b][1] for b in (x, into) for thing, (px, py) in at.items() if isinstance(thing, int))
    return out, under


def move(x, into, n, rounds, at):
    """A move, round the outside of what lies between its block and its target."""
    (ax, ay), (bx, by) = at[x], at[into]
    side = min((1, -1), key=lambda s: (beside(x, into, at, s)[1], 2 * beside(x, into, at, s)[0] - s * (ax + bx)))
    ax, bx = ax + side * WIDE / 2, bx + side * WIDE / 2
    out = side * beside(x, into, at, side)[0]
    far = (out - (ax + bx) / 8) / 0.75
    shape = f'<path class="move" d="M{ax:.0f},{ay:.0f} C{far:.0f},{ay:.0f} {far:.0f},{by:.0f} {bx + 3 * side:.0f},{by:.0f}" marker-end="url(#moved)"/>'
    anchor = 'start' if side > 0 else 'end'
    return shape + f'<text class="moved" text-anchor="{anchor}" x="{out + 5 * side:.0f}" y="{(ay + by) / 2 + 4:.0f}">{n}<title>{n} moved in {rounds}</title></text>'


def box(b, size, now, at, link):
    """A block, with its size before and after."""
    x, y = at[b][0] - WIDE / 2, at[b][1] - HIGH / 2
    many = f'{size} → {now}' if size != now else f'{size}'
    state = ' came' if now > size else ' gone' if now < size else ''
    return (f'<a href="#{link}-{b}"><rect class="box{state}" x="{x:.0f}" y="{y:.0f}" width="{WIDE}" height="{HIGH}" rx="5"/>'
            f'<text class="name" x="{at[b][0]:.0f}" y="{y + 18:.0f}">block {b}</text>'
            f'<text class="size" x="{at[b][0]:.0f}" y="{y + 34:.0f}">{many}</text></a>')


def labels(graph, b):
    """For each block that b leads to, the name of the way."""
    out = {}
    names = ['t', 'f'] if graph.end(b) == 'CondBr' else [''] * len(graph.succs[b])
    for c, name in zip(graph.succs[b], names):
        out[c] = f'{out[c]}, {name}' if out.get(c) else name
    return out


def svg(step, found, link):
    """The graph, with the moves of all steps; a block's box leads to `link-NUMBER`."""
    graph = Graph(step.before)
    at, ways, wide, high = placed(graph.succs)
    sizes = [[e - s for s, e in blocks(p)] for p in (step.before, step.after)]
    parts = []
    for (b, c), (way, turned) in ways.items():
        names = labels(graph, c if turned else b)
        parts.append(branch(way, turned, at, names[b if turned else c]))
        if turned and c in graph.succs[b]:
            parts.append(branch(way, False, at, labels(graph, b)[c]))
    parts += [ring(b, at, labels(graph, b)[b]) for b, to in enumerate(graph.succs) if b in to]
    parts += [move(x, into, n, ', '.join(rounds), at) for (x, into), (n, rounds) in all_moves(found).items()]
    parts += [box(b, sizes[0][b], sizes[1][b], at, link) for b in range(len(graph.succs))]
    x, y = round(wide + 2 * SIDE), round(high + 2 * EDGE)
    size = f'width="{x}" height="{y}" viewBox="{-SIDE} {-EDGE} {x} {y}" style="min-width: {x * 6 // 10}px"'
    heads = marker('arrow', 'head', 8) + marker('moved', 'movehead', 5)
    return f'<svg class="graph" role="img" aria-label="the graph of blocks" {size}><defs>{heads}</defs>' + '\n'.join(parts) + '</svg>'
