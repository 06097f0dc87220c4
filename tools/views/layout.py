"""Where the blocks of a graph are drawn: in layers from the top, edges that span several go by points in between."""
WIDE, HIGH, GAP, DROP, POINT = 124, 44, 30, 54, 14


def turned(succs):
    """The edges, none to its own block, each once and turned so that there is no ring; with whether it was turned."""
    state, edges = {}, {}
    for root in range(len(succs)):
        if root in state:
            continue
        state[root] = 'open'
        stack = [(root, iter(succs[root]))]
        while stack:
            b, rest = stack[-1]
            for c in rest:
                if c != b:
                    back = state.get(c) == 'open'
                    edges[(c, b) if back else (b, c)] = back
                if c not in state:
                    state[c] = 'open'
                    stack.append((c, iter(succs[c])))
                    break
            else:
                state[b] = 'done'
                stack.pop()
    return edges


def depths(tied, edges):
    """The layer of each block: below all that lead to it."""
    depth, changed = {b: 0 for b in tied}, True
    while changed:
        changed = False
        for b, c in edges:
            if depth[c] <= depth[b]:
                depth[c], changed = depth[b] + 1, True
    return depth


def layered(tied, edges):
    """The layers, with a point (b, c, layer) in each one that an edge passes; and the way of each edge."""
    depth = depths(tied, edges)
    layers, ways = [[] for _ in set(depth.values())], {}
    for b in tied:
        layers[depth[b]].append(b)
    for b, c in edges:
        points = [(b, c, d) for d in range(depth[b] + 1, depth[c])]
        for point in points:
            layers[point[2]].append(point)
        ways[b, c] = [b, *points, c]
    return layers, ways


def ordered(layers, ways):
    """The layers with each thing near those it is tied to in the layer above, then below."""
    above, below = {}, {}
    for way in ways.values():
        for x, y in zip(way, way[1:]):
            above.setdefault(y, []).append(x)
            below.setdefault(x, []).append(y)
    place = {x: i - len(layer) / 2 for layer in layers for i, x in enumerate(layer)}
    for turn in range(8):
        ties = above if turn % 2 == 0 else below
        for layer in layers if turn % 2 == 0 else layers[::-1]:
            key = {x: sum(place[y] for y in ties[x]) / len(ties[x]) if x in ties else place[x] for x in layer}
            layer.sort(key=key.get)
            for i, x in enumerate(layer):
                place[x] = i - len(layer) / 2
    return layers


def row(things, y, at):
    """Puts things side by side, and gives the width."""
    x = 0
    for thing in things:
        wide = WIDE if isinstance(thing, int) else POINT
        at[thing] = [x + wide / 2, y + HIGH / 2]
        x += wide + GAP
    return x - GAP


def placed(succs):
    """The middle of each block and point, the way of each edge with whether it was turned, and the drawing's size. Blocks without
    edges stand below the others, eight a row."""
    edges = turned(succs)
    tied = {b for edge in edges for b in edge}
    layers, ways = layered(sorted(tied), edges)
    at, y, widths = {}, 0, []
    for layer in ordered(layers, ways):
        widths.append(row(layer, y, at))
        y += HIGH + DROP
    whole = max(widths, default=0)
    for layer, wide in zip(layers, widths):
        for thing in layer:
            at[thing][0] += (whole - wide) / 2
    alone = [b for b in range(len(succs)) if b not in tied]
    for k in range(0, len(alone), 8):
        whole = max(whole, row(alone[k:k + 8], y, at))
        y += HIGH + GAP
    return at, {edge: (way, edges[edge]) for edge, way in ways.items()}, whole, y - (GAP if alone else DROP)
