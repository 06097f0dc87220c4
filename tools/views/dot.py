"""The graph of blocks after the pass, for graphviz: moved instructions marked, each move an edge."""
from listings.shape import Wrong
from listings.show import line
from views.calls import REFUSED, said
from views.steps import all_moves, rows, whole
from views.why import Graph

MARK = {True: '+ ', False: '  '}


def quoted(text):
    return '"' + text.replace('\\', '\\\\').replace('"', '\\"') + '"'


def label(b, block, p):
    lines = [f'block {b}'] + [MARK[row.other is not None] + line(row.record, p['ops']) for row in block]
    return '\\l'.join(quoted(text)[1:-1] for text in lines) + '\\l'


def view(p, number, found):
    if number >= REFUSED:
        raise Wrong(f'no graph: {said(number)}')
    step = whole(p, found)
    graph, (_, after) = Graph(step.after), rows(step)
    out = ['digraph function {', '  node [shape=box fontname=monospace fontsize=10]', '  edge [fontname=monospace fontsize=9]']
    for b, block in enumerate(after):
        came = any(row.other is not None for row in block)
        out.append(f'  b{b} [label="{label(b, block, step.after)}"' + (' style=filled fillcolor="#ddf3dd"' if came else '') + ']')
    for b, to in enumerate(graph.succs):
        names = ['t', 'f'] if graph.end(b) == 'CondBr' else [''] * len(to)
        out += [f'  b{b} -> b{c}' + (f' [label={name}]' if name else '') for c, name in zip(to, names)]
    for (x, into), (n, _) in all_moves(found).items():
        out.append(f'  b{x} -> b{into} [label="{n} moved" style=dashed color="#2a8a2a" fontcolor="#2a8a2a" constraint=false]')
    return out + ['}']
