"""The view as one page of HTML, without scripts or other files."""
import re
from html import escape

from listings.faults import faults, named
from listings.show import line, show
from views.calls import REFUSED, said
from views.graph import svg
from views.steps import rows, whole
from views.style import STYLE
from views.text import heading, new_registers, place, summary
from views.why import why


KEY = ('<p class="key"><span class="gone">− left its block</span> <span class="came">+ came</span> <span class="ren">~ registers renamed</span> '
       'Numbers on the left are places before; on the right source places (loc). A moved line leads to its other place.</p>')


def arrows(text):
    return escape(text.replace('->', '→'))


def code(row, p, after):
    """An instruction's text; after the pass, each renamed register says what it was."""
    text, pairs = line(row.record, p['ops']), iter(row.registers)

    def mark(found):
        old, new = next(pairs)
        return f'<b title="was r{old}">r{new}</b>' if after and old != new else found[0]
    return re.sub(r'\br[0-9]+\b', mark, escape(text))


def shown(row, b, p, after, link):
    """One line. A moved one leads to its other place."""
    here, there = ('a', 'b') if after else ('b', 'a')
    kind, mark, note = '', '', ''
    if row.other is not None:
        kind, mark, note = (' came', '+', place('from', row, b)) if after else (' gone', '−', place('to', row, b))
    elif after and row.renamed():
        kind, mark, note = ' ren', '~', 'renamed'
    was = ', '.join(f'r{x} → r{y}' for x, y in row.renamed()) if after else ''
    title = ' '.join(filter(None, [f'instruction {row.number}', f'loc {row.loc}' if row.loc else '', was]))
    body = (f'<span class="n">{row.number}</span><span class="m">{mark}</span><span class="c">{code(row, p, after)}</span>'
            + (f'<span class="o">{note}</span>' if note else '') + (f'<span class="o" title="loc">{row.loc}</span>' if row.loc else ''))
    tag, to = ('a', f' href="#{link}-{there}{row.number}"') if row.other is not None else ('div', '')
    return f'<{tag} class="line{kind}" id="{link}-{here}{row.number}"{to} title="{title}">{body}</{tag}>'


def block(b, listing, p, after, link):
    name, when = (f' id="{link}-{b}"', 'after') if after else ('', 'before')
    return [f'<div class="block"{name}><h4>block {b} <i>{when}</i></h4>', *(shown(row, b, p, after, link) for row in listing), '</div>']


def listings(step, link):
    """Each block before and after, side by side; once where nothing moved."""
    out = [f'<div class="{"two" if step.moved else "one"}">']
    for b, (before, after) in enumerate(zip(*rows(step))):
        out += block(b, before, step.before, False, link) if step.moved else []
        out += block(b, after, step.after, True, link)
    return out + ['</div>']


def section(step, title, link):
    out = [f'<section id="{link}"><h2>{arrows(title)}</h2>']
    if new_registers(step):
        out.append(f'<p class="regs">new registers {escape(new_registers(step))}</p>')
    return out + listings(step, link) + ['</section>']


def stops(p, number, found):
    all_, each = why(p, number)
    out = [f'<section id="why"><h2>{"Why no more" if found else "Why nothing moved"}</h2>']
    if all_:
        out.append(f'<p>{escape(all_)}</p>')
    if each:
        out += ['<table class="why">', *(f'<tr><td>block {b}</td><td>{escape(v.text)}</td></tr>' for b, v in enumerate(each)), '</table>']
    return out + ['</section>']


def whole_page(name, body):
    head = f'<meta charset="utf-8"><meta name="viewport" content="width=device-width, initial-scale=1"><title>{escape(name)}</title><style>{STYLE}</style>'
    return ['<!doctype html>', f'<html lang="en"><head>{head}</head><body>', f'<h1>{escape(name)}</h1>', *body, '</body></html>']


def refused(p, number, name):
    found = [f'<li>{escape(named(p, fault))}: {escape(str(fault))}</li>' for fault in faults(p)]
    return whole_page(name, [f'<p>{escape(said(number))}</p>', '<ul>', *found, '</ul>', f'<pre>{escape(show(p))}</pre>'])


def view(p, number, found, name):
    if number >= REFUSED:
        return refused(p, number, name)
    all_, many = whole(p, found), len(found) > 1
    first = 'All rounds' if many else heading(found[0]) if found else 'The function'
    ends = stops(all_.after, number, found)
    links = ['<a href="#graph">blocks</a>', f'<a href="#all">{"all rounds" if many else "listings"}</a>']
    links += [f'<a href="#round{s.first}">round {s.first}</a>' for s in found if many] + [f'<a href="#why">why {"no more" if found else "nothing moved"}</a>']
    body = [f'<p>{escape(said(number))}. {arrows(summary(found, all_))}.</p>', f'<nav>{"".join(links)}</nav>',
            *([KEY] if found else ends),
            '<section id="graph"><h2>Blocks</h2><div class="scroll">', svg(all_, found, 'all'), '</div></section>', *section(all_, first, 'all')]
    if many:
        for step in found:
            body += section(step, heading(step), f'round{step.first}')
    return whole_page(name, body + (ends if found else []))
