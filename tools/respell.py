#!/usr/bin/env python3
"""Brings this repository's own definitions and lemmas to today's spelling, after the kit's port.py: run once, at the top.

usage: tools/respell.py [--list]

Types are in upper camel case, all else in snake case; in a lemma's name a dash stays between two names of definitions, as in
`mem-append`. Functions of src/, what Rattle makes for proofs, and the names of the toolchain's libraries keep their spelling.
--list prints old and new names, and those that would fall together, and writes nothing.
"""

import collections
import glob
import os
import re
import sys

W = r"[^\s(){}.;,@\"«»\[\]\\:]+"
NAME = re.compile(W)
COMMENT = re.compile(r"(?<![^\s(){}])--(?:\s[^\n]*|$|-[^\n]*)", re.M)
# The toolchain's libraries: what is imported from them keeps its name.
OUTSIDE = re.compile(r"^(?:mathlib|Prim|native|lib|borrow|denote|contract|seplogic|Rattle\.(?:std|core)|dual|machine|rust)\b")
# What the toolchain calls the parts of a lemma's name.
KNOWN = set(
    "length append map take drop set get_or reverse replicate concat filter sum cond eqb ltb leb not and or min max "
    "mul add sub div mod zero suc upto range member mem all any sets zip pow".split()
)


def read(path):
    with open(path, encoding="utf-8") as f:
        return f.read()


def files():
    for crate in sorted(glob.glob("crates/*")):
        for part in ("specs", "proofs"):
            for path in sorted(glob.glob(f"{crate}/{part}/**/*.antt", recursive=True)):
                yield path


def blank(text):
    """The text with comments blanked, of the same length."""
    return COMMENT.sub(lambda m: " " * len(m[0]), text)


HEAD = re.compile(r"^( *)((?:(?:abbrev|unfoldable|pub|private) )*)(?:(record|data) )?((?:abbrev |pub )*)(" + W + r")")


def declarations(path):
    """Yields (name, kind) of what the file declares: type, def, lemma, field."""
    lines = blank(read(path)).split("\n")
    inside = None
    for at, line in enumerate(lines):
        m = HEAD.match(line)
        if not m or m[5] in ("use", "module", "mod", "record", "let", "in", "elim", "where", "open", "λ", "unfolding", "ruleset"):
            continue
        indent, kind, name = len(m[1]), m[3], m[5]
        rest = line[m.end():]
        if kind:
            if rest.lstrip().startswith("="):
                continue
            inside = indent
            yield name, "type"
            continue
        if inside is not None and indent <= inside and line.strip():
            inside = None
        # a signature: NAME : TYPE, or NAME (x : A) : TYPE in a data's constructor
        if not re.match(r"\s*:\s", rest):
            continue
        words = m[2] + m[4]
        if inside is not None and indent > inside:
            yield name, "field"
            continue
        sig = rest
        k = at + 1
        while k < len(lines) and (not lines[k].strip() or len(lines[k]) - len(lines[k].lstrip()) > indent):
            sig += " " + lines[k].strip()
            k += 1
        if re.search(r"\b(?:tie|goal)\.(?:Need|invariant|decreases)", sig.split("→")[-1]):
            continue
        if re.search(r"(?:→|:)\s*Type\s*\d*\s*$", sig):
            yield name, "type"
        elif "/specs/" in path or "abbrev" in words or "unfoldable" in words:
            yield name, "def"
        else:
            yield name, "lemma"


def camel(name):
    return "".join(p[:1].upper() + p[1:] for p in re.split("[-_]", name))


def snake(name):
    return re.sub("-+", "_", name)


def lemma(name, defs):
    """Words joined by `_`, and a dash after a first definition's name where another's follows."""
    parts = [p for p in re.split("[-]", name.replace("getD", "get_or"))]
    out, at, before = "", 0, None
    while at < len(parts):
        end, known = at + 1, False
        for e in range(len(parts), at, -1):
            if len("_".join(parts[at:e])) > 2 and "_".join(parts[at:e]) in defs:
                end, known = e, True
                break
        piece = "_".join(parts[at:end])
        out += ("" if before is None else "-" if before and known else "_") + piece
        at, before = end, before is None and known
    return out


def names():
    kinds = collections.defaultdict(lambda: collections.defaultdict(set))
    for path in files():
        for name, kind in declarations(path):
            kinds[name][kind].add(path)
    defs = {snake(n) for n, k in kinds.items() if ("def" in k) and any("/specs/" in p for p in k["def"])} | KNOWN
    new = {}
    for name, k in kinds.items():
        if not re.search(r"[A-Za-z]", name) or "◌" in name:
            continue
        if "type" in k and ("-" in name or "_" in name):
            to = camel(name)
        elif "-" not in name and "getD" not in name:
            continue
        elif "def" in k or "field" in k:
            to = snake(name.replace("getD", "get_or"))
        else:
            to = lemma(name, defs)
        if to != name:
            new[name] = to
    return new, kinds


# Facts of one word whose name with `Is` would be no sentence.
FACTS = {
    "asks": "AsksOf", "stands": "StandsAs", "six": "SixAre", "liveU": "LiveU", "outT": "OutT", "each": "EachOf",
    "sets": "SetsTo", "came": "CameBy", "moves": "MovesBy",
}


def facts(kinds):
    """Facts of one lower-case word, by the module that declares them: they get a capital, and `Is` before it."""
    out = collections.defaultdict(dict)
    for name, k in kinds.items():
        for path in k.get("type", ()):
            if name[0].islower() and "-" not in name and "_" not in name:
                out[module(path)][name] = FACTS.get(name, "Is" + camel(name))
    return out


def module(path):
    return "Rattle." + path[len("crates/") : -len(".antt")].replace("/", ".")


# ---- writing

USE = re.compile(r"^(\s*(?:pub |ghost )*use )([^\s{;]+?)(?:\.\{([^}]*)\})?((?: as \S+)?;?)\s*$")
PATH = re.compile(r"[^\s(){};,@\"«»\[\]\\:]+")
LOCAL = re.compile(r"^[a-zα-ωκμ][\w'₀-₉]*(?:-[\w'₀-₉]+)+$")


def outside_names(text):
    """The names that a file imports from the toolchain's libraries."""
    out = set()
    for line in text.split("\n"):
        m = USE.match(line)
        if m and OUTSIDE.match(m[2]) and m[3] is not None:
            for it in m[3].split(","):
                out.add(it.strip().split(" as ")[-1].strip())
    return out


def scoped(text, own, new, of):
    """The names of a file: `new`, and the facts that it declares or imports."""
    more = dict(of.get(own, {}))
    for line in text.split("\n"):
        m = USE.match(re.sub(r"^(\s*)ghost ", r"\1", line))
        if m and m[3] and m[2] in of:
            more.update((n, to) for n, to in of[m[2]].items() if n in [it.strip() for it in m[3].split(",")])
    return {**new, **more}


def turned(text, new, proof):
    """The code of a file under the new names. In a proof file, a local name goes to snake case as well."""
    keep = outside_names(text)

    def word(w, head):
        if w in keep and head:
            return w
        if w in new:
            return new[w]
        return snake(w) if proof and head and LOCAL.match(w) and w not in keep else w

    def path(m):
        p = m[0]
        if OUTSIDE.match(p):
            return p
        if re.match(r"(?:tie|goal)\.", p) or p.startswith("--"):
            return p
        parts = p.split(".")
        return ".".join(word(w, k == 0) for k, w in enumerate(parts))

    out = []
    for line in text.split("\n"):
        u = USE.match(line)
        if u and OUTSIDE.match(u[2]):
            out.append(line)
            continue
        out.append(PATH.sub(path, line))
    return "\n".join(out)


TICK = re.compile(r"`([^`\n]+)`")


def ticked(text, new):
    """Names in backquotes, in comments and pages."""
    return TICK.sub(lambda m: "`" + PATH.sub(lambda p: ".".join(new.get(w, w) for w in p[0].split(".")), m[1]) + "`", text)


def code(text, new, proof):
    """All of an antt file: code under its new names, comments where a name stands in backquotes."""
    spots = [(m.start(), m.end()) for m in COMMENT.finditer(text)]
    keep, holes = text, []
    for k, (a, b) in enumerate(reversed(spots)):
        holes.append(text[a:b])
        keep = keep[:a] + f"\x00{len(holes) - 1}\x01" + keep[b:]
    keep = turned(keep, new, proof)
    return re.sub("\x00(\\d+)\x01", lambda m: ticked(holes[int(m[1])], new), keep)


CLAUSE = re.compile(r"^(\s*)((?:requires|ensures)\*?(?: \w+)? \{|ghost )")


def source(text, new):
    """A .rt file: its ghost lines and clauses, and backquoted names in comments."""
    keep = outside_names(text.replace("ghost use", "use"))
    out, depth = [], 0
    for line in text.split("\n"):
        if re.match(r"\s*//", line):
            out.append(ticked(line, new))
        elif depth or CLAUSE.match(line):
            u = USE.match(line)
            if not (u and OUTSIDE.match(u[2])):
                head = CLAUSE.match(line)
                at = head.end() if head and not depth and not u else 0
                line = line[:at] + PATH.sub(
                    lambda m: m[0]
                    if OUTSIDE.match(m[0])
                    else ".".join(new.get(w, w) if not (k == 0 and w in keep) else w for k, w in enumerate(m[0].split("."))),
                    line[at:],
                )
            out.append(line)
            if not u:
                depth += line.count("{") - line.count("}")
        else:
            out.append(line)
    return "\n".join(out)


def main():
    new, kinds = names()
    of = facts(kinds)
    if "--list" in sys.argv[1:]:
        back = collections.defaultdict(set)
        for n in kinds:
            back[new.get(n, n)].add(n)
        for n, to in sorted(new.items()):
            print(f"{n}\t{to}\t{'/'.join(sorted(kinds[n]))}")
        for m, each in sorted(of.items()):
            print(m, each)
        for to, of in sorted(back.items()):
            if len(of) > 1:
                where = {n: sorted({p for k in kinds[n].values() for p in k})[:3] for n in of}
                print(f"together: {to}: {where}")
        return
    for path in files():
        text = read(path)
        to = code(text, scoped(text, module(path), new, of), True)
        if to != text:
            with open(path, "w", encoding="utf-8") as f:
                f.write(to)
    for path in sorted(glob.glob("crates/*/src/**/*.rt", recursive=True)):
        text = read(path)
        to = source(text, scoped(text, "", new, of))
        if to != text:
            with open(path, "w", encoding="utf-8") as f:
                f.write(to)


if __name__ == "__main__":
    main()
