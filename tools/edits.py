#!/usr/bin/env python3
"""edits.py: docs/EDITS.md, from the must-fail edits under crates/ and from what `rt ci` or `rt must-fail` said of each.

    tools/edits.py [LOG]           prints the page
    tools/edits.py --check [LOG]   compares it with docs/EDITS.md; where they differ, shows how and ends with 1

Run at the top of the repository. LOG is what rt printed, target/ci.log if not said, which the gate writes. rt gives the first error
of each edit that does not only follow from another, and of its text 160 characters."""
import difflib
import os
import re
import sys

LOG = "target/ci.log"
HEAD = """# The must-fail edits

Each is a wrong program, definition or promise that the check must refuse; a run of the gate tries them all. The name says what the
edit puts in. "Refused at" is the first declaration in which the checker finds it wrong: a table of rows (`model`, `kept`), a law, or
a fact that is owed for a function (`returns` its result, `..-requires` what a callee asks, `loop-..` an invariant). `tools/edits.py`
prints this page, and the gate compares it.

| edit | edited | refused at |
|---|---|---|
"""


def crates():
    """The crates in the order of crates.txt."""
    for line in open("crates.txt"):
        name, colon, _ = line.split("#")[0].partition(":")
        if colon:
            # a static library has a second word
            yield name.split()[0]


def edited(path):
    """The files that an edit changes."""
    files = re.findall(r"^file: (.*)$", open(path).read(), re.M)
    return ", ".join(f"`{f}`" for f in dict.fromkeys(files))


def told(log):
    """What rt said of each edit, by CRATE/LABEL."""
    said = {}
    for line in open(log, errors="replace") if os.path.exists(log) else []:
        found = re.match(r"rt: must-fail ([\w-]+/[\w.-]+)\.edit: (.*)", line)
        if found:
            said[found.group(1)] = found.group(2)
    return said


def refused(crate, said):
    """The place of the first error: the file, and the declaration that it names; or, of a function for which rattle found no proof of
    a fact, the function and that fact."""
    if said is None:
        return "not tried"
    how = re.match(r"refused, as it must be(?: \((only [^,;]*)[^)]*\))?(?:: (.*))?$", said)
    if not how:
        return said.partition(":")[0]
    only, at = f" ({how.group(1)})" if how.group(1) else "", how.group(2) or ""
    found = re.match(r"\S*?((?:src|specs|proofs)/\S+?):(\d+):\d+: error: (?:`([^`]+)`)?", at)
    if found:
        name = f", `{found.group(3)}`" if found.group(3) else ""
        return place(crate, found.group(1), int(found.group(2))) + name + only
    owed = re.match(r"note: \S*?(src/\S+?):(\d+):\d+: (?:.*?\(`([^`]+)`\))?", at)
    if owed:
        fact = f", `{owed.group(3)}`" if owed.group(3) else ""
        return f"`{function(crate, owed.group(1), int(owed.group(2)))}`{fact}{only}"
    return (at or "no error that names a place") + only


def function(crate, path, line):
    """The function at this line of a source file, by its modules (an attribute counts as its function's); an edit changes lines, and moves none."""
    lines = open(f"crates/{crate}/{path}").readlines()
    while lines[line - 1].lstrip().startswith("#["):
        line += 1
    lines = lines[:line]
    heads = map(re.compile(r'\s*(?:pub(?:\(crate\))? )?(?:extern "C" )?(?:fn|struct|enum) (\w+)').match, lines)
    name = [m.group(1) for m in heads if m][-1:]
    module = path.removeprefix("src/").removesuffix(".rt")
    modules = [] if module in ("lib", "main") else module.split("/")
    return "::".join([*modules, *name])


def place(crate, path, line):
    """A function's proof by the function, any other file by its name."""
    proof = re.match(r"proofs/(.+)/(?:Answers|Invariants|Proof)\.antt$", path)
    if proof:
        return f"`{proof.group(1).replace('/', '::')}`"
    if path.startswith("src/"):
        return f"`{function(crate, path, line)}`"
    return re.sub(r"[.](antt|rt)$", "", path)


def page(log):
    rows, said = [], told(log)
    for crate in crates():
        folder = f"crates/{crate}/must-fail"
        for edit in sorted(os.listdir(folder)) if os.path.isdir(folder) else []:
            label = edit.removesuffix(".edit")
            rows.append(f"| {crate}/{label} | {edited(f'{folder}/{edit}')} | {refused(crate, said.get(f'{crate}/{label}'))} |\n")
    return HEAD + "".join(rows)


def main():
    words = sys.argv[1:]
    check = "--check" in words
    logs = [word for word in words if word != "--check"]
    text = page(logs[0] if logs else LOG)
    if not check:
        sys.stdout.write(text)
        return
    stands = open("docs/EDITS.md").read()
    differ = list(difflib.unified_diff(stands.splitlines(), text.splitlines(), "docs/EDITS.md", "this run", lineterm="", n=0))
    print("\n".join(differ) if differ else "edits: docs/EDITS.md lists what refused each")
    sys.exit(1 if differ else 0)


main()
