#!/usr/bin/env python3
"""slips.py: which wrong readings of document 01 no proved row notices.

    tools/slips.py                all slips of tools/slips.txt
    tools/slips.py a-load al-*    those of these names; * and ? stand for anything
    tools/slips.py --jobs 2       two at a time (one, if not said)
    tools/slips.py --model        by `model` alone
    tools/slips.py --from FILE    the slips of another list
    tools/slips.py --list         names, and what each says; nothing is checked

Each slip is put into a copy of crate `model`, outside the repository, and `model` is checked: first the table or law that the list
names, if it names one, then the whole. Where that is still proved, so are `crossed` and the rows of `kept` (its specs/), above the
slipped `model`. The answer is where a slip is refused first, or that it is still proved. A slip that a definition itself does not
take (it no longer fits the text, or names what is not there) is broken. Ends with 0 if every slip is refused, with 1 if not. It is
no part of the gate. It needs `rt`, which begins with what `rt check` kept of `words` and `model` in any checkout of this machine."""
import argparse
import concurrent.futures
import fnmatch
import os
import re
import shutil
import subprocess
import sys
import tempfile
import threading
import time

TOP = os.path.dirname(os.path.dirname(os.path.abspath(__file__)))
SLIPS = os.path.join(TOP, "tools", "slips.txt")
# the pages that are definitions: an error there is the slip's own, not a row's
DEFINITIONS = {"Kinds", "Picture", "Refusal", "Numbered", "Live", "Analyse", "Legal", "Move", "Pass", "Build"}
CRATES = "words:\nmodel: words\ncrossed: words model\nkept: words model\n"
# a table's theorem, in a page of rows
TABLE = re.compile(r"^pub (\S+_cases) : .*\n\1 = refl\n", re.M)
ERROR = re.compile(r"\S*?((?:src|specs|proofs)/\S+?)\.\w+:\d+:\d+: (?:error: )?`([^`]+)`")


def slips(path):
    """The entries of a list: name, what it says, the table that refuses it, replacements (file, old, new)."""
    found, entry, file, old = [], None, None, None
    for number, line in enumerate(open(path, encoding="utf-8"), 1):
        key, colon, text = line.rstrip("\n").partition(":")
        text = text[1:] if text.startswith(" ") else text
        if line.startswith("#") or not line.strip():
            continue
        if key == "slip":
            entry = {"name": text.strip(), "says": "", "table": None, "edits": []}
            found.append(entry)
        elif key == "says" and entry:
            entry["says"] = text.strip()
        elif key == "table" and entry:
            entry["table"] = text.strip()
        elif key == "file" and entry:
            file = text.strip()
        elif key == "old" and file:
            old = text
        elif key == "new" and old is not None:
            entry["edits"].append((file, old, text))
            old = None
        else:
            sys.exit(f"{path}:{number}: not understood: {line.rstrip()}")
    return found


def copy(what, to):
    if os.path.isdir(what):
        shutil.copytree(what, to, dirs_exist_ok=True)
    elif os.path.exists(what):
        os.makedirs(os.path.dirname(to), exist_ok=True)
        shutil.copy2(what, to)


def repository(where):
    """A small repository: `words`, `model`, `crossed`, and of `kept` the definitions and rows."""
    os.makedirs(where)
    with open(os.path.join(where, "crates.txt"), "w") as f:
        f.write(CRATES)
    for crate, parts in {"words": ("src", "specs", "proofs"), "model": ("src", "specs", "proofs"), "crossed": ("src", "specs", "proofs"), "kept": ("src", "specs")}.items():
        for part in parts:
            copy(os.path.join(TOP, "crates", crate, part), os.path.join(where, "crates", crate, part))


def check(where, crate):
    """What `rt check` says of a crate, and whether it is proved."""
    ran = subprocess.run(["rt", "check"], cwd=os.path.join(where, "crates", crate), capture_output=True, text=True, errors="replace")
    return ran.returncode == 0, ran.stdout + ran.stderr


def refused_at(said):
    """The first declaration that the checker refuses: its file and name."""
    for line in said.splitlines():
        found = ERROR.match(line)
        if found:
            return found.group(1), found.group(2)
    return None, None


def put(where, slip):
    """The slip into the copy of `model`; says what does not fit."""
    for file, old, new in slip["edits"]:
        path = os.path.join(where, "crates", "model", file)
        if not os.path.exists(path):
            return f"there is no {file}"
        text = open(path, encoding="utf-8").read()
        if text.count(old) != 1:
            return f"its old text is found {text.count(old)} times in {file}: {old}"
        with open(path, "w", encoding="utf-8") as f:
            f.write(text.replace(old, new))
    return None if slip["edits"] else "it has no old and new text"


def restore(where):
    """`model` as it stood at the start, with what was checked of it."""
    shutil.rmtree(os.path.join(where, "crates/model"), ignore_errors=True)
    copy(os.path.join(where, "whole"), os.path.join(where, "crates/model"))


def declare(where, table):
    """What is checked: the definitions and the page of one table or law, and of its tables that one; or all."""
    for part in ("specs", "proofs"):
        here, there = os.path.join(where, "whole", part), os.path.join(where, "crates", "model", part)
        for file in filter(lambda it: it.endswith(".antt"), os.listdir(here)):
            text = open(os.path.join(here, file), encoding="utf-8").read()
            stem, page = file[:-5], os.path.join(there, file)
            if stem in DEFINITIONS or stem == "Lib":
                continue
            if table and stem not in ("Marked", "Small") and f"\n{table} " not in text.replace("  ", ""):
                os.remove(page)
                continue
            with open(page, "w", encoding="utf-8") as f:
                f.write(TABLE.sub(lambda found: found.group(0) if table in (None, found.group(1)) else "", text))
        lines = open(os.path.join(here, "Lib.antt"), encoding="utf-8").read().splitlines()
        with open(os.path.join(there, "Lib.antt"), "w", encoding="utf-8") as f:
            f.write("".join(line + "\n" for line in lines if os.path.exists(os.path.join(there, line.split()[-1] + ".antt"))))


def ask(where, slip, only_model):
    """(refused, proved or broken; where or why)"""
    restore(where)
    wrong = put(where, slip)
    if wrong:
        return "broken", wrong
    for table in [slip["table"], None] if slip["table"] else [None]:
        declare(where, table)
        proved, said = check(where, "model")
        if not proved:
            return verdict("model", said)
    if only_model:
        return "proved", "by model"
    for crate in ("kept", "crossed"):
        proved, said = check(where, crate)
        if not proved:
            return verdict(crate, said)
    return "proved", "by model, crossed and kept"


def verdict(crate, said):
    file, name = refused_at(said)
    if file is None:
        return "broken", (said.strip().splitlines() or ["rt said nothing"])[-1]
    if crate == "model" and file.split("/")[-1] in DEFINITIONS and file.startswith("specs/"):
        return "broken", f"{file} does not take it, at `{name}`"
    return "refused", f"{crate}: {file}, `{name}`"


def run(chosen, jobs, only_model):
    scratch = tempfile.mkdtemp(prefix="slips-")
    homes = [os.path.join(scratch, str(n)) for n in range(jobs)]
    try:
        for home in homes:
            repository(home)
            if home is homes[0]:
                proved, said = check(home, "model")
                if not proved:
                    sys.exit("model is not proved as it stands:\n" + said)
            copy(os.path.join(homes[0], "crates", "model"), os.path.join(home, "whole"))
        free, lock, answers = list(homes), threading.Lock(), {}

        def one(slip):
            with lock:
                home = free.pop()
            began = time.time()
            answers[slip["name"]] = ask(home, slip, only_model)
            with lock:
                free.append(home)
                print(f"{slip['name']}: {': '.join(answers[slip['name']])} ({time.time() - began:.0f} s)", flush=True)

        pool = concurrent.futures.ThreadPoolExecutor(jobs)
        try:
            list(pool.map(one, chosen))
        finally:
            pool.shutdown(cancel_futures=True)
        return answers
    finally:
        shutil.rmtree(scratch, ignore_errors=True)


def main():
    want = argparse.ArgumentParser(description=__doc__, formatter_class=argparse.RawDescriptionHelpFormatter)
    want.add_argument("names", nargs="*")
    want.add_argument("--jobs", type=int, default=1)
    want.add_argument("--model", action="store_true")
    want.add_argument("--from", dest="path", default=SLIPS)
    want.add_argument("--list", action="store_true")
    given = want.parse_args()
    known = slips(given.path)
    for name in given.names:
        if not any(fnmatch.fnmatchcase(s["name"], name) for s in known):
            sys.exit(f"{given.path} has no {name}")
    chosen = [s for s in known if not given.names or any(fnmatch.fnmatchcase(s["name"], n) for n in given.names)]
    if given.list:
        for s in chosen:
            print(f"{s['name']:20} {s['says']}")
        return 0
    answers = run(chosen, given.jobs, given.model)
    left = [s for s in chosen if answers[s["name"]][0] != "refused"]
    print(f"{len(chosen)} slips: {len(chosen) - len(left)} refused, {len(left)} not")
    for s in left:
        print(f"  {s['name']}: {': '.join(answers[s['name']])}: {s['says']}")
    return 1 if left else 0


if __name__ == "__main__":
    sys.exit(main())
