#!/usr/bin/env python3
"""Brings the repository's own definitions, lemmas, fields and constructors to snake case: tooLarge and too-large become too_large.

usage: python3 tools/respell.py [--list]      at the top of the repository, once, after port.py

It reads which names the files of specs/ and proofs/ declare, and writes each anew wherever it stands in crates/ (.antt, .rt, .edit).
Types and facts keep their capitals, functions of src/ and what Rattle generates their names. Where two names would fall together,
the one that is a lemma (a name with dashes) gets the ending _lem. --list prints the table and writes nothing.
"""

import glob
import os
import re
import sys

WORD = re.compile(r"[^\s(){}.;,@\"«»\[\]\\]+")
DECLARED = re.compile(r"^\s*(?:(?:abbrev|unfoldable|pub|data|record|mutual) )*((?:[^\s:(){}.;,]+ )+): ", re.M)
HEADED = re.compile(r"^\s*(?:pub )?(?:data|record) ([^\s:(){}.;,]+)", re.M)
COMMENT = re.compile(r"--[^\n]*")


def read(path):
    with open(path, encoding="utf-8", newline="") as it:
        return it.read()


def write(path, text):
    with open(path, "w", encoding="utf-8", newline="") as it:
        it.write(text)


def files(endings, folder="crates"):
    for top, folders, names in os.walk(folder):
        folders[:] = sorted(it for it in folders if it not in ("out", "target"))
        yield from (os.path.join(top, it) for it in sorted(names) if it.endswith(endings))


def snake(name):
    name = name.replace("-", "_")
    name = re.sub(r"(?<=[a-z0-9])([A-Z])", lambda it: "_" + it[1].lower(), name)
    return name


def is_ours(name):
    """A name that is spelled in the older way: a dash inside, or a capital after a small letter, and no capital first."""
    bare = name.strip("◌")
    return bool(re.fullmatch(r"[a-z◌][\w◌'-]*", bare)) and bool(re.search(r"[a-z0-9]-[\w]|[a-z0-9][A-Z]", bare))


def declared():
    found = {}
    for path in files(".antt"):
        if path.endswith("/Proof.antt"):
            continue
        text = COMMENT.sub("", read(path))
        for group in DECLARED.findall(text):
            for name in group.split():
                if is_ours(name):
                    found.setdefault(name, path)
        for name in HEADED.findall(text):
            if is_ours(name):
                found.setdefault(name, path)
    return found


# Lemmas that port.py had brought to snake case already, and that a definition of the same files now falls together with.
FELL = [
    ("in_order", ["fixing/proofs/EndedLaws.antt"]),
    ("written_back", ["solver_bytes/proofs/BackLaws.antt", "gradient_bytes/proofs/WayLaws.antt", "preconditioned_room/proofs/WayLaws.antt"]),
]


def table():
    names = declared()
    by_new = {}
    for name in sorted(names):
        by_new.setdefault(snake(name), []).append(name)
    every = set()
    for path in files((".antt", ".rt")):
        every.update(WORD.findall(read(path)))
    new_name, notes = {}, []
    for new, olds in sorted(by_new.items()):
        camel = [it for it in olds if "-" not in it]
        dashed = [it for it in olds if "-" in it]
        taken = new in every
        for place, old in enumerate(camel + dashed):
            to = new if place == 0 and not (taken and "-" in old) else new + "_lem"
            new_name[old] = to
            if taken or len(olds) > 1:
                notes.append((old, to, "taken" if taken else "", olds))
    return new_name, notes


def respelled(text, new_name, in_comments):
    def one(word):
        it = word[0]
        if it in new_name:
            return new_name[it]
        if "◌" not in it and "◌" + it + "◌" in new_name:
            return new_name["◌" + it + "◌"].strip("◌")
        return it

    if in_comments:
        return WORD.sub(one, text)
    parts, out = re.split(r"(--[^\n]*)", text), []
    for it in parts:
        if it.startswith("--"):
            out.append(WORD.sub(lambda w: new_name[w[0]] if w[0] in new_name and "-" not in w[0] else w[0], it))
        else:
            out.append(WORD.sub(one, it))
    return "".join(out)


def main(argv):
    new_name, notes = table()
    if "--list" in argv:
        for old, new in sorted(new_name.items()):
            print(old, new)
        for it in notes:
            print("look:", *it)
        return
    changed = 0
    for name, paths in FELL:
        for path in paths:
            path = os.path.join("crates", path)
            write(path, WORD.sub(lambda it, n=name: n + "_lem" if it[0] == n else it[0], read(path)))
    for path in files((".antt", ".rt", ".edit")):
        text = read(path)
        new = respelled(text, new_name, False)
        if new != text:
            write(path, new)
            changed += 1
    print(f"respell: {len(new_name)} names, {changed} files")


if __name__ == "__main__":
    main(sys.argv[1:])
