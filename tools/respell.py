#!/usr/bin/env python3
"""Spells this repository's own definitions, lemmas, fields and variables as Rattle spells a word: some_below for some-below.

usage: tools/respell.py    at the top of the repository, once, right after port.py

What turns: in crates/, the code of .antt files and the clauses of .rt files, and the code spans of their comments; the lines of the edits, and
the code spans of the pages. A name that a file imports from a library keeps the library's spelling there, a name with a
capital keeps its dash (All-append), and a name that Rattle makes in a proof (Need-.., returns-2) stays.
"""
import os
import re
import subprocess

NAME = re.compile(r"[^\s(){}\[\].,;:@`\"«»]+")
DASHED = re.compile(r"^[a-z][\w']*(-[\w'ᵢ]+)+$")
USE = re.compile(r"^\s*(?:pub )?(?:ghost )?use ([^\s{;]+?)\.?(?:\{([^}]*)\})?;?\s*$")
# What port.py took for a library's word, a fact or a type, and what it means here.
MISTAKEN = {
    "IsPlace-in": "place_in",
    "Free-in": "free_in",
    "None-of": "none_of",
    "all_Saved": "all_saved",
    "get_d_replicate": "get_or_replicate",
}


def tracked(ending):
    out = subprocess.run(["git", "ls-files"], capture_output=True, text=True, check=True).stdout.split("\n")
    return [p for p in out if p.endswith(ending) and os.path.exists(p)]


def code(line, comment):
    at = line.find(comment)
    return (line, "") if at < 0 else (line[:at], line[at:])


def crates():
    return {os.path.basename(c) for c in (os.path.join("crates", d) for d in os.listdir("crates"))}


def imported(text, own):
    """The names that a file imports from a library."""
    found = set()
    for line in text.split("\n"):
        m = USE.match(line)
        if m and m[2] and not (m[1].startswith("Rattle.") and m[1].split(".")[1] in own):
            found |= {i.split(" as ")[0].strip() for i in m[2].split(",")}
    return found


def main():
    own = crates()
    files = [(p, "--") for p in tracked(".antt")] + [(p, "//") for p in tracked(".rt")]
    files = [(p, c) for p, c in files if p.startswith("crates/")]
    texts = {p: open(p, encoding="utf-8").read() for p, _ in files}
    names = set()
    for p, c in files:
        # a function's own proof names what Rattle makes of its code; its text declares nothing that others see
        if re.search(r"/proofs/.+/", p):
            continue
        taken = imported(texts[p], own)
        for line in texts[p].split("\n"):
            names |= {n for n in NAME.findall(code(line, c)[0]) if DASHED.match(n) and n not in taken}
    new = {n: n.replace("-", "_") for n in names} | MISTAKEN

    def turn(text, taken=frozenset()):
        return NAME.sub(lambda m: new.get(m[0], m[0]) if m[0] not in taken else m[0], text)

    # what port.py turned already, which the pages and the edits still have as it was
    known = {n for t in texts.values() for n in NAME.findall(t)} | set(new.values())

    def follow(name):
        return name.replace("-", "_") if DASHED.match(name) and name.replace("-", "_") in known else name

    def spans(text, more=lambda n: n):
        return re.sub(r"`[^`\n]+`", lambda m: NAME.sub(lambda k: more(k[0]), "`" + turn(m[0][1:-1]) + "`"), text)

    for p, c in files:
        taken = imported(texts[p], own)
        lines = []
        for line in texts[p].split("\n"):
            head, tail = code(line, c)
            lines.append(turn(head, taken) + spans(tail))
        write(p, "\n".join(lines), texts[p])
    for p in tracked(".edit"):
        old = open(p, encoding="utf-8").read()
        lines = [NAME.sub(lambda k: follow(k[0]), turn(l)) if re.match(r"(old|new): ", l) else l for l in old.split("\n")]
        write(p, "\n".join(lines), old)
    for p in tracked(".md"):
        old = open(p, encoding="utf-8").read()
        write(p, spans(old, follow), old)
    print(f"{len(new)} names")


def write(path, text, old):
    if text != old:
        with open(path, "w", encoding="utf-8") as f:
            f.write(text)


main()
