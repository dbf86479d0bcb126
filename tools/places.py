#!/usr/bin/env python3
"""Counts in src/ the places of the points of docs/DESIGN-PASS.md, by text.

  tools/places.py [POINT..]           of the tree
  tools/places.py --at COMMIT [POINT..]  of a commit

A place is a line that fits a point's pattern, a function whose signature does, or a fact or a set of parameters that stands in
three or more functions. It is printed with its file and line; the last line of a point is its count. What a pattern finds is looked
at, not judged: the page says of each place what it is.
"""
import collections
import re
import subprocess
import sys

args = sys.argv[1:]
commit = None
if args[:1] == ["--at"]:
    commit, args = args[1], args[2:]


def lines_of(command):
    return subprocess.run(command, capture_output=True, text=True, check=True).stdout.splitlines()


def sources():
    names = lines_of(["git", "ls-tree", "-r", "--name-only", commit] if commit else ["git", "ls-files", "-co", "--exclude-standard"])
    for name in names:
        if re.fullmatch(r"crates/[^/]+/src/.*\.rt", name):
            text = "\n".join(lines_of(["git", "show", f"{commit}:{name}"])) if commit else open(name).read()
            yield name, text


def functions(text):
    """Each function: its line, its name, its parameters, its clauses."""
    for m in re.finditer(r"^ *(?:pub(?:\(crate\))? )?(?:extern \"C\" )?fn (\w+)(?=[<(])", text, re.M):
        start, depth = m.end(), 0
        while depth or text[start] != "(":
            # The arrow of a closure's bound closes no list of parameters.
            depth += {"<": 1, ">": -(text[start - 1] != "-")}.get(text[start], 0)
            start += 1
        start += 1
        depth, end = 1, start
        while depth:
            depth += {"(": 1, ")": -1}.get(text[end], 0)
            end += 1
        inside = text[start : end - 1]
        clauses = re.findall(r"requires[^{\n]*\{((?:[^{}]|\{[^{}]*\})*)\}", text[end : end + 3000].split("\n{")[0].split("\n    {\n")[0])
        parameters = [re.match(r"\s*(?:mut )?(&?(?:mut )?self|\w+)\s*(?::\s*(.*))?$", p, re.S) for p in split(inside)]
        yield text.count("\n", 0, m.start()) + 1, m.group(1), [(p.group(1), p.group(2) or "Self") for p in parameters if p], clauses


def split(inside):
    parts, depth, now = [], 0, ""
    for c in inside:
        depth += {"(": 1, "<": 1, "[": 1, ")": -1, ">": -1, "]": -1}.get(c, 0)
        if c == "," and depth == 0:
            parts.append(now)
            now = ""
        else:
            now += c
    return [p.strip() for p in parts + [now] if p.strip()]


def by_line(pattern):
    def count(tree):
        for name, text in tree:
            for n, line in enumerate(text.splitlines(), 1):
                if re.search(pattern, line) and not re.match(r" *(requires|ensures|×)", line):
                    yield f"{name}:{n}: {line.strip()}"

    return count


KEPT = set("fn pub let mut if else for in while return match true false as u8 u16 u32 u64 usize bool self Self Some None Ok Err".split())


def twins(tree):
    """Functions whose bodies are alike but for names and numbers."""
    shapes = collections.defaultdict(list)
    for name, text in tree:
        for n, fn, _, _ in functions(text):
            start = text.index("\n", sum(len(line) + 1 for line in text.split("\n")[: n - 1]))
            body = re.search(r"\n( *)\{\n(.*?)\n\1\}", text[start:], re.S)
            if not body:
                continue
            seen = {}
            words = []
            for token in re.findall(r"[A-Za-z_]\w*(?:::\w+)*|\d\w*|[^\s\w,]", re.sub(r"//[^\n]*", "", body.group(2))):
                if token in KEPT or not re.match(r"\w", token):
                    words.append(token)
                else:
                    words.append("#" if token[0].isdigit() else f"n{seen.setdefault(token, len(seen))}")
            shapes[" ".join(words)].append(f"{name}:{n} {fn}")
    for shape, where in sorted(shapes.items(), key=lambda s: -len(s[1])):
        if len(where) > 1:
            yield f"{len(where)} alike: {', '.join(where)}"


def answers(tree):
    """How many answers each crate's proofs hold, and how many lines."""
    names = lines_of(["git", "ls-tree", "-r", "--name-only", commit] if commit else ["git", "ls-files", "-co", "--exclude-standard"])
    held = collections.Counter()
    length = collections.Counter()
    for name in names:
        m = re.fullmatch(r"crates/([^/]+)/proofs/.*\.antt", name)
        if m:
            text = lines_of(["git", "show", f"{commit}:{name}"]) if commit else open(name).read().splitlines()
            held[m.group(1)] += sum(1 for line in text if re.match(r"pub \S+ : goal\.", line))
            length[m.group(1)] += len(text)
    for crate in sorted(length):
        yield f"{crate}: {held[crate]} answers, {length[crate]} lines"
    yield f"all: {sum(held.values())} answers, {sum(length.values())} lines"


def enums(tree):
    """Own enums, to be looked at for the shape of Option or Result."""
    for name, text in tree:
        for m in re.finditer(r"^(?:pub )?enum (\w+) \{\n(.*?)^\}", text, re.M | re.S):
            variants = re.findall(r"^    (\w+)(\(.*\))?", m.group(2), re.M)
            plain = [v for v, d in variants if not d]
            shape = len(variants) == 2 and len(plain) == 1 or "Done" in plain
            yield f"{name}:{text.count(chr(10), 0, m.start()) + 1}: {m.group(1)}{' has the shape of Option or Result' if shape else ''}"


def facts(tree):
    """Facts of one parameter in the requires of three or more functions."""
    seen = collections.defaultdict(list)
    for name, text in tree:
        for n, fn, _, clauses in functions(text):
            for clause in clauses:
                for fact in clause.split("×"):
                    fact = re.sub(r"\.(old|now|new)\b", "", fact.strip())
                    fact = re.sub(r"^\((.*)\)$", r"\1", fact)
                    seen[fact].append(f"{name}:{n} {fn}")
    for fact, where in sorted(seen.items(), key=lambda f: -len(f[1])):
        if len(set(where)) >= 3:
            yield f"{len(set(where))} functions: {fact}"


def together(tree):
    """Pairs of parameters that stand in three or more functions, one never without the other there."""
    pairs, single = collections.Counter(), collections.Counter()
    for name, text in tree:
        for n, fn, parameters, _ in functions(text):
            names = sorted({p for p, _ in parameters})
            for i, a in enumerate(names):
                single[name, a] += 1
                for b in names[i + 1 :]:
                    pairs[name, a, b] += 1
    for (name, a, b), k in sorted(pairs.items(), key=lambda p: (-p[1], p[0])):
        if k >= 3 and (k == single[name, a] or k == single[name, b]):
            yield f"{k} functions of {name}: {a}, {b}"


def lengths(tree):
    """A slice and a length, or a place in it, side by side."""
    for name, text in tree:
        for n, fn, parameters, _ in functions(text):
            slices = [p for p, t in parameters if re.match(r"&(mut )?\[", t)]
            numbers = [p for p, t in parameters if t == "usize" and p in ("count", "from", "to", "end", "at", "kept", "length")]
            if slices and numbers:
                yield f"{name}:{n}: {fn}({', '.join(slices)}; {', '.join(numbers)})"


POINTS = {
    "1 enums": enums,
    "1 sentinels": by_line(r"//.*(\bor 0 (where|if)|or 32 where|or 8 where|8 where there is none|or `count` where|0 stands for none|or one past|\b0, which names nobody, where)"),
    "1 numbers": by_line(r"=> \d+,|^\s*\d+ => |const (UNSOUND|BAD_FRAME|TRANSACTION|OBJECT|VALUE)\b|\bnumber: (UNSOUND|BAD_FRAME)\b"),
    "2 twins": twins,
    "3 loops": by_line(r"^\s*while |^\s*\w+ [+-]= 1;"),
    "3 for over indices": by_line(r"^\s*for \w+ in \(?[\w:.]+\.\."),
    "4 by hand": by_line(r"\.num (==|!=|<|<=) |\bfn lower\b|if a < b \{ a \} else \{ b \}"),
    "5 facts": facts,
    "5 together": together,
    "6 lengths": lengths,
    "6 arrays": by_line(r"\[u\d+; \d+\]|layout::CHAIN_(VALUE|WRITER) \+"),
    "7 switches": by_line(r"^\s*match |\bdyn \b|\bfn\("),
    "8 answers": answers,
}

tree = list(sources())
for point, count in POINTS.items():
    if not args or any(point.startswith(a) for a in args):
        found = list(count(tree))
        print(f"== {point}")
        for place in found:
            print(place)
        print(f"{point}: {len(found)}")
