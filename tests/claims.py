#!/usr/bin/env python3
"""Holds the table of claims against the sources: every definition, theorem, contract, edit and test that a row names
must exist. A name stands in backticks:
  `crate.File.name`   a declaration of crates/crate/specs/File.antt (or proofs/File.antt)
  `crate::function`   a function of crates/crate/src, `crate::Type::function` one of a type
  `crate/edit`        an edit of crates/crate/must-fail
  `edits/name`        an edit of tests/edits
  `tests/..`, `examples/..`   a file of the repository
Every row must name a definition or a theorem, and something that shows that the row can fail.
"""
import pathlib
import re
import sys

ROOT = pathlib.Path(__file__).resolve().parent.parent
COLUMNS = ["id", "sentence", "definition", "theorem or contract", "shown to fail by"]


def declares(text, name):
    """Whether an .antt text declares the name: a signature, a data type or record, a constructor or a field."""
    n = re.escape(name)
    signature = rf"^\s*(?:(?:unfoldable|abbrev|pub|axiom) )*{n}(?: \{{[^}}]*\}})? :"
    declared = rf"^\s*(?:pub )?(?:data|record) {n}(?:\s|$)"
    constructor = rf"^\s+(?:\S+ )*{n}(?: \S+)* :"
    return any(re.search(p, text, re.M) for p in (signature, declared, constructor))


def missing(name):
    """Why the name is not in the sources, or None."""
    if m := re.fullmatch(r"([a-z_0-9]+)\.([A-Za-z]+)\.(\S+)", name):
        crate, module, item = m.groups()
        files = [p for part in ("specs", "proofs") if (p := ROOT / "crates" / crate / part / f"{module}.antt").exists()]
        if not files:
            return f"no file {module}.antt in crates/{crate}"
        return None if any(declares(p.read_text(), item) for p in files) else f"{module}.antt of crates/{crate} declares no {item}"
    if m := re.fullmatch(r"([a-z_0-9]+)::(?:[A-Za-z]+::)?([a-z_0-9]+)", name):
        crate, function = m.groups()
        for path in (ROOT / "crates" / crate / "src").rglob("*.rt"):
            if re.search(rf"\bfn {function}\b", path.read_text()):
                return None
        return f"no function {function} in crates/{crate}/src"
    if name.startswith(("tests/", "examples/", "docs/")):
        return None if (ROOT / name).exists() else "no such file"
    if m := re.fullmatch(r"edits/(\S+)", name):
        return None if (ROOT / "tests/edits" / f"{m[1]}.edit").exists() else "no such edit in tests/edits"
    if m := re.fullmatch(r"([a-z_0-9]+)/(\S+)", name):
        path = ROOT / "crates" / m[1] / "must-fail" / f"{m[2]}.edit"
        return None if path.exists() else f"no file {path.relative_to(ROOT)}"
    return "not a name of a known form"


def main():
    path = pathlib.Path(sys.argv[1])
    faults, rows, ids, header = [], 0, set(), None
    for number, line in enumerate(path.read_text().splitlines(), 1):
        if not line.startswith("|"):
            continue
        cells = [c.strip() for c in line.strip().strip("|").split("|")]
        if cells == COLUMNS:
            header = number
            continue
        if set("".join(cells)) <= set("-: "):
            continue
        if len(cells) != len(COLUMNS):
            faults.append(f"line {number}: {len(cells)} columns, not {len(COLUMNS)}")
            continue
        rows += 1
        if cells[0] in ids:
            faults.append(f"line {number}: the id {cells[0]} stands twice")
        ids.add(cells[0])
        if not re.search("`", cells[2] + cells[3]):
            faults.append(f"line {number}: {cells[0]} names no definition and no theorem")
        if not re.search("`", cells[4]):
            faults.append(f"line {number}: {cells[0]} names nothing that shows that it can fail")
        for name in re.findall(r"`([^`]+)`", " ".join(cells[2:])):
            if why := missing(name):
                faults.append(f"line {number}: {cells[0]}: `{name}`: {why}")
    if header is None:
        faults.append("no table with the columns " + ", ".join(COLUMNS))
    if rows == 0:
        faults.append("no row")
    for fault in faults:
        print(f"{path}: {fault}", file=sys.stderr)
    print(f"{path}: {rows} rows, {len(faults)} faults")
    return 1 if faults else 0


sys.exit(main())
