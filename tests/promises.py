#!/usr/bin/env python3
"""Checks that what docs/PROMISES.md, docs/AUDIT.md and docs/DECISIONS.md name is there.

usage: python3 tests/promises.py [FILE ..]     (at the top of the repository)

A path in backquotes must exist: in the repository, or below a crate that the same paragraph, row or heading names
(`specs/Utf8.antt`, `Works.antt`). In "`a`, `b` in `PATH`" each name must stand in that file, or in a file of that crate, outside
comments, imports and edits that must fail. Any other name in a table, behind its first column, must stand so in some file of
crates/, tests/ or differential/. It prints what is missing; the exit status is 1 if something is.
"""
import pathlib
import re
import sys

top = pathlib.Path(__file__).resolve().parent.parent
roots = [top / "crates", top / "tests", top / "differential"]
kinds = {".antt", ".rt", ".rs", ".py", ".md", ".txt"}
is_path = re.compile(r"(crates|docs|tests|differential|specs|proofs|src|must-fail|\.ci)/[\w./*-]+|[\w-]+\.(antt|rt|rs|py|md|txt)|NOTICE")
is_name = re.compile(r"[A-Za-z_][\w·′-]*(::\w+)?")
named_in = re.compile(r"((?:`[^`]+`(?:, | and | to )?)+) in (?:its |the )?`([^`]+)`")
ticked = re.compile(r"`([^`]+)`")


def words(path, seen={}):
    """The words of a file, or of all files below a folder, without comments and imports."""
    if path not in seen and path.is_dir():
        below = [p for p in path.rglob("*") if p.suffix in kinds and "target" not in p.parts]
        seen[path] = set().union(*[words(p) for p in below])
    elif path not in seen:
        lines = path.read_text(encoding="utf-8").replace("«", "").replace("»", "").split("\n")
        said = [x for x in lines if not re.match(r"\s*(--|//|use |ghost use |pub mod |mod )", x)]
        seen[path] = set(re.findall(r"[\w·′-]+", "\n".join(said)))
    return seen[path]


def stands(name, paths):
    return any(name.split("::")[-1] in words(p) for p in paths)


def places(path, crates):
    """The files or folders that a path may mean."""
    below = [(top / c).glob(path) if "/" in path else (top / c).rglob(path) for c in crates]
    return list(top.glob(path)) + [p for found in below for p in found]


def blocks(text):
    """Headings and rows of tables line by line, paragraphs whole; each with the number of its first line."""
    block, first = "", 1
    for number, line in enumerate(text.split("\n"), 1):
        alone = line.startswith(("#", "|")) or not line.strip()
        if alone:
            yield from ((first, block), (number, line))
        block, first = ("", number + 1) if alone else (f"{block} {line}", first)
    yield first, block


def check(doc):
    heading = []
    for number, block in blocks(doc.read_text(encoding="utf-8")):
        crates = re.findall(r"`(crates/\w+)", block)
        heading = crates if block.startswith("#") else heading
        where, told = crates + heading, set()
        wrong = [f"no such path: {t}" for t in ticked.findall(block) if is_path.fullmatch(t) and not places(t, where)]
        for names, path in named_in.findall(block):
            told.update(ticked.findall(names) if is_path.fullmatch(path) else [])
            for name in ticked.findall(names) if is_path.fullmatch(path) else []:
                if not is_path.fullmatch(name) and not stands(name, places(path, where)):
                    wrong.append(f"{name} is not in {path}")
        behind = "|".join(re.split(r"(?<!\\)\|", block)[2:]) if block.startswith("|") else ""
        others = [t for t in ticked.findall(behind) if is_name.fullmatch(t) and not is_path.fullmatch(t) and t not in told]
        wrong += [f"{t} is nowhere" for t in others if not stands(t, roots) and not (top / "crates" / t).exists()]
        yield from (f"{doc.name}:{number}: {what}" for what in wrong)


docs = [pathlib.Path(a) for a in sys.argv[1:]] or [top / "docs" / f"{d}.md" for d in ("PROMISES", "AUDIT", "DECISIONS")]
missing = [what for doc in docs for what in check(doc)]
print("\n".join(missing) or "all that is named is there")
sys.exit(1 if missing else 0)
