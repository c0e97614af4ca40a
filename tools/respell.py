#!/usr/bin/env python3
"""Respells the repository's own definitions and lemmas: words in snake case, types in camel case. Run once at the top, after port.py.

A name is changed where it is declared in specs/ or proofs/ and wherever it is used: in .antt files, in the clauses and ghost items of .rt
files, and in must-fail edits. Functions of src/, strings, comments' plain words, inputs and outputs keep theirs.
usage: respell.py [--dry] [--map FILE]
"""
import collections
import json
import os
import re
import sys

CHAR = r"[^\s(){}\[\].,;\"@λ◌]"
TOKEN = re.compile(CHAR + "+")
WORD = re.compile(r"[A-Za-z][^\s(){}\[\].,;\"@λ◌]*")
DECLARED = re.compile(r"^ *(?:(?:abbrev|unfoldable|pub|private|opaque|instance|inline) +)*((?:[^\s(){}\[\].,;\"@λ◌:=]+ +)+): *(.*)$")
HEAD = re.compile(r"^ *(?:pub +)?(?:data|record|module) +(\S+)")
GENERATED = re.compile(r"(?:goal|tie|Goals|Given|Tie)\.$")
KEYWORDS = {"let", "in", "use", "module", "where", "open", "record", "data", "unfolding", "ruleset", "infixl", "infixr", "infix"}
# Two names that would fall together, and those that read wrongly, get a name of their own.
BY_HAND = {
    "bounded": "IsBounded",
    "digitsOf": "digits_for",
    "isRead": "was_read",
    "noneYet": "nothing_yet",
    "secondCall": "second_call_maps",
    "is-nan": "is_nan_lem",
}


def texts(root, ends):
    for folder, dirs, files in os.walk(os.path.join(root, "crates")):
        dirs[:] = sorted(d for d in dirs if d not in ("out", ".git"))
        for f in sorted(files):
            if f.endswith(ends):
                yield os.path.join(folder, f)


def is_function_proof(path):
    parts = path.split(os.sep)
    i = len(parts) - 1 - parts[::-1].index("proofs") if "proofs" in parts else -1
    return i >= 0 and os.path.basename(path) in ("Proof.antt", "Answers.antt", "Invariants.antt") and len(parts) - i > 2


def declared(root):
    """Each name that a file of definitions or lemmas declares, with the type that it gives when that stands on its line."""
    found = collections.defaultdict(set)
    for path in texts(root, ".antt"):
        with open(path, encoding="utf-8") as f:
            lines = f.read().split("\n")
        for n, line in enumerate(lines):
            if line.lstrip().startswith("--"):
                continue
            m = DECLARED.match(line)
            if not m:
                continue
            names = m[1].split()
            if any(w in KEYWORDS for w in names):
                continue
            if is_function_proof(path) and re.match(r"(tie|goal)\.", m[2]):
                continue
            whole = m[2]
            k = n + 1
            while k < len(lines) and len(lines[k]) - len(lines[k].lstrip()) > len(line) - len(line.lstrip()) and not DECLARED.match(lines[k]):
                whole += " " + lines[k].strip()
                k += 1
            for w in names:
                found[w].add((path, whole.strip()))
    return found


def snake_part(part):
    t = re.sub(r"([a-z0-9])([A-Z])", lambda m: m[1] + "_" + m[2].lower(), part)
    return re.sub(r"([A-Z])", lambda m: m[1].lower(), t)


def snake(name):
    """A dash stays beside the name of a type or variant, which keeps its capital; elsewhere it becomes an underscore."""
    parts = name.replace("′", "'").split("-")
    out = ""
    for i, p in enumerate(parts):
        is_type = i > 0 and re.match(r"[A-Z]", p)
        if i:
            out += "-" if is_type or re.match(r"[A-Z]", parts[i - 1]) and i > 1 else "_"
        out += p if is_type else snake_part(p)
    return re.sub(r"__+", "_", out)


def camel(name):
    return "".join(w[:1].upper() + w[1:] for w in re.split(r"[-_]", name))


def wanted(name, places):
    if name in BY_HAND:
        return BY_HAND[name]
    if not re.match(r"[a-z]", name):
        if re.match(r"[A-Z]", name) and ("-" in name or "′" in name):
            return camel(name) if all(re.search(r"Type \d$", t) for _, t in places) else name
        return name
    if places and all(re.search(r"(^|→ *)Type \d+$", t) for _, t in places):
        return camel(name)
    return snake(name) if re.search(r"[-A-Z′]", name) else name


def clauses(text):
    """The spans of a .rt file that are written in antt: ghost items, and the braces after requires, ensures and their like."""
    spans = []
    for m in re.finditer(r"^[ \t]*(?:pub )?ghost [^;{]*(\{[^;]*\})?[^;]*;", text, re.M):
        spans.append(m.span())
    for m in re.finditer(r"\b(requires|ensures|invariant|decreases|also_owns|also_shares)\*?(?: +\w+)?\s*\{", text):
        i, deep = m.end(), 1
        while i < len(text) and deep:
            deep += (text[i] == "{") - (text[i] == "}")
            i += 1
        spans.append((m.start(), i))
    return spans


def crates(root):
    return {c for c in os.listdir(os.path.join(root, "crates")) if os.path.isdir(os.path.join(root, "crates", c, "src"))}


def of_libraries(text, own):
    """The names that a file imports from libraries: they keep the library's spelling there."""
    names = set()
    for m in re.finditer(r"(?m)^\s*(?:pub )?(?:ghost )?use ([^\s{}]+)\.\{([^}]*)\}", text):
        head = m[1].split(".")
        if not (head[0] == "Rattle" and len(head) > 1 and head[1] in own):
            names |= {w.split(" as ")[0].strip() for w in m[2].split(",")}
    return names


def respelled(text, names):
    out, i = [], 0
    piece = re.compile(r"--[^\n]*|\"(?:[^\"\\\n]|\\.)*\"|" + CHAR + "+")
    for m in piece.finditer(text):
        out.append(text[i : m.start()])
        t = m[0]
        if t.startswith("--"):
            t = re.sub(r"`[^`\n]*`", lambda q: TOKEN.sub(lambda w: names.get(w[0], w[0]), q[0]), t)
        elif not t.startswith('"') and not GENERATED.search(text[max(0, m.start() - 8) : m.start()]):
            t = names.get(t, t)
        out.append(t)
        i = m.end()
    out.append(text[i:])
    return "".join(out)


def respelled_source(text, names):
    out, i = [], 0
    for a, b in sorted(clauses(text)):
        if a < i:
            continue
        out.append(text[i:a])
        out.append(respelled(text[a:b], names))
        i = b
    out.append(text[i:])
    return "".join(out)


def respelled_edit(text, names):
    source = re.search(r"^file: (.*)$", text, re.M)
    out = []
    kind = ".antt"
    for line in text.split("\n"):
        if line.startswith("file:"):
            kind = ".rt" if line.rstrip().endswith(".rt") else ".antt"
        if line.startswith(("old:", "new:")) and (kind == ".antt" or re.search(r"requires|ensures|≡|ghost", line)):
            line = line[:4] + respelled(line[4:], names)
        out.append(line)
    return "\n".join(out)


def apart(names, found):
    """Where several names would become one, a definition of specs/ in camel case has it, and a lemma gets _lem after it."""
    together = collections.defaultdict(set)
    for n in found:
        together[names.get(n, n)].add(n)
    for new, olds in sorted(together.items()):
        if len(olds) < 2:
            continue

        def rank(n):
            return ("-" in n, not any("/specs/" in p for p, _ in found[n]), n != new, n)

        for k, n in enumerate(sorted(olds, key=rank)):
            if k:
                names[n] = new + "_lem" + ("" if k == 1 else str(k))
            elif n != new:
                names[n] = new
            else:
                names.pop(n, None)
        print("apart:", "; ".join(f"{n} ({'specs' if any('/specs/' in p for p, _ in found[n]) else 'proofs'}) -> {names.get(n, n)}" for n in sorted(olds, key=rank)), file=sys.stderr)


def clashes(root, names):
    """Files in which a name that is to be respelled would meet a name that stands there already."""
    bad = collections.defaultdict(list)
    for path in texts(root, (".antt", ".rt")):
        with open(path, encoding="utf-8") as f:
            t = f.read()
        if path.endswith(".rt"):
            t = "\n".join(t[a:b] for a, b in clauses(t))
        plain = re.sub(r"--[^\n]*|\"(?:[^\"\\\n]|\\.)*\"", "", t)
        plain = re.sub(r"(?m)^(\s*(?:pub )?(?:ghost )?use )Rattle\.[^\s{}]*", r"\1", plain)
        words = {m[0] for m in TOKEN.finditer(plain) if plain[m.start() - 1 : m.start()] != "."}
        into = collections.defaultdict(set)
        for w in words:
            into[names.get(w, w)].add(w)
        for new, olds in into.items():
            if len(olds) > 1:
                bad[tuple(sorted(olds))].append(path)
    return bad


def main(argv):
    root = "."
    found = declared(root)
    names = {}
    for name, places in sorted(found.items()):
        new = wanted(name, places)
        if new != name:
            names[name] = new
    apart(names, found)
    bad = clashes(root, names)
    for olds, paths in sorted(bad.items()):
        print("fall together:", " ".join(olds), "in", " ".join(sorted(paths)[:3]), len(paths), file=sys.stderr)
    print(f"{len(names)} names of {len(found)}", file=sys.stderr)
    if "--map" in argv:
        with open(argv[argv.index("--map") + 1], "w") as f:
            json.dump(names, f, ensure_ascii=False, indent=0, sort_keys=True)
    if "--dry" in argv or (bad and "--force" not in argv):
        return 1 if bad else 0
    own = crates(root)
    for path in texts(root, (".antt", ".rt", ".edit")):
        with open(path, encoding="utf-8") as f:
            t = f.read()
        lent = of_libraries(t, own) & names.keys()
        here = {n: new for n, new in names.items() if n not in lent}
        if lent:
            print("kept, of a library:", path, " ".join(sorted(lent)), file=sys.stderr)
        turn = respelled if path.endswith(".antt") else respelled_source if path.endswith(".rt") else respelled_edit
        new = turn(t, here)
        if new != t:
            with open(path, "w", encoding="utf-8") as f:
                f.write(new)
    return 0


if __name__ == "__main__":
    sys.exit(main(sys.argv[1:]))
