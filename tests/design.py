"""Counts the places that docs/DESIGN-PASS.md speaks of, by its eight points, in the crates' src/ (and proofs/ for the last).

    python3 tests/design.py [POINT]

prints a line for each point and, where a point is named, each of its places. It goes by text: what it finds is a place to look at, and
the page says what became of each."""
import collections, glob, os, re, sys

ROOT = os.path.join(os.path.dirname(os.path.abspath(__file__)), '..')
FILES = sorted(glob.glob(os.path.join(ROOT, 'crates/*/src/**/*.rt'), recursive=True))


def text(f):
    return re.sub(r'//[^\n]*', '', open(f).read())


def short(f):
    return os.path.relpath(f, os.path.join(ROOT, 'crates'))


def functions():
    """each function as (file, name, signature, body)"""
    for f in FILES:
        s = text(f)
        for m in re.finditer(r'\bfn (\w+)(?:<[^>]*>)?\(', s):
            e = re.search(r'\n *\{\n| \{\n', s[m.start():])
            if not e:
                continue
            i = m.start() + e.start()
            line = s[s.rfind('\n', 0, m.start()) + 1:m.start()]
            indent = line[:len(line) - len(line.lstrip())]
            j = s.find(f'\n{indent}}}', i)
            yield f, m.group(1), s[m.start():i], s[i:j]


def enums():
    for f in FILES:
        for m in re.finditer(r'enum (\w+) \{(.*?)\n\s*\}', text(f), re.S):
            yield f, m.group(1), re.findall(r'^\s*(\w+)(?:\(([^\n]*)\)| = \d+)?,', m.group(2), re.M)


def point1():
    """own enums of the shape of Option or Result; an arm for the refusal beside others; flags with a value; numbers for kinds"""
    for f, n, vs in enums():
        bare = [v for v, p in vs if not p]
        if len(vs) == 2 and len(bare) <= 1 and n not in ('Name',):
            yield f'{short(f)} enum {n}: two arms'
        elif any(p in ('Refusal', 'usize, usize, usize') for _, p in vs):
            yield f'{short(f)} enum {n}: an arm for an error'
        elif len(bare) == 1 and len(vs) > 2 or re.match(r'No|Bad', vs[0][0]) and not vs[0][1]:
            yield f'{short(f)} enum {n}: an arm for nothing'
    for f in FILES:
        for m in re.finditer(r'^\s*pub ((?:has_\w+|present): bool),', text(f), re.M):
            yield f'{short(f)} {m.group(1)}: a flag with a value beside it'
        for m in re.finditer(r'^\s*(?:pub )?(step|kind|sort): (u8|usize),', text(f), re.M):
            yield f'{short(f)} {m.group(0).strip()} a number for a kind'
        for m in re.finditer(r'^pub const (\w+): usize', text(f) if f.endswith('refusal.rt') else '', re.M):
            yield f'{short(f)} const {m.group(1)}: a number for a refusal'


def point2():
    """functions, and types, that are the same text but for names, types and literals"""
    seen = collections.defaultdict(list)
    for f, n, sig, body in functions():
        t = re.sub(r'(requires|ensures)[^\n]*', '', sig) + body
        names = {}
        t = re.sub(r'b"[^"]*"', 'S', t)
        t = re.sub(r'\b\d[\w.]*', 'N', t)

        def word(m):
            w = m.group(0)
            if w in ('fn', 'pub', 'let', 'mut', 'if', 'else', 'while', 'for', 'in', 'loop', 'match', 'return', 'true', 'false', 'as', 'len'):
                return w
            return names.setdefault(w, f'v{len(names)}')

        t = re.sub(r'\b[A-Za-z_]\w*', word, t)
        seen[re.sub(r'\s+', ' ', t)].append(f'{short(f)} {n}')
    for t, l in seen.items():
        if len(l) > 1 and len(t) > 60:
            yield ' = '.join(l)
    seen = collections.defaultdict(list)
    for f in FILES:
        for m in re.finditer(r'struct (\w+) \{(.*?)\n\}', text(f), re.S):
            seen[' '.join(sorted(re.findall(r'(\w+):', m.group(2))))].append(f'{short(f)} {m.group(1)}')
    for t, l in seen.items():
        if len(l) > 1 and t:
            yield 'types ' + ' = '.join(l)


def point3():
    """loops that count an index by hand"""
    for f, n, sig, body in functions():
        for m in re.finditer(r'\b(while [^{\n]*|loop) \{', body):
            rest = body[m.end():]
            steps = re.findall(r'\b(\w+) (?:\+=|-=) 1;', rest)
            if steps:
                yield f'{short(f)} {n}: {m.group(1).strip()}, {steps[0]}'


def point4():
    """equality, conversion and printing by hand: functions that only cast, that only name a number for each variant, that compare fields"""
    for f, n, sig, body in functions():
        b = re.sub(r'\s+', ' ', body).strip('{ ')
        if re.fullmatch(r'\w+ as \w+', b):
            yield f'{short(f)} {n}: a cast'
        elif re.fullmatch(r'match \w+ \{ ((\w+::\w+|None|Some|Ok|Err)(\([^)]*\))? => [\w. +]+, ?)+\}', b) and re.search(r'=> \d', b):
            yield f'{short(f)} {n}: a number for each variant'
        elif re.fullmatch(r'if \w+ \{ (return )?[01];? \} (else \{ [01] \}|[01])', b):
            yield f'{short(f)} {n}: a flag as a number'
        elif b.count('&& ') >= 2 and re.search(r'(\w)\.\w+ == \w\.\w+', b):
            yield f'{short(f)} {n}: fields compared'


def point5():
    """facts in the contracts of three or more functions; parameters of three or more functions that travel together, six or more"""
    facts = collections.defaultdict(list)
    groups = collections.defaultdict(list)
    for f, n, sig, body in functions():
        for m in re.finditer(r'requires(?: \w+)? \{ (.*) \}\s*$', sig, re.M):
            for c in re.split(r' × ', m.group(1)):
                facts[(f.split('/src/')[0], re.sub(r'\b[a-z]\b', '_', c.strip('() ')))].append(n)
        ps = re.findall(r'(\w+): &?(?:mut )?\[?', sig)
        if len(ps) >= 6:
            groups[tuple(ps[:5])].append(f'{short(f)} {n}')
    for (c, t), l in facts.items():
        if len(l) >= 3:
            yield f'{os.path.basename(c)}: {t} ({len(l)})'
    for t, l in groups.items():
        if len(l) >= 3:
            yield f'{", ".join(t)}, ..: {len(l)} functions, as {l[0]}'


def point6():
    """a slice or an array with a count of its entries beside it; arrays that go side by side"""
    for f, n, sig, body in functions():
        if re.search(r': &(mut )?(\[[^\]]*\]|Maps\b)', sig) and re.search(r'\b(n|m|count|total|k): usize', sig):
            yield f'{short(f)} {n}: a count beside a slice'
        if re.search(r'layers: &(mut )?\[i64\], zs|layers: &(mut )?\[i64\],\s*zs', sig):
            yield f'{short(f)} {n}: arrays side by side'


def point7():
    """switches on which step to run"""
    for f, n, sig, body in functions():
        for m in re.finditer(r'\b(\w+\.step|step|state|phase) == \d', body):
            yield f'{short(f)} {n}: {m.group(0)}'


def point8():
    """answers that only call a search; lemmas stated in more than one crate"""
    seen = collections.defaultdict(set)
    for p in glob.glob(os.path.join(ROOT, 'crates/*/proofs/**/*.antt'), recursive=True):
        s = open(p).read()
        if p.endswith('Answers.antt'):
            for m in re.finditer(r'^(\S+)(?: \w+)* = (search rules|grind \(arith, common_steps\)|refl|omega arith)$', s, re.M):
                yield f'{os.path.relpath(p, os.path.join(ROOT, "crates"))} {m.group(1)} = {m.group(2)}'
        else:
            for m in re.finditer(r'^(?:pub )?\S+ :((?: .*)?(?:\n    .*)*)', s, re.M):
                t = re.sub(r'\s+', ' ', m.group(1)).strip()
                if len(t) > 60:
                    seen[t].add(os.path.relpath(p, os.path.join(ROOT, 'crates')))
    for t, l in sorted(seen.items()):
        if len(l) > 1:
            yield ' = '.join(sorted(l)) + ': ' + t[:80]


POINTS = [point1, point2, point3, point4, point5, point6, point7, point8]
for i, p in enumerate(POINTS, 1):
    found = list(p())
    print(f'{i}  {len(found):4}  {p.__doc__}')
    if str(i) in sys.argv[1:]:
        for x in found:
            print('      ' + x)
