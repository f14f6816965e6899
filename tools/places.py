#!/usr/bin/env python3
"""Lists places in crates/*/src that today's Rattle writes in another form, by eight points; docs/DESIGN-PASS.md says what
came of each. `python3 tools/places.py [COMMIT] [--list]` reads the files of a commit, or those of the checkout."""
import difflib
import re
import subprocess
import sys
from collections import defaultdict

args = [a for a in sys.argv[1:] if not a.startswith("--")]
LIST = "--list" in sys.argv
COMMIT = args[0] if args else None


def run(*command):
    return subprocess.run(command, capture_output=True, text=True, check=True).stdout


def read_all():
    if COMMIT:
        names = run("git", "ls-tree", "-r", "--name-only", COMMIT).split("\n")
        read = lambda name: run("git", "show", f"{COMMIT}:{name}")
    else:
        names = run("git", "ls-files").split("\n")
        read = lambda name: open(name).read()
    sources = {n: read(n) for n in names if re.fullmatch(r"crates/\w+/src/.*\.rt", n)}
    answers = {n: read(n) for n in names if n.endswith("/Answers.antt")}
    return sources, answers


def line_of(text, at):
    return text.count("\n", 0, at) + 1


def functions(text):
    """Each function: its line, name, parameters, clauses and body."""
    for m in re.finditer(r"^( *)(?:pub(?:\(\w+\))? )?(?:final )?fn (\w+)", text, re.M):
        rest = text[m.end():]
        opened = rest.index("(")
        depth = 0
        for i in range(opened, len(rest)):
            depth += {"(": 1, ")": -1}.get(rest[i], 0)
            if depth == 0:
                break
        parameters = re.sub(r"\s+", " ", rest[opened + 1:i]).strip(" ,")
        after = rest[i + 1:]
        first = after.split("\n")[0].rstrip()
        if first.endswith("{"):
            body = re.match(r"[^\n]*\{\n(.*?)^%s\}" % m[1], after, re.M | re.S)
        elif re.search(r"\S.*\{.*\}$|;$", first):
            body = None
        else:
            body = re.match(r"(?:(?!^%s\{$).)*?^%s\{\n(.*?)^%s\}" % ((m[1],) * 3), after, re.M | re.S)
            ended = re.search(r";$", after, re.M)
            if body and ended and ended.start() < body.start(1):
                body = None
        clauses, code = (after[:body.start(1)], body[1]) if body else (after.split(";")[0], "")
        clauses = [re.sub(r"\s+", " ", c).strip() for c in re.findall(r"(?:requires|ensures)[^{\n]*\{(.*)\}", clauses)]
        yield line_of(text, m.start()), m[2], parameters, clauses, code


sources, answers = read_all()
found = defaultdict(list)


def lines(point, pattern, what):
    for name, text in sources.items():
        for n, line in enumerate(text.split("\n"), 1):
            if re.search(pattern, line) and not line.strip().startswith("//"):
                found[point].append((name, n, what + ": " + line.strip()))


# 1: flags beside values, texts as errors, numbers as kinds, Option and Result taken apart by hand
for name, text in sources.items():
    for m in re.finditer(r"^(?:pub(?:\(\w+\))? )?struct \w+.*?^\}", text, re.M | re.S):
        for f in re.finditer(r"^ +.*: bool,$", m[0], re.M):
            found[1].append((name, line_of(text, m.start() + f.start()), "flag in a struct: " + f[0].strip()))
lines(1, r"Result<[^>]*>*, &'static str>|Unreadable\(&'static str\)", "text as an error")
lines(1, r"enum Line\b", "own enum of Option and Result")
lines(1, r"fn (layer|kind)\(.*-> u8", "number for a kind")
lines(1, r"^\s+(\[(_, )+2, \.\.\]|2) => .*<LabelSets>", "number for a kind")
lines(1, r"Some\(_\) => true|None => false,|Err\(_\) => (None|0|false)|Err\(\w+\) => (Err\(\w+\)|Ok\()|None => Err\(|None => return Err", "Option or Result taken apart by hand")

# 2: functions whose texts are alike but for names and numbers
shapes = []
for name, text in sources.items():
    for n, f, parameters, clauses, code in functions(text):
        tokens = re.findall(r"\w+|[^\w\s]", code)
        words = {"if", "else", "match", "for", "in", "let", "mut", "return", "Ok", "Err", "Some", "None", "while", "as", "self"}
        shape = [t if t in words or not re.match(r"\w", t) else "x" for t in tokens]
        if len(shape) >= 24:
            shapes.append((name, n, f, shape, tokens))
for i, (a, n, f, s, t) in enumerate(shapes):
    for b, k, g, u, v in shapes[i + 1:]:
        if abs(len(s) - len(u)) * 8 < len(s):
            alike = difflib.SequenceMatcher(None, s, u, False).ratio()
            same = difflib.SequenceMatcher(None, t, v, False).ratio()
            if alike > 0.9 and same > 0.6:
                found[2].append((a, n, f"{f} and {g} ({b}:{k}), {alike:.2f} and {same:.2f} alike"))

# 3: loops that count by hand, and what they count
lines(3, r"^\s*for \w+ in [^{]*\.\.", "loop over an index")
lines(3, r"^\s*while \w+ [<>]|^\s*while !\w+\.is_empty", "loop with a test")

# 4: equality, order, conversion by hand
lines(4, r"fn (same|less|smaller|larger|is_choice)\b", "equality or order")
lines(4, r"fn (from_bool|from_bits|from_bytes|to_bytes|from_be_bytes|to_be_bytes|pair|said)\b", "conversion")
lines(4, r"fn words\(|^        let (number|cause) = self\.|^pub fn program\(rt|^fn record\(rt", "printing")

# 5: facts that stand in three or more contracts, parameters that travel together
facts, groups = defaultdict(set), defaultdict(set)
for name, text in sources.items():
    crate = name.split("/")[1]
    for n, f, parameters, clauses, code in functions(text):
        for c in clauses:
            if len(c) > 12:
                facts[c].add((name, n, f))
        names = [p.strip() for p in re.split(r",(?![^<]*>)", parameters) if ":" in p]
        for i in range(len(names)):
            for j in range(i + 3, len(names) + 1):
                groups[tuple(names[i:j])].add((name, n, f))
for c, where in sorted(facts.items()):
    if len(where) >= 3:
        a = sorted(where)[0]
        found[5].append((a[0], a[1], f"in {len(where)} contracts: {c}"))
largest = [g for g in groups if len(groups[g]) >= 3 and not any(set(g) < set(h) and groups[g] == groups[h] for h in groups)]
for g in largest:
    a = sorted(groups[g])[0]
    found[5].append((a[0], a[1], f"through {len(groups[g])} functions: {', '.join(g)}"))

# 6: arrays with a count beside them, parallel arrays
for name, text in sources.items():
    for m in re.finditer(r"^(?:pub(?:\(\w+\))? )?struct (\w+).*?^\}", text, re.M | re.S):
        arrays = re.findall(r"^ +(?:pub(?:\(\w+\))? )?(\w+): (?:\[.*; \w+\]|&'\w+ mut \[\w+\]),", m[0], re.M)
        counts = re.findall(r"^ +(?:pub(?:\(\w+\))? )?(len|length|count|width): ", m[0], re.M)
        if arrays and (counts or len(arrays) > 1):
            found[6].append((name, line_of(text, m.start()), f"{m[1]}: {', '.join(arrays)} with {', '.join(counts) or 'no count'}"))

# 7: switches on which test or step to run
lines(7, r"^(pub )?enum (Stop|Step|Op)\b|: fn\(", "switch")

# 8: answers in proofs
count = sum(len(re.findall(r"^pub [^ ]+ : goal\.", t, re.M)) for t in answers.values())
size = sum(t.count("\n") for t in answers.values())

for point in range(1, 8):
    print(f"point {point}: {len(found[point])}")
    if LIST:
        for name, n, what in found[point]:
            print(f"  {name}:{n}: {what}")
print(f"point 8: {count} answers in {len(answers)} files of {size} lines")
