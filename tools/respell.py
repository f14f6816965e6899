#!/usr/bin/env python3
"""Respells this repository's own definitions, fields and lemmas the way the library spells its names.

Run once at the top of the repository, right after port.py: words in snake case, facts and types in camel case.
Names that Rattle makes (goals, steps of a proof), names of the library and names of functions in src/ stay.
"""
import glob
import os
import re

TOKEN = r"[^\s(){}\[\];,.«»]+"
# Names whose plain spelling falls together with a word of the library, or with a function that the lemma is about.
EXCEPTIONS = {
    "bit-and": "bit_of_and",
    "bit-or": "bit_of_or",
    "add-one": "plus_one",
    "places-rise": "places_rise_lem",
    "own-trees-pass": "own_trees_pass_lem",
    "limits-stay": "limits_stay_lem",
}


def spelled(name):
    if name in EXCEPTIONS:
        return EXCEPTIONS[name]
    if name[0].isupper():
        return "".join(part[:1].upper() + part[1:] for part in name.split("-"))
    return name.replace("-", "_")


def antt_files():
    return sorted(glob.glob("crates/*/specs/*.antt") + glob.glob("crates/*/proofs/**/*.antt", recursive=True))


def rattle_files():
    return sorted(glob.glob("crates/*/src/**/*.rt", recursive=True))


def defined():
    """The dashed names that this repository defines, and those of them that are fields of a record."""
    names, fields = set(), set()
    plain = re.compile(r"^\s*(?:(?:pub|abbrev|unfoldable|mutual)\s+)*(" + TOKEN + r") :(?:\s(.*))?$")
    block = re.compile(r"^(\s*)(?:pub\s+|abbrev\s+)*(record|data)\s+(" + TOKEN + r").*where$")
    for path in antt_files():
        inside = None
        lines = open(path).read().split("\n")
        for line, after in zip(lines, lines[1:] + [""]):
            if line.strip().startswith("--"):
                continue
            opened = block.match(line)
            if opened:
                names.add(opened.group(3))
                inside = (len(opened.group(1)), opened.group(2))
                continue
            if inside and line.strip() and len(line) - len(line.lstrip()) <= inside[0]:
                inside = None
            sort = re.match(r"^\s*(?:pub\s+)?(?:record|data|ruleset)\s+(?:pub\s+)?(" + TOKEN + ")", line)
            if sort:
                names.add(sort.group(1))
                continue
            found = plain.match(line)
            if not found or (found.group(2) or after.strip()).startswith("goal."):
                continue
            name = found.group(1)
            names.add(name)
            if inside and inside[1] == "record":
                fields.add(name)
    for path in antt_files() + rattle_files():
        names.update(m.group(1) for m in re.finditer(r"\bas «?(" + TOKEN + r")»?\s*[,}]", open(path).read()))
    names = {n for n in names if "-" in n and re.match(r"^[A-Za-z]", n)}
    return names, fields & names


def from_library(text):
    taken = set()
    for m in re.finditer(r"use Rattle\.std\.[^{;\n]*\{([^}]*)\}", text):
        for item in m.group(1).split(","):
            taken.add(item.split(" as ")[-1].strip().strip("«»"))
    return taken


def respell_line(line, names, fields, skip):
    """One line without its comment."""
    out, last = [], 0
    for m in re.finditer("«(" + TOKEN + ")»|(" + TOKEN + ")", line):
        name = m.group(1) or m.group(2)
        if name not in names or name in skip:
            continue
        before = line[: m.start()]
        if before.endswith("."):
            root = re.search(r"([^\s(){}\[\];,]+)\.$", before)
            root = root.group(1).split(".")[0] if root else ""
            if root == "goal" or (root in ("c", "w", "l") and name not in fields):
                continue
        out.append(line[last : m.start()] + spelled(name))
        last = m.end()
    return "".join(out) + line[last:]


def respell_file(path, names, fields):
    text = open(path).read()
    skip = from_library(text)
    mark = "--" if path.endswith(".antt") else "//"
    lines = []
    for line in text.split("\n"):
        generated = re.match(r"^use \S+\.(Goals|Given)(\.|\s)", line)
        if generated or line.strip().startswith(mark):
            lines.append(line)
            continue
        code, sep, comment = line.partition(" " + mark + " ")
        if path.endswith(".rt") and '"' in code:
            lines.append(line)
            continue
        lines.append(respell_line(code, names, fields, skip) + sep + comment)
    new = re.sub(r"«([a-z0-9]+(?:_[a-z0-9]+)+)»", r"\1", "\n".join(lines))
    if new != text:
        open(path, "w").write(new)
        return 1
    return 0


def respell_page(path, names):
    text = open(path).read()
    new = re.sub(r"`([^`\n]+)`", lambda m: "`" + (spelled(m.group(1)) if m.group(1) in names else m.group(1)) + "`", text)
    if new != text:
        open(path, "w").write(new)


def main():
    names, fields = defined()
    count = 0
    for path in antt_files() + rattle_files() + sorted(glob.glob("crates/*/must-fail/*.edit")):
        count += respell_file(path, names, fields)
    for path in sorted(glob.glob("*.md") + glob.glob("docs/*.md")):
        respell_page(path, names)
    together = {}
    for name in sorted(names):
        together.setdefault(spelled(name), []).append(name)
    for new, olds in sorted(together.items()):
        if len(olds) > 1:
            print("fall together:", new, olds)
    print(f"respell: {len(names)} names, {len(fields)} of them fields, in {count} files")
    with open(os.environ.get("RESPELL_LIST", "/tmp/respelled.txt"), "w") as out:
        for name in sorted(names):
            out.write(f"{name} -> {spelled(name)}\n")


main()
