#!/usr/bin/env python3
"""Brings the repository's own names to today's spelling: words in snake case, types and modules in camel case.

usage: python3 tools/respell.py [--dry]     at the top of the repository, once, after the kit's port.py

It goes over crates/*/specs, proofs, src and must-fail, and over the pages. Renamed are names that stand in a repository's own .antt file and are none of a
library's there: `holdsWholeKey` becomes `holds_whole_key`, `met-once` becomes `met_once`. Where a definition and a law about it would fall together, the
law gets `_lem`. Left alone: names that begin with a capital, what a proof file answers (`loop-holds : tie...`), paths into what the kit makes, code, strings.
"""
import collections
import os
import re
import sys

DRY = "--dry" in sys.argv
NAME = re.compile(r"[A-Za-z_µ-ωΑ-Ωℓℕℤ][\w'′]*(?:-[\w'′]+)*")
USE = re.compile(r"^(?:pub )?(?:ghost )?use ([^\s{;]+?)(?:\.\{([^}]*)\})?(?: as ([\w'-]+))?;?$", re.M)
OWN = sorted(os.listdir("crates"))
# a definition and a law that the kit's scripts, or this one, would give one name
LEM = "_lem"


def antt_files():
    for top in OWN:
        for part in ("specs", "proofs"):
            for folder, dirs, names in os.walk(os.path.join("crates", top, part)):
                dirs.sort()
                for name in sorted(names):
                    if name.endswith(".antt"):
                        yield os.path.join(folder, name)


def rt_files():
    for top in OWN:
        for folder, dirs, names in os.walk(os.path.join("crates", top, "src")):
            dirs.sort()
            for name in sorted(names):
                if name.endswith(".rt"):
                    yield os.path.join(folder, name)


def edit_files():
    for top in OWN:
        folder = os.path.join("crates", top, "must-fail")
        if os.path.isdir(folder):
            for name in sorted(os.listdir(folder)):
                if name.endswith(".edit"):
                    yield os.path.join(folder, name)


def pages():
    for folder in (".", "docs"):
        for name in sorted(os.listdir(folder)):
            if name.endswith(".md") and name not in ("PORT.md", "LANDINGS.md"):
                yield os.path.join(folder, name)


def read(path):
    with open(path, encoding="utf-8") as f:
        return f.read()


def is_own(path):
    m = re.match(r"Rattle[.·](\w+)", path)
    return bool(m) and m.group(1) in OWN


def library_names(text):
    names = set()
    for m in USE.finditer(text):
        path, inner, other = m.groups()
        if is_own(path):
            continue
        for item in (inner or "").split(","):
            item = item.strip()
            names.update(w for w in re.split(r"\s+as\s+", item) if w)
        if other:
            names.add(other)
    return names


def wants(name):
    return name[0].islower() and (re.search(r"[A-Z]", name) or "-" in name)


def snake(name):
    # a fact's name keeps its capital behind a dash
    parts = name.split("-")
    out = []
    for i, part in enumerate(parts):
        if i and part[:1].isupper():
            out.append("-" + part)
            continue
        word = re.sub(r"([a-z0-9'])([A-Z])", lambda m: m.group(1) + "_" + m.group(2).lower(), part)
        out.append(("_" if i else "") + word[:1].lower() + word[1:])
    return "".join(out)


def code_and_comment(line):
    i = line.find("--")
    while i >= 0:
        if i == 0 or line[i - 1] in " \t":
            return line[:i], line[i:]
        i = line.find("--", i + 1)
    return line, ""


# ---- which names are the repository's own
DEFINES = re.compile(r"^\s*(?:abbrev |unfoldable )?(?:pub )?((?:[a-zµ-ω][\w'′]*)(?:-[\w'′]+)*)(?: [^:]*)? :(?= )", re.M)
ANSWERS = re.compile(r"^(?:abbrev )?(?:pub )?([\w'-]+) : tie\.", re.M)

files = {p: read(p) for p in antt_files()}
defined = set()
fields = set()
for path, text in files.items():
    answers = set(ANSWERS.findall(text)) if path.endswith("Proof.antt") else set()
    for line in text.split("\n"):
        m = re.match(r"^( *)(?:abbrev |unfoldable )?(?:pub )?([a-zµ-ω][\w'′]*(?:-[\w'′]+)*)(?: .*)? :(?: |$)", code_and_comment(line)[0])
        if m and m.group(2) not in answers:
            defined.add(m.group(2))
            if m.group(1):
                fields.add(m.group(2))
camel = {n for n in defined if wants(n) and "-" not in n}
kebab = {n for n in defined if wants(n) and "-" in n}
taken = {snake(n) for n in camel}
new = {n: snake(n) for n in camel}
for n in kebab:
    new[n] = snake(n) + LEM if snake(n) in taken else snake(n)
# what the kit's script has respelled already and now falls together with a definition
already = {n for n in defined if n in taken and not wants(n)}


def respell(name, library, skip):
    if name in library or name in skip:
        return name
    if name in new:
        return new[name]
    if name in already:
        return name + LEM
    if wants(name):
        return snake(name)
    return name


clashes = collections.defaultdict(set)


def turn_antt(path, text):
    library = library_names(text)
    skip = set(ANSWERS.findall(text)) if path.endswith("Proof.antt") else set()
    seen = collections.defaultdict(set)
    lines = []
    for line in text.split("\n"):
        m = USE.match(line)
        if m and not is_own(m.group(1)):
            lines.append(line)
            continue
        code, comment = code_and_comment(line)
        out, at = [], 0
        for m in NAME.finditer(code):
            name, before = m.group(0), code[: m.start()]
            out.append(code[at : m.start()])
            at = m.end()
            if before.endswith("·") or re.search(r"Rattle\.[\w.'-]*\.$", before):
                fresh = name
            elif before.endswith("."):
                # a field: one of the repository's records, and not what the kit made
                root = re.search(r"([\w'-]+)(?:\.[\w'-]+)*\.$", before)
                made = root is not None and root.group(1) in ("tie", "goal", "c", "lts") and "-" in name
                own = name in fields and (name in new or name in already)
                fresh = respell(name, set(), set()) if own and not made else name
            else:
                fresh = respell(name, library, skip)
            seen[fresh].add(name)
            out.append(fresh)
        out.append(code[at:])
        comment = re.sub(r"`([^`]+)`", lambda m: "`" + new.get(m.group(1), m.group(1)) + "`", comment)
        lines.append("".join(out) + comment)
    for fresh, olds in seen.items():
        if len(olds) > 1:
            clashes[path].add((fresh, tuple(sorted(olds))))
    return "\n".join(lines)


def turn_rt(path, text):
    lines = []
    for line in text.split("\n"):
        i = line.find("//")
        code, comment = (line, "") if i < 0 else (line[:i], line[i:])
        code = NAME.sub(lambda m: new[m.group(0)] if m.group(0) in camel else m.group(0), code)
        comment = re.sub(r"`([^`]+)`", lambda m: "`" + new.get(m.group(1), m.group(1)) + "`", comment)
        lines.append(code + comment)
    return "\n".join(lines)


def turn_edit(path, text):
    lines = []
    for line in text.split("\n"):
        if line.startswith(("old: ", "new: ")) and "use " not in line[:14]:
            line = line[:5] + NAME.sub(lambda m: new.get(m.group(0), m.group(0)), line[5:])
        elif line.startswith("#"):
            line = re.sub(r"`([^`]+)`", lambda m: "`" + new.get(m.group(1), m.group(1)) + "`", line)
        lines.append(line)
    return "\n".join(lines)


def turn_page(path, text):
    return re.sub(r"`([^`\n]+)`", lambda m: "`" + new.get(m.group(1), m.group(1)) + "`", text)


changed = 0
for walk, turn in ((antt_files, turn_antt), (rt_files, turn_rt), (edit_files, turn_edit), (pages, turn_page)):
    for path in walk():
        text = read(path)
        fresh = turn(path, text)
        if fresh != text:
            changed += 1
            if not DRY:
                with open(path, "w", encoding="utf-8") as f:
                    f.write(fresh)
print("respell: %d names, %d files" % (len(new) + len(already), changed))
print("respell: laws that got %s: %s" % (LEM, ", ".join(sorted([n for n in kebab if new[n].endswith(LEM)] + list(already)))))
for path in sorted(clashes):
    for fresh, olds in sorted(clashes[path]):
        print("look: %s: %s were %s" % (path, fresh, ", ".join(olds)))
