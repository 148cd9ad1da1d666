#!/usr/bin/env python3
"""Brings the repository's own definitions and lemmas to the spelling of today's Rattle.

usage: python3 tools/respell.py          once, at the top, after port.py of the kit
       python3 tools/respell.py --list   prints each name, old and new, and changes nothing

Words are in snake case, those that an import gives a name too: `loopedOf` becomes `looped_of`, `run-is-log` becomes `run_is_log`, and a prime is `'`. Types and modules keep their
spelling, and so do functions, fields and files of src/, names that come from a library, strings, and the labels that Rattle gives to goals.
A lemma that would have its function's name gets `_lem`. The script stops, and changes nothing, where two names of one file would fall together.
"""
import glob
import os
import re
import sys

DECLARED = re.compile(r"^\s*(?:(?:abbrev|unfoldable)\s+)?(?:pub\s+)?(?:ruleset\s+)?((?!λ)[^\s:{}()\[\]|]+)\s+(?:\{[^}]*\}\s*|\([^)]*\)\s*)*:(?:\s|$)")
TOKEN = re.compile(r"[^\s(){}\[\];,.`\"]+")
USE = re.compile(r"^\s*(?:pub\s+)?(?:ghost\s+)?use\s+([^{};]*?)\.?\{([^}]*)\}", re.M)
# a name of an import whose plain form is taken
WORDS = {"markedAt": "is_marked_at"}
# fields of records, which are also turned after a dot
FIELDS = {"length-is", "marks-size", "out-is", "ram-size", "wet-left", "wet-right"}
# lemmas that already have the name of a function
LEMMAS = {"entry_in", "half_at", "kept_in", "past_end", "put_one", "signed_part"}
OURS = re.compile(r"Rattle\.(\w+)\.(?:specs|proofs)")


def snake(name):
    name = name.replace("′", "'").replace("-", "_")
    name = re.sub(r"([a-z0-9])([A-Z])", lambda m: m.group(1) + "_" + m.group(2).lower(), name)
    return name


def read(path):
    with open(path, encoding="utf-8") as f:
        return f.read()


def declared(path):
    found = set()
    for line in read(path).split("\n"):
        m = DECLARED.match(line)
        if m and not line.lstrip().startswith("--"):
            found.add(m.group(1))
    return found


def from_elsewhere(text, crates):
    """The names that a file takes from libraries."""
    names = set()
    for path, items in USE.findall(text):
        m = OURS.match(path.strip())
        if m and m.group(1) in crates:
            continue
        for item in items.split(","):
            names.add(item.split(" as ")[0].strip())
    return names


def from_here(text, crates):
    names = set()
    for path, items in USE.findall(text):
        m = OURS.match(path.strip())
        if m and m.group(1) in crates:
            for item in items.split(","):
                names.add(item.split(" as ")[-1].strip())
    return names


def main():
    crates = {os.path.basename(p) for p in glob.glob("crates/*")}
    laws = sorted(glob.glob("crates/*/specs/*.antt") + glob.glob("crates/*/proofs/*.antt"))
    proofs = sorted(glob.glob("crates/*/proofs/*/**/*.antt", recursive=True))
    sources = sorted(glob.glob("crates/*/src/**/*.rt", recursive=True))
    edits = sorted(glob.glob("crates/*/must-fail/*.edit"))
    pages = sorted(glob.glob("*.md") + glob.glob("docs/**/*.md", recursive=True) + glob.glob("crates/*/*.md"))
    names = set()
    for path in laws:
        names |= {name for name in declared(path) if name[0].islower()}
    for path in laws + proofs + sources:
        for _, items in USE.findall(read(path)):
            names |= {item.split(" as ")[1].strip() for item in items.split(",") if " as " in item and item.split(" as ")[1].strip()[0].islower()}
    new = {}
    taken = {name for name in names if snake(name) == name}
    for name in sorted(names - taken, key=lambda n: ("-" in n, n)):
        to = WORDS.get(name, snake(name))
        if to in taken and to in LEMMAS:
            new[to] = to + "_lem"
        elif to in taken:
            to += "_lem"
        if to in taken and to not in LEMMAS:
            print(f"{name}: {to} is taken")
            return 1
        new[name] = to
        taken.add(to)
    # port.py turns some of the names in crates, and none in edits and pages
    anywhere = dict(new)
    for path in edits + pages:
        for word in TOKEN.findall(read(path)):
            if word not in anywhere and word[0].islower() and snake(word) != word and snake(word) in taken:
                anywhere[word] = snake(word)
    if "--list" in sys.argv:
        for name in sorted(new):
            print(name, new[name])
        return 0

    bad = []
    work = []
    for path in laws + proofs + sources + edits:
        text = read(path)
        keep = from_elsewhere(text, crates) & set(new)
        names_here = anywhere if path.endswith(".edit") else new
        if keep:
            print(f"{path}: from a library, kept: {' '.join(sorted(keep))}")

        def turn(m, text, keep=keep, path=path, names_here=names_here):
            word = m.group(0)
            if word not in names_here or word in keep or word in LEMMAS and not path.endswith(".antt"):
                return word
            if m.start() > 0 and text[m.start() - 1] == "." and word not in FIELDS and not re.search(r"(?:\bspu|\bnoise|\bvoice|\benvelope|\bcalls|\bnumbers)\.$", text[:m.start()]):
                return word
            return names_here[word]

        turned = []
        for line in text.split("\n"):
            turned.append(TOKEN.sub(lambda m, line=line: turn(m, line), line))
        turned = "\n".join(turned)
        here = from_here(text, crates) | (declared(path) if path.endswith(".antt") else set())
        seen = {}
        for name in here | from_elsewhere(text, crates):
            to = name if name in keep or name not in new else new[name]
            if to in seen and seen[to] != name:
                bad.append(f"{path}: {name} and {seen[to]} fall together as {to}")
            seen[to] = name
        work.append((path, text, turned))
    for path in pages:
        text = read(path)
        work.append((path, text, re.sub(r"`[^`\n]*`", lambda m: TOKEN.sub(lambda w: anywhere.get(w.group(0), w.group(0)), m.group(0)), text)))
    if bad:
        print("\n".join(bad))
        return 1
    changed = 0
    for path, text, turned in work:
        if text != turned:
            with open(path, "w", encoding="utf-8") as f:
                f.write(turned)
            changed += 1
    print(f"{len(new)} names, {changed} files")
    return 0


if __name__ == "__main__":
    sys.exit(main())
