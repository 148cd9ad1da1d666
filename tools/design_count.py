#!/usr/bin/env python3
"""Counts, in the src/ of a commit, the places that docs/DESIGN-PASS.md speaks of.

    python3 tools/design_count.py COMMIT [POINT]

Without COMMIT it reads the files as they stand. With POINT it lists the places of that point, one a line.
"""
import os
import re
import subprocess
import sys
from collections import defaultdict


def files(commit):
    if commit is None:
        out = subprocess.run(["git", "ls-files", "crates/*/src/*.rt"], capture_output=True, text=True, check=True).stdout
        return {p: open(p, encoding="utf-8").read() for p in out.split() if os.path.exists(p)}
    out = subprocess.run(["git", "ls-tree", "-r", "--name-only", commit, "crates"], capture_output=True, text=True, check=True).stdout
    paths = [p for p in out.split() if re.fullmatch(r"crates/[^/]+/src/.*\.rt", p)]
    return {p: subprocess.run(["git", "show", f"{commit}:{p}"], capture_output=True, text=True, check=True).stdout for p in paths}


def code(text):
    """The text without comments, ghost imports and clauses: what runs."""
    lines = []
    for line in text.split("\n"):
        if re.match(r"\s*(//|ghost use|requires\b|ensures\b|ghost )", line):
            line = ""
        lines.append(re.sub(r"\s//.*$", "", line))
    return "\n".join(lines)


def functions(text):
    """(line, name, head, body) of each function; the head has the clauses."""
    found = []
    for m in re.finditer(r"^[ ]*(?:pub )?(?:extern \"C\" )?fn (\w+)", text, re.M):
        brace = re.compile(r"^[ ]*\{$|\) (?:-> [^\n{]+ )?\{$|\{$", re.M).search(text, m.start())
        if not brace:
            continue
        start = text.index("{", brace.end() - 1)
        depth, i = 0, start
        while True:
            depth += {"{": 1, "}": -1}.get(text[i], 0)
            i += 1
            if depth == 0:
                break
        found.append((text.count("\n", 0, m.start()) + 1, m.group(1), text[m.start():start], text[start:i]))
    return found


def grep(texts, pattern, only_code=True):
    hits = []
    for path, text in texts.items():
        for n, line in enumerate((code(text) if only_code else text).split("\n"), 1):
            if re.search(pattern, line):
                hits.append(f"{path}:{n}: {line.strip()}")
    return hits


WORDS = r"pub fn let mut if else return for in while match as true false".split()
TYPES = r"u8 u16 u32 u64 usize i8 i16 i32 i64 f32 bool".split()


def shape(body):
    """A function's body with its names numbered by their first use, its types as T and its numbers as N."""
    names, out = {}, []
    for t in re.findall(r"[A-Za-z_]\w*|0x[0-9A-Fa-f]+|\d+|[^\s\w]", body):
        if t in WORDS:
            out.append(t)
        elif t in TYPES:
            out.append("T")
        elif re.match(r"\d", t):
            out.append("N")
        elif re.match(r"[A-Za-z_]", t):
            out.append(names.setdefault(t, f"n{len(names)}"))
        else:
            out.append(t)
    return " ".join(out)


def point1(texts):
    hits = grep(texts, r"^(pub )?enum ")
    hits += grep(texts, r"\bnumber: u8\b|fn \w*number\w*\(.*-> u8|^\) -> u8|fn tenonwhisk_\w+\(.*-> u8")
    hits += grep(texts, r"// .*(number of ticks if none|28 if none|16 for a byte that is none|FFFFh stands|or 0\.$|0 if (neither|none) applies|is 0 if it is refused)", False)
    return hits


def point2(texts):
    groups = defaultdict(list)
    for path, text in texts.items():
        for line, name, _, body in functions(code(text)):
            s = shape(body)
            if len(s.split()) > 24:
                groups[s].append(f"{path}:{line}: {name}")
    hits = [h for g in groups.values() if len(g) > 1 for h in g]
    types = defaultdict(list)
    for path, text in texts.items():
        for m in re.finditer(r"^(?:pub )?struct (\w+) \{\n(.*?)^\}", code(text), re.M | re.S):
            types[tuple(re.findall(r"(\w+):", m.group(2)))].append(f"{path}: struct {m.group(1)}")
    return hits + [h for g in types.values() if len(g) > 1 for h in g]


def point3(texts):
    hits = grep(texts, r"^\s*while ")
    for path, text in texts.items():
        c = code(text)
        for m in re.finditer(r"^([ ]*)for (\w+) in [^\n]*\.\.[^\n]*\{\n", c, re.M):
            end = c.index("\n" + m.group(1) + "}", m.end() - 1)
            if re.search(r"\[[^\]]*\b%s\b" % m.group(2), c[m.end():end]):
                hits.append(f"{path}:{c.count(chr(10), 0, m.start()) + 1}: {m.group(0).strip()}")
    return hits


BY_HAND = (r"fn (least|above|limit|clamp|saturate|to_signed|to_bits|low16|wide|byte|double|halfword|digit|glyph|is_text|begins|is_kept|phase_of|"
           r"phase_number|pick|is_active|is_idle|goes_off|print_number|print_sample|print_byte|print_bytes|print_place|put_flag|read_full|put_data|block_at|one_more)\b")


def point4(texts):
    return grep(texts, BY_HAND)


def point5(texts):
    facts, groups = defaultdict(list), defaultdict(list)
    for path, text in texts.items():
        for line, name, head, _ in functions(text):
            where = f"{path}:{line}: {name}"
            for clause in re.findall(r"requires \{ (.*) \}", head):
                for fact in re.split(r" × ", clause.strip("()")):
                    fact = re.sub(r"\.(now|old)\b", "", fact).strip("() ")
                    facts[fact].append(where)
            params = re.findall(r"(\w+): (&?(?:'a )?(?:mut )?[\w\[\]; ]+)", head.split("ensures")[0].split("requires")[0])
            for i, p in enumerate(params):
                for q in params[i + 1:]:
                    groups[(p, q)].append(where)
    hits = [f"fact in {len(w)} contracts: {f}" for f, w in facts.items() if len(w) >= 3]
    return hits + [f"group in {len(w)} functions: {p[0][0]}: {p[0][1]}, {p[1][0]}: {p[1][1]}" for p, w in groups.items() if len(w) >= 6]


def point6(texts):
    return grep(texts, r"^\s*(pub )?\w+: \[\w+; |^const [A-Z0-9_]+: \[|kinds: &|offsets: &|counts: &|\[\w+; 24\]|place: usize,$|let [mdv] = \[0x")


def point7(texts):
    return grep(texts, r"if w == 0x|^\s*\d+ => rt\.|if n == \d \{|floats: bool|bench: bool")


def main():
    args = sys.argv[1:]
    commit = args[0] if args else None
    texts = files(commit)
    points = {"1": point1, "2": point2, "3": point3, "4": point4, "5": point5, "6": point6, "7": point7}
    if len(args) > 1:
        print("\n".join(points[args[1]](texts)))
        return
    for k, f in points.items():
        print(f"point {k}: {len(f(texts))}")


if __name__ == "__main__":
    main()
