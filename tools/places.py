#!/usr/bin/env python3
"""Lists the places in crates/*/src that a point of docs/DESIGN-PASS.md speaks of.

    python3 tools/places.py [POINT..] [--in FOLDER] [--count]

A pattern can only point: what it finds is read, and the page says of each place what became of it.
"""
import glob
import itertools
import os
import re
import sys

NAMES = {
    1: "own enums of the shape of Option or Result, flags beside a value, number codes",
    2: "functions of one shape",
    3: "loops",
    4: "conversion, comparison and printing by hand",
    5: "facts and parameters that come again",
    6: "buffers with a length beside",
    7: "switches",
    8: "proof files",
}


def sources(root):
    for path in sorted(glob.glob(os.path.join(root, "crates/*/src/**/*.rt"), recursive=True)):
        with open(path, encoding="utf-8") as f:
            yield os.path.relpath(path, root), f.read()


def plain(text):
    """The text without comments, line for line."""
    return re.sub(r"//[^\n]*", "", text)


def line_of(text, at):
    return text.count("\n", 0, at) + 1


def by_line(path, text, pattern):
    for n, line in enumerate(plain(text).split("\n"), 1):
        if re.search(pattern, line) and not re.match(r"\s*(ghost|ensures|requires)\b", line):
            yield f"{path}:{n}: {line.strip()}"


def block(text, at):
    """The text from the brace at or after `at` to its partner."""
    start = text.index("{", at)
    depth = 0
    for i in range(start, len(text)):
        depth += {"{": 1, "}": -1}.get(text[i], 0)
        if depth == 0:
            return text[start : i + 1]
    return text[start:]


def functions(path, text):
    """Each function: place, name, parameters, clauses, body."""
    text = plain(text)
    for m in re.finditer(r"^( *)(?:pub(?:\(crate\))? )?fn (\w+)[^\n]*?(?=[(<])", text, re.M):
        head_end = re.compile(r"^%s(\{|.*;$)" % m.group(1), re.M).search(text, m.end())
        head = text[m.start() : head_end.start()] if head_end else ""
        one_line = text[m.start() : text.index("\n", m.start())]
        if one_line.rstrip().endswith("{"):
            head = one_line.rstrip()[:-1]
            body = block(text, m.start() + len(head))
        elif head_end and head_end.group(1) == "{":
            body = block(text, head_end.start())
        else:
            body = ""
        clauses = re.findall(r"(?:ensures|requires) ?\w* ?\{.*", head)
        signature = re.sub(r"(?:ensures|requires).*", "", head, flags=re.S)
        params = re.findall(r"(\w+): ([^,()]+?(?:\[[^\]]*\])?)(?=[,)])", signature)
        yield f"{path}:{line_of(text, m.start())}", m.group(2), params, clauses, body


def shape(body):
    tokens = re.findall(r"\"[^\"]*\"|b?'.'|\w+|[^\s\w]", body)
    keep = set("if else match for in while let mut return Ok Err Some None Self self true false as".split())
    return [t if t in keep or not re.match(r"[\w\"']", t) else "_" for t in tokens]


def point1(root):
    for path, text in sources(root):
        code = plain(text)
        for m in re.finditer(r"enum (\w+)(?:<[^>]*>)? \{", code):
            variants = re.findall(r"^    (\w+)([({]?)", block(code, m.start()), re.M)
            if len(variants) == 2 and any(not v[1] for v in variants):
                yield f"{path}:{line_of(code, m.start())}: enum {m.group(1)}: " + ", ".join(v[0] for v in variants)
        yield from by_line(path, text, r"^    (pub(\(crate\))? )?\w+: bool,$")
        yield from by_line(path, text, r"\b(number|code|kind|status): u8\b")
        yield from by_line(path, text, r"^    (pub )?(next|state|mode): [A-Z]\w*,$")


def point2(root):
    groups = {}
    for path, text in sources(root):
        for place, name, _, _, body in functions(path, text):
            tokens = shape(body)
            if len(tokens) >= 18:
                groups.setdefault(" ".join(tokens), []).append(f"{place} {name}")
    for members in sorted(groups.values(), key=lambda g: g[0]):
        if len(members) > 1:
            yield "; ".join(members)


def point3(root):
    for path, text in sources(root):
        yield from by_line(path, text, r"^\s*('\w+: )?(for|while|loop)\b")


def point4(root):
    for path, text in sources(root):
        yield from by_line(path, text, r"\bas (u8|u16|u32|u64|usize|char)\b")
        yield from by_line(path, text, r"[/%] (256|16)\)")
        yield from by_line(path, text, r"\.0 [=!<>]=? [\w.()]*\.0\b")
        yield from by_line(path, text, r"fn (from_|to_)\w+")
        yield from by_line(path, text, r"b'[0aA]'")


def point5(root):
    clauses, pairs = {}, {}
    for path, text in sources(root):
        if "tests" in path:
            continue
        crate = path.split("/")[1]
        for place, name, params, own, _ in functions(path, text):
            for clause in own:
                for words in re.findall(r"(?:[A-Z]\.\w+ ){2,}|with_card self\.old self\.new\.card", clause):
                    clauses.setdefault(f"{words.strip()}", []).append(f"{place} {name}")
            for pair in itertools.combinations(sorted(set(params)), 2):
                pairs.setdefault((crate, pair), []).append(f"{place} {name}")
    for words, members in sorted(clauses.items()):
        if len(members) >= 3:
            yield f"`{words}` in {len(members)} functions: " + "; ".join(members)
    for (crate, pair), members in sorted(pairs.items()):
        if len(members) >= 3:
            both = " and ".join(f"{n}: {t}" for n, t in pair)
            yield f"{crate}: {both} in {len(members)} functions: " + "; ".join(members)


def point6(root):
    for path, text in sources(root):
        yield from by_line(path, text, r"let mut \w+ = \[[^\]]*; *\w+\]")
        yield from by_line(path, text, r"&mut \[u8; \w+\]")
        yield from by_line(path, text, r"(len\(\) [<>=!]=? 0|\[at( \+ 1)?\]|\[end( \+ \d)?\])")


def point7(root):
    for path, text in sources(root):
        yield from by_line(path, text, r"fn \w+.*\b\w+: bool\b")
        yield from by_line(path, text, r"\bfn\(|\bdyn\b")


def point8(root):
    for crate in sorted(os.listdir(os.path.join(root, "crates"))):
        files = glob.glob(os.path.join(root, "crates", crate, "proofs/**/*.antt"), recursive=True)
        texts = [open(f, encoding="utf-8").read() for f in files]
        lines = sum(1 for t in texts for l in t.split("\n") if l.strip() and not l.startswith("use "))
        answers = sum(len(re.findall(r"^pub [\w-]+ : goal\.", t, re.M)) for f, t in zip(files, texts) if f.endswith("Answers.antt"))
        if files:
            yield f"{crate}: {len(files)} files, {answers} answers, {lines} lines without `use`"


def main():
    args = sys.argv[1:]
    root = os.path.join(os.path.dirname(os.path.abspath(__file__)), "..")
    if "--in" in args:
        at = args.index("--in")
        root = args[at + 1]
        del args[at : at + 2]
    count = "--count" in args
    points = [int(a) for a in args if a.isdigit()] or sorted(NAMES)
    for point in points:
        places = list(globals()[f"point{point}"](os.path.normpath(root)))
        print(f"{point}. {NAMES[point]}: {len(places)}")
        if not count:
            for place in places:
                print("   ", place)


main()
