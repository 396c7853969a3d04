#!/usr/bin/env python3
"""The places that docs/DESIGN-PASS.md counts, in crates/*/src of a tree: python3 tools/places.py [TREE] [POINT].
With a point (1 to 8) each of its places is printed, without one the counts."""
import collections
import glob
import re
import sys

TREE = sys.argv[1] if len(sys.argv) > 1 else "."
ONLY = int(sys.argv[2]) if len(sys.argv) > 2 else None
INT = r"(?:u8|u16|u32|u64|usize|i64)"


def files(pattern):
    return sorted(p for p in glob.glob(f"{TREE}/crates/*/{pattern}", recursive=True) if "/out/" not in p)


def lines(pattern):
    for path in files(pattern):
        for number, line in enumerate(open(path), 1):
            yield path.split("crates/")[1], number, line


def code(line):
    return re.sub(r"//.*", "", line)


def search(regex, pattern="src/**/*.rt"):
    return [f"{p}:{n}: {l.strip()}" for p, n, l in lines(pattern) if re.search(regex, code(l)) and "ghost use" not in l]


def functions():
    """Each function: its place, its name, its parameters, its clauses, its body."""
    for path in files("src/**/*.rt"):
        text = re.sub(r"//[^\n]*", "", open(path).read())
        for m in re.finditer(r"\bfn (\w+)(?:<[^>(]*>)?\s*\(", text):
            depth, k = 1, m.end()
            while depth and k < len(text):
                depth += {"(": 1, ")": -1}.get(text[k], 0)
                k += 1
            params = text[m.end() : k - 1]
            body = re.search(r"\n?\s*\{\n", text[k:])
            if not body:
                continue
            start = k + body.end()
            depth, e = 1, start
            while depth and e < len(text):
                depth += {"{": 1, "}": -1}.get(text[e], 0)
                e += 1
            yield path.split("crates/")[1], m.group(1), params, text[k : k + body.start()], text[start : e - 1]


def shape(body):
    """A body with its names and numbers left out."""
    tokens = re.findall(r"\w+|[^\w\s]", body)
    keep = {"if", "else", "while", "for", "in", "match", "return", "let", "mut", "as", "Some", "None", "Ok", "Err", "true", "false"}
    return tuple(t if t in keep or not re.match(r"\w", t) else "x" for t in tokens)


def twins():
    found = collections.defaultdict(list)
    for path, name, _, _, body in functions():
        s = shape(body)
        if len(s) >= 24:
            found[s].append(f"{path} {name}")
    return ["; ".join(group) for group in found.values() if len(group) > 1]


def together():
    """Three parameters in a row that three or more functions share, the longest runs alone."""
    seen = collections.defaultdict(list)
    for path, name, params, _, _ in functions():
        names = [re.sub(r"\s+", " ", p).strip() for p in re.split(r",\s*\n|, (?=\w+: )", params) if ":" in p]
        for i in range(len(names) - 2):
            seen[tuple(names[i : i + 3])].append(f"{path} {name}")
    return [f"{', '.join(k)}: {len(v)} functions" for k, v in seen.items() if len(v) >= 3]


def facts():
    seen = collections.Counter()
    for _, _, _, clauses, _ in functions():
        for c in re.findall(r"requires(?: \w+)? \{(.*?)\}\s*(?=\n|$)", clauses, re.S):
            seen[re.sub(r"\s+", " ", c).strip()] += 1
    return [f"{k}: {v} functions" for k, v in seen.items() if v >= 3]


def shaped():
    """Enums with a case that carries nothing and one, or one beside cases of an error, that carries a value."""
    found = []
    for path in files("src/**/*.rt"):
        text = re.sub(r"//[^\n]*", "", open(path).read())
        for m in re.finditer(r"enum (\w+)(?:<[^>]*>)? \{(.*?)\n\}", text, re.S):
            cases = re.findall(r"^    (\w+)(.*?)(?=^    \w|\Z)", m.group(2), re.S | re.M)
            bare = [c for c, rest in cases if not re.search(r"[({]", rest)]
            full = [c for c, rest in cases if re.search(r"[({]", rest)]
            if 2 <= len(cases) <= 3 and full and (bare or len(cases) == 2):
                found.append(f"{path.split('crates/')[1]} {m.group(1)} {{ {', '.join(c for c, _ in cases)} }}")
    return found


POINTS = {
    1: [
        ("own enums of the shape of Option or Result", shaped),
        ("flags with a value beside them", lambda: search(r"\b(has\w*|good|present|whole|going)\s*: bool")),
        ("numbers for kinds and refusals", lambda: search(rf"\b\w*(reason|kind|wire|operation|work|refusal)\w*\s*: {INT}\b")),
    ],
    2: [("bodies of one shape", twins)],
    3: [("while", lambda: search(r"\bwhile\b"))],
    4: [
        ("casts", lambda: search(rf"\bas {INT}\b")),
        ("functions that convert, compare or copy", lambda: search(r"\bfn (wide|octet|low|lesser|same|one|bit|of_bits|to_bits|twice_bits|once_more|index|place_behind)\b")),
    ],
    5: [("three parameters that three functions share", together), ("requires of three functions", facts)],
    6: [
        ("arrays and slices with a count or a second array beside them", lambda: search(r"\[(u8|u32|u64|usize|bool); [A-Z]\w+\]|= \[[^;\]]+; [A-Z]\w+\]")),
    ],
    7: [("bool parameters that choose a step", lambda: [f"{p} {n}({a.strip()})" for p, n, q, _, _ in functions() for a in q.split(",") if re.search(r"\b(text|octets|whole|suits|plain)\s*: bool", a)])],
    8: [
        ("answers", lambda: search(r"^pub \S+ : goal\.", "proofs/**/Answers.antt")),
        ("files of answers", lambda: files("proofs/**/Answers.antt")),
        ("lines of proofs", lambda: [l for _, _, l in lines("proofs/**/*.antt")]),
    ],
}

for point, kinds in POINTS.items():
    if ONLY not in (None, point):
        continue
    for what, find in kinds:
        places = find()
        print(f"{point}. {what}: {len(places)}")
        if ONLY:
            print("".join(f"     {p}\n" for p in places), end="")
