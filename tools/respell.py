#!/usr/bin/env python3
"""Spells this repository's own definitions, lemmas and fields as today's Rattle does: words in snake case.

usage: python3 tools/respell.py        at the top of the repository, once, behind port.py

Every name that a file of specs/ or a file of lemmas declares and that begins with a small letter is turned:
`varintAt` to `varint_at`, `held-good` to `held_good`. Where two names would fall together the lemma gets `_lem` behind
it, as a lemma that would have its function's name does in the library. It goes by whole words, in files of specs/ and
proofs/, in clauses and `ghost use` items, in must-fail edits, and in the pages of docs/ and README.md. Types, functions
of src/, exported names, strings, inputs and outputs keep theirs. A name that a file imports from the library stays there.
What it can't decide it prints behind `look:`.
"""

import collections
import os
import re
import sys

DECLARED = re.compile(r"^(\s*)(?:(?:pub|abbrev|unfoldable|opaque|ruleset)\s+)*([^\s:{}().,;«»]+)(?: \{[^{}\n]*\})*\s+(?::\s|=\s*\()")
FIELD = re.compile(r"^\s+pub\s+([^\s:{}().,;«»]+)\s+:\s")
TOKEN = re.compile(r"[^\s(){}.;,@\"«»\[\]]+")
WORD = re.compile(r"[A-Za-z][\w]*(?:-[A-Za-z0-9][\w]*)*'*")
OF_LIBRARY = re.compile(r"\buse Rattle\.(?:std|core|std_\w+|libc|io|os)\.[^\s{;]*\{([^}]*)\}|\buse (?!Rattle\.)[\w.]+\.\{([^}]*)\}")
OF_FUNCTION = re.compile(r"/(?:Proof|Answers|Invariants)\.antt$")


def files(*endings):
    for folder, dirs, names in os.walk("crates"):
        dirs[:] = sorted(d for d in dirs if d != "out")
        for name in sorted(names):
            if name.endswith(endings):
                yield os.path.join(folder, name)


def read(path):
    with open(path, encoding="utf-8") as f:
        return f.read()


def snake(name):
    return re.sub(r"(?<=[a-z0-9])[A-Z]", lambda m: "_" + m[0].lower(), name).replace("-", "_")


def declared():
    """The names that specs/ and lemma files declare, each with the files, and the fields of records."""
    names, fields = collections.defaultdict(set), collections.defaultdict(set)
    for path in files(".antt"):
        if OF_FUNCTION.search(path):
            continue
        for line in read(path).splitlines():
            field = FIELD.match(line)
            if field:
                fields[field.group(1)].add(path)
                continue
            m = DECLARED.match(line)
            if m and not m.group(1):
                names[m.group(2)].add(path)
    small = lambda it: {n: p for n, p in it.items() if n[0].islower()}
    return small(names), small(fields)


def table():
    names, fields = declared()
    taken = collections.Counter(snake(n) for n in names)
    to = {}
    for name, paths in names.items():
        new = snake(name)
        if taken[new] > 1 and all("/proofs/" in p for p in paths):
            of_specs = [n for n in names if snake(n) == new and any("/specs/" in p for p in names[n])]
            others = [n for n in names if snake(n) == new and n != name]
            if of_specs or ("-" in name and any("-" not in n for n in others)):
                new += "_lem"
        if name != new and any(new in from_library(read(p)) for p in paths):
            new += "_lem"
        to[name] = new
    met = collections.defaultdict(list)
    for name, new in to.items():
        met[new].append(name)
    for new, olds in met.items():
        if len(olds) > 1:
            print(f"look: {olds} fall together as {new}")
    return {n: t for n, t in to.items() if n != t}, {n: snake(n) for n in fields if snake(n) != n}, names


def from_library(text):
    out = set()
    for m in OF_LIBRARY.finditer(text):
        for item in (m.group(1) or m.group(2) or "").split(","):
            out.add(item.split(" as ")[-1].strip())
    return out


def met_here(text, to):
    """A name of this file alone that is spelled as another one will be: it gets `_lem`."""
    code = re.sub(r"(?m)(?:^|\s)--.*", "", text)
    words = set(re.findall(r"(?<![^\s(){};,@\"«»\[\]])[^\s(){}.;,@\"«»\[\]]+(?= [^:\n]*:|$)", code, re.M))
    tokens = set(TOKEN.findall(code))
    new = {to[o] for o in tokens if o in to and "_lem" not in to[o]}
    return {n: n + "_lem" for n in new if n in words and n not in to and n not in from_library(text)}


def turn_antt(path, text, to, fields):
    """Code by whole words; of a comment the words in camel case."""
    stay = from_library(text)
    function = bool(OF_FUNCTION.search(path))
    out = []
    for line in text.split("\n"):
        code, mark, comment = line.partition("--") if re.search(r"(?:^|\s)--", line) else (line, "", "")
        if mark and not re.match(r"^(.*?)(?:^|\s)$", code):
            code, mark, comment = line, "", ""

        def one(m):
            word = m[0]
            before = code[: m.start()]
            if word in stay:
                return word
            if before.endswith("."):
                head = re.search(r"([^\s(){};,@\"«»\[\]]+)\.$", before)
                first = head.group(1).split(".")[0] if head else ""
                qualified = first == "Rattle" or first[:1].isupper()
                if qualified and word in to:
                    return to[word]
                return fields.get(word, word)
            return to.get(word, fields.get(word, word))

        code = TOKEN.sub(one, code)
        comment = WORD.sub(lambda m: to.get(m[0], m[0]) if re.search(r"[a-z][A-Z]", m[0]) else m[0], comment)
        out.append(code + mark + comment)
    return "\n".join(out)


def turn_rt(text, to, fields):
    """Rust has no name in camel case that begins small, and rt fmt puts spaces around a minus."""
    stay = from_library(text)
    either = {**fields, **to}
    marked = lambda w: re.search(r"[a-z0-9][A-Z]|-", w)
    return WORD.sub(lambda m: either.get(m[0], m[0]) if marked(m[0]) and m[0] not in stay else m[0], text)


def turn_edit(path, text, to, fields, known):
    """An edit stands as the older Rattle spelled it: paths with a middle dot, fields behind a space, and the names that
    port.py turned in the files."""
    text = re.sub(r"Rattle·(\w+)·specs\.specs\b", r"Rattle.\1.specs", text)
    text = re.sub(r"Rattle·(\w+)\.", r"Rattle.\1.", text)
    head, rest = text.split("\n", 1) if text.startswith("#") else ("", text)
    rest = re.sub(r"(?<=[\w)']) \.(?=[a-z])", ".", rest)
    rest = re.sub(r"\(([\w']+(?:\.[\w']+)+)\)", r"\1", rest)
    late = {w: snake(w) for w in WORD.findall(rest) if w[0].islower() and w not in to and snake(w) in known and snake(w) != w}
    of_rust = re.search(r"(?m)^file: .*\.rt$", rest)
    turned = turn_rt(rest, {**late, **to}, fields) if of_rust else turn_antt(path, rest, {**late, **to}, fields)
    return (head + "\n" if head else "") + turned


def turn_page(text, to, fields):
    either = {**fields, **to}

    def span(m):
        return WORD.sub(lambda w: either.get(w[0], w[0]) if re.search(r"[a-z0-9][A-Z]|-", w[0]) else w[0], m[0])

    return re.sub(r"`[^`\n]+`", span, text)


def main():
    to, fields, names = table()
    new_names = set(to.values()) | set(fields.values())
    if len(sys.argv) > 1 and sys.argv[1] == "--check":
        for n in sorted(to):
            print(n, to[n])
        return
    for path in list(files(".antt", ".rt", ".edit")):
        old = read(path)
        if path.endswith(".antt"):
            new = turn_antt(path, old, {**to, **met_here(old, to)}, fields)
        elif path.endswith(".rt"):
            new = turn_rt(old, to, fields)
        else:
            new = turn_edit(path, old, to, fields, {snake(n) for n in [*names, *fields]})
        before = set(TOKEN.findall(old)) | set(re.findall(r"\w+", old) if path.endswith(".rt") else ())
        came = (set(TOKEN.findall(new)) - set(TOKEN.findall(old))) & new_names
        both = {n for n in before & {*to.values(), *fields.values()} if any(o in before and t == n for o, t in [*to.items(), *fields.items()])}
        if both:
            print(f"look: {path}: {sorted(both)} stood there before")
        if new != old:
            with open(path, "w", encoding="utf-8") as f:
                f.write(new)
    for page in ["README.md", "CONTRIBUTING.md", *sorted(os.path.join("docs", n) for n in os.listdir("docs"))]:
        if page.endswith(".md") and not page.endswith("CHANGES.md"):
            old = read(page)
            new = turn_page(old, to, fields)
            if new != old:
                with open(page, "w", encoding="utf-8") as f:
                    f.write(new)


if __name__ == "__main__":
    main()
