#!/usr/bin/env python3
"""Brings the repository's own definitions and lemmas to today's spelling, after the kit's port.py: words in snake case, a dash only where
it joins two names.

usage: python3 tools/port/names.py table OUT TREE..   writes the table from trees as port.py left them
       python3 tools/port/names.py apply TREE         renames in a tree by the tables beside this script, once

Functions of src/, exported names, strings, inputs and outputs keep their names: only .antt files, the clauses and ghost items of .rt files,
must-fail edits and the pages are read, and only whole names are turned.
"""
import os
import re
import sys

HERE = os.path.dirname(os.path.realpath(__file__))
PART = r"[^\s(){}\[\],;.:«»\"`|]+"
TOKEN = re.compile(PART)


def files(tree, *ends):
    for top in ("crates", "docs", "README.md", "CONTRIBUTING.md"):
        path = os.path.join(tree, top)
        if os.path.isfile(path):
            if path.endswith(ends):
                yield path
        for folder, dirs, names in os.walk(path):
            dirs[:] = sorted(d for d in dirs if d not in ("out", ".git"))
            for name in sorted(names):
                if name.endswith(ends):
                    yield os.path.join(folder, name)


def read(path):
    with open(path, encoding="utf-8") as f:
        return f.read()


def is_function_proof(path):
    return os.path.basename(path) == "Proof.antt"


def declared(tree):
    """Names that .antt files declare, with a type or as a field; those that they import from libraries; and the names of each file."""
    own, lib, by_file = set(), set(), []
    for path in files(tree, ".antt", ".rt"):
        flat = re.sub(r"--.*|//.*", "", read(path))
        for m in re.finditer(r"\buse ((?!Rattle\.)[\w.]+|Rattle\.std\.[\w.]+)\.\{([^}]*)\}", flat):
            lib.update(TOKEN.findall(m.group(2)))
        if path.endswith(".rt"):
            by_file.append(set(hidden(flat)))
        elif not is_function_proof(path):
            by_file.append({m.group(0) for m in TOKEN.finditer(flat) if flat[m.start() - 1] != "." and flat[m.end() : m.end() + 1] != "."})
            own.update(m.group(1) for m in re.finditer(r"(?m)^\s*(?:pub )?(?:unfoldable |abbrev |opaque )*(?:pub )?(" + PART + r") :(?:\s|$)", flat))
    return own, lib, by_file


def hidden(text):
    """Names that a parameter of the same spelling would hide: those of clauses, at a function that has such a parameter."""
    for m in re.finditer(r"\bfn \w+[^(]*\(([^{]*?)\)((?:.|\n)*?)\n\s*\{\n", text):
        params = set(re.findall(r"(\w+):", m.group(1)))
        for t in TOKEN.findall(m.group(2)):
            if snake(t) in params and snake(t) != t:
                yield from (t, snake(t))


def snake(word):
    word = re.sub(r"([a-z0-9])([A-Z]+)(?=[A-Z][a-z]|$|[^A-Za-z])", lambda m: m.group(1) + "_" + m.group(2).lower(), word)
    return re.sub(r"([a-z0-9'])([A-Z])", lambda m: m.group(1) + "_" + m.group(2).lower(), word)


def new_name(name, words):
    parts = name.split("-")
    if not re.match(r"[a-z]", name):
        return name
    turned = [p if re.match(r"[A-Z]", p) else snake(p) for p in parts]
    out = turned[0]
    for was, before, part in zip(parts[1:], parts, turned[1:]):
        joins = any(re.search(r"[A-Z_]", p) for p in (was, before)) or (before in words and was in words)
        out += ("-" if joins else "_") + part
    return out


def table(out, trees):
    own, lib, by_file = set(), set(), []
    for tree in trees:
        a, b, c = declared(tree)
        own, lib, by_file = own | a, lib | b, by_file + c
    words = {n for n in own if "-" not in n and len(n) > 3} | {n for n in lib if "-" not in n and len(n) > 2}
    beside = {}
    for names in by_file:
        for name in names:
            beside.setdefault(name, []).append(names)
    turned = {}
    definitions = {n if "-" not in n else "" for n in own} | {new_name(n, words) for n in own if "-" not in n}
    # definitions before lemmas: a lemma that would have its definition's name gets an ending
    for name in sorted(own - lib, key=lambda n: ("-" in n, n)):
        new = first = new_name(name, words)
        if new == name:
            continue
        if "-" not in name:
            # a lemma that port.py gave that name: it gets the ending
            if any(new in names for names in beside.get(name, ())):
                print(f"falls together: {new} of port.py -> {new}_lem", file=sys.stderr)
                turned["=" + new] = new + "_lem"
        elif new in definitions or any(new in names or any(turned.get(other) == new for other in names) for names in beside.get(name, ())):
            new += "_lem"
            print(f"falls together: {name} -> {new}", file=sys.stderr)
        if any(turned.get(other) == new for names in beside.get(name, ()) for other in names):
            raise SystemExit(f"{name}: {new} is not free")
        turned[name] = new
    with open(out, "w", encoding="utf-8") as f:
        for name, new in sorted(turned.items()):
            f.write(f"{name}\t{new}\n")
    print(f"{len(turned)} of {len(own)} names", file=sys.stderr)


def turn(text, names, comment, lemmas):
    """The text with whole names turned; in comments only those with a capital within."""
    if lemmas:
        pattern = r"(?<![\w'.-])(" + "|".join(re.escape(n[1:]) for n in names if n[0] == "=") + r")(?![\w'-])"
        text = re.sub(pattern, lambda m: names["=" + m.group(1)], text)
        field = pattern.replace("(?<![\\w'.-])", "(?<=[.])")
        text = "\n".join(l if l.lstrip().startswith("use ") else re.sub(field, lambda m: names["=" + m.group(1)], l) for l in text.split("\n"))
    out = []
    for line in text.split("\n"):
        at = line.find(comment) if comment else -1
        code, rest = (line, "") if at < 0 else (line[:at], line[at:])
        pieces = re.split(r"(\"(?:[^\"\\]|\\.)*\")", code)
        code = "".join(p if k % 2 else TOKEN.sub(lambda m: names.get(m.group(0), m.group(0)), p) for k, p in enumerate(pieces))
        rest = TOKEN.sub(lambda m: names.get(m.group(0), m.group(0)) if re.search(r"[a-z][A-Z]", m.group(0)) else m.group(0), rest)
        out.append(code + rest)
    return "\n".join(out)


def turn_page(text, names):
    def code(m):
        return TOKEN.sub(lambda n: names.get(n.group(0), n.group(0)), m.group(0))

    text = re.sub(r"`[^`\n]*`", code, text)
    return TOKEN.sub(lambda m: names.get(m.group(0), m.group(0)) if re.search(r"[a-z][A-Z]", m.group(0)) else m.group(0), text)


def rows(name):
    return dict(line.split("\t") for line in read(os.path.join(HERE, name)).split("\n") if line)


def apply(tree):
    names = rows("names.tsv")
    # what port.py turned itself, for the edits and pages, which it leaves
    by_port = {old: names.get(new, new) for old, new in rows("turned-by-port.tsv").items()} | names
    for path in files(tree, ".antt", ".rt", ".edit", ".md"):
        text = read(path)
        if path.endswith(".md"):
            new = turn_page(text, by_port)
        else:
            comment = "--" if path.endswith(".antt") else "//" if path.endswith(".rt") else None
            new = turn(text, by_port if path.endswith(".edit") else names, comment, path.endswith(".antt") and not is_function_proof(path))
        if new != text:
            with open(path, "w", encoding="utf-8") as f:
                f.write(new)


def main(words):
    if len(words) > 2 and words[0] == "table":
        return table(words[1], words[2:])
    if len(words) == 2 and words[0] == "apply":
        return apply(words[1])
    print(__doc__)
    return 2


if __name__ == "__main__":
    raise SystemExit(main(sys.argv[1:]) or 0)
