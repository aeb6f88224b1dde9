#!/usr/bin/env python3
"""Respells the names of this repository's own definitions and lemmas: words in snake case, facts, types and modules in camel case.

usage: python3 tools/respell.py [--list]     at the top, once, after the kit's port.py

A dash stays between two names of functions, as in get-put_same, and is an underscore elsewhere.
A lemma or field that would get the name of a definition gets _lem behind it. Names from the library and of Rattle functions stay.
"""
import os
import re
import sys

TOKEN = re.compile(r"(?<![\w'◌-])[A-Za-z_][\w']*(?:-[\w']+)*[?]?(?![\w'◌-])")
CAMEL = re.compile(r"[a-z][a-z0-9]*(?:[A-Z][A-Za-z0-9]*)+'?")
DECLARED = re.compile(r"^\s*(?:(?:abbrev|unfoldable|opaque|pub)\s+)*([A-Za-z_][\w'-]*)\s*(?:\{[^}]*\}\s*)?:(?!=)", re.M)
USE = re.compile(r"^\s*(?:pub )?(?:ghost )?use\s+([\w.'-]+?)(?:\.\{([^}]*)\}|\s+as\s+[\w'-]+)?;?$", re.M)
# Rattle functions and crates, which keep their names.
RUST = {"is_digit", "small_lists"}
WORDS = {"length", "set", "sets", "take", "drop", "replicate", "append", "get_or", "paste", "pow"}


def texts(*ends):
    for folder, dirs, files in os.walk("crates"):
        dirs[:] = sorted(d for d in dirs if d != "out")
        for f in sorted(files):
            if f.endswith(ends):
                yield os.path.join(folder, f)


def read(path):
    with open(path, encoding="utf-8") as f:
        return f.read()


def snake(word):
    return re.sub(r"(?<=[a-z0-9])([A-Z])", lambda m: "_" + m.group(1).lower(), word)


def without_comments(text):
    return re.sub(r"--[^\n]*", "", text)


def own_modules():
    return set(os.listdir("crates"))


def survey():
    """The tokens of the laws and specs, the names taken from elsewhere, the functions of specs/, the names in each."""
    crates = own_modules()
    tokens, foreign, functions = set(), set(), set()
    for path in texts(".antt", ".rt"):
        text = read(path)
        for m in USE.finditer(text):
            parts = m.group(1).split(".")
            if parts[0] != "Rattle" or len(parts) < 2 or parts[1] not in crates:
                foreign |= {n.strip().split(" as ")[-1] for n in (m.group(2) or "").split(",")}
        if path.endswith("/Proof.antt"):
            continue
        if path.endswith(".antt"):
            code = without_comments(text)
            tokens |= {m.group(0) for m in TOKEN.finditer(code)}
            if "/specs/" in path:
                functions |= {snake(m.group(1)) for m in re.finditer(r"^\s*(?:abbrev|unfoldable) (?:pub )?([a-z][\w']*)\s*:", code, re.M)}
    return tokens, foreign, functions


def respelled(name, functions):
    parts = [snake(p) if CAMEL.fullmatch(p) else p for p in name.split("-")]
    known = functions | WORDS
    out = parts[0]
    for before, part in zip(parts, parts[1:]):
        out += ("-" if before in known and part in known else "_") + part
    return out


def mapping():
    tokens, foreign, functions = survey()
    names = sorted(t for t in tokens if t not in foreign and ("-" in t or CAMEL.fullmatch(t)))
    to, taken = {}, set(tokens) - set(names)
    for name in names:
        if "-" not in name and snake(name) in taken and snake(name) not in RUST:
            print(f"falls together: {snake(name)} with {name}", file=sys.stderr)
            to[snake(name)] = snake(name) + "_lem"
            taken = (taken - {snake(name)}) | {snake(name) + "_lem"}
    for name in sorted(names, key=lambda n: ("-" in n, n)):
        new = respelled(name, functions)
        if new != name and new in taken and "-" in name:
            print(f"falls together: {name} with {new}", file=sys.stderr)
            new += "_lem"
        if new in taken and new != name and new not in RUST:
            raise SystemExit(f"{name}: {new} is taken too")
        taken.add(new)
        if new != name:
            to[name] = new
    return to


def turn(text, to, path):
    proof = path.endswith("/Proof.antt")

    def one(m):
        name = m.group(0)
        after_dot = m.start() > 0 and text[m.start() - 1] == "."
        made = after_dot and name not in FIELDS and (proof or to.get(name, "").endswith("_lem") and "-" not in name)
        if name not in to or made or to[name] == name + "_lem" and text[m.end() : m.end() + 1] == ".":
            return name
        return to[name]

    return TOKEN.sub(one, text)


def quoted(text, to, spelled=()):
    """Names between backticks, in prose. The kit's port.py has respelled some in the code alone: spelled has those that are there."""

    def one(m):
        name = m.group(0)
        new = snake(name).replace("-", "_") if CAMEL.fullmatch(name) or "-" in name else name
        return to.get(name, new if new in spelled and name not in spelled else name)

    return re.sub(r"`[^`\n]+`", lambda m: TOKEN.sub(one, m.group(0)), text)


def turn_code(text, to, path, comment):
    out = []
    for line in text.split("\n"):
        at = line.find(comment)
        code, prose = (line, "") if at < 0 else (line[:at], line[at:])
        out.append(turn(code, to, path) + quoted(prose, to))
    return "\n".join(out)


def main():
    to = mapping()
    if "--list" in sys.argv:
        for old in sorted(to):
            print(old, to[old])
        return
    changed, spelled = 0, survey()[0]
    for path in list(texts(".antt", ".rt", ".edit")):
        text = read(path)
        if path.endswith(".antt"):
            new = turn_code(text, to, path, "--")
        elif path.endswith(".rt"):
            new = turn_code(text, {n: to[n] for n in to if n != n.lower() or "-" in n}, path, "//")
        else:
            new = turn_code(text, to, path, "# ")
        if new != text:
            with open(path, "w", encoding="utf-8") as f:
                f.write(new)
            changed += 1
    for folder in (".", "docs", "docs/landings"):
        for f in sorted(os.listdir(folder)):
            path = os.path.join(folder, f)
            if f.endswith(".md") and f not in ("PORT.md", "CHANGELOG.md") and os.path.isfile(path):
                text = read(path)
                new = quoted(text, to, spelled)
                if new != text:
                    with open(path, "w", encoding="utf-8") as g:
                        g.write(new)
                    changed += 1
    print(f"respell: {len(to)} names, {changed} files")


FIELDS = set()
for _path in texts(".antt"):
    if not _path.endswith("/Proof.antt"):
        FIELDS |= set(re.findall(r"^\s+(?:pub )?([a-z][\w'-]*)\s*:", without_comments(read(_path)), re.M))

if __name__ == "__main__":
    main()
