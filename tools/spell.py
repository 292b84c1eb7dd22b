#!/usr/bin/env python3
"""Turns the names that this repository declares to the kit's spelling: words in snake case, types and modules in camel case.

usage: python3 tools/spell.py [--dry]     at the top of the repository, once, after the kit's port.py

The names: what specs/*.antt and proofs/*.antt of each crate declare (definitions, lemmas, fields, helpers), where they hold a hyphen or a capital
inside. They are turned in .antt files, in the ghost items and clauses of .rt files, in must-fail edits and, between backticks, in the pages.
Names of functions of src/, of the library and of goals that the prover makes stay. With --dry it prints the names and what would fall together.
"""
import glob
import re
import sys

TOKEN = re.compile(r"(?<![\w'?₀-₉ᴰ·-])[A-Za-z_][\w'?₀-₉ᴰ]*(?:-[\w'?₀-₉ᴰ]+)*")
DECLARED = re.compile(r"^(\s*)(?:unfoldable |abbrev )?(?:pub )?(?:let )?([A-Za-z_][\w'?₀-₉ᴰ]*(?:-[\w'?₀-₉ᴰ]+)*) :(?= |$)")
BOUND = re.compile(r"\blet ([A-Za-z_][\w'?₀-₉ᴰ]*(?:-[\w'?₀-₉ᴰ]+)*) (?::|=)")
ALIAS = re.compile(r"\bas ([A-Za-z_][\w'₀-₉]*(?:-[\w'₀-₉]+)*)")
OWN = re.compile(r"^\s*(?:pub |ghost |unfoldable )*use Rattle\.(?:fuzzy|rows|sheets|calls|lists)\b")
USE = re.compile(r"^\s*(?:pub |ghost |unfoldable )*use ")


def respell(name):
    if name[0].isupper():
        return "".join(part[0].upper() + part[1:] for part in name.split("-"))
    return re.sub(r"([a-z0-9])([A-Z])", lambda m: m.group(1) + "_" + m.group(2).lower(), name.replace("-", "_"))


def code(line):
    return line.split("--", 1)[0] if not line.lstrip().startswith("--") else ""


def sources():
    found = glob.glob("crates/**/*.antt", recursive=True) + glob.glob("crates/**/*.rt", recursive=True)
    return sorted(path for path in found if "/out/" not in path)


def lemma_files():
    return sorted(glob.glob("crates/*/specs/*.antt") + glob.glob("crates/*/proofs/*.antt"))


def collect():
    names, fields, library = set(), set(), set()
    for path in lemma_files():
        record = False
        for line in open(path, encoding="utf-8"):
            text = code(line)
            if re.match(r"(?:pub )?record .* where\s*$", text):
                record = True
            elif text.strip() and not text.startswith(" "):
                record = False
            for found in [m.group(2) for m in [DECLARED.match(text)] if m] + BOUND.findall(text) + ALIAS.findall(text):
                if found != respell(found):
                    names.add(found)
                    if record:
                        fields.add(found)
    for path in sources():
        for line in open(path, encoding="utf-8"):
            if USE.match(line) and not OWN.match(line):
                library.update(TOKEN.findall(line))
    for path in lemma_files():
        for line in open(path, encoding="utf-8"):
            text = code(line)
            found = [m.group() for m in TOKEN.finditer(text) if text[m.start() - 1 : m.start()] != "."]
            names.update(t for t in found if t != respell(t))
    return names - library, fields, names & library


def spelling(names):
    """The new name of each: where a lemma would fall together with a definition, it gets _lem."""
    new = {name: respell(name) for name in names}
    plain = {respell(name) for name in names if "-" not in name}
    for name in names:
        if "-" in name and new[name] in plain:
            new[name] += "_lem"
    return new


def turn(text, new, fields):
    def one(m):
        name = m.group()
        if name not in new:
            return name
        before = text[m.start() - 1] if m.start() else " "
        if before == "." and name not in fields:
            # a path of a module ends in one of its names; a projection is a field's
            if not re.search(r"[A-Z]\w*\.$", text[: m.start()]):
                return name
        return new[name]

    return TOKEN.sub(one, text)


def glossary(old, text):
    """Keeps the explanations of a glossary in their column."""
    was, now = (re.match(r"--   (\S.*?)( {2,})(\S.*)$", line) for line in (old, text))
    if not was or not now or was.group(1) == now.group(1):
        return text
    gap = max(2, len(was.group(1) + was.group(2)) - len(now.group(1)))
    return f"--   {now.group(1)}{' ' * gap}{now.group(3)}"


def turned(path, new, fields):
    text = open(path, encoding="utf-8").read()
    if path.endswith(".md"):
        return text, re.sub(r"`[^`\n]*`", lambda m: turn(m.group(), new, fields), text)
    lines = text.split("\n")
    return text, "\n".join(glossary(line, turn(line, new, fields)) for line in lines)


def main():
    names, fields, left = collect()
    new = spelling(names)
    if "--dry" in sys.argv:
        both = {}
        for name in names:
            both.setdefault(new[name], []).append(name)
        print("turned:", len(names), *sorted(f"{n}>{new[n]}" for n in names))
        print("also the library's, so left:", *sorted(left))
        print("fall together:", [v for v in both.values() if len(v) > 1])
        for path in sources():
            for number, line in enumerate(open(path, encoding="utf-8"), 1):
                for name in set(TOKEN.findall(code(line))) & set(both):
                    print("taken already:", name, "from", both[name], f"{path}:{number}")
        return
    paths = sources() + glob.glob("crates/*/must-fail/*.edit") + glob.glob("*.md") + glob.glob("docs/*.md") + glob.glob("wip/*.txt")
    for path in sorted(paths):
        old, text = turned(path, new, fields)
        if text != old:
            with open(path, "w", encoding="utf-8") as f:
                f.write(text)
            print(path)


main()
