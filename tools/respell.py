#!/usr/bin/env python3
"""Respells this repository's own names as today's Rattle spells them: in specs/, proofs/, clauses, README and docs/.

Run once at the top, after the kit's port.py: python3 tools/respell.py
A definition, lemma, field or constructor whose name has a dash gets an underscore for each dash; a type or a fact (its name
begins with a capital) gets camel case instead. Names that Rattle generates are no names of ours: an answer to a goal stays, where
its file brings the goals in as `goal`. Two names that would fall together, with one another or with a name that the repository
has or imports, stop the script.
"""
import glob
import re
import sys

# What a name in antt is made of.
NAME = r"[^\s(){}\[\].,;:]"

# The head of an item: what may stand before its name, and the name.
ITEM = re.compile(r"^(?:(?:unfoldable|abbrev|pub|data|record) )*(" + NAME + r"+)(?: |$)")
FIELD = re.compile(r"^ +(?:pub )?(" + NAME + r"+) : ")


def antt_files():
    specs = glob.glob("crates/*/specs/*.antt")
    proofs = glob.glob("crates/*/proofs/**/*.antt", recursive=True)
    return sorted(specs + proofs)


def is_comment(line):
    return line.lstrip().startswith("--")


def own_names(path):
    """The names that a file of specs/ or proofs/ gives, but for the answers to goals, which are Rattle's."""
    for line in open(path, encoding="utf-8"):
        if is_comment(line) or line.startswith("use ") or ": goal." in line:
            continue
        if " : " not in line:
            continue
        found = FIELD.match(line) or ITEM.match(line)
        if found:
            yield found.group(1)


def all_names(path):
    """The names that stand in a file; of an import the imported names alone, since its path may name a Rust function."""
    for line in open(path, encoding="utf-8"):
        if line.startswith("use "):
            line = line.partition("{")[2]
        if not is_comment(line):
            yield from re.findall(NAME + "+", line)


def respelled(name):
    if name[0].isupper():
        head, *rest = name.split("-")
        return head + "".join(part[0].upper() + part[1:] for part in rest)
    return name.replace("-", "_")


def table():
    own = {name for path in antt_files() for name in own_names(path)}
    seen = {name for path in antt_files() for name in all_names(path)}
    turned = {}
    for name in sorted(own):
        if not re.search(r"\w-\w", name):
            continue
        new = respelled(name)
        if new in seen or new in turned.values():
            sys.exit(f"{name}: {new} is a name already")
        turned[name] = new
    return turned


def turn(text, turned):
    word = re.compile(r"(?<![\w'-])(" + "|".join(re.escape(n) for n in sorted(turned, key=len, reverse=True)) + r")(?![\w'-])")
    return word.sub(lambda m: turned[m.group(1)], text)


def main():
    turned = table()
    if not turned:
        sys.exit("no name has a dash")
    for path in antt_files() + sorted(glob.glob("crates/*/src/**/*.rt", recursive=True)):
        before = open(path, encoding="utf-8").read()
        comment = "//" if path.endswith(".rt") else "--"
        lines = [l if l.lstrip().startswith(comment) else turn(l, turned) for l in before.splitlines(keepends=True)]
        if "".join(lines) != before:
            open(path, "w", encoding="utf-8").write("".join(lines))
    # pages name definitions between backticks
    for path in ["README.md"] + sorted(glob.glob("docs/*.md")):
        before = open(path, encoding="utf-8").read()
        after = re.sub(r"`[^`\n]*`", lambda m: turn(m.group(0), turned), before)
        if after != before:
            open(path, "w", encoding="utf-8").write(after)
    for old, new in turned.items():
        print(old, new)


if __name__ == "__main__":
    main()
