#!/usr/bin/env python3
"""Brings the repository's own definitions and lemmas to the spelling of today's library, once, after the toolchain's port.py.

usage: python3 tools/respell.py        at the top of the repository

A word that a file of specs/ or proofs/ declares with dashes gets snake case (`kind-of` becomes `kind_of`), or upper camel case if it is
a type (`Rated-graph` becomes `RatedGraph`). So does a local name. Names that the check makes (goals, steps) and names
of the library stay, and so do those of KEPT, whose dash joins two names of the library. Functions of src/ keep their names.
"""

import collections
import os
import re

# a dash of these joins two names, as the library's own lemmas are spelled
KEPT = {"append-nil", "length-append", "length-replicate", "times-append", "x-is", "y-is"}
# variables of lemmas, which no `let` binds, and a label of a contract
VARIABLES = "u-in v-in in-it same-before low-source low-sink same-netlist same-sizing p-one l-one to-v not-ready free-too apart-1 slow-loop short-l no-x is-not long-m long-p long-d long-v every-walk"
WORD = re.compile(r"[^\s(){}\[\]:;,.|⌜⌝∷\\λ\"]+")
DECLARED = re.compile(r"^(\s*)((?:(?:abbrev|unfoldable|pub|record|data|module)\s+)*)([^\s(){}:;,.|]+)\s*(?:\([^)]*\)|\{[^}]*\}|\s)*:\s(.*)$")
ALIAS = re.compile(r" as ([a-zA-Z][^\s(){}:;,.|]*-[^\s(){}:;,.|]*)(?=[,}])")
BOUND = re.compile(r"\blet ([a-zA-Z][^\s(){}:;,.|]*-[^\s(){}:;,.|]*) ")


def files(ends):
    for folder, dirs, names in os.walk("crates"):
        dirs[:] = sorted(d for d in dirs if d != "out")
        for name in sorted(names):
            if name.endswith(ends):
                yield os.path.join(folder, name)


def read(path):
    with open(path, encoding="utf-8") as f:
        return f.read()


def snake(name):
    return name.replace("-", "_").lower() if name[0].isupper() else name.replace("-", "_")


def camel(name):
    return "".join(part[:1].upper() + part[1:] for part in name.split("-"))


def declared():
    """The words with dashes that specs/ and proofs/ declare, each with its new spelling."""
    new = {}
    for path in files((".antt",)):
        for line in read(path).splitlines():
            if line.lstrip().startswith("--") or line.startswith("use "):
                continue
            found = DECLARED.match(line)
            if not found:
                continue
            _, before, name, kind = found.groups()
            if "-" not in name or name in KEPT or re.match(r"(goal|need|given)\.", kind):
                continue
            typed = "record" in before.split() or re.search(r"(^|→ )Type 0( where)?$", kind.strip())
            if name[0].isupper():
                new[name] = camel(name) if typed else snake(name)
            else:
                new[name] = snake(name)
    return new


def respell(text, new):
    return WORD.sub(lambda m: new.get(m.group(0), m.group(0)), text)


def locals_of(text):
    """The names that this file alone gives: by `let`, by an import under another name, by a lemma's variables."""
    names = BOUND.findall(text) + ALIAS.findall(text) + VARIABLES.split()
    return {name: camel(name) if name[0].isupper() else snake(name) for name in names if name not in KEPT}


def own_locals(text):
    """A local name, but not as a field, which is the check's own."""
    for name, to in locals_of(text).items():
        text = re.sub(r"(?<![\w.'·-])" + re.escape(name) + r"(?![\w'·-])", to, text)
    return text


def clashes(new):
    told = collections.defaultdict(set)
    for old, to in new.items():
        told[to].add(old)
    return {to: olds for to, olds in told.items() if len(olds) > 1}


def main():
    new = declared()
    for to, olds in clashes(new).items():
        print("falls together:", to, sorted(olds))
    for path in files((".antt", ".rt", ".edit")):
        was = read(path)
        text = respell(was, new)
        if path.endswith(".antt"):
            text = own_locals(text)
        if text != was:
            with open(path, "w", encoding="utf-8") as f:
                f.write(text)
    for folder in ("docs", "."):
        for name in sorted(os.listdir(folder)):
            if name.endswith(".md") and not name.startswith("PORT"):
                path = os.path.join(folder, name)
                was = read(path)
                text = re.sub(r"`[^`\n]*`", lambda m: respell(m.group(0), new), was)
                if text != was:
                    with open(path, "w", encoding="utf-8") as f:
                        f.write(text)
    print(len(new), "names")


if __name__ == "__main__":
    main()
