#!/usr/bin/env python3
"""Gives the names that proofs cite of the check the spelling of the source: `c.split-at` becomes `c.split_at`.

usage: python3 tools/keep_source_names.py        at the top of the repository, once, after tools/respell.py

A name from the source keeps its underscores in a goal and in a step, and so does a word of the check (`overflow_add`, `in_default`).
"""

import os
import re

from respell import files, read

WORDS = """overflow_add overflow_sub overflow_mul overflow_cast overflow_shl overflow_shr overflow_neg overflow_step nonzero_div nonzero_rem
slice_bounds offset_bounds in_default in_ok in_err type_inv yielded_by invariant_of from_residual into_iter as_slice as_mut_slice
deref_mut slice_known""".split()
CITED = re.compile(r"(?<=\.)[^\s(){}\[\]:;,.|⌜⌝∷\\λ\"]*-[^\s(){}\[\]:;,.|⌜⌝∷\\λ\"]*")
GOAL = re.compile(r"^(?:abbrev )?(?:pub )?(\S+-\S+) : (?:goal|given|need)\.")
PLACES = re.compile(r"^use \S+\.(?:Goals|Given)\.\{([^}]*)\}", re.M)


def identifiers(crate):
    found = set(WORDS)
    folder = os.path.join("crates", crate, "src")
    for path in files((".rt",)):
        if path.startswith(folder):
            found |= set(re.findall(r"\b[a-zA-Z]\w*_\w*\b", read(path)))
    return sorted((i.strip("_") for i in found if "_" in i.strip("_")), key=len, reverse=True)


def mend(name, words):
    for word in words:
        name = re.sub(r"(?<!\w)" + re.escape(word.replace("_", "-")) + r"(?!\w)", word, name)
    return name


def main():
    words = {}
    for path in files((".antt",)):
        crate = path.split(os.sep)[1]
        if crate not in words:
            words[crate] = identifiers(crate)
        was = text = read(path)
        here = words[crate]
        goals = {}
        for line in text.splitlines():
            found = GOAL.match(line)
            if found:
                goals[found.group(1)] = mend(found.group(1), here)
        for found in PLACES.findall(text):
            for name in re.split(r",\s*", found):
                goals[name] = mend(name, here)
        text = CITED.sub(lambda m: mend(m.group(0), here), text)
        for name, to in goals.items():
            if name != to:
                text = re.sub(r"(?<![\w'+-])" + re.escape(name) + r"(?![\w'+-])", to, text)
        if text != was:
            with open(path, "w", encoding="utf-8") as f:
                f.write(text)


if __name__ == "__main__":
    main()
