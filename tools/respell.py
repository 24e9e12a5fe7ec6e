#!/usr/bin/env python3
"""Respells the repository's own definitions and lemmas, once, after the toolchain's port.py.

Words are in snake case, types and facts in upper camel case, and a dash joins two names. Functions of src/, exported C names,
strings, inputs and outputs keep their names. Run at the top of the repository, once.
"""
import glob
import re

# Lemmas that would fall together with a definition, by file: they keep the dash that they had.
KEPT = {
    "crates/model/specs/Laws/Exposure.antt": [("read_answer", "read-answer")],
    "crates/model/specs/Laws/WellFormed.antt": [("name_by", "name-by")],
    "crates/model/specs/Laws/Lists.antt": [("step_after", "step-after")],
    "crates/model/specs/Laws/Adequacy.antt": [("step_after", "step-after")],
    "crates/hubscreen/specs/Lent.antt": [("too_long", "too-long")],
    "crates/verdicts/specs/Laws.antt": [("no_label", "no-label")],
    "crates/verdicts/proofs/none/Proof.antt": [("no_label", "no-label")],
}
WORD = re.compile(r"[A-Za-z_][A-Za-z0-9_]*'*")
DECLARED = re.compile(r"^\s*(?:unfoldable |abbrev |pub |private )*([^\s:({]+)\s*(?:\{[^}]*\}|\([^)]*\)|\s)*:(?!:)")


def snake(word):
    word = re.sub(r"([a-z0-9])([A-Z])", r"\1_\2", word)
    return re.sub(r"([A-Z])([A-Z][a-z])", r"\1_\2", word).lower()


def is_camel(word):
    return word[:1].islower() and snake(word) != word


def files(ending):
    return sorted(f for f in glob.glob("crates/*/**/*." + ending, recursive=True) if "/out/" not in f)


def main():
    texts = {f: open(f, encoding="utf-8").read() for f in files("antt") + files("rt")}
    words = {"leastSet"}
    for name, text in texts.items():
        if "/specs/" not in name:
            continue
        for line in text.splitlines():
            found = DECLARED.match(line)
            if found and not line.strip().startswith(("--", "use ")):
                words.update(w for w in WORD.findall(found.group(1)) if is_camel(w))
    words.add("onlyIf")
    for name, text in texts.items():
        new = text
        for old, kept in KEPT.get(name, []):
            new = re.sub(r"(?<![\w-])" + old + r"(?![\w-])", kept, new)
        new = WORD.sub(lambda m: snake(m.group()) if m.group() in words else m.group(), new)
        if name.endswith(".antt"):
            lines = new.split("\n")
            for i, line in enumerate(lines):
                if not line.strip().startswith("--"):
                    lines[i] = re.sub(r"(?<![\w'-])any(?![\w'-])", "Any", line) if "Grow" in text else line
            new = "\n".join(lines)
        if new != text:
            with open(name, "w", encoding="utf-8") as out:
                out.write(new)


main()
