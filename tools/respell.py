#!/usr/bin/env python3
# tools/respell.py: brings the names of definitions, lemmas, record fields and variables of specs/ and proofs/ to the spelling of today's
# Rattle, words in snake case; run once at the top, after the kit's port.py. Functions of src/, exported names, strings, inputs and outputs
# keep theirs. Clauses, must-fail edits, the quoted definitions in host/ and the names in the pages follow.
import os
import re
import subprocess
import sys
from pathlib import Path

# Names whose snake case would fall together with a field, a parameter or a name that Rattle makes.
APART = {
    "ownGroup": "in_own_group",
    "ranOut": "ran_out_by",
    "betterRank": "ranks_better",
    "wellFormed": "is_well_formed",
}

# Modules whose names Rattle makes itself, and crates that bear the name of a library of the kit.
MODULES = {"Rattle.promises.specs.Contracts": "Rattle.promises.specs.OfContracts"}
MOVED = {
    "crates/promises/specs/Contracts.antt": "crates/promises/specs/OfContracts.antt",
    "crates/log": "crates/log_answer",
}

WORD = re.compile(r"[A-Za-z_][A-Za-z0-9_'\-]*")


def snake(part):
    if not re.match(r"[a-z]", part):
        return part
    part = re.sub(r"([a-z0-9])([A-Z])", r"\1_\2", part)
    return re.sub(r"([A-Z])([A-Z][a-z])", r"\1_\2", part).lower()


def respelled(word):
    return "-".join(APART.get(part, snake(part)) for part in word.split("-"))


def read(path):
    return path.read_text(encoding="utf-8")


def all_files(*patterns):
    return sorted(path for pattern in patterns for path in Path(".").glob(pattern) if path.is_file())


def in_text(text, names):
    return WORD.sub(lambda m: respelled(m.group()) if m.group() in names else m.group(), text)


# A page names definitions alone, as words of their own, and so do clauses and edits.
def in_page(text, names):
    return re.sub(r"[A-Za-z_][A-Za-z0-9_]*", lambda m: respelled(m.group()) if m.group() in names else m.group(), text)


def main():
    if not Path("crates.txt").is_file():
        sys.exit("tools/respell.py: run it at the top of the repository")
    logic = all_files("crates/*/specs/**/*.antt", "crates/*/proofs/**/*.antt")
    names = {w for f in logic for w in WORD.findall(read(f)) if respelled(w) != w}
    for f in logic:
        f.write_text(in_text(read(f), names), encoding="utf-8")
    # what a page names may have been respelled before, by port.py
    now = {w for f in logic for w in re.findall(r"[A-Za-z_][A-Za-z0-9_]*", read(f))}
    others = all_files("crates/*/src/**/*.rt", "crates/*/must-fail/*.edit", "host/rows/*", "host/pictures/*", "host/rows.sh", "host/wrong.txt",
                       "host/tests/rows.sh", "docs/*.md", "README.md")
    for f in others:
        text = read(f)
        known = {w for w in re.findall(r"[A-Za-z_][A-Za-z0-9_]*", text) if respelled(w) != w and (w in names or respelled(w) in now)}
        f.write_text(in_page(text, known), encoding="utf-8")
    for old, new in MOVED.items():
        if Path(old).exists():
            subprocess.run(["git", "mv", old, new], check=True)
    for f in all_files("crates/*/specs/**/*.antt", "crates/*/proofs/**/*.antt", "crates/*/src/**/*.rt", "crates/*/must-fail/*.edit"):
        text = read(f)
        for old, new in MODULES.items():
            text = text.replace(old, new)
        text = text.replace("Rattle.log.", "Rattle.log_answer.")
        if f.suffix == ".rt":
            text = re.sub(r"(?<![A-Za-z0-9_:])log::(?=[a-z])", "log_answer::", text)
        f.write_text(text, encoding="utf-8")
    lib = Path("crates/promises/specs/Lib.antt")
    lib.write_text(read(lib).replace("pub mod Contracts", "pub mod OfContracts"), encoding="utf-8")
    crates = Path("crates.txt")
    crates.write_text(re.sub(r"^log(?=:)|(?<= )log(?=[ \n])", "log_answer", read(crates), flags=re.M), encoding="utf-8")
    for f in all_files("docs/*.md", "README.md", "host/**/*.sh", "host/*.txt"):
        f.write_text(re.sub(r"crates/log(?![A-Za-z0-9_])", "crates/log_answer", read(f)), encoding="utf-8")


os.chdir(Path(__file__).resolve().parent.parent)
main()
