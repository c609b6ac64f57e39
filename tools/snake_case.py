#!/usr/bin/env python3
"""Brings the repository's own definitions and lemmas to snake case, once, behind the kit's port.py: `deal_of` for `dealOf`, `has_holds` for `has-holds`. A dash
stays where each of the names that it joins is a definition, as in `length-encode`. A lemma whose name would be a definition's gets `_lem` behind it.
Run at the top of the checkout, where HEAD is the commit before port.py; it prints the names that were taken. Pages and refused edits, which port.py leaves as
they are, get its names too."""
import glob
import os
import re
import subprocess
import sys

IDENT = r"\w'◌·ℕℤ-"
TOKEN = re.compile(rf"[{IDENT}]+")
ANTT = re.compile(rf"[{IDENT}]+(?:)")
DECLARED = re.compile(r"^ *(?:abbrev |unfoldable |opaque )*(?:pub )?([^\s:(){},.]+) :", re.M)
LET = re.compile(r"\blet ([^\s:(){},.=]+) [:=]")
CRATES = set(os.listdir("crates"))


def read(name):
    with open(name, encoding="utf-8") as file:
        return file.read()


SPECS = sorted(glob.glob("crates/*/specs/**/*.antt", recursive=True))
LEMMAS = sorted(glob.glob("crates/*/proofs/*.antt"))
WALKS = sorted(set(glob.glob("crates/*/proofs/**/*.antt", recursive=True)) - set(LEMMAS))
SOURCES = sorted(glob.glob("crates/*/src/**/*.rt", recursive=True))
EDITS = sorted(glob.glob("crates/*/must-fail/*.edit"))
PAGES = [name for name in sorted(glob.glob("docs/**/*.md", recursive=True)) + ["README.md", "CONTRIBUTING.md", "CHANGELOG.md"] if os.path.exists(name)]

text = {name: read(name) for name in SPECS + LEMMAS + WALKS + SOURCES + EDITS + PAGES}


def imported():
    """The names that are brought in from the library."""
    names = set()
    for name in SPECS + LEMMAS + WALKS + SOURCES:
        for found in re.finditer(r"^(?:ghost )?use (\S+?)\.\{([^}]*)\}", text[name], re.M):
            parts = found.group(1).split(".")
            if parts[0] == "Rattle" and parts[1] in CRATES:
                continue
            names |= {word.strip().split(" as ")[0].split(".")[-1] for word in found.group(2).split(",")}
    return names


def snake(name):
    name = re.sub(r"([a-z])([0-9]+)([A-Z])", r"\1_\2\3", name)
    name = re.sub(r"([a-z])([A-Z])", r"\1_\2", name)
    name = re.sub(r"([A-Z])([A-Z][a-z])", r"\1_\2", name)
    return name.lower() if not re.search("[ℕℤ]", name) else name.replace("non_Neg", "non_neg")


library = imported()
defined = {word for name in SPECS for word in DECLARED.findall(text[name])} - library
lemmas = {word for name in LEMMAS for word in DECLARED.findall(text[name])} - library
local = {word for name in SPECS + LEMMAS for word in LET.findall(text[name]) if "-" in word} - library
tokens = {word for name in SPECS + LEMMAS for word in TOKEN.findall(text[name])}
# words that a walk of a function names for itself or by the code keep their names here
own = defined | lemmas | local

renamed = {}
taken = set(tokens) | library
# definitions and fields first
camel = re.compile(r"◌?[a-z]\w*[A-Z]")
for name in sorted(own):
    if camel.match(name) and "-" not in name:
        new = snake(name)
        if new in taken and new in lemmas and new not in defined:
            renamed[new] = new + "_lem"
        elif new in taken:
            print(f"taken: {name} {new}")
        renamed[name] = new
        taken.add(new)
if "◌orElse◌" in renamed:
    renamed["orElse"] = "or_else"
words = {part for part in library | defined | set(renamed.values()) if "-" not in part} | {"eqb", "ltb", "leb"}
words |= {"set", "take", "drop", "length", "get_or", "map", "reverse", "replicate", "sum", "max", "min", "and", "not", "or"} & (library | defined)
for name in sorted(own):
    if "-" not in name or name in renamed:
        continue
    parts = [renamed.get(part, snake(part)) for part in name.split("-")]
    if name not in defined and all(part in words for part in parts):
        new = "-".join(parts)
    else:
        new = "_".join(parts)
    if new == name:
        continue
    if new in taken:
        new += "_lem"
    if new in taken:
        print(f"taken twice: {name} {new}")
    renamed[name] = new
    taken.add(new)


# a word with no capital may be Rust's too, or a word of a string: it is a lemma's only in .antt, and one in snake case not behind a dot
def respelled(word):
    name = word.group(0)
    if word.re is not ANTT and not re.search("[A-Z]", name):
        return name
    if not re.search("[A-Z-]", name) and word.string[word.start() - 1] == ".":
        return name
    return renamed.get(name, name)


# what port.py made of each name: the files declare the same names in the same order, before and behind it
before = {}
for name in SPECS + LEMMAS:
    shown = subprocess.run(["git", "show", f"HEAD:{name}"], capture_output=True, text=True)
    old, new = DECLARED.findall(shown.stdout), DECLARED.findall(text[name])
    if len(old) == len(new):
        before |= {a: b for a, b in zip(old, new) if a != b and "_" not in a}
ported = {a: renamed.get(b, b) for a, b in before.items()}


def respelled_from_before(word):
    return ported.get(word.group(0)) or respelled(word)


IN_TICKS = re.compile(r"`[^`\n]*`")
changed = 0
for name, old in text.items():
    if name.endswith((".md", ".txt", ".rt", ".edit")):
        if name.endswith(".rt"):
            new = TOKEN.sub(respelled, old)
        elif name.endswith(".edit"):
            new = (ANTT if "file: src/" not in old else TOKEN).sub(respelled_from_before, old)
        else:
            new = IN_TICKS.sub(lambda found: ANTT.sub(respelled_from_before, found.group(0)), old)
    else:
        new = ANTT.sub(respelled, old)
    if new != old:
        changed += 1
        with open(name, "w", encoding="utf-8") as file:
            file.write(new)
print(f"{len(renamed)} names, {len(ported)} of port.py's, {changed} files")
if "--list" in sys.argv:
    for name in sorted(renamed):
        print(name, renamed[name])
