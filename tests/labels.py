#!/usr/bin/env python3
"""Every refused edit that docs/PROMISES.md names is a file, every file is named there, and each text that an edit changes stands once in its file.

Run at the repository's root. A label is written `crate/label`; in a list that names its crate (of `packing` `a`, `b`) the label alone will do.
"""
import os
import re
import sys

CRATES = "crates"
PAGE = "docs/PROMISES.md"


def edits():
    """The refused edits, by crate/label."""
    found = {}
    for crate in sorted(os.listdir(CRATES)):
        folder = os.path.join(CRATES, crate, "must-fail")
        for name in sorted(os.listdir(folder)) if os.path.isdir(folder) else []:
            if name.endswith(".edit"):
                found[crate + "/" + name[: -len(".edit")]] = os.path.join(folder, name)
    return found


def named(page, crates):
    """The labels that a page names, and the words in it that may be labels of a crate named before them."""
    whole = {m for m in re.findall(r"`(\w+/\w+)`", page) if m.split("/")[0] in crates and m.split("/")[1] not in ("specs", "proofs", "src")}
    return whole, set(re.findall(r"`(\w+)`", page))


def misplaced(label, path):
    """What of an edit does not stand once in the file that it changes."""
    crate, file, old, texts = label.split("/")[0], None, None, {}
    with open(path, encoding="utf-8") as lines:
        for line in lines.read().split("\n"):
            if line.startswith("file: "):
                file = os.path.join(CRATES, crate, line[len("file: "):])
                if file not in texts:
                    if not os.path.isfile(file):
                        yield "%s: there is no %s" % (path, file)
                        return
                    with open(file, encoding="utf-8") as text:
                        texts[file] = text.read()
            elif line.startswith("old: "):
                old = line[len("old: "):]
                if texts[file].count(old) != 1:
                    yield "%s: stands %d times in %s: %s" % (path, texts[file].count(old), file, old)
            elif line.startswith("new:"):
                texts[file] = texts[file].replace(old, line[len("new:"):].removeprefix(" "), 1)


def main():
    with open(PAGE, encoding="utf-8") as text:
        page = text.read()
    files = edits()
    whole, short = named(page, set(os.listdir(CRATES)))
    faults = ["%s names %s, and there is no such edit" % (PAGE, label) for label in sorted(whole - set(files))]
    faults += ["%s does not name %s" % (PAGE, label) for label in sorted(files) if label not in whole and label.split("/")[1] not in short]
    for label, path in files.items():
        faults += misplaced(label, path)
    print("\n".join(faults + ["%d refused edits" % len(files)]))
    return 1 if faults else 0


if __name__ == "__main__":
    sys.exit(main())
