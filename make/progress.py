#!/usr/bin/env python3
"""Runs a command of the gate and says how far it is.

    progress.py ci LOG             runs `rt ci`: a line for each crate, each refused edit and each program
    progress.py step NAME WORD...  runs the words: a line when they have ended

Each line has the seconds since the environment's BEGAN. All that is printed stands in build/log/LOG and build/log/NAME, and of what fails it is shown here whole.
The line 'N passed, 0 failed' of `rt ci` is kept in build/log/passed, for the end of the gate, and is not printed. A run fails where `rt ci` does, and where its
line `rt: ok` counts bad edits, those that could not be tried.
"""
import os
import re
import subprocess
import sys
import time

LOGS = "build/log"
BEGAN = int(os.environ.get("BEGAN") or time.time())


def so_far():
    return "%d s so far" % (time.time() - BEGAN)


def crates():
    """How many crates crates.txt lists."""
    with open("crates.txt") as lines:
        return sum(":" in line.split("#")[0] for line in lines)


def edits():
    return sum(name.endswith(".edit") for _, _, names in os.walk("crates") for name in names)


class Told:
    """What is printed of what `rt ci` says, line by line. What it says of a crate comes before the crate's own line, and is printed where that is no good one."""

    def __init__(self):
        self.crates, self.edits, self.crate, self.edit, self.bad, self.passed, self.held = crates(), edits(), 0, 0, 0, False, []

    def said(self, line):
        proved = re.match(r"rt: (\w+) (proved|is kept)\b", line)
        tests = re.match(r"rt: (\w+): its tests (are proved|passed)$", line)
        trying = re.match(r"rt: (\w+): trying its must-fail edits \((\d+)\)$", line)
        refused = re.match(r"rt: must-fail (\S+): refused\b", line)
        ran = re.match(r"rt: (\w+) ran( \(built by Rattle's own compiler\))?, and wrote what", line)
        if proved:
            self.crate += 1
            print("crate %d of %d: %s, %s; %s" % (self.crate, self.crates, proved[1], "proved" if proved[2] == "proved" else "unchanged", so_far()))
        elif tests:
            print("tests of %s %s; %s" % (tests[1], tests[2].replace("are ", ""), so_far()))
        elif trying:
            print("edits of %s, %s to try; %s" % (trying[1], trying[2], so_far()))
        elif refused:
            self.edit += 1
            print("edit %d of %d: %s refused; %s" % (self.edit, self.edits, refused[1].removesuffix(".edit"), so_far()))
        elif ran:
            print("program %s ran%s; %s" % (ran[1], ran[2] or "", so_far()))
        elif re.match(r"\d+ passed, 0 failed$", line):
            self.passed = True
            with open(LOGS + "/passed", "w") as kept:
                kept.write(line + "\n")
        elif re.match(r"rt: (ok|note|warning)\b", line):
            bad = re.match(r"rt: ok\b.*, (\d+) bad\b", line)
            self.bad += int(bad[1]) if bad else 0
            print(line, flush=True)
            return
        elif line.startswith("rt: ") or re.match(r"\d+ passed, ", line):
            print("\n".join(self.held + [line]))
        else:
            self.held.append(line)
            return
        self.held = []
        sys.stdout.flush()


def run_ci(log):
    told = Told()
    with open(os.path.join(LOGS, log), "w") as kept:
        run = subprocess.Popen(["rt", "ci"], stdout=subprocess.PIPE, stderr=subprocess.STDOUT, text=True, errors="replace")
        for line in run.stdout:
            kept.write(line)
            told.said(line.rstrip("\n"))
    status = run.wait()
    if status or told.bad or not told.passed:
        why = "ended with %d" % status if status else "counts %d bad edits" % told.bad if told.bad else "has not said that all passed"
        print("\n".join(told.held + ["rt ci %s; %s/%s has all that it printed" % (why, LOGS, log)]))
    return status or (0 if told.passed and not told.bad else 1)


def run_step(name, words):
    path = os.path.join(LOGS, name)
    began = time.time()
    with open(path, "w") as kept:
        status = subprocess.call(words, stdout=kept, stderr=subprocess.STDOUT)
    if status:
        with open(path, errors="replace") as kept:
            sys.stdout.write(kept.read())
        print("%s FAILED with %d: %s" % (name, status, " ".join(words)))
    else:
        print("%s, %d s; %s" % (name, time.time() - began, so_far()))
    return status


def main():
    ci = len(sys.argv) == 3 and sys.argv[1] == "ci"
    if not ci and (len(sys.argv) < 4 or sys.argv[1] != "step"):
        sys.exit(__doc__)
    os.makedirs(LOGS, exist_ok=True)
    status = run_ci(sys.argv[2]) if ci else run_step(sys.argv[2], sys.argv[3:])
    return status if 0 <= status < 128 else 1


if __name__ == "__main__":
    sys.exit(main())
