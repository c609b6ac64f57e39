#!/usr/bin/env python3
"""Which instructions of the archives and the programs run in the trials from outside, and which of their conditional jumps go both ways.

    jumps.py [--short] [--seed N] [--bounds FILE [--write]] [--no-trials]

The trials run first, and keep each call of an archive and each run of a program (tests/src/kept.rs); then all of them are made again under callgrind, and the
answers held to those kept. A row of the table is a member of an archive, which is an exported function with all that it calls, or a program. What is left, an
instruction that never ran or a jump that went one way alone, is listed in build/jumps/left. --short makes fewer of everything; --bounds fails where a row has
more left than the file says, which --write writes anew; --no-trials takes what was kept before."""
import argparse
import collections
import multiprocessing.pool
import os
import shutil
import subprocess
import sys
import tempfile
import time

import callgrind

WORK = "build/jumps"
RUNS = WORK + "/runs"
RUST = "build/rust/release"
PROGRAMS = "build/bin"
CALLS = WORK + "/calls"
AGAIN = WORK + "/again.so"
VALGRIND = ["valgrind", "--tool=callgrind", "--dump-instr=yes", "--collect-jumps=yes"]
ARCHIVES = ["build/libtally.a", "build/libjudge.a"]
# Of a program the functions of these count: not what the C runtime and the kit's std put into it.
CRATES = set(os.listdir("crates"))

# A trial: the cases of a whole and of a short run, and further words, among them the programs that it runs.
Trial = collections.namedtuple("Trial", "name whole short words")
TRIALS = [
    Trial("records", 300_000, 60_000, {}),
    Trial("penalties", 150_000, 40_000, {}),
    Trial("writes", 200_000, 60_000, {}),
    Trial("tallies", 300_000, 60_000, {}),
    Trial("endings", 20_000, 3_000, {"--program": "best", "--run-each": "4"}),
    Trial("slips", 8_000, 4_000, {"--program": "slip"}),
    Trial("pbns", 30_000, 5_000, {"--program": "pbn", "--run-each": "6"}),
    Trial("trees", 2_000, 250, {"--program": "tree"}),
    Trial("sheets", 1_500, 400, {"--program": "sheet", "--cells": "cells"}),
    Trial("teams", 1_500, 500, {"--program": "team"}),
]
# Cases by hand.
BY_HAND = ["examples", "refusals", "write_refusals", "penalty_cards", "penalty_bounds", "pbn_texts", "tally_bytes", "boards", "jumps", "jumps_in_texts"]
SEED = 42


class Row:
    """What was seen of some functions: instructions and conditional jumps, all of them and those left."""

    def __init__(self, name):
        self.name, self.instructions, self.jumps, self.never, self.one_way = name, 0, 0, [], []

    def add(self, function, instructions, ran, taken):
        for one in instructions:
            count = ran[one.address]
            if not count and callgrind.filling(one):
                continue
            place = "%s+%x" % (function, one.address - instructions[0].address)
            self.instructions += 1
            if not count:
                self.never.append((place, one.text))
            if callgrind.conditional(one):
                self.jumps += 1
                if not 0 < taken[one.address] < count:
                    self.one_way.append((place, one.text, taken[one.address], count))

    def merge(self, other):
        self.instructions += other.instructions
        self.jumps += other.jumps
        self.never += other.never
        self.one_way += other.one_way

    def left(self):
        return len(self.never), len(self.one_way)

    def line(self):
        return "%-44s %6d of %6d %6d of %5d" % (
            self.name, self.instructions - len(self.never), self.instructions, self.jumps - len(self.one_way), self.jumps)


def run(words, **more):
    """Runs a command, whose output is shown where it fails."""
    done = subprocess.run(words, stdout=subprocess.PIPE, stderr=subprocess.STDOUT, text=True, errors="replace", **more)
    if done.returncode:
        sys.exit("%s\n%s ended with %d" % (done.stdout, " ".join(words), done.returncode))


def in_pool(task):
    """A task's end as an error that a pool hands on: it would wait for ever for one that exits."""
    def done(given):
        try:
            return task(given)
        except SystemExit as end:
            raise RuntimeError(end.code) from end
    return done


def keep_trial(trial, count, seed):
    words = [RUST + "/" + trial.name, "--count", str(count), "--kinds", "some", "--seed", str(seed)]
    for word, value in trial.words.items():
        words += [word, value if word == "--run-each" else os.path.join(PROGRAMS, value)]
    run(words, env=dict(os.environ, KEPT_CALLS=os.path.join(WORK, trial.name + ".calls"), KEPT_RUNS=RUNS))


def keep_by_hand():
    words = ["cargo", "test", "--release", "--offline", "--locked", "--quiet"]
    for name in BY_HAND:
        words += ["--test", name]
    settings = {"KEPT_CALLS": os.path.abspath(WORK + "/by-hand.calls"), "CARGO_TARGET_DIR": os.path.abspath("build/rust")}
    for name, archive in (("JUDGE_ARCHIVE", "build/libjudge.a"), ("TALLY_ARCHIVE", "build/libtally.a")):
        settings[name] = os.path.abspath(archive)
    run(words, cwd="tests", env=dict(os.environ, **settings))


def out(name):
    return "%s/%s.callgrind" % (WORK, name)


def watch_calls(name):
    run(VALGRIND + ["--callgrind-out-file=" + out(name), CALLS, os.path.join(WORK, name)])


def watch_runs(name):
    """A program on the runs that were kept; one that reads nothing is run once, as the gate runs it."""
    program, kept = os.path.abspath(os.path.join(PROGRAMS, name)), os.path.join(RUNS, name)
    words = VALGRIND + ["--callgrind-out-file=" + os.path.abspath(out(name)), program]
    if os.path.exists(kept):
        run(words, env=dict(os.environ, AGAIN_PROGRAM=program, AGAIN_RUNS=kept, LD_PRELOAD=os.path.abspath(AGAIN)))
        return
    with tempfile.TemporaryDirectory() as folder:
        crate = os.path.join("crates", name)
        if os.path.isdir(crate + "/data"):
            shutil.copytree(crate + "/data", folder, dirs_exist_ok=True)
        given = os.path.abspath(crate + "/stdin")
        with open(given if os.path.exists(given) else os.devnull, "rb") as stdin, open(crate + "/stdout", "rb") as due:
            done = subprocess.run(words, stdin=stdin, stdout=subprocess.PIPE, stderr=subprocess.PIPE, cwd=folder)
            if done.stdout != due.read():
                sys.exit("%s writes something else under callgrind:\n%s" % (name, done.stderr.decode(errors="replace")))


def archive_rows(ran, taken):
    """A row for each member of each archive, and one for each archive that has several."""
    where, rows = callgrind.members(CALLS + ".map"), collections.OrderedDict()
    found = [(where[code[0].address], name, code) for name, code in callgrind.functions(CALLS) if code and code[0].address in where]
    for archive in ARCHIVES:
        total = Row(os.path.basename(archive))
        members = collections.OrderedDict()
        for (path, member), name, code in found:
            if path == archive:
                title = "%s %s.o" % (total.name, member)
                members.setdefault(title, Row(title)).add(name, code, ran, taken)
        for row in members.values():
            total.merge(row)
        rows.update(members if len(members) > 1 else {})
        rows[total.name] = total
    return rows


def program_row(name):
    program = os.path.abspath(os.path.join(PROGRAMS, name))
    ran, taken = callgrind.seen(out(name), program)
    row = Row(name)
    for function, code in callgrind.functions(program):
        if code and function.split("::")[0] in CRATES:
            row.add(function, code, ran, taken)
    return row


def both(counters):
    total = collections.Counter()
    for counter in counters:
        total.update(counter)
    return total


def rows_of(calls, programs):
    seen = [callgrind.seen(out(name), os.path.abspath(CALLS)) for name in calls]
    rows = archive_rows(both(ran for ran, _ in seen), both(taken for _, taken in seen))
    for name in programs:
        rows[name] = program_row(name)
    return rows


def write_left(rows):
    with open(WORK + "/left", "w") as left:
        for name, row in rows.items():
            if name == "libjudge.a":
                continue
            for place, text, taken, count in row.one_way:
                left.write("%s\t%s\t%s\ttaken %d of %d\n" % (name, place, text, taken, count))
            for place, text in row.never:
                left.write("%s\t%s\t%s\tnever ran\n" % (name, place, text))


def held(rows, path):
    """Whether no row has more left than the file says; in words what has."""
    bounds = {}
    with open(path) as lines:
        for line in lines:
            if line.strip() and not line.startswith("#"):
                name, never, one_way = line.rsplit(None, 2)
                bounds[name] = (int(never), int(one_way))
    worse = []
    for name, row in rows.items():
        never, one_way = row.left()
        most = bounds.get(name, (0, 0))
        if never > most[0] or one_way > most[1]:
            worse.append("%s: %d instructions never ran and %d jumps went one way alone; %s allows %d and %d" % (name, never, one_way, path, *most))
    return worse


def write_bounds(rows, path):
    with open(path, "w") as bounds:
        bounds.write("# What a short run may leave of each row: instructions that never ran, and conditional jumps that went one way alone.\n")
        for name, row in rows.items():
            bounds.write("%s %d %d\n" % (name, *row.left()))


def trials(count_of, seed, pool):
    shutil.rmtree(RUNS, ignore_errors=True)
    os.makedirs(RUNS)
    for name in os.listdir(WORK):
        if name.endswith((".calls", ".callgrind")):
            os.remove(os.path.join(WORK, name))
    pool.map(in_pool(lambda trial: keep_trial(trial, count_of(trial), seed)), TRIALS)
    keep_by_hand()


def main():
    words = argparse.ArgumentParser(usage=__doc__)
    words.add_argument("--short", action="store_true")
    words.add_argument("--no-trials", action="store_true")
    words.add_argument("--write", action="store_true")
    words.add_argument("--seed", type=int, default=SEED)
    words.add_argument("--bounds")
    given = words.parse_args()
    began = time.time()
    pool = multiprocessing.pool.ThreadPool(os.cpu_count())
    if not given.no_trials:
        trials(lambda trial: trial.short if given.short else trial.whole, given.seed, pool)
    calls = sorted(name for name in os.listdir(WORK) if name.endswith(".calls"))
    programs = sorted(name for name in os.listdir(PROGRAMS) if os.path.exists("crates/%s/stdout" % name))
    pool.map(in_pool(lambda task: task[0](task[1])), [(watch_calls, name) for name in calls] + [(watch_runs, name) for name in programs], chunksize=1)
    rows = rows_of(calls, programs)
    print("%-44s %16s %15s" % ("", "instructions run", "jumps both ways"))
    for row in rows.values():
        print(row.line())
    write_left(rows)
    print("seed %d, %d s; what is left stands in %s/left" % (given.seed, time.time() - began, WORK))
    if given.bounds and given.write:
        write_bounds(rows, given.bounds)
    elif given.bounds:
        worse = held(rows, given.bounds)
        if worse:
            sys.exit("\n".join(worse))


if __name__ == "__main__":
    main()
