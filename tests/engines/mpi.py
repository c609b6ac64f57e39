#!/usr/bin/env python3
"""Tries build/standings-mpi under the real launcher, in a folder with the records that the programs `sections` and `field` made.

    mpi.py FOLDER

Numbers of ranks, every algorithm of Open MPI's reduction and lines in random orders have to print what `section` and `standings` print; the same program with
the old fault as its operation has to be found. Run from the repository's folder.
"""
import os
import random
import re
import subprocess
import sys

from trial import by_section, failed, holds, lines_of, same, write

RANKS = (1, 2, 3, 5, 8)
ALGORITHMS = range(1, 8)
PROGRAM = os.path.abspath("build/standings-mpi")
FAULTY = os.path.abspath("build/engines/left-count-mpi")
# One machine: no search for others, shared memory between ranks by copies, which needs no right over other processes, and no wait before ranks are ended.
LAUNCHER = {"OMPI_ALLOW_RUN_AS_ROOT": "1", "OMPI_ALLOW_RUN_AS_ROOT_CONFIRM": "1", "OMPI_MCA_plm": "isolated", "OMPI_MCA_btl": "self,vader",
            "OMPI_MCA_btl_vader_single_copy_mechanism": "none", "OMPI_MCA_hwloc_base_binding_policy": "none", "OMPI_MCA_odls_base_sigkill_timeout": "0"}


def launch(ranks, words, algorithm=None, cwd=None):
    """Standard output, the lines of standard error without the launcher's own, and the exit status."""
    forced = ["--mca", "coll_tuned_use_dynamic_rules", "1", "--mca", "coll_tuned_reduce_algorithm", str(algorithm)] if algorithm else []
    run = subprocess.run(["mpirun", "-n", str(ranks), "--oversubscribe"] + forced + words, env=dict(os.environ, **LAUNCHER), cwd=cwd,
                         stdin=subprocess.DEVNULL, capture_output=True, text=True, timeout=60)
    said = re.sub(r"^-{60,}\n.*?^-{60,}\n", "", run.stderr, flags=re.S | re.M)
    return run.stdout, said.splitlines(), run.returncode


def shuffled(folder, lines, chance):
    """The lines in another order, in three files."""
    chance.shuffle(lines)
    cuts = [0] + sorted(chance.randrange(len(lines)) for _ in range(2)) + [len(lines)]
    return [write(folder, "part-%d" % k, lines[cuts[k]:cuts[k + 1]]) for k in range(3)]


def try_orders(folder, what, lines, runs, chance):
    """The program's output for some numbers of ranks and algorithms, each on the lines in another order, held to what is due."""
    due = by_section(folder, lines)
    for ranks, algorithm in runs:
        out, said, status = launch(ranks, [PROGRAM] + shuffled(folder, lines, chance), algorithm)
        name = "%s, %d ranks, algorithm %s" % (what, ranks, algorithm)
        same(name, out, due[0])
        same(name + ", status", status, due[2])
        same(name + ", boards refused", sorted(line for line in said if re.match(r"board \d+ refused$", line)),
             sorted(line.lower() for line in due[0].splitlines() if line.endswith(" refused")))


def try_fault(folder, chance):
    """The old fault is found by every algorithm. Given the lines in one order the algorithms differ by it, so they do merge in different orders."""
    lines = lines_of(folder, "field")
    due = by_section(folder, lines)[0]
    files = shuffled(folder, lines, chance)
    same("the old fault on one rank, where nothing is merged", launch(1, [FAULTY] + files)[0], due)
    outputs = [launch(max(RANKS), [FAULTY] + files, algorithm)[0] for algorithm in ALGORITHMS]
    same("algorithms by which the old fault is not found", [k for k, out in zip(ALGORITHMS, outputs) if out == due], [])
    holds("the algorithms give three outputs or more by the old fault", len(set(outputs)) >= 3)


def bad_lines(folder):
    """A file with every kind of line, and what stands in it twice."""
    good = lines_of(folder, "field")[:60]
    other = lines_of(folder, "sections", "section-1")
    spaced = "  " + " ".join(re.findall("..", good[3])) + "  # again"
    bad = ["0", "02 0", "zz", "02", "00 01", "0201", "ff" * 600, good[5][:-2], good[6] + "00"]
    return good + ["", "# nothing", spaced] + bad + [good[7][:4] + good[8][4:], good[9], good[9].upper()] + other[:20]


def try_words(folder):
    """What is said, on one rank and on several: each once, in the words of `section`."""
    lines = bad_lines(folder)
    path = write(folder, "bad", "\n".join(lines))
    due = by_section(folder, lines)
    told = sorted(line.replace("standard input", path) for line in due[1])
    for kind in ("record refused", "is not hexadecimal", "counted once", "left out, a different"):
        holds("a line is told as: " + kind, any(kind in line for line in told))
    for ranks in RANKS:
        out, said, status = launch(ranks, [PROGRAM, path])
        same("faults, %d ranks" % ranks, out, due[0])
        same("faults, %d ranks, status" % ranks, status, 2)
        same("faults, %d ranks, words" % ranks, sorted(line for line in said if not re.search(r"board \d+ refused", line)),
             [line for line in told if not re.search(r"board \d+ refused", line)])


def try_other_ranks(folder):
    """A fault that rank 0 does not meet is told in the exit status: a refused record, one left out, and a bad line of rank 1."""
    field = lines_of(folder, "field")
    odd, another = [line for line in field if int(line[:4], 16) % 2 == 1][:2]
    for what, lines, status in (("refused", [odd + "00"], 1), ("left out", [odd, odd[:4] + another[4:]], 1), ("a bad line", ["", "zz"], 2)):
        path = write(folder, "odd", lines)
        due = by_section(folder, lines)
        same(what + " at rank 1", launch(2, [PROGRAM, path]), (due[0], [line.replace("standard input", path) for line in due[1]], status))


def try_additions(folder):
    """A fouled board, and one over 128 results, in the words of `section` where one rank meets them."""
    for k, words in ((1, "board 17 refused, a fouled board, results of two deals"), (2, "board 64 refused, more than 128 results")):
        path = os.path.join(folder, "sections", "section-%d" % k)
        out, said, status = launch(1, [PROGRAM, path])
        due = by_section(folder, lines_of(path))
        same("additions of section %d" % k, (out, status), (due[0], 1))
        same("additions of section %d, words" % k, [line for line in said if ", line " in line], [line.replace("standard input", path) for line in due[1]])
        same("additions of section %d, once" % k, len([line for line in said if line.endswith(words)]), 1)


def try_files(folder):
    """Files that cannot be opened or read to their end, by all ranks and by one alone, which stands in another folder."""
    lines = lines_of(folder, "field")[:100]
    here, there = os.path.join(folder, "here"), os.path.join(folder, "there")
    for place in (here, there):
        os.makedirs(os.path.join(place), exist_ok=True)
        write(place, "first", lines[:50])
    write(here, "second", lines[50:])
    write(here, "third", lines[50:])
    write(there, "third", lines[50:70])
    write(here, "folder", lines[50:])
    os.makedirs(os.path.join(there, "folder"), exist_ok=True)
    due = by_section(folder, lines[:50])
    apart = ["sh", "-c", 'test "$OMPI_COMM_WORLD_RANK" != 1 || cd ../there; exec "$0" "$@"', PROGRAM]
    for ranks in (2, 3, 8):
        for what, words, said, out in (
                ("missing", [PROGRAM, "none", "first"], ["none cannot be opened"], due[0]),
                ("missing at one rank", apart + ["first", "second"], ["second cannot be opened"], due[0]),
                ("a folder", [PROGRAM, "first", "."], [". cannot be read to its end"], ""),
                ("a folder at one rank", apart + ["first", "folder"], ["folder cannot be read to its end"], ""),
                ("shorter at one rank", apart + ["third", "first"], ["third has other lines on other ranks"], "")):
            same("%s, %d ranks" % (what, ranks), launch(ranks, words, cwd=here), (out, said, 2))


def try_options(folder):
    field = os.path.join(folder, "field")
    out, said, status = launch(3, [PROGRAM, "--help"])
    same("--help", (out.count("usage:"), said, status), (1, [], 0))
    out, said, status = launch(3, [PROGRAM, "--version"])
    same("--version", (re.sub(r"\d+\.\d+", "N", out), said, status), ("standings-mpi (judge N, tally N)\n", [], 0))
    for words in ([], ["-q", field]):
        out, said, status = launch(3, [PROGRAM] + words)
        same("usage of %s" % words, (out, [line.split(":")[0] for line in said].count("usage"), status), ("", 1, 2))
    out, said, status = launch(2, [PROGRAM, "-t", field])
    same("-t", [re.sub(r"\d+\.\d+", "N", line) for line in said], ["2 ranks: N s to read, judge and tally, N s to merge"])
    same("no record", launch(2, [PROGRAM, write(folder, "empty", "")]), ("", [], 0))
    with open("/dev/full", "w") as full:
        run = subprocess.run([PROGRAM, field], stdout=full, stderr=subprocess.PIPE, text=True, env=dict(os.environ, **LAUNCHER))
    same("a full device, without a launcher", (run.stderr, run.returncode), ("what is due cannot be written\n", 2))


def main():
    folder = sys.argv[1]
    sections = [os.path.join(folder, "sections", "section-%d" % k) for k in (1, 2, 3)]
    lines, chance = [line for path in sections for line in lines_of(path)], random.Random(39)
    with open(os.path.join(folder, "sections", "standings")) as standings:
        same("three sections by `section` and `standings`", by_section(folder, lines)[0], standings.read())
    try_orders(folder, "three sections", lines, [(ranks, None) for ranks in RANKS], chance)
    forced = [(ranks, algorithm) for ranks in RANKS[1:] for algorithm in ALGORITHMS]
    try_orders(folder, "a field", lines_of(folder, "field"), [(ranks, None) for ranks in RANKS] + forced, chance)
    try_fault(folder, chance)
    try_words(folder)
    try_other_ranks(folder)
    try_additions(folder)
    try_files(folder)
    try_options(folder)
    if not failed:
        print("standings-mpi: the bytes of `section` and `standings` on %s ranks by every algorithm; the old fault is found" % ", ".join(map(str, RANKS)))
    sys.exit(bool(failed))


if __name__ == "__main__":
    main()
