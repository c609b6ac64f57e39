#!/usr/bin/env python3
"""The speeds of docs/SCALE.md, in one run, on a whole field that the program `field` made: 127 boards of 128 results.

    bench.py PG_CONFIG FIELD -- MAKE...

Run from the repository's folder.
"""
import os
import re
import statistics
import subprocess
import sys
import time

from cluster import Cluster
from mpi import LAUNCHER, PROGRAM
from trial import by_section, lines_of

FIELDS = 62
TURNS = 5
SHORT_TURNS = 31

TALLIES = "SELECT field, board, tally_of(record) FROM records GROUP BY field, board"
JUDGE = "SELECT count(j.ns_score) FROM records, judge(record) j"
READING = "SELECT count(get_byte(record, 0)) FROM records"
RESULTS = "SELECT field, board, r.* FROM (%s) v(field, board, t), tally_results(t) r" % TALLIES
# What a service writes that has a table of scores: the matchpoints of each result by window functions, and the same grouped by score first.
WINDOW = """SELECT field, board, ns_score, 2 * (rank() OVER (PARTITION BY field, board ORDER BY ns_score) - 1)
    + count(*) OVER (PARTITION BY field, board, ns_score) - 1 AS ns_matchpoints FROM scores"""
GROUPED = """SELECT field, board, ns_score, results,
    2 * (sum(results) OVER (PARTITION BY field, board ORDER BY ns_score) - results) + results - 1 AS ns_matchpoints
    FROM (SELECT field, board, ns_score, count(*) AS results FROM scores GROUP BY field, board, ns_score) v"""
FROM_RECORDS = WINDOW.replace("FROM scores", "FROM (SELECT field, records.board, j.ns_score FROM records, judge(record) j) v")
GROUPED_FROM_RECORDS = GROUPED.replace("FROM scores", "FROM (SELECT field, records.board, j.ns_score FROM records, judge(record) j) w")


def seconds_of(server, query, workers):
    """The middle of some turns, of what the server says that the query took; and whether that many workers ran."""
    explained = "SET max_parallel_workers_per_gather = %d; SET work_mem = '256MB'; EXPLAIN (ANALYZE, TIMING OFF) %s" % (workers, query)
    plans = [server.psql(explained) for _ in range(TURNS)]
    launched = re.findall(r"Workers Launched: (\d+)", plans[-1])
    return statistics.median(float(re.search(r"Execution Time: (\S+) ms", plan)[1]) / 1000 for plan in plans), sum(map(int, launched))


def postgresql(make, pg_config, lines):
    with Cluster("build/engines/bench", make, pg_config) as server:
        server.psql("CREATE EXTENSION duplicate_bridge; CREATE UNLOGGED TABLE one (record bytea);\nCOPY one FROM STDIN;\n"
                    + "".join("\\\\x%s\n" % line for line in lines) + "\\.\n")
        server.psql("""CREATE UNLOGGED TABLE records (field int, board int, record bytea) WITH (parallel_workers = 2);
            INSERT INTO records SELECT field, (judge(record)).board, record FROM one, generate_series(1, %d) field ORDER BY field, random();
            CREATE UNLOGGED TABLE scores (field int, board int, ns_score int) WITH (parallel_workers = 2);
            INSERT INTO scores SELECT field, board, (judge(record)).ns_score FROM records;""" % FIELDS)
        server.psql("VACUUM ANALYZE records; VACUUM ANALYZE scores;")
        differ = server.psql("SELECT count(*) FROM (SELECT field, board, ns_score, results, ns_matchpoints FROM (%s) a EXCEPT %s) v" % (RESULTS, GROUPED))
        if differ != "0":
            sys.exit("plain SQL and tally_results differ on %s rows" % differ)
        count = FIELDS * len(lines)
        print("%d records of %.0f bytes on average; seconds, and records a second" % (count, sum(map(len, lines)) / 2 / len(lines)))
        for what, query, most in (("the records read", READING, 2), ("judged", JUDGE, 2), ("tally_of by field and board", TALLIES, 2),
                                  ("and tally_results of each", RESULTS, 2),
                                  ("plain SQL from scores, window functions", WINDOW, 0), ("plain SQL from scores, grouped by score first", GROUPED, 2),
                                  ("judge, and plain SQL, window functions", FROM_RECORDS, 0),
                                  ("judge, and plain SQL, grouped by score first", GROUPED_FROM_RECORDS, 2)):
            for workers in range(most + 1):
                seconds, launched = seconds_of(server, query, workers)
                print("%s, %d workers (%d ran): %.3f s, %d" % (what, workers, launched, seconds, count / seconds))
                sys.stdout.flush()


def by_programs(path, out):
    """The seconds of `section` and of `standings` on a file of records."""
    with open(path) as file:
        began = time.time()
        subprocess.run(["build/section", "-o", out], stdin=file, check=True)
        middle = time.time()
        subprocess.run(["build/standings", out], check=True, stdout=subprocess.DEVNULL)
        return middle - began, time.time() - middle


def by_ranks(path, ranks):
    """The seconds that the ranks tell, to tally and to merge, and those with the launcher."""
    began = time.time()
    run = subprocess.run(["mpirun", "-n", str(ranks), "--oversubscribe", PROGRAM, "-t", path], env=dict(os.environ, **LAUNCHER), check=True,
                         stdout=subprocess.DEVNULL, stderr=subprocess.PIPE, text=True)
    whole = time.time() - began
    return [float(number) for number in re.findall(r"(\d+\.\d+) s", run.stderr)] + [whole]


def mpi(path, lines):
    """A field takes so little time that other programs on the machine show: the least and the middle of many turns."""
    out = os.path.join(os.path.dirname(path), "tallies")
    for what, names, run in (("section and standings", ("section", "standings"), lambda: by_programs(path, out)),
                             ("standings-mpi, 1 rank", ("to tally", "to merge", "with mpirun"), lambda: by_ranks(path, 1)),
                             ("standings-mpi, 2 ranks", ("to tally", "to merge", "with mpirun"), lambda: by_ranks(path, 2))):
        columns = list(zip(*(run() for _ in range(SHORT_TURNS))))
        told = ["%s %.4f to %.4f s" % (name, min(column), statistics.median(column)) for name, column in zip(names, columns)]
        print("%s, %d records: %s; %d to %d records a second" % (what, len(lines), ", ".join(told), len(lines) / statistics.median(columns[0]),
                                                                 len(lines) / min(columns[0])))
        sys.stdout.flush()


def main():
    pg_config, path = sys.argv[1:3]
    lines = lines_of(path)
    by_section(os.path.dirname(path), lines)
    mpi(path, lines)
    postgresql(sys.argv[4:], pg_config, lines)


if __name__ == "__main__":
    main()
