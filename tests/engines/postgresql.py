#!/usr/bin/env python3
"""Tries the extension duplicate_bridge in a server of its own, with the records that the programs `sections`, `field`, `blocks` and `tally_blocks` made.

    postgresql.py PG_CONFIG FOLDER -- MAKE...

MAKE and its words build and install the extension. Run from the repository's folder.
"""
import os
import re
import struct
import subprocess
import sys

from cluster import Cluster, Refused
from trial import by_section, failed, holds, lines_of, same, write

PARALLEL = """SET parallel_setup_cost = 0; SET parallel_tuple_cost = 0; SET min_parallel_table_scan_size = 0;
SET max_parallel_workers_per_gather = 4; SET parallel_leader_participation = %s;
"""
# A small table would be one worker's before the others start: each row takes a moment. The planner takes it that all rows pass.
SLOWLY = "pg_sleep(0.001)::text <> 'x'"
# Merging costs nothing, by the planner's count, so that each partition is worth a part of its own.
PARTITIONS = "SET enable_partitionwise_aggregate = on; SET max_parallel_workers_per_gather = 0; SET cpu_operator_cost = 0;"
TALLY_BYTES = 398
SEATS, STRAINS, DOUBLINGS = "NESW", ("C", "D", "H", "S", "NT"), ("", "X", "XX")


def table(name, columns, rows, more=""):
    """SQL that makes a table of rows of text, bytes as hexadecimal behind a backslash."""
    lines = "".join("\t".join(str(field).replace("\\", "\\\\") for field in row) + "\n" for row in rows)
    return "CREATE TABLE %s (%s) %s;\nCOPY %s FROM STDIN;\n%s\\.\n" % (name, columns, more, name, lines)


def refused(server, what, query, state, detail=None):
    """A query has to be refused so."""
    try:
        same(what, "not refused: " + server.psql(query), state)
    except Refused as error:
        same(what, (error.state, error.detail if detail else None), (state, detail))


def tallies_in(data):
    """The tallies of a file that `section` wrote, by board; none for a board that is marked as refused."""
    blocks = [data[at:at + TALLY_BYTES] for at in range(0, len(data), TALLY_BYTES)]
    return {block[0]: None if block[1:] == b"\xff" * (TALLY_BYTES - 1) else "\\x" + block.hex() for block in blocks}


def sheet_of(standings):
    """The rows of `standings` by board: score, count and matchpoints; None for a refused board."""
    boards, board = {}, None
    for line in standings.splitlines():
        words = line.split()
        if words[0] == "BOARD":
            board = int(words[1])
            boards[board] = None if words[-1] == "refused" else []
        elif words[0] != "NS-SCORE":
            boards[board].append(tuple(int(word) for word in words[:4]))
    return boards


def regression(make, server):
    run = subprocess.run(make + ["installcheck"], env=dict(os.environ, PGHOST=server.sockets, PGUSER="club"), capture_output=True, text=True)
    differences = os.path.join("build/engines/postgresql", "regression.diffs")
    if run.returncode:
        failed.append("regression files")
        print(run.stdout + run.stderr + (open(differences).read() if os.path.exists(differences) else ""))


def judgement_of(number, answer):
    """A judgement as SQL prints it, from the number and the seven bytes that the judge in Rust gives."""
    if number:
        return "(%d,%d,,,,,,,,)" % divmod(number, 1024)
    bits = int.from_bytes(answer, "big")
    fields = []
    for width in (16, 6, 4, 4, 2, 2, 3, 3, 9, 7):
        fields.insert(0, bits & (1 << width) - 1)
        bits >>= width
    board, at_table, level, strain, doubling, declarer, tricks, after, revokes, score = fields
    score -= 0x10000 if score >= 0x8000 else 0
    if level == 0:
        return "(0,0,%d,%d,PASS,,,,0,0)" % (board, at_table)
    contract = "%d%s%s" % (level, STRAINS[strain], DOUBLINGS[doubling])
    return "(0,0,%d,%d,%s,%s,%d,%d,%d,%d)" % (board, at_table, contract, SEATS[declarer], tricks, after, revokes, score)


def records_in(data):
    """The records of the program `blocks`, each with the number and the answer due; those with a short buffer are left out, since SQL lends whole ones."""
    at = 0
    while at < len(data):
        length, _, _, _, _, number = struct.unpack_from(">5HI", data, at)
        at += 14
        record, answer = data[at:at + length], b""
        at += length
        if number == 0:
            answer, revokes = data[at:at + 7], data[at + 7]
            at += 8 + revokes + 52
            at += 1 + data[at]
        if number // 1024 != 1:
            yield record, number, answer


def judging(server, folder):
    """The judge on records of all shapes, whole and damaged, and the errors of every refusal, in plain and parallel plans."""
    with open(os.path.join(folder, "blocks"), "rb") as file:
        records = list(records_in(file.read()))
    rows = [(k, "\\x" + record.hex(), judgement_of(number, answer)) for k, (record, number, answer) in enumerate(records)]
    server.psql(table("judged", "n int, record bytea, due text", rows, "WITH (parallel_workers = 4)"))
    same("judgements that differ", server.psql("SELECT n, judge(record), due FROM judged WHERE judge(record)::text <> due"), "")
    same("judgements that differ in a parallel plan",
         server.psql(PARALLEL % "off" + "SELECT count(*), count(*) FILTER (WHERE judge(record)::text = due) FROM judged"), "%d|%d" % (len(rows), len(rows)))
    first = {}
    for record, number, _ in records:
        if number:
            first.setdefault(number // 1024, (record, number))
    same("refusals of records", sorted(first), list(range(2, 17)) + list(range(23, 28)))
    among = "SELECT tally_of(CASE WHEN n = 7 THEN %s ELSE record END) FROM field WHERE board = 1"
    plan = server.psql(PARALLEL % "off" + "EXPLAIN " + among % "NULL")
    holds("a refused record in a parallel plan\n" + plan, "Partial Aggregate" in plan and "Gather" in plan)
    for refusal, (record, number) in sorted(first.items()):
        state, detail, literal = "BD%03d" % refusal, "refusal %d, place %d" % divmod(number, 1024), "'\\x%s'" % record.hex()
        for what, query in (("tally_add", "SELECT tally_add(tally_fresh(1), %s)"), ("tally_points", "SELECT tally_points(tally_fresh(1), %s)"),
                            ("tally_of", "SELECT tally_of(%s::bytea)"), ("a parallel plan", PARALLEL % "off" + among)):
            refused(server, "refusal %d by %s" % (refusal, what), query % literal, state, detail)
    refused(server, "two boards in a parallel plan", PARALLEL % "off" + "SELECT tally_of(record) FROM field", "BD018", "refusal 18, place 0")
    for state, call in (("BD003", "tally_fresh(n - 7)"), ("BD017", "record::tally"), ("BD021", "tally_points(tally_fresh(board), record)")):
        query = "SELECT count(CASE WHEN n = 7 THEN %s END) FROM field" % call
        plan = server.psql(PARALLEL % "off" + "EXPLAIN " + query)
        holds("%s in a parallel plan\n%s" % (call, plan), "Partial Aggregate" in plan and "Gather" in plan)
        refused(server, "%s in a parallel plan" % call, PARALLEL % "off" + query, state, "refusal %d, place 0" % int(state[2:]))
    return len(rows)


def check_plan(server, what, settings, query, workers):
    """A plan in parts: with workers of which two or more have rows, or without any."""
    plan = server.psql(settings + "EXPLAIN (ANALYZE, VERBOSE, COSTS OFF) " + query)
    holds(what + ": the plan is in parts\n" + plan, "Partial" in plan and "Finalize" in plan)
    rows = [int(rows) for rows in re.findall(r"Worker \d+:\s+actual time=\S+ rows=(\d+)", plan.split("Seq Scan")[-1])]
    holds(what + ": rows of two workers or more\n" + plan, sum(count > 0 for count in rows) >= 2 if workers else "Gather" not in plan)


def groups(server, what, settings, source, due, workers):
    """The tallies of each board by a plan in parts: all four aggregates, and one with the old fault, which has to differ."""
    boards = ", ".join(str(board) for board, tally in due.items() if tally)
    where = SLOWLY if workers else "true"
    alone = "tally_add(tally_fresh(board), record)"
    every = "SELECT board, tally_try_of(record)::text, tally_try_sum(%s)::text FROM %s WHERE %s GROUP BY board" % (alone, source, where)
    good = "SELECT board, %%s FROM %s WHERE board IN (%s) AND %s GROUP BY board" % (source, boards, where)
    exact = good % ("tally_of(record)::text, tally_sum(%s)::text" % alone)
    check_plan(server, what, settings, every, workers)
    check_plan(server, what, settings, exact, workers)

    def rows(query):
        return sorted(server.psql(settings + query).splitlines())

    same(what + ", tried", rows(every), sorted("%d|%s|%s" % (board, tally or "", tally or "") for board, tally in due.items()))
    same(what, rows(exact), sorted("%d|%s|%s" % (board, tally, tally) for board, tally in due.items() if tally))
    holds(what + ": the old fault is found", rows(good % "left_of(record)::text") != sorted("%d|%s" % item for item in due.items() if item[1]))
    for board in (board for board, tally in due.items() if tally is None):
        query = "SELECT tally_of(record) FROM %s WHERE board = %d AND %s" % (source, board, where)
        refused(server, "%s, board %d" % (what, board), settings + query, "BD019" if board in (16, 64) else "BD028")


def sections(server, folder):
    """Three sections as one field: a fouled board between sections and one within, one over 128 results in all and one over in one section."""
    rows = [(k, "\\x" + line) for k in (1, 2, 3) for line in lines_of(folder, "sections", "section-%d" % k)]
    columns = "section int, record bytea, board int GENERATED ALWAYS AS ((judge(record)).board) STORED"
    loaded = "COPY %s (section, record) FROM STDIN;\n" + "".join("%d\t\\%s\n" % row for row in rows) + "\\.\n"
    server.psql("CREATE TABLE records (%s) WITH (fillfactor = 10, parallel_workers = 4);\n" % columns + loaded % "records")
    server.psql("CREATE TABLE parts (%s) PARTITION BY LIST (section);\n" % columns
                + "".join("CREATE TABLE part_%d PARTITION OF parts FOR VALUES IN (%d);\n" % (k, k) for k in (1, 2, 3)) + loaded % "parts")
    server.psql("""CREATE FUNCTION keep_left(tally, tally) RETURNS tally LANGUAGE sql IMMUTABLE STRICT PARALLEL SAFE AS 'SELECT $1';
        CREATE AGGREGATE left_of(bytea) (SFUNC = tally_of_step, STYPE = tally, COMBINEFUNC = keep_left, PARALLEL = SAFE);
        ANALYZE records; ANALYZE parts;""")
    standings, _, _, data = by_section(folder, [line for k in (1, 2, 3) for line in lines_of(folder, "sections", "section-%d" % k)])
    # What `section` refuses of all records is what `standings` refuses of three sections.
    same("standings of three sections", standings, "\n".join(lines_of(folder, "sections", "standings")) + "\n")
    due = tallies_in(data)
    same("boards refused", sorted(board for board, tally in due.items() if tally is None), [7, 16, 17, 64])
    for leader in ("on", "off"):
        groups(server, "four workers, leader %s" % leader, PARALLEL % leader, "records", due, True)
    groups(server, "partitions", PARTITIONS, "parts", due, False)
    tallies = "SELECT board, tally_try_of(record) AS t FROM records GROUP BY board"
    results = server.psql("SELECT board, r.* FROM (%s) v, tally_results(t) r ORDER BY 1, 2 DESC" % tallies)
    found = {board: [] if rows is not None else None for board, rows in sheet_of(standings).items()}
    for line in results.splitlines():
        board, score, count, ns, ew, percent = line.split("|")
        found[int(board)].append((int(score), int(count), int(ns), int(ew), float(percent) if percent else None))
    sheets = {board: rows and [row + (100 * row[2] / (2 * (sum(r[1] for r in rows) - 1)) if sum(r[1] for r in rows) > 1 else None,) for row in rows]
              for board, rows in sheet_of(standings).items()}
    same("rows of the sheets, and percentages bit for bit", found, sheets)


def orders(server, folder):
    """A field in a hundred physical orders, running aggregates, points of each record, and tables of tallies that stay as they are."""
    lines = lines_of(folder, "field")
    server.psql("CREATE TABLE field (n int, record bytea, board int GENERATED ALWAYS AS ((judge(record)).board) STORED) WITH (parallel_workers = 4);\n"
                "COPY field (n, record) FROM STDIN;\n" + "".join("%d\t\\\\x%s\n" % row for row in enumerate(lines)) + "\\.\nANALYZE field;")
    due = tallies_in(by_section(folder, lines)[3])
    server.psql("SELECT setseed(0.39); CREATE TABLE orders AS SELECT k, board, record FROM field, generate_series(1, 100) k ORDER BY random();")
    for settings in ("", PARALLEL % "on"):
        wrote = server.psql(settings + "SELECT board, count(*), min(t::text) FROM (SELECT k, board, tally_of(record) AS t FROM orders GROUP BY k, board) v "
                            "GROUP BY board HAVING count(DISTINCT t) = 1 AND count(*) = 100")
        same("a hundred orders", sorted(wrote.splitlines()), sorted("%d|100|%s" % item for item in due.items()))
    for call in ("tally_of(record)", "tally_try_of(record)", "tally_sum(tally_add(tally_fresh(board), record))",
                 "tally_try_sum(tally_add(tally_fresh(board), record))"):
        wrote = server.psql("CREATE TEMP TABLE w AS SELECT n, board, %s OVER (PARTITION BY board ORDER BY n) AS t FROM field;\n"
                            "SELECT count(*) FILTER (WHERE t = (SELECT tally_of(record) FROM field f WHERE f.board = w.board AND f.n <= w.n)) FROM w" % call)
        same("running " + call, wrote, str(len(lines)))
    wrote = server.psql("SELECT count(*) FROM field, judge(record) j, LATERAL (SELECT tally_of(f.record) AS t FROM field f WHERE f.board = field.board) v, "
                        "tally_points(t, record) p, tally_results(t) r WHERE r.ns_score = j.ns_score AND (r.ns_matchpoints, r.ew_matchpoints, r.ns_percent) = "
                        "(p.ns_matchpoints, p.ew_matchpoints, p.ns_percent)")
    same("points of each record", wrote, str(len(lines)))
    server.psql("CREATE TABLE tallies WITH (fillfactor = 20, parallel_workers = 4) AS "
                "SELECT board, n % 4 AS part, tally_of(record) AS t FROM field GROUP BY 1, 2")
    image = "SELECT md5(string_agg(t::text, ' ' ORDER BY board, part)) FROM tallies;"
    before = server.psql(image)
    for settings in ("", PARALLEL % "on", PARALLEL % "off"):
        for call in ("tally_sum(t)", "tally_try_sum(t)"):
            wrote = server.psql(settings + "SELECT board, %s FROM tallies WHERE %s GROUP BY board" % (call, SLOWLY))
            same("%s of a table" % call, sorted(wrote.splitlines()), sorted("%d|%s" % item for item in due.items()))
            server.psql("SELECT %s OVER (PARTITION BY board ORDER BY part DESC) FROM tallies;" % call
                        + "SELECT tally_merge(a.t, b.t) FROM tallies a JOIN tallies b USING (board)")
            same("a table of tallies after %s" % call, server.psql(image), before)


def calls_in(data):
    """The merges of the program `tally_blocks`: both arguments, the number due and the bytes due; those with a short buffer are left out."""
    needed, at = (398, 398, 398, 4, 9, 9, 4), 0
    while at < len(data):
        kind, first, second, _, _, number = struct.unpack_from(">4HII", data, at)
        at += 16
        a, b = data[at:at + first], data[at + first:at + first + second]
        at += first + second
        out = b"" if number else data[at:at + needed[kind]]
        at += len(out)
        if kind == 2 and number // 1024 != 1:
            yield a, b, number, out


def merges(server, folder):
    """Merges of tallies and of forged bytes, as the calls in Rust make them, and forged bytes in binary form."""
    with open(os.path.join(folder, "tally_blocks"), "rb") as file:
        calls = list(calls_in(file.read()))
    rows = [("\\x" + a.hex(), "\\x" + b.hex(), "BD%03d" % (number // 1024) if number else "\\x" + out.hex()) for a, b, number, out in calls]
    server.psql("""CREATE FUNCTION merged(a bytea, b bytea) RETURNS text LANGUAGE plpgsql AS $$ BEGIN
        RETURN tally_merge(a::tally, b::tally)::text; EXCEPTION WHEN OTHERS THEN RETURN SQLSTATE; END $$;\n"""
                + table("merges", "a bytea, b bytea, due text", rows))
    same("merges that differ", server.psql("SELECT a, b, merged(a, b), due FROM merges WHERE merged(a, b) <> due"), "")
    same("refusals of merges", sorted({row[2] for row in rows if row[2].startswith("BD")}), ["BD017", "BD018", "BD019", "BD028"])
    good = next(out for _, _, number, out in calls if number == 0)
    forged = [b"", good[:-1], good + b"\0", bytes(TALLY_BYTES), b"\0" + good[1:], b"\x80" + good[1:], good[:270] + bytes(128), b"\xff" * TALLY_BYTES]
    for k, block in enumerate([good] + forged):
        path = os.path.abspath(os.path.join(folder, "binary"))
        with open(path, "wb") as file:
            file.write(b"PGCOPY\n\xff\r\n\0" + bytes(8) + struct.pack(">hi", 1, len(block)) + block + struct.pack(">h", -1))
        query = "CREATE TEMP TABLE b (t tally);\n\\copy b FROM '%s' (FORMAT binary)\nSELECT t FROM b" % path
        if k == 0:
            same("a tally in binary form", server.psql(query), "\\x" + block.hex())
        else:
            refused(server, "forged binary form %d" % k, query, "BD017", "refusal 17, place 0")
    return len(rows)


def storage(server, folder):
    """Records that are compressed, stored out of their rows or behind a header of one byte; and all of it dumped and read into another database."""
    longest = max(lines_of(folder, "field"), key=len)
    server.psql("""CREATE TABLE wide (kind text, pad text, record bytea);
        ALTER TABLE wide ALTER pad SET STORAGE plain, ALTER record SET STORAGE external;
        INSERT INTO wide VALUES ('out of its row', repeat('x', 3000), '\\x%s'), ('compressed', '', NULL), ('plain', '', '\\x%s');
        ALTER TABLE wide ALTER record SET STORAGE extended;
        UPDATE wide SET pad = repeat('x', 3000), record = '\\x%s'::bytea || decode(repeat('00', 1500), 'hex')
            WHERE kind = 'compressed'""" % (longest, longest, longest))
    same("bytes out of rows", server.psql("SELECT pg_relation_size(reltoastrelid) > 0 FROM pg_class WHERE relname = 'wide'"), "t")
    same("bytes compressed", server.psql("SELECT pg_column_compression(record) FROM wide WHERE kind = 'compressed'"), "pglz")
    same("records wherever they stand", server.psql("SELECT kind, refusal FROM wide, judge(record) ORDER BY 1"), "compressed|16\nout of its row|0\nplain|0")
    server.psql("""CREATE TABLE club (record bytea CHECK ((judge(record)).refusal = 0), board int GENERATED ALWAYS AS ((judge(record)).board) STORED,
        table_no int GENERATED ALWAYS AS ((judge(record)).table_no) STORED, UNIQUE (board, table_no));
        INSERT INTO club SELECT record FROM field; CREATE INDEX ON tallies (t); CREATE DATABASE copied;""")
    dump = subprocess.run([server.program("pg_dump"), "-h", server.sockets, "-U", "club", "postgres"], capture_output=True, text=True, check=True, cwd="/")
    server.psql(dump.stdout, "copied")
    for query in ("SELECT board, table_no, record FROM club ORDER BY 1, 2", "SELECT board, part, t FROM tallies ORDER BY 1, 2",
                  "SELECT board, tally_try_of(record) FROM records GROUP BY board ORDER BY board", "SELECT kind, judge(record) FROM wide ORDER BY 1"):
        same("a dump: " + query, server.psql(query, "copied"), server.psql(query))
    refused(server, "a refused record in a table with a check", "INSERT INTO club VALUES ('\\x00')", "23514")
    refused(server, "a second record of a board and table", "INSERT INTO club SELECT record FROM club LIMIT 1", "23505")


def main():
    pg_config, folder = sys.argv[1:3]
    make = sys.argv[4:]
    with Cluster("build/engines/cluster", make, pg_config) as server:
        regression(make, server)
        server.psql("CREATE EXTENSION duplicate_bridge")
        orders(server, folder)
        sections(server, folder)
        judged, merged = judging(server, folder), merges(server, folder)
        storage(server, folder)
        holds("the server is still running", server.alive())
    if not failed:
        print("duplicate_bridge: %d judgements, %d merges, a hundred orders, parallel plans, partitions, windows and a dump: the bytes of `section`"
              % (judged, merged))
    sys.exit(bool(failed))


if __name__ == "__main__":
    main()
