-- The type: 398 bytes in, the same bytes out.
SELECT tally_fresh(7)::text = '\x07' || repeat('00', 397) AS empty, length(tally_fresh(7)::bytea) AS bytes;
SELECT upper(substr(t::text, 3)) <> substr(t::text, 3) AS has_letters, ('\x' || upper(substr(t::text, 3)))::tally = t AS either_case,
    t::bytea::tally = t AS cast_back,
    tally_send(t) = t::bytea AS sent, t::text::tally::text = t::text AS text_back
    FROM (SELECT tally_add(tally_fresh(2), record) FROM samples WHERE name = 'slam') v(t);

-- A result alone, and the calls on two.
SELECT r.* FROM samples, tally_results(tally_add(tally_fresh(3), record)) r WHERE name = 'claim';
SELECT r.* FROM tally_results(tally_fresh(3)) r;
SELECT r.* FROM tally_results((SELECT tally_merge(tally_add(tally_fresh(3), a.record), tally_add(tally_fresh(3), b.record))
    FROM sections a, sections b WHERE substr(a.record, 1, 2) = '\x0601' AND substr(b.record, 1, 2) = '\x0605')) r;
SELECT tally_merge(t, t) = tally_add(t, record) AS one_value_twice
    FROM (SELECT tally_add(tally_fresh(3), record), record FROM samples WHERE name = 'claim') v(t, record);
SELECT tally_merge(tally_fresh(3), t) = t AS empty_first, tally_merge(t, tally_fresh(3)) = t AS empty_second
    FROM (SELECT tally_add(tally_fresh(3), record) FROM samples WHERE name = 'claim') v(t);

-- A traveller: the points of one record's result.
SELECT ns_score, p.* FROM sections s, judge(record), tally_points((SELECT tally_of(record) FROM sections WHERE get_byte(record, 0) >> 1 = 3), s.record) p
    WHERE board = 3 ORDER BY table_no;
SELECT p.* FROM samples, tally_points(tally_add(tally_fresh(3), record), record) p WHERE name = 'claim';

-- Nulls.
SELECT tally_fresh(NULL) IS NULL, tally_add(NULL, '\x00') IS NULL, tally_add(tally_fresh(1), NULL) IS NULL, tally_merge(NULL, tally_fresh(1)) IS NULL,
    NULL::bytea::tally IS NULL, (SELECT count(*) FROM tally_results(NULL)), tally_points(tally_fresh(1), NULL) IS NULL;

-- Compared by bytes: sorted, grouped, joined and told apart, by sorting and by hashing.
CREATE TEMP TABLE kept AS SELECT board % 5 + 1 AS board, tally_fresh(board % 5 + 1) AS t FROM generate_series(1, 100) board;
SELECT count(DISTINCT t) FROM kept;
SELECT tally_cmp(tally_fresh(1), tally_fresh(2)) < 0, tally_fresh(1) < tally_fresh(2), tally_fresh(2) <= tally_fresh(2), tally_fresh(3) > tally_fresh(2),
    tally_fresh(2) >= tally_fresh(3), tally_fresh(2) <> tally_fresh(3), tally_fresh(2) = tally_fresh(3);
SET enable_hashagg = off;
SELECT get_byte(t::bytea, 0) AS board, count(*) FROM kept GROUP BY t ORDER BY t;
SET enable_hashagg = on;
SET enable_sort = off;
SELECT count(*) FROM (SELECT t FROM kept GROUP BY t) v;
RESET enable_sort;
SELECT count(*) FROM (SELECT t FROM kept UNION SELECT tally_fresh(9)) v;
SET enable_mergejoin = off;
SELECT count(*) FROM kept a JOIN kept b USING (t);
SET enable_mergejoin = on; SET enable_hashjoin = off; SET enable_nestloop = off;
SELECT count(*) FROM kept a JOIN kept b USING (t);
RESET enable_hashjoin; RESET enable_nestloop; RESET enable_mergejoin;
CREATE INDEX ON kept USING btree (t);
CREATE INDEX ON kept USING hash (t);
SET enable_seqscan = off;
SELECT count(*) FROM kept WHERE t = tally_fresh(4);
SELECT count(*) FROM kept WHERE t > tally_fresh(4);
RESET enable_seqscan;
CREATE TABLE parted (t tally) PARTITION BY HASH (t);
CREATE TABLE parted_0 PARTITION OF parted FOR VALUES WITH (MODULUS 2, REMAINDER 0);
CREATE TABLE parted_1 PARTITION OF parted FOR VALUES WITH (MODULUS 2, REMAINDER 1);
INSERT INTO parted SELECT tally_fresh(board) FROM generate_series(1, 127) board;
SELECT count(*), count(DISTINCT t) FROM parted WHERE t IN (SELECT tally_fresh(board) FROM generate_series(1, 50) board);
DROP TABLE parted;
