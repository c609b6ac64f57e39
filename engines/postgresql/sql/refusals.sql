-- A refused call is an error with the refusal in its SQLSTATE, its words, and refusal and place as the detail.
CREATE FUNCTION asked(query text, OUT state text, OUT words text, OUT detail text) LANGUAGE plpgsql AS $$ BEGIN
    EXECUTE query;
    state := 'none';
EXCEPTION WHEN OTHERS THEN
    GET STACKED DIAGNOSTICS state = RETURNED_SQLSTATE, words = MESSAGE_TEXT, detail = PG_EXCEPTION_DETAIL;
END $$;

SELECT tally_fresh(0);
SELECT what, a.* FROM (VALUES
    (1, 'a board above', 'SELECT tally_fresh(128)'),
    (2, 'a board below', 'SELECT tally_fresh(-1)'),
    (3, 'a refused record added', $$SELECT tally_add(tally_fresh(1), record) FROM samples WHERE name = 'refused-card'$$),
    (4, 'a refused record in a group', $$SELECT tally_of(record) FROM samples WHERE name = 'refused-short'$$),
    (5, 'a refused record asked for', $$SELECT tally_points(tally_fresh(1), record) FROM samples WHERE name = 'refused-card'$$),
    (6, 'another board added', $$SELECT tally_add(tally_fresh(1), record) FROM samples WHERE name = 'claim'$$),
    (7, 'another board asked for', $$SELECT tally_points(tally_fresh(1), record) FROM samples WHERE name = 'claim'$$),
    (8, 'two boards merged', 'SELECT tally_merge(tally_fresh(1), tally_fresh(2))'),
    (9, 'two boards in a group', $$SELECT tally_of(record) FROM samples WHERE name IN ('claim', 'slam')$$),
    (10, 'two boards summed', 'SELECT tally_sum(tally_fresh(board)) FROM generate_series(1, 2) board'),
    (11, '128 results', $$SELECT tally_of(record) FROM samples, generate_series(1, 128) WHERE name = 'claim'$$),
    (12, '129 results', $$SELECT tally_of(record) FROM samples, generate_series(1, 129) WHERE name = 'claim'$$),
    (13, '129 results merged', $$SELECT tally_merge(t, t) FROM (SELECT tally_of(record) FROM samples, generate_series(1, 65) WHERE name = 'claim') v(t)$$),
    (14, 'a score that no result has', $$SELECT tally_points(tally_fresh(3), record) FROM samples WHERE name = 'claim'$$),
    (15, 'a fouled board', 'SELECT tally_of(record) FROM sections WHERE get_byte(record, 0) >> 1 = 2'),
    (16, 'a fouled board of 128 results', $$SELECT tally_add(tally_of(s.record), '\x04042a540fd03fa959503fabfea5400200000000')
        FROM samples s, generate_series(1, 128) WHERE name = 'slam'$$),
    (17, 'a fouled board asked for', $$SELECT tally_points(tally_add(tally_fresh(2), record), '\x04042a540fd03fa959503fabfea5400200000000')
        FROM samples WHERE name = 'slam'$$),
    (18, 'another board of another deal', $$SELECT tally_add(tally_add(tally_fresh(2), s.record), c.record)
        FROM samples s, samples c WHERE s.name = 'slam' AND c.name = 'claim'$$)
    ) v(n, what, query), asked(query) a ORDER BY n;

-- What is no tally is refused on every way in.
SELECT what, a.state, a.detail FROM (VALUES
    (1, 'no text', $$SELECT ''::tally$$),
    (2, 'a word', $$SELECT 'tally'::tally$$),
    (3, 'no prefix', $$SELECT repeat('0', 796)::tally$$),
    (4, 'a blank before', $$SELECT (' \x01' || repeat('00', 397))::tally$$),
    (5, 'a letter that is no digit', $$SELECT ('\x01' || repeat('00', 396) || '0g')::tally$$),
    (6, 'a byte less', $$SELECT ('\x01' || repeat('00', 396))::tally$$),
    (7, 'a byte more', $$SELECT ('\x01' || repeat('00', 398))::tally$$),
    (8, 'a digit more', $$SELECT ('\x01' || repeat('00', 397) || '0')::tally$$),
    (9, 'a tally', $$SELECT ('\x01' || repeat('00', 397))::tally$$),
    (10, 'zeros', $$SELECT ('\x' || repeat('00', 398))::tally$$),
    (11, 'board 128', $$SELECT ('\x80' || repeat('00', 397))::tally$$),
    (12, 'the mark of `section`', $$SELECT ('\x01' || repeat('ff', 397))::tally$$),
    (13, 'a deal without a result', $$SELECT ('\x010000001555555aaaaaabffffff' || repeat('00', 384))::tally$$),
    (14, 'no bytes', $$SELECT ''::bytea::tally$$),
    (15, 'zeros as bytes', $$SELECT decode(repeat('00', 398), 'hex')::tally$$),
    (16, 'a byte more as bytes', $$SELECT decode('01' || repeat('00', 398), 'hex')::tally$$),
    (17, 'a tally as bytes', $$SELECT decode('01' || repeat('00', 397), 'hex')::tally$$)
    ) v(n, what, query), asked(query) a ORDER BY n;
SELECT 'tally'::tally;
DROP FUNCTION asked;

-- In a program: the refusal by its SQLSTATE.
DO $$ BEGIN
    PERFORM tally_of(record) FROM sections WHERE get_byte(record, 0) >> 1 = 2;
EXCEPTION WHEN SQLSTATE 'BD028' THEN RAISE NOTICE 'refused: %', SQLERRM;
END $$;

-- A table that lets in accepted records alone, and one of each board and table.
CREATE TABLE club (
    record bytea CHECK ((judge(record)).refusal = 0),
    board int GENERATED ALWAYS AS ((judge(record)).board) STORED,
    table_no int GENERATED ALWAYS AS ((judge(record)).table_no) STORED,
    UNIQUE (board, table_no)
);
INSERT INTO club SELECT record FROM sections;
\set VERBOSITY terse
INSERT INTO club SELECT record FROM samples WHERE name = 'slam';
INSERT INTO club SELECT record FROM samples WHERE name = 'refused-card';
\set VERBOSITY default
SELECT board, table_no FROM club ORDER BY 1, 2;
DROP TABLE club;
