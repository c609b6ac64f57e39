-- The two sections of samples/sections, whose standings were worked out by hand: board 2 is fouled, board 3 has six results.
SELECT board, r.* FROM (SELECT get_byte(record, 0) >> 1 AS board, tally_try_of(record) AS t FROM sections GROUP BY 1) v, tally_results(t) r
    ORDER BY board, ns_score DESC;
SELECT get_byte(record, 0) >> 1 AS board, tally_try_of(record) IS NULL AS refused FROM sections GROUP BY 1 ORDER BY 1;
SELECT tally_of(record ORDER BY record) = tally_of(record ORDER BY record DESC) AS either_order FROM sections WHERE get_byte(record, 0) >> 1 = 3;
SELECT tally_sum(t) = (SELECT tally_of(record) FROM sections WHERE get_byte(record, 0) >> 1 = 3) AS sections_merged
    FROM (SELECT tally_of(record) AS t FROM sections WHERE get_byte(record, 0) >> 1 = 3 GROUP BY section) v;
SELECT tally_of(record) FROM sections WHERE get_byte(record, 0) >> 1 = 2;
SELECT tally_sum(t) FROM (SELECT tally_of(record) AS t FROM sections WHERE get_byte(record, 0) >> 1 = 2 GROUP BY section) v;
SELECT tally_try_sum(t) IS NULL AS refused FROM (SELECT tally_of(record) AS t FROM sections WHERE get_byte(record, 0) >> 1 = 2 GROUP BY section) v;

-- No record, null records, null tallies.
SELECT tally_of(record) IS NULL, tally_try_of(record) IS NULL FROM sections WHERE false;
SELECT tally_of(NULL) IS NULL, tally_try_of(NULL) IS NULL, tally_sum(NULL) IS NULL, tally_try_sum(NULL) IS NULL FROM sections;
SELECT tally_of(CASE WHEN section = 'A' THEN record END) = tally_of(record) FILTER (WHERE section = 'A') AS nulls_passed_over,
    tally_try_of(CASE WHEN section = 'A' THEN record END) = tally_try_of(record) FILTER (WHERE section = 'A') AS nulls_tried
    FROM sections WHERE get_byte(record, 0) >> 1 = 3;
SELECT tally_sum(t) = tally_fresh(3) AS nulls_passed_over, tally_try_sum(t) = tally_fresh(3) AS nulls_tried FROM (VALUES (NULL), (tally_fresh(3)), (NULL)) v(t);

-- A refused record, an unequal board and one refusal among many tallies leave null, wherever they stand.
SELECT tally_try_of(record ORDER BY name) IS NULL, tally_try_of(record ORDER BY name DESC) IS NULL FROM samples WHERE name IN ('claim', 'refused-card');
SELECT tally_try_of(record ORDER BY name) IS NULL, tally_try_of(record ORDER BY name DESC) IS NULL FROM samples WHERE name IN ('claim', 'slam');
SELECT count(*), count(t) FROM (SELECT tally_try_sum(tally_fresh(CASE WHEN board = odd THEN 2 ELSE 1 END) ORDER BY board) AS t
    FROM generate_series(1, 20) board, generate_series(1, 21) odd GROUP BY odd) v;

-- In a window the state is changed in place, and each row keeps its own.
SELECT ns_score, (SELECT sum(results) FROM tally_results(t)) AS results
    FROM (SELECT (judge(record)).ns_score, tally_of(record) OVER (ORDER BY record) AS t FROM sections WHERE get_byte(record, 0) >> 1 = 3) v;
SELECT count(DISTINCT t) FROM (SELECT tally_sum(t) OVER (ORDER BY record) AS t FROM (SELECT record, tally_add(tally_fresh(3), record) AS t FROM sections
    WHERE get_byte(record, 0) >> 1 = 3) v) w;
SELECT t IS NULL AS refused FROM (SELECT tally_try_of(record) OVER (ORDER BY name ROWS BETWEEN 1 PRECEDING AND CURRENT ROW) AS t FROM samples
    WHERE name IN ('claim', 'refused-card', 'revoke-two-tricks', 'slam') ) v;

-- Steps that leave 398 zeros are called by aggregates alone; the others do not write on what they are given.
SELECT tally_try_of_step(tally_fresh(1), '\x00');
SELECT tally_try_merge(tally_fresh(1), tally_fresh(2));
SELECT tally_try_end(tally_fresh(1));
CREATE TEMP TABLE page AS SELECT tally_fresh(3) AS t;
SELECT tally_of_step(t, record) = t AS same FROM page, samples WHERE name = 'claim';
SELECT tally_merge(t, tally_add(t, record)) = t AS same FROM page, samples WHERE name = 'claim';
SELECT t = tally_fresh(3) AS as_it_was FROM page;
SELECT tally_sum(tally_add(t, record)) IS NOT NULL, tally_try_sum(t) = tally_fresh(3) AS tried FROM page, samples WHERE name = 'claim';
SELECT t = tally_fresh(3) AS as_it_was FROM page;
