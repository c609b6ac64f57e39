-- What the judge says of the samples, as samples/*.expected have it.
SELECT name, j.* FROM samples, judge(record) j ORDER BY name;
SELECT judge(NULL) IS NULL AS null_for_null;

-- The examples at the edges: one club by North, a trick and a claim of 12, and of 13; four passes, a byte less and a byte more.
SELECT (judge('\x02010000001555555AAAAAABFFFFFF0200000000')).*;
SELECT refusal, place FROM judge('\x02010000001555555AAAAAABFFFFFF02000000');
SELECT refusal, place FROM judge('\x02010000001555555AAAAAABFFFFFF020000000000');
SELECT contract, declarer, tricks, ns_score FROM judge('\x02010000001555555AAAAAABFFFFFF02060000086B5381C0');
SELECT refusal, place, refusal_words(refusal, place) FROM judge('\x02010000001555555AAAAAABFFFFFF02060000086B5381D0');

-- Words: of every refusal, none for what is no refusal or no place.
SELECT refusal_words(12, 3), refusal_words(6, 7), refusal_words(32, 1023);
SELECT refusal_words(refusal, 0) FROM generate_series(17, 21) refusal;
SELECT refusal_words(28, 0), refusal_words(1, 3);
SELECT count(refusal_words(refusal, 0)) FROM generate_series(-100, 100) refusal;
SELECT refusal, place
    FROM (VALUES (0, 0), (34, 0), (-1, 0), (2147483647, 0), (12, -1), (12, 1024), (1, 4), (12, 2147483647), (NULL, 0), (1, NULL)) v(refusal, place)
    WHERE refusal_words(refusal, place) IS NOT NULL;
