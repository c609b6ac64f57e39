-- The extension duplicate_bridge: docs/RULES.md, 19, says what each of these names answers and refuses.
\echo Use "CREATE EXTENSION duplicate_bridge" to load this file. \quit

-- A record judged: refusal and place are 0 where it is accepted, and the other columns are null where it is refused.
CREATE TYPE judgement AS (
    refusal int, place int, board int, table_no int, contract text, declarer text, tricks int, tricks_after int, revokes int, ns_score int
);

CREATE FUNCTION judge(bytea) RETURNS judgement
    AS 'MODULE_PATHNAME', 'pg_judge' LANGUAGE C IMMUTABLE STRICT PARALLEL SAFE COST 50;

CREATE FUNCTION refusal_words(refusal int, place int) RETURNS text
    AS 'MODULE_PATHNAME', 'pg_refusal_words' LANGUAGE C IMMUTABLE STRICT PARALLEL SAFE;

-- The type tally: 398 bytes, every one of them a tally.
CREATE TYPE tally;

CREATE FUNCTION tally_in(cstring) RETURNS tally
    AS 'MODULE_PATHNAME', 'pg_tally_in' LANGUAGE C IMMUTABLE STRICT PARALLEL SAFE;
CREATE FUNCTION tally_out(tally) RETURNS cstring
    AS 'MODULE_PATHNAME', 'pg_tally_out' LANGUAGE C IMMUTABLE STRICT PARALLEL SAFE;
CREATE FUNCTION tally_recv(internal) RETURNS tally
    AS 'MODULE_PATHNAME', 'pg_tally_recv' LANGUAGE C IMMUTABLE STRICT PARALLEL SAFE;
CREATE FUNCTION tally_send(tally) RETURNS bytea
    AS 'MODULE_PATHNAME', 'pg_tally_send' LANGUAGE C IMMUTABLE STRICT PARALLEL SAFE;

CREATE TYPE tally (
    INPUT = tally_in, OUTPUT = tally_out, RECEIVE = tally_recv, SEND = tally_send, INTERNALLENGTH = 398, ALIGNMENT = char, STORAGE = plain
);

CREATE FUNCTION tally_from_bytea(bytea) RETURNS tally
    AS 'MODULE_PATHNAME', 'pg_tally_from_bytea' LANGUAGE C IMMUTABLE STRICT PARALLEL SAFE;
CREATE FUNCTION tally_to_bytea(tally) RETURNS bytea
    AS 'MODULE_PATHNAME', 'pg_tally_to_bytea' LANGUAGE C IMMUTABLE STRICT PARALLEL SAFE;
CREATE CAST (bytea AS tally) WITH FUNCTION tally_from_bytea(bytea);
CREATE CAST (tally AS bytea) WITH FUNCTION tally_to_bytea(tally);

-- Tallies compared by their bytes.
CREATE FUNCTION tally_eq(tally, tally) RETURNS boolean
    AS 'MODULE_PATHNAME', 'pg_tally_eq' LANGUAGE C IMMUTABLE STRICT PARALLEL SAFE LEAKPROOF;
CREATE FUNCTION tally_ne(tally, tally) RETURNS boolean
    AS 'MODULE_PATHNAME', 'pg_tally_ne' LANGUAGE C IMMUTABLE STRICT PARALLEL SAFE LEAKPROOF;
CREATE FUNCTION tally_lt(tally, tally) RETURNS boolean
    AS 'MODULE_PATHNAME', 'pg_tally_lt' LANGUAGE C IMMUTABLE STRICT PARALLEL SAFE LEAKPROOF;
CREATE FUNCTION tally_le(tally, tally) RETURNS boolean
    AS 'MODULE_PATHNAME', 'pg_tally_le' LANGUAGE C IMMUTABLE STRICT PARALLEL SAFE LEAKPROOF;
CREATE FUNCTION tally_gt(tally, tally) RETURNS boolean
    AS 'MODULE_PATHNAME', 'pg_tally_gt' LANGUAGE C IMMUTABLE STRICT PARALLEL SAFE LEAKPROOF;
CREATE FUNCTION tally_ge(tally, tally) RETURNS boolean
    AS 'MODULE_PATHNAME', 'pg_tally_ge' LANGUAGE C IMMUTABLE STRICT PARALLEL SAFE LEAKPROOF;
CREATE FUNCTION tally_cmp(tally, tally) RETURNS int
    AS 'MODULE_PATHNAME', 'pg_tally_cmp' LANGUAGE C IMMUTABLE STRICT PARALLEL SAFE LEAKPROOF;
CREATE FUNCTION tally_hash(tally) RETURNS int
    AS 'MODULE_PATHNAME', 'pg_tally_hash' LANGUAGE C IMMUTABLE STRICT PARALLEL SAFE;
CREATE FUNCTION tally_hash_extended(tally, bigint) RETURNS bigint
    AS 'MODULE_PATHNAME', 'pg_tally_hash_extended' LANGUAGE C IMMUTABLE STRICT PARALLEL SAFE;

CREATE OPERATOR = (
    LEFTARG = tally, RIGHTARG = tally, FUNCTION = tally_eq, COMMUTATOR = =, NEGATOR = <>, RESTRICT = eqsel, JOIN = eqjoinsel, HASHES, MERGES
);
CREATE OPERATOR <> (
    LEFTARG = tally, RIGHTARG = tally, FUNCTION = tally_ne, COMMUTATOR = <>, NEGATOR = =, RESTRICT = neqsel, JOIN = neqjoinsel
);
CREATE OPERATOR < (
    LEFTARG = tally, RIGHTARG = tally, FUNCTION = tally_lt, COMMUTATOR = >, NEGATOR = >=, RESTRICT = scalarltsel, JOIN = scalarltjoinsel
);
CREATE OPERATOR <= (
    LEFTARG = tally, RIGHTARG = tally, FUNCTION = tally_le, COMMUTATOR = >=, NEGATOR = >, RESTRICT = scalarlesel, JOIN = scalarlejoinsel
);
CREATE OPERATOR > (
    LEFTARG = tally, RIGHTARG = tally, FUNCTION = tally_gt, COMMUTATOR = <, NEGATOR = <=, RESTRICT = scalargtsel, JOIN = scalargtjoinsel
);
CREATE OPERATOR >= (
    LEFTARG = tally, RIGHTARG = tally, FUNCTION = tally_ge, COMMUTATOR = <=, NEGATOR = <, RESTRICT = scalargesel, JOIN = scalargejoinsel
);
CREATE OPERATOR CLASS tally_ops DEFAULT FOR TYPE tally USING btree AS
    OPERATOR 1 <, OPERATOR 2 <=, OPERATOR 3 =, OPERATOR 4 >=, OPERATOR 5 >, FUNCTION 1 tally_cmp(tally, tally);
CREATE OPERATOR CLASS tally_hash_ops DEFAULT FOR TYPE tally USING hash AS
    OPERATOR 1 =, FUNCTION 1 tally_hash(tally), FUNCTION 2 tally_hash_extended(tally, bigint);

-- The calls. What the library refuses is raised as an error, SQLSTATE BD and the refusal in three digits.
CREATE FUNCTION tally_fresh(board int) RETURNS tally
    AS 'MODULE_PATHNAME', 'pg_tally_fresh' LANGUAGE C IMMUTABLE STRICT PARALLEL SAFE;
CREATE FUNCTION tally_add(tally tally, record bytea) RETURNS tally
    AS 'MODULE_PATHNAME', 'pg_tally_add' LANGUAGE C IMMUTABLE STRICT PARALLEL SAFE COST 100;
CREATE FUNCTION tally_merge(tally, tally) RETURNS tally
    AS 'MODULE_PATHNAME', 'pg_tally_merge' LANGUAGE C IMMUTABLE STRICT PARALLEL SAFE COST 50;
CREATE FUNCTION tally_results(tally tally, OUT ns_score int, OUT results int, OUT ns_matchpoints int, OUT ew_matchpoints int, OUT ns_percent float8)
    RETURNS SETOF record
    AS 'MODULE_PATHNAME', 'pg_tally_results' LANGUAGE C IMMUTABLE STRICT PARALLEL SAFE COST 500 ROWS 20;
CREATE FUNCTION tally_points(tally tally, record bytea, OUT ns_matchpoints int, OUT ew_matchpoints int, OUT ns_percent float8) RETURNS record
    AS 'MODULE_PATHNAME', 'pg_tally_points' LANGUAGE C IMMUTABLE STRICT PARALLEL SAFE COST 100;

-- The steps of the aggregates. Those that take a record see nulls themselves, since state and input are of two types.
CREATE FUNCTION tally_of_step(tally, bytea) RETURNS tally
    AS 'MODULE_PATHNAME', 'pg_tally_of_step' LANGUAGE C IMMUTABLE PARALLEL SAFE COST 100;
CREATE FUNCTION tally_try_of_step(tally, bytea) RETURNS tally
    AS 'MODULE_PATHNAME', 'pg_tally_try_of_step' LANGUAGE C IMMUTABLE PARALLEL SAFE COST 100;
CREATE FUNCTION tally_try_merge(tally, tally) RETURNS tally
    AS 'MODULE_PATHNAME', 'pg_tally_try_merge' LANGUAGE C IMMUTABLE STRICT PARALLEL SAFE COST 50;
CREATE FUNCTION tally_try_end(tally) RETURNS tally
    AS 'MODULE_PATHNAME', 'pg_tally_try_end' LANGUAGE C IMMUTABLE STRICT PARALLEL SAFE;

-- The aggregates, which the server may run in parts and in any order: that the merge commutes and associates is proved, include/tally.h says where.
CREATE AGGREGATE tally_of(bytea) (SFUNC = tally_of_step, STYPE = tally, COMBINEFUNC = tally_merge, PARALLEL = SAFE);
CREATE AGGREGATE tally_sum(tally) (SFUNC = tally_merge, STYPE = tally, COMBINEFUNC = tally_merge, PARALLEL = SAFE);
CREATE AGGREGATE tally_try_of(bytea) (
    SFUNC = tally_try_of_step, STYPE = tally, COMBINEFUNC = tally_try_merge, FINALFUNC = tally_try_end, PARALLEL = SAFE
);
CREATE AGGREGATE tally_try_sum(tally) (
    SFUNC = tally_try_merge, STYPE = tally, COMBINEFUNC = tally_try_merge, FINALFUNC = tally_try_end, PARALLEL = SAFE
);
