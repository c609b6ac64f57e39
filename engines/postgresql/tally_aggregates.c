/* The merge, and the steps of the aggregates. A state is changed in place where the server says that an aggregate calls, and nowhere else: an argument of a
 * plain call may lie in a table's page. */
#include "duplicate_bridge.h"

#include "tallies.h"

PG_FUNCTION_INFO_V1(pg_tally_merge);
PG_FUNCTION_INFO_V1(pg_tally_of_step);
PG_FUNCTION_INFO_V1(pg_tally_try_of_step);
PG_FUNCTION_INFO_V1(pg_tally_try_merge);
PG_FUNCTION_INFO_V1(pg_tally_try_end);

static bool is_in_aggregate(FunctionCallInfo fcinfo) { return AggCheckCallContext(fcinfo, NULL) != 0; }

/* 398 zeros are no value of SQL, so what gives or takes them is called by aggregates alone. */
static void need_aggregate(FunctionCallInfo fcinfo, const char *name) {
    if (!is_in_aggregate(fcinfo)) ereport(ERROR, (errcode(ERRCODE_FEATURE_NOT_SUPPORTED), errmsg("%s is a step of an aggregate", name)));
}

static Tally *copy_of(const Tally *tally) {
    Tally *copy = palloc(sizeof *copy);

    *copy = *tally;
    return copy;
}

/* The second one is copied: a query can give one value twice, and the library's slices have to be apart. */
Datum pg_tally_merge(PG_FUNCTION_ARGS) {
    Tally *first = PG_GETARG_TALLY_P(0), second = *PG_GETARG_TALLY_P(1), merged;
    uint32 number = tally_merge(first->bytes, TALLY_BYTES, second.bytes, TALLY_BYTES, merged.bytes, sizeof merged.bytes);

    if (number != 0) raise_refused(number);
    if (!is_in_aggregate(fcinfo)) PG_RETURN_TALLY_P(copy_of(&merged));
    *first = merged;
    PG_RETURN_TALLY_P(first);
}

/* The state with a record's result added, which starts as the empty tally of the first record's board. What is refused is returned. */
static uint32 step(const Tally *state, bytea *record, Tally *more) {
    struct result result = result_of(record);
    Tally empty;

    if (result.number != 0) return result.number;
    if (!state) {
        uint32 number = tally_fresh(result.board, empty.bytes, sizeof empty.bytes);

        if (number != 0) return number;
        state = &empty;
    }
    return add_result_to(state, &result, more);
}

/* Gives a step's state back: in place, where there is one and an aggregate calls. */
static Datum keep(FunctionCallInfo fcinfo, Tally *state, const Tally *more) {
    if (!state || !is_in_aggregate(fcinfo)) return PointerGetDatum(copy_of(more));
    *state = *more;
    return PointerGetDatum(state);
}

/* A null record is passed over: the state as it is, also where there is none. */
static Datum pass_over(FunctionCallInfo fcinfo) {
    if (PG_ARGISNULL(0)) PG_RETURN_NULL();
    PG_RETURN_DATUM(PG_GETARG_DATUM(0));
}

Datum pg_tally_of_step(PG_FUNCTION_ARGS) {
    Tally *state = PG_ARGISNULL(0) ? NULL : PG_GETARG_TALLY_P(0), more;
    uint32 number;

    if (PG_ARGISNULL(1)) return pass_over(fcinfo);
    number = step(state, PG_GETARG_BYTEA_PP(1), &more);
    if (number != 0) raise_refused(number);
    return keep(fcinfo, state, &more);
}

/* The state is 398 zeros once a record or an addition was refused. They are no tally, so every later addition is refused too. */
Datum pg_tally_try_of_step(PG_FUNCTION_ARGS) {
    Tally *state = PG_ARGISNULL(0) ? NULL : PG_GETARG_TALLY_P(0), more;

    need_aggregate(fcinfo, "tally_try_of_step");
    if (PG_ARGISNULL(1)) return pass_over(fcinfo);
    if (step(state, PG_GETARG_BYTEA_PP(1), &more) != 0) memset(more.bytes, 0, sizeof more.bytes);
    return keep(fcinfo, state, &more);
}

/* The reduction that is proved to commute and to associate. */
Datum pg_tally_try_merge(PG_FUNCTION_ARGS) {
    Tally *state = PG_GETARG_TALLY_P(0);

    need_aggregate(fcinfo, "tally_try_merge");
    tally_reduce(PG_GETARG_TALLY_P(1)->bytes, state->bytes);
    PG_RETURN_TALLY_P(state);
}

Datum pg_tally_try_end(PG_FUNCTION_ARGS) {
    Tally *state = PG_GETARG_TALLY_P(0);

    need_aggregate(fcinfo, "tally_try_end");
    if (is_zeros(state->bytes)) PG_RETURN_NULL();
    PG_RETURN_TALLY_P(state);
}
