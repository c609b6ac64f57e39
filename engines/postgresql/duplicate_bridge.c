/* The judge in SQL: judge(bytea) -> judgement. */
#include "duplicate_bridge.h"

#include "access/htup_details.h"
#include "funcapi.h"
#include "letters.h"
#include "record.h"
#include "utils/builtins.h"

PG_MODULE_MAGIC;

PG_FUNCTION_INFO_V1(pg_judge);

/* The columns of a judgement. */
enum { REFUSAL, PLACE, BOARD, TABLE_NO, CONTRACT, DECLARER, TRICKS, TRICKS_AFTER, REVOKES, NS_SCORE, COLUMNS };

struct judged judge_argument(bytea *record) { return judge_bytes((const uint8 *) VARDATA_ANY(record), VARSIZE_ANY_EXHDR(record)); }

struct result result_of(bytea *record) {
    struct judged judged = judge_argument(record);
    struct result result = {judged.number, judged.judgement.board, judged.judgement.score, {0}};

    if (judged.number == 0) tally_unpack_deal((const uint8 *) VARDATA_ANY(record) + BOARD_AND_TABLE_BYTES, result.holders);
    return result;
}

/* `4S`, `3NTX`, `1CXX`, or `PASS`. */
static text *contract_of(const struct judge_judgement *j) {
    static const char *const DOUBLINGS[] = {"", "X", "XX"};

    if (j->level == 0) return cstring_to_text("PASS");
    return cstring_to_text(psprintf("%u%s%s", j->level, STRAIN_WORDS[j->strain], DOUBLINGS[j->doubling]));
}

static void fill_judgement(const struct judge_judgement *j, Datum values[COLUMNS], bool nulls[COLUMNS]) {
    bool passed_out = j->level == 0;

    values[BOARD] = Int32GetDatum((int32) j->board);
    values[TABLE_NO] = Int32GetDatum((int32) j->table);
    values[CONTRACT] = PointerGetDatum(contract_of(j));
    values[REVOKES] = Int32GetDatum((int32) j->revokes);
    values[NS_SCORE] = Int32GetDatum(j->score);
    nulls[DECLARER] = nulls[TRICKS] = nulls[TRICKS_AFTER] = passed_out;
    if (passed_out) return;
    values[DECLARER] = PointerGetDatum(cstring_to_text_with_len(&SEATS[j->declarer], 1));
    values[TRICKS] = Int32GetDatum((int32) j->tricks);
    values[TRICKS_AFTER] = Int32GetDatum((int32) j->tricks_after_64);
}

TupleDesc result_type(FunctionCallInfo fcinfo) {
    TupleDesc found;
    MemoryContext before;

    if (fcinfo->flinfo->fn_extra) return (TupleDesc) fcinfo->flinfo->fn_extra;
    before = MemoryContextSwitchTo(fcinfo->flinfo->fn_mcxt);
    if (get_call_result_type(fcinfo, NULL, &found) != TYPEFUNC_COMPOSITE)
        ereport(ERROR, (errcode(ERRCODE_FEATURE_NOT_SUPPORTED), errmsg("function returning record called in context that cannot accept type record")));
    fcinfo->flinfo->fn_extra = BlessTupleDesc(found);
    MemoryContextSwitchTo(before);
    return (TupleDesc) fcinfo->flinfo->fn_extra;
}

Datum pg_judge(PG_FUNCTION_ARGS) {
    struct judged judged = judge_argument(PG_GETARG_BYTEA_PP(0));
    Datum values[COLUMNS] = {0};
    bool nulls[COLUMNS] = {false};

    values[REFUSAL] = Int32GetDatum((int32) judge_refusal_of(judged.number));
    values[PLACE] = Int32GetDatum((int32) judge_place_of(judged.number));
    if (judged.number == 0)
        fill_judgement(&judged.judgement, values, nulls);
    else
        memset(nulls + BOARD, true, COLUMNS - BOARD);
    PG_RETURN_DATUM(HeapTupleGetDatum(heap_form_tuple(result_type(fcinfo), values, nulls)));
}
