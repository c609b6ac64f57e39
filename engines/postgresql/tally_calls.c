/* The calls on tallies: fresh ones, a record added, the rows of a tally's sheet, and the points of one record. */
#include "duplicate_bridge.h"

#include "access/htup_details.h"
#include "funcapi.h"
#include "sheet.h"
#include "utils/builtins.h"

PG_FUNCTION_INFO_V1(pg_tally_fresh);
PG_FUNCTION_INFO_V1(pg_tally_add);
PG_FUNCTION_INFO_V1(pg_tally_results);
PG_FUNCTION_INFO_V1(pg_tally_points);

/* The columns of a row of tally_results, and those of tally_points, which are its last three. */
enum { NS_SCORE, RESULTS, POINTS, ROW_COLUMNS = POINTS + 3 };
enum { NS_MATCHPOINTS, EW_MATCHPOINTS, NS_PERCENT, POINTS_COLUMNS };

/* What a merge with the empty tally of a board is refused with, as where the tally is of another board; a tally of that board is not merged. */
static uint32 refuse_board(const Tally *tally, unsigned board) {
    Tally empty, merged;
    uint32 number;

    if (tally_board(tally->bytes) == board) return 0;
    number = tally_fresh(board, empty.bytes, sizeof empty.bytes);
    return number ? number : tally_merge(tally->bytes, TALLY_BYTES, empty.bytes, TALLY_BYTES, merged.bytes, sizeof merged.bytes);
}

uint32 add_result_to(const Tally *tally, const struct result *result, Tally *more) {
    uint32 number = refuse_board(tally, result->board);

    return number ? number
                  : tally_add(tally->bytes, TALLY_BYTES, result->score, result->holders, sizeof result->holders, more->bytes, sizeof more->bytes);
}

/* The matchpoints and the percentage of a result with that score and deal. */
static uint32 fill_points(const Tally *tally, int score, const uint8 *holders, Datum values[POINTS_COLUMNS], bool nulls[POINTS_COLUMNS]) {
    uint8 bytes[TALLY_POINTS_BYTES] = {0}, cell[TALLY_CELL_BYTES] = {0};
    uint32 number = tally_matchpoints(tally->bytes, TALLY_BYTES, score, holders, TALLY_HOLDERS, bytes, sizeof bytes);
    struct tally_points points = tally_unpack_points(bytes);

    if (number == 0) number = tally_cell(tally->bytes, TALLY_BYTES, score, holders, TALLY_HOLDERS, cell, sizeof cell);
    values[NS_MATCHPOINTS] = Int32GetDatum((int32) points.ns);
    values[EW_MATCHPOINTS] = Int32GetDatum((int32) points.ew);
    values[NS_PERCENT] = Float8GetDatum(tally_percentage_of(cell));
    nulls[NS_PERCENT] = tally_kind_of(cell) == TALLY_ALONE;
    return number;
}

Datum pg_tally_fresh(PG_FUNCTION_ARGS) {
    Tally *tally = palloc(sizeof *tally);
    uint32 number = tally_fresh((uint32) PG_GETARG_INT32(0), tally->bytes, sizeof tally->bytes);

    if (number != 0) raise_refused(number);
    PG_RETURN_TALLY_P(tally);
}

Datum pg_tally_add(PG_FUNCTION_ARGS) {
    struct result result = result_of(PG_GETARG_BYTEA_PP(1));
    Tally *more = palloc(sizeof *more);
    uint32 number = result.number ? result.number : add_result_to(PG_GETARG_TALLY_P(0), &result, more);

    if (number != 0) raise_refused(number);
    PG_RETURN_TALLY_P(more);
}

/* A row a score, highest first. */
Datum pg_tally_results(PG_FUNCTION_ARGS) {
    const Tally *tally = PG_GETARG_TALLY_P(0);
    ReturnSetInfo *set = (ReturnSetInfo *) fcinfo->resultinfo;
    uint8 holders[TALLY_HOLDERS];
    unsigned rows = count_rows(tally->bytes), place;

    InitMaterializedSRF(fcinfo, 0);
    tally_unpack_deal(tally->bytes + 1, holders);
    for (place = 0; place < rows; place++) {
        Datum values[ROW_COLUMNS] = {0};
        bool nulls[ROW_COLUMNS] = {false};
        int score = tally_score_at(tally->bytes, place);
        uint32 number = fill_points(tally, score, holders, values + POINTS, nulls + POINTS);

        if (number != 0) raise_refused(number);
        values[NS_SCORE] = Int32GetDatum(score);
        values[RESULTS] = Int32GetDatum((int32) tally_count_at(tally->bytes, place));
        tuplestore_putvalues(set->setResult, set->setDesc, values, nulls);
    }
    return (Datum) 0;
}

Datum pg_tally_points(PG_FUNCTION_ARGS) {
    const Tally *tally = PG_GETARG_TALLY_P(0);
    struct result result = result_of(PG_GETARG_BYTEA_PP(1));
    Datum values[POINTS_COLUMNS] = {0};
    bool nulls[POINTS_COLUMNS] = {false};
    uint32 number = result.number ? result.number : refuse_board(tally, result.board);

    if (number == 0) number = fill_points(tally, result.score, result.holders, values, nulls);
    if (number != 0) raise_refused(number);
    PG_RETURN_DATUM(HeapTupleGetDatum(heap_form_tuple(result_type(fcinfo), values, nulls)));
}
