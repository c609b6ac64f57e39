/* What the parts of the extension share: a tally as a value of SQL, a record judged, and a refusal raised as an error.
 *
 * The module is glue around judge.h and tally.h: it brings bytes in and numbers out, and every refusal, score and number of points is the library's. */
#ifndef DUPLICATE_BRIDGE_H
#define DUPLICATE_BRIDGE_H

#include "postgres.h"

#include "access/tupdesc.h"
#include "fmgr.h"

#include "judged.h"
#include "tally.h"

/* These names are the module's own: the server would see them otherwise. */
#pragma GCC visibility push(hidden)

/* A tally as SQL keeps it: 398 bytes without a header, passed by reference. */
typedef struct Tally {
    uint8 bytes[TALLY_BYTES];
} Tally;

#define PG_GETARG_TALLY_P(n) ((Tally *) PG_GETARG_POINTER(n))
#define PG_RETURN_TALLY_P(tally) PG_RETURN_POINTER(tally)

/* Raises what the library refused: SQLSTATE BD and the refusal in three digits, its words, and refusal and place as the detail. */
extern void raise_refused(uint32 number) pg_attribute_noreturn();

/* The words of a refusal, or null for what is no refusal or no place. */
extern char *refusal_text(uint32 refusal, uint32 place);

/* The row type of a function's result, looked up once for a query. */
extern TupleDesc result_type(FunctionCallInfo fcinfo);

/* The result of a record: its board, its score from NS and the seat that was dealt each card; all of them are told only where the judge's number is 0. */
struct result {
    uint32 number;
    unsigned board;
    int score;
    uint8 holders[TALLY_HOLDERS];
};

/* A record judged, wherever its bytes stand: compressed, out of its row, or behind a header of one byte. */
extern struct judged judge_argument(bytea *record);
extern struct result result_of(bytea *record);

/* Adds an accepted result to a tally, and writes `more` where 0 is returned. A tally of another board is refused as a merge refuses it, before the rest. */
extern uint32 add_result_to(const Tally *tally, const struct result *result, Tally *more);

#pragma GCC visibility pop

#endif
