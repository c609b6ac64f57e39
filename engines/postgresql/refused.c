/* A refusal of the library as an error of SQL, and in words. */
#include "duplicate_bridge.h"

#include "judge_words.h"
#include "utils/builtins.h"

PG_FUNCTION_INFO_V1(pg_refusal_words);

char *refusal_text(uint32 refusal, uint32 place) {
    char words[JUDGE_WORDS_MOST];

    return judge_words(refusal, place, words, sizeof words) > 0 ? pstrdup(words) : NULL;
}

/* BD and three digits. */
static int sqlstate_of(uint32 refusal) {
    return MAKE_SQLSTATE('B', 'D', '0' + refusal / 100 % 10, '0' + refusal / 10 % 10, '0' + refusal % 10);
}

void raise_refused(uint32 number) {
    uint32 refusal = judge_refusal_of(number), place = judge_place_of(number);
    char *words = refusal_text(refusal, place); /* made before the error leaves by a jump */

    ereport(ERROR, (errcode(sqlstate_of(refusal)), errmsg_internal("%s", words ? words : "unknown refusal"),
                    errdetail_internal("refusal %u, place %u", refusal, place)));
}

/* refusal_words(int, int) -> text: what is below 0 becomes a number that is no refusal and no place. */
Datum pg_refusal_words(PG_FUNCTION_ARGS) {
    char *words = refusal_text((uint32) PG_GETARG_INT32(0), (uint32) PG_GETARG_INT32(1));

    if (!words) PG_RETURN_NULL();
    PG_RETURN_TEXT_P(cstring_to_text(words));
}
