/* The type `tally`: its text and binary form, casts, and the order of its bytes. Whatever comes in is asked of the library. */
#include "duplicate_bridge.h"

#include "common/hashfn.h"
#include "lib/stringinfo.h"
#include "libpq/pqformat.h"
#include "tallies.h"
#include "utils/builtins.h"

PG_FUNCTION_INFO_V1(pg_tally_in);
PG_FUNCTION_INFO_V1(pg_tally_out);
PG_FUNCTION_INFO_V1(pg_tally_recv);
PG_FUNCTION_INFO_V1(pg_tally_send);
PG_FUNCTION_INFO_V1(pg_tally_from_bytea);
PG_FUNCTION_INFO_V1(pg_tally_to_bytea);
PG_FUNCTION_INFO_V1(pg_tally_eq);
PG_FUNCTION_INFO_V1(pg_tally_ne);
PG_FUNCTION_INFO_V1(pg_tally_lt);
PG_FUNCTION_INFO_V1(pg_tally_le);
PG_FUNCTION_INFO_V1(pg_tally_gt);
PG_FUNCTION_INFO_V1(pg_tally_ge);
PG_FUNCTION_INFO_V1(pg_tally_cmp);
PG_FUNCTION_INFO_V1(pg_tally_hash);
PG_FUNCTION_INFO_V1(pg_tally_hash_extended);

/* The text form: \x and two digits a byte. */
static const char PREFIX[] = "\\x";
static const char DIGITS[] = "0123456789abcdefABCDEF";

enum { PREFIX_LENGTH = sizeof PREFIX - 1, TEXT_LENGTH = PREFIX_LENGTH + 2 * TALLY_BYTES };

/* A copy of some bytes that are a tally; anything else is refused. */
static Tally *tally_from(const void *bytes, size_t length) {
    uint32 number = ask_tally(bytes, length);
    Tally *tally;

    if (number != 0) raise_refused(number);
    tally = palloc(sizeof *tally);
    memcpy(tally->bytes, bytes, sizeof tally->bytes);
    return tally;
}

static bool has_text_form(const char *text) {
    return strncmp(text, PREFIX, PREFIX_LENGTH) == 0 && strspn(text + PREFIX_LENGTH, DIGITS) == 2 * TALLY_BYTES && text[TEXT_LENGTH] == '\0';
}

/* Text of another form is refused as no bytes at all are. */
Datum pg_tally_in(PG_FUNCTION_ARGS) {
    const char *text = PG_GETARG_CSTRING(0);
    Tally read;

    if (!has_text_form(text)) raise_refused(ask_tally(NULL, 0));
    hex_decode(text + PREFIX_LENGTH, 2 * TALLY_BYTES, (char *) read.bytes);
    PG_RETURN_TALLY_P(tally_from(read.bytes, sizeof read.bytes));
}

Datum pg_tally_out(PG_FUNCTION_ARGS) {
    const Tally *tally = PG_GETARG_TALLY_P(0);
    char *text = palloc(TEXT_LENGTH + 1);

    memcpy(text, PREFIX, PREFIX_LENGTH);
    hex_encode((const char *) tally->bytes, sizeof tally->bytes, text + PREFIX_LENGTH);
    text[TEXT_LENGTH] = '\0';
    PG_RETURN_CSTRING(text);
}

/* All bytes of the message are taken, so that another length is refused here and not by the server. */
Datum pg_tally_recv(PG_FUNCTION_ARGS) {
    StringInfo message = (StringInfo) PG_GETARG_POINTER(0);
    int length = message->len - message->cursor;

    PG_RETURN_TALLY_P(tally_from(pq_getmsgbytes(message, length), (size_t) length));
}

Datum pg_tally_send(PG_FUNCTION_ARGS) {
    const Tally *tally = PG_GETARG_TALLY_P(0);
    StringInfoData message;

    pq_begintypsend(&message);
    pq_sendbytes(&message, (const char *) tally->bytes, sizeof tally->bytes);
    PG_RETURN_BYTEA_P(pq_endtypsend(&message));
}

Datum pg_tally_from_bytea(PG_FUNCTION_ARGS) {
    bytea *bytes = PG_GETARG_BYTEA_PP(0);

    PG_RETURN_TALLY_P(tally_from(VARDATA_ANY(bytes), VARSIZE_ANY_EXHDR(bytes)));
}

Datum pg_tally_to_bytea(PG_FUNCTION_ARGS) {
    const Tally *tally = PG_GETARG_TALLY_P(0);
    bytea *bytes = palloc(VARHDRSZ + sizeof tally->bytes);

    SET_VARSIZE(bytes, VARHDRSZ + sizeof tally->bytes);
    memcpy(VARDATA(bytes), tally->bytes, sizeof tally->bytes);
    PG_RETURN_BYTEA_P(bytes);
}

static int compare_arguments(FunctionCallInfo fcinfo) {
    return memcmp(PG_GETARG_TALLY_P(0)->bytes, PG_GETARG_TALLY_P(1)->bytes, TALLY_BYTES);
}

Datum pg_tally_eq(PG_FUNCTION_ARGS) { PG_RETURN_BOOL(compare_arguments(fcinfo) == 0); }
Datum pg_tally_ne(PG_FUNCTION_ARGS) { PG_RETURN_BOOL(compare_arguments(fcinfo) != 0); }
Datum pg_tally_lt(PG_FUNCTION_ARGS) { PG_RETURN_BOOL(compare_arguments(fcinfo) < 0); }
Datum pg_tally_le(PG_FUNCTION_ARGS) { PG_RETURN_BOOL(compare_arguments(fcinfo) <= 0); }
Datum pg_tally_gt(PG_FUNCTION_ARGS) { PG_RETURN_BOOL(compare_arguments(fcinfo) > 0); }
Datum pg_tally_ge(PG_FUNCTION_ARGS) { PG_RETURN_BOOL(compare_arguments(fcinfo) >= 0); }
Datum pg_tally_cmp(PG_FUNCTION_ARGS) { PG_RETURN_INT32(compare_arguments(fcinfo)); }

Datum pg_tally_hash(PG_FUNCTION_ARGS) { return hash_any(PG_GETARG_TALLY_P(0)->bytes, TALLY_BYTES); }

Datum pg_tally_hash_extended(PG_FUNCTION_ARGS) {
    return hash_any_extended(PG_GETARG_TALLY_P(0)->bytes, TALLY_BYTES, (uint64) PG_GETARG_INT64(1));
}
