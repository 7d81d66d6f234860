#include "words.h"

#include "tlepozaluh.h"

#include <inttypes.h>
#include <stdio.h>

/* A number of the table and what it means. */
struct meaning {
    int32_t number;
    const char *words;
};

static const struct meaning meanings[] = {
    { TLZ_RUNNING, "no verdict yet" },
    { TLZ_ACCEPTED, "the file keeps every rule" },
    { TLZ_TOO_LONG, "the file is longer than 2,147,483,647 bytes" },
    { TLZ_MARKS_TOO_SHORT, "the marks are shorter than the file" },
    { TLZ_NOT_CDF, "no CDF file of version 2.6 or 2.7" },
    { TLZ_COMPRESSED_FILE, "the whole file is compressed" },
    { TLZ_BAD_CDR, "the CDF descriptor record breaks its rule" },
    { TLZ_BAD_GDR, "the global descriptor record breaks its rule" },
    { TLZ_NOT_TILED, "the records do not follow one another to the end of the file" },
    { TLZ_BAD_LINK, "a link leads to no record, or to one of the wrong type" },
    { TLZ_CLAIMED_TWICE, "two links lead to one record" },
    { TLZ_BAD_RECORD, "a record's fields or size break its rule" },
    { TLZ_BAD_LIST, "a list's count, numbering, maximum, tail or back link disagrees, or a lower index record has a next one" },
    { TLZ_BAD_INDEX, "an index's ranges of record numbers disagree" },
    { TLZ_UNCLAIMED, "a record in use is on no list" },
    { TLZ_NOT_CARRIED, "not carried: several files, a record of type 10 to 13, or compressed values" },
    { TLZ_NO_SUCH_OBJECT, "no such variable or attribute" },
    { TLZ_NO_SUCH_RECORD, "no such record or entry number" },
    { TLZ_RECORD_IN_GAP, "the record number lies in a gap of the index" },
    { TLZ_OUT_OF_RANGE, "an index or element is out of range" },
    { TLZ_BAD_STATE, "the saved state is not one that a check of this file leaves" },
    { TLZ_OTHER_FILE, "the file's length is not the one noted at opening" },
    { TLZ_RESERVED_OPERAND, "the reserved operand of VAX floats: the exponent is zero and the sign is set" },
    { TLZ_TOO_DEEP, "an index has more than eight levels of records" },
    { TLZ_BAD_ROUND, "the round was refused, an error of this program: no steps, too many files, a part outside its area, or "
                     "parts that overlap" },
    { TLZ_NO_EPOCH, "no whole number of milliseconds of the years 0 to 9999, or no such date or time of day" },
};

static const struct meaning types[] = {
    { 1, "CDF_INT1" },   { 2, "CDF_INT2" },    { 4, "CDF_INT4" },   { 11, "CDF_UINT1" }, { 12, "CDF_UINT2" },
    { 14, "CDF_UINT4" }, { 21, "CDF_REAL4" },  { 22, "CDF_REAL8" }, { 31, "CDF_EPOCH" }, { 41, "CDF_BYTE" },
    { 44, "CDF_FLOAT" }, { 45, "CDF_DOUBLE" }, { 51, "CDF_CHAR" },  { 52, "CDF_UCHAR" },
};

static const struct meaning encodings[] = {
    { 1, "NETWORK" },    { 2, "SUN" },        { 3, "VAX" },        { 4, "DECSTATION" }, { 5, "SGi" },
    { 6, "IBMPC" },      { 7, "IBMRS" },      { 9, "MAC" },        { 11, "HP" },        { 12, "NeXT" },
    { 13, "ALPHAOSF1" }, { 14, "ALPHAVMSd" }, { 15, "ALPHAVMSg" }, { 16, "ALPHAVMSi" },
};

/* The words of a number in a table, or others if it has none. */
static const char *found(const struct meaning *table, size_t rows, int32_t number, const char *others)
{
    for (size_t i = 0; i < rows; i++)
        if (table[i].number == number)
            return table[i].words;
    return others;
}

const char *words_of_number(int32_t number)
{
    return found(meanings, sizeof meanings / sizeof *meanings, number, "a number that the table does not have");
}

const char *words_of_refusal(int32_t number)
{
    return number == TLZ_BAD_WAY ? "no CDF file that can be read, or a record on the way breaks a rule (cdfcheck says more)"
                                 : words_of_number(number);
}

const char *words_of_type(int32_t type)
{
    return found(types, sizeof types / sizeof *types, type, "no data type");
}

const char *words_of_encoding(int32_t encoding)
{
    return found(encodings, sizeof encodings / sizeof *encodings, encoding, "no encoding");
}

/* Places of numbers in a state; a level has three numbers, and its second is 0 where there is none. */
enum { PHASE = 2, KIND = 3, LINK = 4, COUNT = 5, ENTRY = 9, LEVELS = 12, OF_A_LEVEL = 3, BEHIND_LEVELS = 33 };

/* Phases of a check. */
enum { FRESH, SWEEP, START, VARIABLES, CHAIN, INDEX_ENTRY, ATTRIBUTES, ENTRIES, UNUSED };

/* In which index a check stands, and on which level if it is not the top one. */
static void words_of_index(const uint32_t *state, const char *variable, char *words, size_t room)
{
    int level = 1;

    for (int i = LEVELS; i < BEHIND_LEVELS && state[i + 1] != 0; i += OF_A_LEVEL)
        level++;
    if (level == 1)
        snprintf(words, room, "all bytes swept, in the index of %s %" PRIu32, variable, state[COUNT]);
    else
        snprintf(words, room, "all bytes swept, in the index of %s %" PRIu32 ", level %d", variable, state[COUNT], level);
}

void words_of_state(const uint32_t *state, size_t body, char *words, size_t room)
{
    const char *variable = state[KIND] == 3 ? "rVariable" : "zVariable";
    const char *entry = state[KIND] == 5 ? "g/rEntries" : "zEntries";

    switch (state[PHASE]) {
    case FRESH:
        snprintf(words, room, "not opened");
        break;
    case SWEEP:
        snprintf(words, room, "%" PRIu32 " of %zu bytes swept", state[LINK], body);
        break;
    case VARIABLES:
        snprintf(words, room, "all bytes swept, %" PRIu32 " %ss claimed", state[COUNT], variable);
        break;
    case CHAIN:
    case INDEX_ENTRY:
        words_of_index(state, variable, words, room);
        break;
    case ATTRIBUTES:
        snprintf(words, room, "all bytes swept, %" PRIu32 " attributes claimed", state[COUNT]);
        break;
    case ENTRIES:
        snprintf(words, room, "all bytes swept, attribute %" PRIu32 ", %" PRIu32 " %s claimed", state[COUNT], state[ENTRY],
                 entry);
        break;
    case UNUSED:
        snprintf(words, room, "all bytes swept, in the list of unused records");
        break;
    default:
        snprintf(words, room, "all bytes swept");
    }
}
