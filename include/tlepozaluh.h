/*
 * Tlepozaluh: a checker and a reader of CDF files (single file, uncompressed, versions 2.6 and 2.7).
 *
 * The check goes step by step. The caller lends the file's bytes, a buffer of marks and a saved state, and grants as many
 * steps as it likes; the check can be stopped after any grant and taken up again later. Up to eight files can be checked by
 * turns, round by round. The reader answers one question a call, from the file's bytes alone; it needs no check before it. The
 * library allocates nothing, keeps nothing between calls and opens no file. Calls on different buffers may run at the same time.
 * Values of type 31 that are epochs are turned into dates and back.
 *
 * A file may be padded: its end is where its GDR says (eof), up to 511 bytes below its length. Bytes from the end on are not
 * judged, and marks from the end on are not written.
 *
 * Link with libtlepozaluh.a, or with libtlepozaluh_read.a for the reader and epochs alone. docs/INTERFACE.md has worked
 * programs, docs/STATE.md describes the saved state.
 */
#ifndef TLEPOZALUH_H
#define TLEPOZALUH_H

#include <stddef.h>
#include <stdint.h>

#ifdef __cplusplus
extern "C" {
#endif

/* How many numbers of 32 bits a saved state has. */
#define TLZ_STATE_LEN 34

/* The longest file that is checked, in bytes; a longer one is TLZ_TOO_LONG. */
#define TLZ_LONGEST_FILE 2147483647

/* The most jobs of a round. */
#define TLZ_MOST_JOBS 8

/*
 * The numbers that come back. A finished check has one of 0 to 14, 20 or 23. A call of the reader gives 0 or one of 15 to
 * 18, 20 or 22; of several refusals it gives the first in the order 20, 15, 16, 17, 18, 22. A round gives -1 or 24, a call of
 * epochs 0 or 27.
 */
#define TLZ_RUNNING (-1)           /* not finished: no verdict yet */
#define TLZ_ACCEPTED 0             /* the whole file was checked and keeps every rule */
#define TLZ_TOO_LONG 1             /* the file is longer than 2,147,483,647 bytes */
#define TLZ_MARKS_TOO_SHORT 2      /* the marks are shorter than the file */
#define TLZ_NOT_CDF 3              /* shorter than 372 bytes, or the magic numbers are not those of a CDF 2.6 or 2.7 */
#define TLZ_COMPRESSED_FILE 4      /* the second magic number says that the whole file is compressed */
#define TLZ_BAD_CDR 5              /* the CDF descriptor record breaks its rule */
#define TLZ_BAD_GDR 6              /* the global descriptor record breaks its rule, also by an eof that is past the length, */
                                   /* more than 511 bytes below it, or before the record's own end */
#define TLZ_NOT_TILED 7            /* records do not follow one another to the file's end (eof): too few bytes, a wrong size */
                                   /* or type */
#define TLZ_BAD_LINK 8             /* a link leads to no record start (there is none from eof on), or to a record of the */
                                   /* wrong type */
#define TLZ_CLAIMED_TWICE 9        /* two links lead to one record; rings are found so */
#define TLZ_BAD_RECORD 10          /* a record's fields or size break its rule */
#define TLZ_BAD_LIST 11            /* a list's count, numbering, maximum, tail or back link disagrees, or a lower index */
                                   /* record has a next one */
#define TLZ_BAD_INDEX 12           /* an index's ranges of record numbers disagree */
#define TLZ_UNCLAIMED 13           /* a record in use is on no list */
#define TLZ_NOT_CARRIED 14         /* multi-file, record types 10 to 13, or a variable with compressed values */
#define TLZ_NO_SUCH_OBJECT 15      /* reader: no such variable or attribute */
#define TLZ_NO_SUCH_RECORD 16      /* reader: no such record or entry number */
#define TLZ_RECORD_IN_GAP 17       /* reader: the record number lies in a gap of the index */
#define TLZ_OUT_OF_RANGE 18        /* reader: an index or element out of range, or a wrong number of indices */
#define TLZ_BAD_STATE 20           /* the state is not TLZ_STATE_LEN numbers, a number is out of its range, or a field that */
                                   /* the walk needs passes the file's end; from the reader TLZ_BAD_WAY */
#define TLZ_OTHER_FILE 21          /* the file's length is not the one noted at opening, or the marks are now shorter */
#define TLZ_RESERVED_OPERAND 22    /* reader: the reserved operand of VAX floats (exponent zero, sign set) */
#define TLZ_TOO_DEEP 23            /* an index has more than eight levels of records */
#define TLZ_BAD_ROUND 24           /* a round: of 0 steps, of more than TLZ_MOST_JOBS jobs, with a part outside its area, or */
                                   /* with parts that overlap */
#define TLZ_NO_EPOCH 27            /* no whole number of milliseconds of the years 0 to 9999, or no such date or time of day */

/* The reader's 20: the file does not open, or the way to the answer breaks a rule. Never on a file that is accepted. */
#define TLZ_BAD_WAY 20

/*
 * Pointers. No pointer is null, also where a length is 0, but indices where index_count is 0; each is valid for its length
 * and aligned for its type. A buffer of length 0 is not read or written. All buffers are the caller's before, during and after a call. What a call may write
 * (state, marks, jobs, *steps, *where, the numbers that the reader and the calls of epochs set) overlaps no other buffer or
 * number of that call.
 */

/*
 * Makes a state fresh, whatever it held.
 *
 *   state, state_len   the state and how many numbers it has; must be TLZ_STATE_LEN
 *
 * Gives TLZ_RUNNING, as a check that has not begun has no verdict, or TLZ_BAD_STATE where state_len is another: then nothing
 * is written.
 */
int32_t tlz_check_begin(uint32_t *state, size_t state_len);

/*
 * Makes up to `grant` steps of a check: as many as are granted, or as remain.
 *
 *   file, file_len     the file's bytes, only read. All grants of a check are lent the same bytes.
 *   marks, marks_len   a byte for each byte of the file, at least file_len of them; they need no clearing before a check.
 *                      They belong to the check: between grants the caller keeps them as they are, beside the state. Marks
 *                      0 to 7 and those from the file's end on are never written, whatever the state.
 *   state, state_len   the state, made fresh by tlz_check_begin or kept from an earlier grant; TLZ_STATE_LEN numbers
 *   grant              the most steps to make
 *   steps              set to the steps made, in every case: 0 to grant
 *   where              set to the location, in every case: the file offset of the record at fault, or 0
 *
 * Gives:
 *   TLZ_RUNNING        all granted steps were made and the check is not finished: grant more
 *   TLZ_ACCEPTED       finished: the file is accepted
 *   1 to 14, or 23     finished: the file is refused, for the reason of that number
 *   TLZ_BAD_STATE      0 steps and nothing changed where state_len is wrong. Otherwise finished: the state was not one that
 *                      a check leaves, or file or marks were changed between grants.
 *   TLZ_OTHER_FILE     not finished: file_len is not the length noted at opening, or marks_len is below it. 0 steps, state
 *                      and marks unchanged; the check goes on when the right buffers are lent.
 *
 * The location, by the answer:
 *   7, 14 in the sweep   the swept record; where fewer than 8 bytes are left, the offset at which they begin
 *   8, 9, 12             the record that holds the link: for an index entry its index record; 8 for the CDR's link
 *   11 at a list's end,  the record that holds the zero link: the list's last member, or the one with the list's head where
 *   12 of MaxRec         the list is empty
 *   10, 23, and 14 and   the record that the link leads to
 *   11 on a claim
 *   13                   the first record in use that is on no list
 *   all others           0: -1, 0, 1 to 6, 14 at the opening, 20, 21
 *
 * What a refusal leaves: the refusing step is counted, changes no mark, and leaves a state that says no more than the
 * verdict and the location. A finished state gives both again, in 0 steps and whatever is lent; no mark changes. Begin again
 * to check another file with it. A grant of 0 changes nothing and gives TLZ_RUNNING, or the verdict and the location.
 *
 * TLZ_ACCEPTED comes only from a check that made all its steps: an unfinished one that was stopped, was lent another length
 * or was granted 0 steps never gives it, nor does a state of a wrong length. State and marks are believed, though:
 * state[0] == 1 is how a state says "finished and accepted", and a state with numbers of the caller's own is stepped by the
 * same rules. Keep both where nothing else writes to them.
 *
 * From a fresh state, a check of n bytes ends within n / 4 + 1 steps. A step looks at one record or link; the sweep's steps
 * also clear the marks of their record, and the last step goes once over all records.
 *
 * A worked loop, over a file in memory:
 *
 *     uint32_t state[TLZ_STATE_LEN];
 *     uint64_t steps = 0, all = 0, where = 0;
 *     int32_t answer = tlz_check_begin(state, TLZ_STATE_LEN);
 *     uint8_t *marks = malloc(file_len + 1);
 *
 *     if (marks == NULL)
 *         ... out of memory ...
 *     while (answer == TLZ_RUNNING) {
 *         answer = tlz_check_grant(file, file_len, marks, file_len, state, TLZ_STATE_LEN, 10000, &steps, &where);
 *         all += steps;
 *         ... other work; or save state and marks here and go on another day ...
 *     }
 *     free(marks);
 *     if (answer == TLZ_ACCEPTED)
 *         ... the file keeps every rule ...
 *     else
 *         ... refused with this number, at step `all`, because of the record at `where`, if that is not 0 ...
 */
int32_t tlz_check_grant(const uint8_t *file, size_t file_len, uint8_t *marks, size_t marks_len, uint32_t *state,
                        size_t state_len, uint64_t grant, uint64_t *steps, uint64_t *where);

/*
 * A job of a round: the check of one owner's file, as a row of a list. A round never changes the owner or the parts. Begin a
 * job with tlz_check_begin(job.state, TLZ_STATE_LEN) and an answer of TLZ_RUNNING.
 */
typedef struct tlz_job {
    uint32_t owner;                /* whose file it is; never looked at */
    int32_t answer;                /* what its last turn answered, as tlz_check_grant does; never looked at */
    size_t file_from, file_len;    /* its part of the file area: the file's bytes */
    size_t marks_from, marks_len;  /* its part of the marks area: the file's marks, at least file_len of them */
    uint32_t state[TLZ_STATE_LEN]; /* its saved state */
} tlz_job;

/*
 * A round: each unfinished job is granted q steps, in the order of the list.
 *
 *   files, files_len   the file area, only read: the jobs' files, each in its own part
 *   marks, marks_len   the marks area: the jobs' marks, each in its own part
 *   jobs, count        the list, of at most TLZ_MOST_JOBS rows; none is fine
 *   q                  the steps granted to each unfinished job, 1 or more
 *
 * Gives:
 *   TLZ_RUNNING        the round was made, also where every job is finished. Each row's answer and state, and the marks in
 *                      its part, are what tlz_check_grant answers and leaves with that row's parts and state and a grant of
 *                      q; a finished row takes its verdict again. Nothing else changes: no mark outside the parts, no
 *                      row's owner, no row's parts.
 *   TLZ_BAD_ROUND      nothing is changed: q is 0, count is above TLZ_MOST_JOBS, a part does not lie in its area, or two
 *                      rows share a byte of the file area or of the marks area. All rows are looked at, finished ones too. A
 *                      part of length 0 shares no byte, and lies anywhere from 0 to the area's length.
 *
 * After a round a job is unfinished exactly if its row's answer is TLZ_RUNNING or TLZ_OTHER_FILE; with TLZ_RUNNING it has made
 * q steps, with TLZ_OTHER_FILE none. TLZ_BAD_STATE is an answer of a row like any other. Whether a job is finished is said by
 * its state and not by its answer, which a round only writes.
 *
 * If the areas, the rows and q stay as they are between rounds, no round is refused unless the first is. Then a job's answers,
 * states and marks depend on its own file, marks and state and on q alone, and not on its neighbours; a job begun fresh, of n
 * bytes, is finished within (n / 4 + 1) / q rounds, rounded up; and after r rounds it stands where a check of its own stands
 * after r * q steps.
 *
 * A round tells neither steps nor locations. That of a refused job comes from a grant of 0 on its state, whatever file and
 * marks are lent.
 *
 * A worked loop, over jobs begun fresh:
 *
 *     size_t open = count;
 *
 *     while (open > 0) {
 *         if (tlz_round(files, files_len, marks, marks_len, jobs, count, 1000) != TLZ_RUNNING)
 *             ... a mistake in the list: no job was stepped ...
 *         open = 0;
 *         for (size_t i = 0; i < count; i++)
 *             open += jobs[i].answer == TLZ_RUNNING;
 *         ... the morning is near: leave the loop; what is TLZ_RUNNING has no verdict ...
 *     }
 */
int32_t tlz_round(const uint8_t *files, size_t files_len, uint8_t *marks, size_t marks_len, tlz_job *jobs, size_t count,
                  uint64_t q);

/*
 * ---- The reader
 *
 * A call gives 0 and sets the caller's numbers, or gives a refusal and leaves them as they were:
 *
 *   TLZ_NO_SUCH_OBJECT      15: the kind is none of those below, or there is no variable or attribute of that number
 *   TLZ_NO_SUCH_RECORD      16: there is no such record, or no entry of that number or at that place
 *   TLZ_RECORD_IN_GAP       17: the record number is not above MaxRec, but no index entry that names values covers it
 *   TLZ_OUT_OF_RANGE        18: an index, element, dimension or field that is not there, a wrong number of indices, or no
 *                           pad value
 *   TLZ_BAD_WAY             20: the file does not open, a record or link on the way to the answer breaks a rule, or more
 *                           than file_len / 8 records were met, as in a ring
 *   TLZ_RESERVED_OPERAND    22: a float in encoding 3, 14 or 15 whose exponent is zero and whose sign is set: it has no value
 *
 * Only what lies on the way is judged: CDR and GDR, a list from its head to what is asked for, an index to the entry that
 * covers the record, and down through the lower index records to the one that names its values; each of them ends at the
 * file's end at the latest. The rest of the file may be damaged. Every call ends, on every file; nothing outside the file is
 * read and nothing is written but the caller's numbers. Each call goes the whole way again.
 *
 * Variables and attributes are asked for by their place in their list, from 0, which is their number in an accepted file;
 * entries by their number, or by their place. Arguments have 64 bits so that none is cut before it is judged.
 */

/* Kinds of variables, and of entries of attributes. */
#define TLZ_RVARIABLE 3 /* all rVariables have the dimensions of tlz_read_dimension */
#define TLZ_ZVARIABLE 8 /* a zVariable has its own, of tlz_read_size */
#define TLZ_GRENTRY 5   /* a gEntry, if the attribute's scope is global, or an rEntry: of the rVariable of its number */
#define TLZ_ZENTRY 9    /* of the zVariable of its number */

/*
 * Kinds of values, with what `bits` holds. In encodings 3, 14 and 15 floats are VAX floats: F_FLOAT (types 21 and 44) and, for
 * types 22, 31 and 45, D_FLOAT in 3 and 14, G_FLOAT in 15. All of them come as TLZ_DOUBLE: the nearest double, ties to an even
 * last bit. F_FLOAT comes out exactly. An exponent of zero with the sign clear is +0, whatever the mantissa; with the sign set
 * it is TLZ_RESERVED_OPERAND. A VAX float is never an infinity or a NaN.
 */
#define TLZ_SIGNED 0    /* a signed number, sign-extended to 64 bits: take (int64_t)bits */
#define TLZ_UNSIGNED 1  /* an unsigned number */
#define TLZ_SINGLE 2    /* the 32 bits of a float, NaN's too; not in encodings 3, 14 and 15 */
#define TLZ_DOUBLE 3    /* the 64 bits of a double, NaN's too; of a VAX float those of the nearest double */
#define TLZ_CHARACTER 4 /* a character's code, 0 to 255 */

/*
 * An element of a variable's value.
 *
 *   file, file_len         the file's bytes, only read
 *   kind, number           the variable: TLZ_RVARIABLE or TLZ_ZVARIABLE, and its place
 *   record                 0 to MaxRec; where record variance is clear any number from 0 on reads record 0
 *   indices, index_count   an index, from 0, for each dimension of the variable, in the file's order of dimensions; one of
 *                          false variance must be in range too, and moves nothing. Majority is seen to. Where index_count is 0,
 *                          indices may be null.
 *   element                0, or which character of a value of characters
 *   value_kind, bits       set to the value's kind, TLZ_SIGNED to TLZ_CHARACTER, and to its bits; those of a VAX float are the
 *                          64 bits of a double, though F_FLOAT has 4 bytes in the file
 *   offset                 set to the file offset of the value's first byte
 */
int32_t tlz_read_value(const uint8_t *file, size_t file_len, int64_t kind, int64_t number, int64_t record,
                       const int64_t *indices, size_t index_count, int64_t element, uint64_t *value_kind, uint64_t *bits,
                       uint64_t *offset);

/*
 * An element of an attribute's entry: of the first of that number, if there are several (tlz_read_entry_value_at gives those of
 * the others). An entry of any data type may have several elements.
 *
 *   attribute    the attribute's place
 *   kind         TLZ_GRENTRY or TLZ_ZENTRY
 *   entry        the entry's number: a gEntry's own, or the variable's
 *   element      from 0
 *   value_kind, bits, offset   as those of tlz_read_value
 */
int32_t tlz_read_entry(const uint8_t *file, size_t file_len, int64_t attribute, int64_t kind, int64_t entry, int64_t element,
                       uint64_t *value_kind, uint64_t *bits, uint64_t *offset);

/*
 * An element of the entry at a place of its list, from 0; TLZ_NO_SUCH_RECORD behind the last one. So the values of all entries
 * can be read, those of equal numbers too. Its other numbers are those of tlz_read_entry.
 */
int32_t tlz_read_entry_value_at(const uint8_t *file, size_t file_len, int64_t attribute, int64_t kind, uint64_t place,
                                int64_t element, uint64_t *value_kind, uint64_t *bits, uint64_t *offset);

/* An element of a variable's pad value; TLZ_OUT_OF_RANGE if it has none. Its numbers are those of tlz_read_value. */
int32_t tlz_read_pad(const uint8_t *file, size_t file_len, int64_t kind, int64_t number, int64_t element,
                     uint64_t *value_kind, uint64_t *bits, uint64_t *offset);

/* What the file says of itself: `what` of tlz_read_file. */
#define TLZ_FILE_MAJORITY 0   /* 1 row: the last index runs fastest; 0 column: the first does */
#define TLZ_FILE_ENCODING 1   /* 1 to 7, 9, 11 to 16 */
#define TLZ_FILE_RVARIABLES 2 /* how many rVariables the GDR says there are */
#define TLZ_FILE_ZVARIABLES 3 /* how many zVariables */
#define TLZ_FILE_ATTRIBUTES 4 /* how many attributes */
#define TLZ_FILE_DIMENSIONS 5 /* how many dimensions the rVariables have, 0 to 10 */
#define TLZ_FILE_PADDING 6    /* how many bytes of padding it has: its length less its end, 0 to 511 */

/* Sets *field to what the file says of itself. The counts are not compared with the lists: that is the check's. */
int32_t tlz_read_file(const uint8_t *file, size_t file_len, uint64_t what, int32_t *field);

/* Sets *field to the size of a dimension of the rVariables, from 0. */
int32_t tlz_read_dimension(const uint8_t *file, size_t file_len, int64_t dimension, int32_t *field);

/* Fields of a variable: `at` of tlz_read_variable, their offsets in the VDR. */
#define TLZ_VARIABLE_TYPE 12        /* the data type: 1, 2, 4, 11, 12, 14, 21, 22, 31, 41, 44, 45, 51 or 52 */
#define TLZ_VARIABLE_MAXREC 16      /* the greatest record number, -1 if there is none */
#define TLZ_VARIABLE_FLAGS 28       /* TLZ_FLAG_RECORD_VARIANCE, TLZ_FLAG_PAD */
#define TLZ_VARIABLE_SPARSENESS 32  /* sRecords: 0 none, 1 gaps stand for the pad value, 2 for the previous record */
#define TLZ_VARIABLE_ELEMENTS 48    /* elements of a value: 1, or the characters of types 51 and 52 */
#define TLZ_VARIABLE_NUMBER 52      /* Num */
#define TLZ_VARIABLE_DIMENSIONS 128 /* how many dimensions a zVariable has, 0 to 10; TLZ_OUT_OF_RANGE for an rVariable */

/* Bits of TLZ_VARIABLE_FLAGS. */
#define TLZ_FLAG_RECORD_VARIANCE 1
#define TLZ_FLAG_PAD 2

/* Sets *field to a field of a variable: kind and number as in tlz_read_value, `at` one of the TLZ_VARIABLE_ numbers. */
int32_t tlz_read_variable(const uint8_t *file, size_t file_len, int64_t kind, int64_t number, uint64_t at, int32_t *field);

/* Sets *field to the size of a zVariable's dimension, from 0; TLZ_OUT_OF_RANGE for an rVariable (tlz_read_dimension). */
int32_t tlz_read_size(const uint8_t *file, size_t file_len, int64_t kind, int64_t number, int64_t dimension, int32_t *field);

/* Sets *field to the variance of a variable's dimension, from 0: -1 if its values vary along it, else 0. */
int32_t tlz_read_variance(const uint8_t *file, size_t file_len, int64_t kind, int64_t number, int64_t dimension,
                          int32_t *field);

/*
 * Where a variable's name stands: *offset is set to the file offset of its first byte, *length to its bytes before the NUL,
 * at most 64. It is no string: a name of 64 bytes has no NUL behind it.
 */
int32_t tlz_read_variable_name(const uint8_t *file, size_t file_len, int64_t kind, int64_t number, uint64_t *offset,
                               uint64_t *length);

/*
 * Sets *field to how many levels of index records lead to a record: 1 where an entry of the variable's index chain names the
 * values themselves, 2 where it names a lower index record whose entry does, up to 8. kind, number and record are those of
 * tlz_read_value, and so are the refusals 20, 15, 16 and 17; the values are not looked at.
 */
int32_t tlz_read_levels(const uint8_t *file, size_t file_len, int64_t kind, int64_t number, int64_t record, int32_t *field);

/* Fields of an attribute: `at` of tlz_read_attribute, their offsets in the ADR. */
#define TLZ_ATTRIBUTE_SCOPE 16      /* 1 global, 2 variable */
#define TLZ_ATTRIBUTE_NUMBER 20     /* Num */
#define TLZ_ATTRIBUTE_GR_ENTRIES 24 /* how many entries of kind TLZ_GRENTRY it says it has .. */
#define TLZ_ATTRIBUTE_GR_MAXIMUM 28 /* .. and their greatest number, -1 if there is none */
#define TLZ_ATTRIBUTE_Z_ENTRIES 40  /* the same of kind TLZ_ZENTRY */
#define TLZ_ATTRIBUTE_Z_MAXIMUM 44

/* Sets *field to a field of an attribute, by its place. */
int32_t tlz_read_attribute(const uint8_t *file, size_t file_len, int64_t number, uint64_t at, int32_t *field);

/* Where an attribute's name stands, as in tlz_read_variable_name. */
int32_t tlz_read_attribute_name(const uint8_t *file, size_t file_len, int64_t number, uint64_t *offset, uint64_t *length);

/* Fields of an entry: `at` of tlz_read_entry_field and tlz_read_entry_at, their offsets in the AEDR. */
#define TLZ_ENTRY_ATTRIBUTE 12 /* Num: its attribute's */
#define TLZ_ENTRY_TYPE 16      /* the data type, as TLZ_VARIABLE_TYPE */
#define TLZ_ENTRY_NUMBER 20    /* the entry number, 0 or more */
#define TLZ_ENTRY_ELEMENTS 24  /* how many elements it has, 1 or more */

/* Sets *field to a field of the first entry of a number; attribute, kind and entry as in tlz_read_entry. */
int32_t tlz_read_entry_field(const uint8_t *file, size_t file_len, int64_t attribute, int64_t kind, int64_t entry, uint64_t at,
                             int32_t *field);

/*
 * Sets *field to a field of the entry at a place of its list, from 0; TLZ_NO_SUCH_RECORD behind the last one. So all entries
 * can be listed, those of equal numbers too.
 */
int32_t tlz_read_entry_at(const uint8_t *file, size_t file_len, int64_t attribute, int64_t kind, uint64_t place, uint64_t at,
                          int32_t *field);

/*
 * Epochs. A value of type 31 is a double that counts milliseconds from the beginning of year 0. It is an epoch if it is a whole
 * number from 0 to 315,569,519,999,999, the last millisecond of year 9999; dates are those of the proleptic Gregorian calendar,
 * in which year 0 is a leap year. All else is TLZ_NO_EPOCH: a fraction, a negative number, negative zero, a NaN, an infinity,
 * what is past year 9999; a date that does not exist or is not of these years, milliseconds that are not of a day. A call gives
 * 0 and sets the caller's numbers, or gives TLZ_NO_EPOCH and leaves them alone.
 */

/*
 * The date of an epoch.
 *
 *   epoch          a double, such as that of the bits that tlz_read_value gives
 *   year           set to the year, 0 to 9999
 *   month, day     set to the month, 1 to 12, and the day of the month, from 1
 *   milliseconds   set to the milliseconds of the day, 0 to 86,399,999
 */
int32_t tlz_epoch_date(double epoch, int32_t *year, int32_t *month, int32_t *day, int32_t *milliseconds);

/*
 * The epoch of a date: sets *epoch to the one epoch that has this date and these milliseconds. The numbers are those of
 * tlz_epoch_date; they have 64 bits so that none is cut before it is judged.
 */
int32_t tlz_epoch_from(int64_t year, int64_t month, int64_t day, int64_t milliseconds, double *epoch);

/*
 * The milliseconds from an epoch b to an epoch a: sets *difference to a - b, exactly; of two equal ones it is +0, if the program
 * has not set rounding downward. TLZ_NO_EPOCH where a or b is none.
 */
int32_t tlz_epoch_difference(double a, double b, double *difference);

#ifdef __cplusplus
}
#endif

#endif
