/*
 * reads ROUNDS FILE..: asks the reader with heap buffers of exactly the lengths that it is told, to be run under a memory
 * checker. Each file is asked as it is, padded and damaged, and cut at any length; every call, with numbers that are there and
 * that are not. The padding was never written. VAX floats are read from the very end of a buffer, apart from these questions.
 * Prints how many questions were put and what came back, and how many such floats were read; exits with 1 if an answer is wrong, a
 * refusal changed a number or a call was never made.
 */
#include "common.h"
#include "tlepozaluh.h"

#include <inttypes.h>

/* How many bytes of the file are missing: 0, or 1 to see that the memory checker finds that. */
#ifndef MISSING
#define MISSING 0
#endif

enum { CALLS = 15, ANSWERS = 23, NUMBERS = 3 };

/* What a call may set, each number an allocation of its own; what they held before. */
struct lent {
    const uint8_t *file;
    size_t length, end;
    uint64_t *numbers[NUMBERS];
    int32_t *field;
};

static const uint64_t BEFORE = 0x5aa55aa50ff00ff0;
static uint64_t calls[CALLS], answers[ANSWERS], floats = 0, wrong = 0;

/* Mostly a small number; else an edge. */
static int64_t number(int64_t most)
{
    static const int64_t edges[] = { INT64_MIN, INT32_MIN, -1, 0, 121, INT32_MAX, 2147483648, 4294967296, INT64_MAX };

    if (any(5) == 0)
        return edges[any(sizeof edges / sizeof *edges)];
    return (int64_t)any((uint64_t)most + 1);
}

/* Mostly one of two kinds. */
static int64_t kind(int64_t one, int64_t other)
{
    return any(8) == 0 ? number(9) : any(2) == 0 ? one : other;
}

/* Mostly the offset of a field that is shown. */
static uint64_t field_at(void)
{
    static const uint64_t shown[] = { 12, 16, 20, 24, 28, 32, 40, 44, 48, 52, 128 };

    return any(4) == 0 ? (uint64_t)number(140) : shown[any(sizeof shown / sizeof *shown)];
}

/* A value of a variable, with indices of exactly their number; that is right most of the time. */
static int32_t ask_value(const struct lent *l)
{
    int64_t of = kind(TLZ_RVARIABLE, TLZ_ZVARIABLE), which = number(3);
    int32_t dimensions = 0, answer = 0;
    int64_t *indices = NULL;

    if (of == TLZ_ZVARIABLE)
        tlz_read_variable(l->file, l->length, of, which, TLZ_VARIABLE_DIMENSIONS, &dimensions);
    else
        tlz_read_file(l->file, l->length, TLZ_FILE_DIMENSIONS, &dimensions);
    size_t count = any(5) == 0 ? any(14) : (size_t)dimensions;
    if (count != 0 || any(2) == 0) /* none may be null */
        indices = exactly(count * sizeof *indices);
    for (size_t i = 0; i < count; i++)
        indices[i] = any(3) == 0 ? number(3) : 0;
    answer = tlz_read_value(l->file, l->length, of, which, number(8), indices, count, any(4) == 0 ? number(2) : 0,
                            l->numbers[0], l->numbers[1], l->numbers[2]);
    free(indices);
    return answer;
}

/* A call that describes a variable. */
static int32_t ask_variable(const struct lent *l, uint64_t call)
{
    int64_t of = kind(TLZ_RVARIABLE, TLZ_ZVARIABLE), which = number(3);

    switch (call) {
    case 1:
        return tlz_read_pad(l->file, l->length, of, which, number(1), l->numbers[0], l->numbers[1], l->numbers[2]);
    case 2:
        return tlz_read_variable(l->file, l->length, of, which, field_at(), l->field);
    case 3:
        return tlz_read_size(l->file, l->length, of, which, number(2), l->field);
    case 4:
        return tlz_read_variance(l->file, l->length, of, which, number(2), l->field);
    case 14:
        return tlz_read_levels(l->file, l->length, of, which, number(12), l->field);
    default:
        return tlz_read_variable_name(l->file, l->length, of, which, l->numbers[0], l->numbers[1]);
    }
}

/* A call for an attribute or an entry. */
static int32_t ask_attribute(const struct lent *l, uint64_t call)
{
    int64_t of = kind(TLZ_GRENTRY, TLZ_ZENTRY), which = number(3);

    switch (call) {
    case 6:
        return tlz_read_entry(l->file, l->length, which, of, number(4), number(2), l->numbers[0], l->numbers[1], l->numbers[2]);
    case 7:
        return tlz_read_entry_field(l->file, l->length, which, of, number(4), field_at(), l->field);
    case 8:
        return tlz_read_entry_at(l->file, l->length, which, of, (uint64_t)number(4), field_at(), l->field);
    case 13:
        return tlz_read_entry_value_at(l->file, l->length, which, of, (uint64_t)number(4), number(2), l->numbers[0],
                                       l->numbers[1], l->numbers[2]);
    case 9:
        return tlz_read_attribute(l->file, l->length, which, field_at(), l->field);
    default:
        return tlz_read_attribute_name(l->file, l->length, which, l->numbers[0], l->numbers[1]);
    }
}

static int32_t ask(const struct lent *l, uint64_t call)
{
    if (call == 0)
        return ask_value(l);
    if (call < 6 || call == 14)
        return ask_variable(l, call);
    if (call < 11 || call == 13)
        return ask_attribute(l, call);
    if (call == 11)
        return tlz_read_file(l->file, l->length, (uint64_t)number(TLZ_FILE_PADDING + 1), l->field);
    return tlz_read_dimension(l->file, l->length, number(3), l->field);
}

static void expect(int right, const char *what, uint64_t call)
{
    if (right)
        return;
    wrong++;
    fprintf(stderr, "wrong: %s, call %" PRIu64 "\n", what, call);
}

/* 0, or a refusal of the reader. */
static int of_reader(int32_t answer)
{
    return answer == 0 || (answer >= TLZ_NO_SUCH_OBJECT && answer <= TLZ_OUT_OF_RANGE) || answer == TLZ_BAD_WAY ||
           answer == TLZ_RESERVED_OPERAND;
}

/* What a call may leave: after a refusal what was before, after a 0 something of the file. */
static void judge(const struct lent *l, uint64_t call, int32_t answer)
{
    int same = *l->field == (int32_t)BEFORE;

    for (int i = 0; i < NUMBERS; i++)
        same = same && *l->numbers[i] == BEFORE;
    expect(of_reader(answer), "answer", call);
    expect(answer == 0 || same, "a refusal changed a number", call);
    if (answer == 0 && (call == 5 || call == 10))
        expect(*l->numbers[0] + *l->numbers[1] <= l->end && *l->numbers[1] <= 64, "a name outside the body", call);
    if (answer == 0 && (call == 0 || call == 1 || call == 6 || call == 13))
        expect(*l->numbers[0] <= TLZ_CHARACTER && *l->numbers[2] < l->end, "a value", call);
    if (answer == 0 && call == 14)
        expect(*l->field >= 1 && *l->field <= 8, "levels", call);
    calls[call]++;
    answers[answer >= 0 && answer < ANSWERS ? answer : 1]++;
}

/* The padding of a file that opens is what is behind its end. */
static void judge_padding(const struct lent *l)
{
    int32_t answer = tlz_read_file(l->file, l->length, TLZ_FILE_MAJORITY, l->field);

    *l->field = (int32_t)BEFORE;
    expect(tlz_read_file(l->file, l->length, TLZ_FILE_PADDING, l->field) == answer, "the padding's answer", CALLS);
    expect(*l->field == (answer == 0 ? (int32_t)(l->length - l->end) : (int32_t)BEFORE), "the padding", CALLS);
}

/* So many questions to a file of this length, which is lent in a buffer of its own. */
static void question(const uint8_t *bytes, size_t length, uint64_t count)
{
    size_t room = length > MISSING ? length - MISSING : 0, end = end_of(bytes, length), body = end < room ? end : room;
    uint8_t *file = exactly(room);
    struct lent l = { .file = file, .length = length, .end = end, .field = exactly(sizeof *l.field) };

    memcpy(file, bytes, body);
    judge_padding(&l);
    for (int i = 0; i < NUMBERS; i++)
        l.numbers[i] = exactly(sizeof **l.numbers);
    for (uint64_t i = 0; i < count; i++) {
        uint64_t call = any(3) == 0 ? 0 : any(CALLS);
        *l.field = (int32_t)BEFORE;
        for (int k = 0; k < NUMBERS; k++)
            *l.numbers[k] = BEFORE;
        judge(&l, call, ask(&l, call));
    }
    expect(memcmp(file, bytes, body) == 0, "the file was written", CALLS);
    for (int i = 0; i < NUMBERS; i++)
        free(l.numbers[i]);
    free(l.field);
    free(file);
}

/* One or two fields behind the opening get other values. */
static void damage(uint8_t *file, size_t length)
{
    for (uint64_t i = any(2); i < 2 && length >= 380; i++) {
        size_t at = 312 + 4 * any((length - 312) / 4);
        uint32_t value = any(3) == 0 ? (uint32_t)number(8) : (uint32_t)any(length);
        for (int k = 0; k < 4; k++)
            file[at + (size_t)k] = (uint8_t)(value >> (24 - 8 * k));
    }
}

static void try_file(const uint8_t *bytes, size_t length, uint64_t rounds)
{
    uint8_t *copy = exactly(length + PADDING + 1);

    question(bytes, length, 200);
    for (uint64_t i = 0; i < rounds; i++) {
        size_t shorter = any(length + 1), padded = 0;
        memcpy(copy, bytes, length);
        padded = pad(copy, length);
        damage(copy, padded);
        question(copy, padded, 20);
        memcpy(copy, bytes, length);
        set_eof(copy, shorter, shorter - any(shorter < PADDING ? 1 : PADDING));
        question(copy, shorter, 10);
    }
    free(copy);
}

/* A VAX float: its encoding, data type, bytes and the double's bits; those of a reserved operand are BEFORE. */
struct vax {
    int32_t encoding, type, size;
    uint8_t bytes[8];
    uint64_t bits;
};

static void put(uint8_t *file, size_t at, const int32_t *numbers, size_t count)
{
    for (size_t i = 0; i < 4 * count; i++)
        file[at + i] = (uint8_t)((uint32_t)numbers[i / 4] >> (24 - 8 * (i % 4)));
}

/* A buffer of exactly a file's length with its opening, one zVariable or one attribute at 372, and the float as its last bytes. */
static uint8_t *ending_with(const struct vax *v, int32_t at, int32_t variable)
{
    int32_t length = at + v->size, other = 1 - variable;
    int32_t cdr[] = { (int32_t)0xCDF26002, 0xFFFF, 304, 1, 312, 2, 6, v->encoding, 3 };
    int32_t gdr[] = { 60, 2, 0, 372 * variable, 372 * other, length, 0, other, -1, 0, variable };
    uint8_t *file = exactly((size_t)length - MISSING);

    memset(file, 0, (size_t)length - MISSING);
    put(file, 0, cdr, sizeof cdr / sizeof *cdr);
    put(file, 312, gdr, sizeof gdr / sizeof *gdr);
    memcpy(file + at, v->bytes, (size_t)v->size - MISSING);
    return file;
}

/* Files that end with a float: with the value of a record, with a pad value, with an entry. Each gives its length. */
static size_t with_value(const struct vax *v, uint8_t **file)
{
    int32_t vdr[] = { 132, 8, 0, v->type, 0, 504, 504, 1, 0, 0, 0, 0, 1 };
    int32_t index_and_run[] = { 32, 6, 0, 1, 1, 0, 0, 536, 8 + v->size, 7 };

    *file = ending_with(v, 544, 1);
    put(*file, 372, vdr, sizeof vdr / sizeof *vdr);
    put(*file, 504, index_and_run, sizeof index_and_run / sizeof *index_and_run);
    return 544 + (size_t)v->size;
}

static size_t with_pad(const struct vax *v, uint8_t **file)
{
    int32_t vdr[] = { 132 + v->size, 8, 0, v->type, -1, 0, 0, 3, 0, 0, 0, 0, 1 };

    *file = ending_with(v, 504, 1);
    put(*file, 372, vdr, sizeof vdr / sizeof *vdr);
    return 504 + (size_t)v->size;
}

static size_t with_entry(const struct vax *v, uint8_t **file)
{
    int32_t adr[] = { 116, 4, 0, 488, 1, 0, 1, 0, 0, 0, 0, -1 };
    int32_t aedr[] = { 48 + v->size, 5, 0, 0, v->type, 0, 1 };

    *file = ending_with(v, 536, 0);
    put(*file, 372, adr, sizeof adr / sizeof *adr);
    put(*file, 488, aedr, sizeof aedr / sizeof *aedr);
    return 536 + (size_t)v->size;
}

/* Reads a VAX float from the very end of its buffer. */
static void last_float(const struct vax *v, uint64_t call)
{
    uint8_t *f = NULL;
    size_t n = (call == 0 ? with_value : call == 1 ? with_pad : with_entry)(v, &f);
    uint64_t kind = BEFORE, bits = BEFORE, offset = BEFORE;
    int32_t answer = 0, wanted = v->bits == BEFORE ? TLZ_RESERVED_OPERAND : 0;

    if (call == 0)
        answer = tlz_read_value(f, n, TLZ_ZVARIABLE, 0, 0, &(int64_t){ 0 }, 0, 0, &kind, &bits, &offset);
    else if (call == 1)
        answer = tlz_read_pad(f, n, TLZ_ZVARIABLE, 0, 0, &kind, &bits, &offset);
    else if (call == 6)
        answer = tlz_read_entry(f, n, 0, TLZ_GRENTRY, 0, 0, &kind, &bits, &offset);
    else
        answer = tlz_read_entry_value_at(f, n, 0, TLZ_GRENTRY, 0, 0, &kind, &bits, &offset);
    expect(answer == wanted && bits == v->bits, "a VAX float", call);
    expect(kind == (wanted == 0 ? TLZ_DOUBLE : BEFORE), "the kind of a VAX float", call);
    expect(offset == (wanted == 0 ? n - (size_t)v->size : BEFORE), "the offset of a VAX float", call);
    floats++;
    free(f);
}

/* One, the reserved operand, and doubles that are rounded, of each form and by each call for a value. */
static void last_floats(void)
{
    const struct vax all[] = {
        { 3, 21, 4, { 0x80, 0x40 }, 0x3ff0000000000000 },
        { 14, 44, 4, { 0x7f, 0x80, 0xff, 0xff }, BEFORE },
        { 15, 21, 4, { 0xff, 0xff, 0xff, 0xff }, 0xc7dfffffe0000000 },
        { 3, 22, 8, { 0x80, 0x40, 0, 0, 0, 0, 0x0c }, 0x3ff0000000000002 },
        { 14, 31, 8, { 0xff, 0xff, 0xff, 0xff, 0xff, 0xff, 0xff, 0xff }, 0xc7e0000000000000 },
        { 14, 45, 8, { 0, 0x80 }, BEFORE },
        { 15, 45, 8, { 0x10, 0, 0, 0, 0, 0, 0x06 }, 0x0004000000000002 },
        { 15, 22, 8, { 0x0f, 0x80, 0, 0, 0, 0, 0, 0x01 }, BEFORE },
    };

    for (size_t i = 0; i < sizeof all / sizeof *all; i++) {
        last_float(&all[i], 0);
        last_float(&all[i], 1);
        last_float(&all[i], 6);
        last_float(&all[i], 13);
    }
}

int main(int count, char **words)
{
    uint64_t rounds = count > 1 ? strtoull(words[1], NULL, 10) : 0, all = 0;

    if (MISSING == 0 || count == 2)
        last_floats();
    for (int i = 2; i < count; i++) {
        size_t length = 0;
        const uint8_t *bytes = read_file(words[i], &length);
        if (bytes == NULL)
            return 2;
        try_file(bytes, length, rounds);
    }
    for (int i = 0; i < CALLS; i++) {
        all += calls[i];
        expect(calls[i] > 0, "a call was not made", (uint64_t)i);
    }
    printf("%d files, %" PRIu64 " questions, %" PRIu64 " wrong; answers", count - 2, all, wrong);
    for (int i = 0; i < ANSWERS; i++)
        if (answers[i] > 0)
            printf(" %d: %" PRIu64, i, answers[i]);
    printf("; %" PRIu64 " VAX floats\n", floats);
    return wrong != 0;
}
