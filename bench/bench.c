/*
 * Times the proved check, reader and epochs against the same in plain C, in one run and on the same buffers.
 *
 *     bench            builds large files and prints median times and their ratio, proved / C, and those of epochs and dates;
 *                      then rounds over eight files, the clearing of marks by itself, and how the time grows
 *     bench FILE..     no times: compares verdict, steps, location and marks, in one grant and in several, and the answers to many
 *                      reads, on each file; then epochs and dates, of each day of all years and drawn by chance
 */
#include "check.h"
#include "clearing.h"
#include "dates.h"
#include "files.h"
#include "read.h"
#include "rounds.h"
#include "times.h"
#include "tlepozaluh.h"
#include "turns.h"

#include <inttypes.h>
#include <stdio.h>
#include <stdlib.h>
#include <string.h>

enum { REPEATS = 15 };

static int32_t proved_check(const uint8_t *file, size_t file_len, uint8_t *marks, size_t marks_len, uint64_t *steps,
                            uint64_t *where)
{
    uint32_t state[TLZ_STATE_LEN];
    int32_t begun = tlz_check_begin(state, TLZ_STATE_LEN);
    if (begun != TLZ_RUNNING)
        return begun;
    return tlz_check_grant(file, file_len, marks, marks_len, state, TLZ_STATE_LEN, UINT64_MAX, steps, where);
}

/* The two agree on a file in verdict, steps, location and marks; gives the verdict, or -1 if they do not. */
static int32_t agreed(const struct file *file, const char *name)
{
    uint8_t *marks = allocated(file->length), *other = allocated(file->length);
    uint64_t steps = 0, other_steps = 0, where = 1, other_where = 1;
    int32_t verdict = proved_check(file->bytes, file->length, marks, file->length, &steps, &where);
    int32_t plain = plain_check(file->bytes, file->length, other, file->length, &other_steps, &other_where);
    int same = verdict == plain && steps == other_steps && where == other_where && memcmp(marks, other, file->length) == 0;
    if (!same)
        fprintf(stderr, "%s: proved %d in %" PRIu64 " at %" PRIu64 ", C %d in %" PRIu64 " at %" PRIu64 "\n", name, (int)verdict,
                steps, where, (int)plain, other_steps, other_where);
    free(marks);
    free(other);
    return same ? verdict : -1;
}

/* Times the two in turn on buffers that were written before, and a memset of the marks. */
static void timed(const char *name, struct file file)
{
    double proved[REPEATS], plain[REPEATS], cleared[REPEATS];
    uint8_t *marks = allocated(file.length);
    uint64_t steps = 0, where = 0;
    if (agreed(&file, name) != TLZ_ACCEPTED)
        exit(1);
    for (int i = 0; i < REPEATS; i++) {
        double a = now();
        proved_check(file.bytes, file.length, marks, file.length, &steps, &where);
        double b = now();
        plain_check(file.bytes, file.length, marks, file.length, &steps, &where);
        double c = now();
        memset(marks, i, file.length);
        double d = now();
        proved[i] = b - a;
        plain[i] = c - b;
        cleared[i] = d - c;
    }
    double p = median(proved, REPEATS), c = median(plain, REPEATS), m = median(cleared, REPEATS);
    printf("%-44s %10" PRIu64 " steps  proved %9.3f ms  C %9.3f ms  memset %7.3f ms  proved/C %.2f\n", name, steps, 1e3 * p,
           1e3 * c, 1e3 * m, p / c);
    free(marks);
    free(file.bytes);
}

/* Asks both readers for one value; 0 if they agree in answer, kind, bits and offset. */
static int value_differs(const struct file *file, int64_t kind, int64_t number, int64_t record, size_t dimensions,
                         int64_t element)
{
    static const int64_t indices[4] = { 0, 1, 0, 1 };
    uint64_t ours[3] = { 7, 7, 7 }, other[3] = { 7, 7, 7 };
    int32_t a = tlz_read_value(file->bytes, file->length, kind, number, record, indices, dimensions, element, &ours[0], &ours[1],
                               &ours[2]);
    int32_t b = plain_value(file->bytes, file->length, kind, number, record, indices, dimensions, element, &other[0], &other[1],
                            &other[2]);
    return a != b || memcmp(ours, other, sizeof ours) != 0;
}

/* How many of many questions the two readers answer otherwise. */
static int values_differ(const struct file *file)
{
    int differ = 0;
    for (int64_t kind = 2; kind < 10; kind++)
        for (int64_t number = -1; number < 8; number++)
            for (int64_t record = -1; record < 8; record++)
                for (size_t dimensions = 0; dimensions < 4; dimensions++)
                    for (int64_t element = -1; element < 2; element++)
                        differ += value_differs(file, kind, number, record, dimensions, element);
    return differ;
}

/* How many of many questions for the levels of an index, and for values below them, the two readers answer otherwise. */
static int levels_differ(const struct file *file)
{
    int differ = 0;
    for (int64_t kind = 2; kind < 10; kind++)
        for (int64_t number = -1; number < 8; number++)
            for (int64_t record = -1; record < 64; record++) {
                int32_t ours = 77, other = 77;
                int32_t a = tlz_read_levels(file->bytes, file->length, kind, number, record, &ours);
                int32_t b = plain_levels(file->bytes, file->length, kind, number, record, &other);
                differ += a != b || ours != other || value_differs(file, kind, number, record, 0, 0);
            }
    return differ;
}

/* How many files the plain check by grants carries to their verdict. */
static int carried = 0;

/* How many sizes of grants the plain check by grants and the proved one differ with. */
static int grants_differ(const struct file *file)
{
    static const uint64_t sizes[] = { 1, 2, 7, UINT64_MAX };
    int differ = 0;
    int32_t answer = -1;
    for (size_t i = 0; i < sizeof sizes / sizeof *sizes; i++) {
        answer = agreed_by_grants(file, sizes[i]);
        differ += answer == -1;
    }
    carried += answer != -1 && answer != NOT_HERE;
    return differ;
}

/* Compares checks and readers on a file on disk; 0 if they agree. */
static int compared(const char *name)
{
    FILE *in = fopen(name, "rb");
    if (in == NULL || fseek(in, 0, SEEK_END) != 0) {
        perror(name);
        return 1;
    }
    long length = ftell(in);
    rewind(in);
    struct file file = { allocated((size_t)length), (size_t)length };
    int differ = fread(file.bytes, 1, file.length, in) != file.length || agreed(&file, name) < 0 || grants_differ(&file) != 0 ||
                 values_differ(&file) != 0 || levels_differ(&file) != 0;
    if (differ != 0)
        fprintf(stderr, "%s: differs\n", name);
    fclose(in);
    free(file.bytes);
    return differ;
}

/* Reads the value of each record of the first variable, in order or not, or of each variable; gives a sum over what came. */
typedef uint64_t read_all(const struct file *file, size_t n);

static uint64_t proved_records(const struct file *file, size_t n)
{
    uint64_t sum = 0, kind = 0, bits = 0, offset = 0;
    for (size_t i = 0; i < n; i++) {
        if (tlz_read_value(file->bytes, file->length, 8, 0, (int64_t)i, &(int64_t){ 0 }, 0, 0, &kind, &bits, &offset) != 0)
            exit(1);
        sum += kind + bits + offset;
    }
    return sum;
}

static uint64_t plain_records(const struct file *file, size_t n)
{
    uint64_t sum = 0, kind = 0, bits = 0, offset = 0;
    for (size_t i = 0; i < n; i++) {
        if (plain_value(file->bytes, file->length, 8, 0, (int64_t)i, &(int64_t){ 0 }, 0, 0, &kind, &bits, &offset) != 0)
            exit(1);
        sum += kind + bits + offset;
    }
    return sum;
}

static uint64_t proved_variables(const struct file *file, size_t n)
{
    uint64_t sum = 0, kind = 0, bits = 0, offset = 0;
    for (size_t i = 0; i < n; i++) {
        if (tlz_read_value(file->bytes, file->length, 8, (int64_t)i, 0, &(int64_t){ 0 }, 0, 0, &kind, &bits, &offset) != 0)
            exit(1);
        sum += bits + offset;
    }
    return sum;
}

static uint64_t plain_variables(const struct file *file, size_t n)
{
    uint64_t sum = 0, kind = 0, bits = 0, offset = 0;
    for (size_t i = 0; i < n; i++) {
        if (plain_value(file->bytes, file->length, 8, (int64_t)i, 0, &(int64_t){ 0 }, 0, 0, &kind, &bits, &offset) != 0)
            exit(1);
        sum += bits + offset;
    }
    return sum;
}

/* The record after a record in an order that leaps and has each of n records once; n is a power of 2. */
static size_t leap(size_t record, size_t n)
{
    return (33797 * record + 12345) % n;
}

static uint64_t proved_leaps(const struct file *file, size_t n)
{
    uint64_t sum = 0, kind = 0, bits = 0, offset = 0;
    size_t r = 0;
    for (size_t i = 0; i < n; i++, r = leap(r, n)) {
        if (tlz_read_value(file->bytes, file->length, 8, 0, (int64_t)r, &(int64_t){ 0 }, 0, 0, &kind, &bits, &offset) != 0)
            exit(1);
        sum += bits;
    }
    return sum;
}

static uint64_t plain_leaps(const struct file *file, size_t n)
{
    uint64_t sum = 0, kind = 0, bits = 0, offset = 0;
    size_t r = 0;
    for (size_t i = 0; i < n; i++, r = leap(r, n)) {
        if (plain_value(file->bytes, file->length, 8, 0, (int64_t)r, &(int64_t){ 0 }, 0, 0, &kind, &bits, &offset) != 0)
            exit(1);
        sum += bits;
    }
    return sum;
}

/* Times two readers in turn, `repeats` times each. */
static void timed_reads(const char *name, struct file file, size_t n, int repeats, read_all *proved, read_all *plain)
{
    double ours[REPEATS], other[REPEATS];
    for (int i = 0; i < repeats; i++) {
        double a = now();
        uint64_t sum = proved(&file, n);
        double b = now();
        if (sum != plain(&file, n)) {
            fprintf(stderr, "%s: sums differ\n", name);
            exit(1);
        }
        ours[i] = b - a;
        other[i] = now() - b;
    }
    double p = median(ours, repeats), c = median(other, repeats);
    printf("%-44s %10zu reads  proved %9.3f ms  C %9.3f ms  %17s  proved/C %.2f\n", name, n, 1e3 * p, 1e3 * c, "", p / c);
    free(file.bytes);
}

/* Times the two on n VAX doubles of an encoding, after the values were compared one by one. */
static void timed_vax(const char *name, size_t n, int32_t encoding)
{
    struct file file = vax_doubles(n, encoding);
    for (size_t i = 0; i < n; i++)
        if (value_differs(&file, 8, 0, (int64_t)i, 0, 0)) {
            fprintf(stderr, "%s: record %zu differs\n", name, i);
            exit(1);
        }
    timed_reads(name, file, n, REPEATS, proved_records, plain_records);
}

/* How the time of a whole check grows. */
static void growth(void)
{
    printf("\nHow the check's time grows: one record of so many MB; so many listed unused records; so many zVariables\n");
    for (size_t mb = 1; mb <= 64; mb *= 2) {
        char name[60];
        snprintf(name, sizeof name, "%zu MB", mb);
        timed(name, one_record(mb << 20));
    }
    for (size_t n = 10000; n <= 1000000; n *= 10) {
        char name[60];
        snprintf(name, sizeof name, "%zu unused records", n);
        timed(name, unused_records(n));
    }
    for (size_t n = 10000; n <= 1000000; n *= 10) {
        char name[60];
        snprintf(name, sizeof name, "%zu zVariables with an index entry", n);
        timed(name, variables(n));
    }
}

/* Compares the two on so many files, then on epochs and dates; 0 if they agree on all. */
static int all_compared(char **names, int count)
{
    uint64_t epochs = 0, refused = 0, unlike = 0;
    int differ = 0;
    for (int i = 0; i < count; i++)
        differ += compared(names[i]);
    printf("%d files, %d differ; %d by grants to their verdict\n", count, differ, carried);
    unlike = dates_differ(100000, &epochs, &refused);
    printf("%" PRIu64 " epochs and dates, %" PRIu64 " refused, %" PRIu64 " differ\n", epochs, refused, unlike);
    return differ != 0 || carried == 0 || unlike != 0 || refused == 0;
}

int main(int count, char **names)
{
    if (count > 1)
        return all_compared(names + 1, count - 1);
    timed("one record of 64 MB", one_record((size_t)64 << 20));
    timed("1,000,000 listed unused records", unused_records(1000000));
    timed("100,000 zVariables with an index entry", variables(100000));
    timed("100,000 records of values under three levels", tree(3, 40, 50));
    timed_reads("every value of 1,000,000 records", records(1000000), 1000000, REPEATS, proved_records, plain_records);
    timed_vax("every value of 1,000,000 records of D_FLOAT", 1000000, 14);
    timed_vax("every value of 1,000,000 records of G_FLOAT", 1000000, 15);
    timed_reads("one value of each of 20,000 zVariables", variables(20000), 20000, 1, proved_variables, plain_variables);
    timed_reads("single reads through eight levels", tree(8, 4, 4), 65536, REPEATS, proved_leaps, plain_leaps);
    dates();
    rounds();
    clearing();
    growth();
    return 0;
}
