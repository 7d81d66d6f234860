/* values FILE NUMBER: prints every value of a zVariable of numbers or characters, a line a record. */
#include <inttypes.h>
#include <stdio.h>
#include <stdlib.h>
#include <string.h>
#include <tlepozaluh.h>

struct file {
    uint8_t *bytes;
    size_t length;
};

/* A field of the variable; -1 if the reader refuses. */
static int32_t field(const struct file *file, int64_t number, uint64_t at)
{
    int32_t value = -1; /* a refusal leaves it as it is */

    tlz_read_variable(file->bytes, file->length, TLZ_ZVARIABLE, number, at, &value);
    return value;
}

/* The next indices, the last one fastest; 0 behind the last ones. */
static int advance(const struct file *file, int64_t number, int64_t *indices, int32_t dimensions)
{
    for (int32_t d = dimensions - 1; d >= 0; d--) {
        int32_t size = 0;
        tlz_read_size(file->bytes, file->length, TLZ_ZVARIABLE, number, d, &size);
        if (++indices[d] < size)
            return 1;
        indices[d] = 0;
    }
    return 0;
}

static void print(uint64_t kind, uint64_t bits)
{
    uint32_t low = (uint32_t)bits;
    float single;
    double real;

    memcpy(&single, &low, sizeof single);
    memcpy(&real, &bits, sizeof real);
    if (kind == TLZ_SIGNED)
        printf(" %" PRId64, (int64_t)bits);
    else if (kind == TLZ_SINGLE || kind == TLZ_DOUBLE)
        printf(" %.17g", kind == TLZ_SINGLE ? (double)single : real);
    else
        printf(" %" PRIu64, bits); /* an unsigned number, or a character's code */
}

/* A record; gives the last answer of the reader. */
static int32_t print_record(const struct file *file, int64_t number, int64_t record)
{
    int64_t indices[10] = { 0 }; /* a variable has 10 dimensions at most */
    int32_t dimensions = field(file, number, TLZ_VARIABLE_DIMENSIONS), elements = field(file, number, TLZ_VARIABLE_ELEMENTS);
    int32_t answer = 0;
    uint64_t kind = 0, bits = 0, offset = 0;

    printf("%" PRId64 ":", record);
    do {
        for (int32_t e = 0; e < elements && answer == 0; e++) {
            answer = tlz_read_value(file->bytes, file->length, TLZ_ZVARIABLE, number, record, indices, (size_t)dimensions, e,
                                    &kind, &bits, &offset);
            if (answer == 0) {
                print(kind, bits);
            } else if (answer == TLZ_RESERVED_OPERAND) {
                printf(" reserved"); /* a VAX float without a value; the next one may have one */
                answer = 0;
            }
        }
    } while (answer == 0 && advance(file, number, indices, dimensions));
    printf(answer == 0 ? "\n" : " refused %" PRId32 "\n", answer);
    return answer;
}

/* Prints the variable; 0, or the first number that is no gap. */
static int32_t print_variable(const struct file *file, int64_t number)
{
    int32_t last = -1, answer = tlz_read_variable(file->bytes, file->length, TLZ_ZVARIABLE, number, TLZ_VARIABLE_MAXREC, &last);

    for (int64_t record = 0; record <= last && (answer == 0 || answer == TLZ_RECORD_IN_GAP); record++)
        answer = print_record(file, number, record);
    return answer == TLZ_RECORD_IN_GAP ? 0 : answer;
}

int main(int count, char **words)
{
    FILE *in = count == 3 ? fopen(words[1], "rb") : NULL;
    long length = in != NULL && fseek(in, 0, SEEK_END) == 0 ? ftell(in) : -1;
    struct file file = { malloc(length > 0 ? (size_t)length : 1), length > 0 ? (size_t)length : 0 };
    int32_t answer = 0;

    if (length < 0 || file.bytes == NULL || fseek(in, 0, SEEK_SET) != 0 || fread(file.bytes, 1, file.length, in) != file.length)
        return 2;
    fclose(in);
    answer = print_variable(&file, strtoll(words[2], NULL, 10));
    if (answer != 0)
        fprintf(stderr, "refused: %" PRId32 "\n", answer);
    free(file.bytes);
    return answer != 0;
}
