/* vax FILE NUMBER RECORD: prints a VAX float, the value of a record of a zVariable that has no dimensions. */
#include <inttypes.h>
#include <stdio.h>
#include <stdlib.h>
#include <string.h>
#include <tlepozaluh.h>

/* Prints the double that a VAX float comes as, or that it has no value; gives the answer of the reader. */
static int32_t print_float(const uint8_t *file, size_t length, int64_t number, int64_t record)
{
    uint64_t kind = 0, bits = 0, offset = 0;
    int32_t answer = tlz_read_value(file, length, TLZ_ZVARIABLE, number, record, NULL, 0, 0, &kind, &bits, &offset);
    double value;

    memcpy(&value, &bits, sizeof value);
    if (answer == TLZ_RESERVED_OPERAND)
        printf("reserved\n"); /* there is no value: bits is what it was */
    else if (answer != 0)
        printf("refused %" PRId32 "\n", answer);
    else if (kind != TLZ_DOUBLE)
        printf("no double\n"); /* a number, a character, or a single of another encoding */
    else
        printf("%.17g at %" PRIu64 "\n", value, offset);
    return answer;
}

int main(int count, char **words)
{
    FILE *in = count == 4 ? fopen(words[1], "rb") : NULL;
    long length = in != NULL && fseek(in, 0, SEEK_END) == 0 ? ftell(in) : -1;
    uint8_t *file = length < 0 ? NULL : malloc((size_t)length + 1);
    int32_t answer = 0;

    if (file == NULL || fseek(in, 0, SEEK_SET) != 0 || fread(file, 1, (size_t)length, in) != (size_t)length)
        return 2;
    fclose(in);
    answer = print_float(file, (size_t)length, strtoll(words[2], NULL, 10), strtoll(words[3], NULL, 10));
    free(file);
    return answer != 0;
}
