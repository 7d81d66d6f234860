/* epoch FILE NUMBER RECORD YEAR MONTH DAY: prints an epoch's date, and the milliseconds from a day's beginning to it. */
#include <inttypes.h>
#include <stdio.h>
#include <stdlib.h>
#include <string.h>
#include <tlepozaluh.h>

/* Reads the epoch of a zVariable without dimensions; gives the answer of the reader, or 27 if the variable is not of type 31. */
static int32_t read_epoch(const uint8_t *file, size_t length, int64_t number, int64_t record, double *epoch)
{
    uint64_t kind = 0, bits = 0, offset = 0;
    int32_t type = 0, answer = tlz_read_variable(file, length, TLZ_ZVARIABLE, number, TLZ_VARIABLE_TYPE, &type);

    if (answer == 0 && type != 31)
        answer = TLZ_NO_EPOCH;
    if (answer == 0)
        answer = tlz_read_value(file, length, TLZ_ZVARIABLE, number, record, NULL, 0, 0, &kind, &bits, &offset);
    memcpy(epoch, &bits, sizeof *epoch); /* of type 31 the kind is TLZ_DOUBLE, in every encoding */
    return answer;
}

/* Prints what the epoch says; gives 0, or 27 if it has no date. */
static int32_t print_epoch(double epoch, double since)
{
    int32_t year = 0, month = 0, day = 0, milliseconds = 0, answer = tlz_epoch_date(epoch, &year, &month, &day, &milliseconds);
    double again = 0, passed = 0;

    if (answer != 0)
        return answer; /* a fill value, a fraction, another year: year and the others are what they were */
    printf("%04" PRId32 "-%02" PRId32 "-%02" PRId32 " and %" PRId32 " ms\n", year, month, day, milliseconds);
    if (tlz_epoch_from(year, month, day, milliseconds, &again) == 0)
        printf("epoch %.17g, %s bits\n", again, memcmp(&again, &epoch, sizeof again) == 0 ? "the same" : "other");
    if (tlz_epoch_difference(epoch, since, &passed) == 0)
        printf("%.17g ms since that day began\n", passed);
    return 0;
}

int main(int count, char **words)
{
    FILE *in = count == 7 ? fopen(words[1], "rb") : NULL;
    long length = in != NULL && fseek(in, 0, SEEK_END) == 0 ? ftell(in) : -1;
    uint8_t *file = length < 0 ? NULL : malloc((size_t)length + 1);
    double epoch = 0, since = 0;
    int32_t answer = 0;

    if (file == NULL || fseek(in, 0, SEEK_SET) != 0 || fread(file, 1, (size_t)length, in) != (size_t)length)
        return 2;
    fclose(in);
    answer = tlz_epoch_from(strtoll(words[4], NULL, 10), strtoll(words[5], NULL, 10), strtoll(words[6], NULL, 10), 0, &since);
    if (answer == 0)
        answer = read_epoch(file, (size_t)length, strtoll(words[2], NULL, 10), strtoll(words[3], NULL, 10), &epoch);
    if (answer == 0)
        answer = print_epoch(epoch, since);
    if (answer != 0)
        printf("refused %" PRId32 "\n", answer);
    free(file);
    return answer != 0;
}
