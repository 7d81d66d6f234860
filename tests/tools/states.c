/*
 * states: the calls of epochs in states of the processor other than that in which a program begins: the other rounding modes,
 * and subnormal numbers taken for zero, as gcc -ffast-math sets it. Epochs must have the dates and differences that they have
 * in the first state, and what is no epoch there must be none. Only the sign of a zero difference hangs on the rounding mode.
 * Prints how many things were looked at in how many states; exits with 1 if one is wrong.
 */
#include "tlepozaluh.h"

#include <fenv.h>
#include <inttypes.h>
#include <math.h>
#include <stdio.h>
#include <string.h>
#if defined __SSE2__
#include <xmmintrin.h>
#endif

enum { EPOCHS = 20000, NUMBERS = 4 };

static double epochs[EPOCHS], differences[EPOCHS];
static int32_t dates[EPOCHS][NUMBERS];
static uint64_t looked = 0, wrong = 0;

static void expect(int right)
{
    looked++;
    wrong += !right;
}

static int same(double a, double b)
{
    return memcmp(&a, &b, sizeof a) == 0;
}

/* Epochs from the first to the last, and what they are in the first state. */
static void prepare(void)
{
    for (int i = 0; i < EPOCHS; i++) {
        int32_t *n = dates[i];

        epochs[i] = (double)(INT64_C(315569519999999) * i / (EPOCHS - 1));
        expect(tlz_epoch_date(epochs[i], &n[0], &n[1], &n[2], &n[3]) == 0);
        expect(tlz_epoch_difference(epochs[i], epochs[i / 2], &differences[i]) == 0);
    }
}

static void one_epoch(int i)
{
    int32_t n[NUMBERS] = { -7, -7, -7, -7 };
    const int32_t *d = dates[i];
    double epoch = -7, difference = -7, zero = -7;

    expect(tlz_epoch_date(epochs[i], &n[0], &n[1], &n[2], &n[3]) == 0 && memcmp(n, d, sizeof n) == 0);
    expect(tlz_epoch_from(d[0], d[1], d[2], d[3], &epoch) == 0 && same(epoch, epochs[i]));
    expect(tlz_epoch_difference(epochs[i], epochs[i], &zero) == 0 && zero == 0);
    expect(!signbit(zero) == (fegetround() != FE_DOWNWARD));
    expect(tlz_epoch_difference(epochs[i], epochs[i / 2], &difference) == 0);
    expect(i == 0 || same(difference, differences[i]));
}

static void no_epochs(void)
{
    static const double all[] = { 5e-324, 2.2250738585072009e-308, 2.2250738585072014e-308, -5e-324, -0.0, -1.0, 0.5,
                                  0.99999999999999989, 1.0000000000000002, 1.5, 62167219200000.5, 315569519999998.94,
                                  315569519999999.06, 315569520000000.0, 4503599627370496.0, 18446744073709551616.0, INFINITY,
                                  -INFINITY, NAN };
    int32_t n = 0;
    double difference = 0;

    for (size_t i = 0; i < sizeof all / sizeof *all; i++) {
        expect(tlz_epoch_date(all[i], &n, &n, &n, &n) == TLZ_NO_EPOCH);
        expect(tlz_epoch_difference(all[i], 1, &difference) == TLZ_NO_EPOCH);
        expect(tlz_epoch_difference(1, all[i], &difference) == TLZ_NO_EPOCH);
    }
}

static void one_state(int mode)
{
    expect(fesetround(mode) == 0);
    for (int i = 0; i < EPOCHS; i++)
        one_epoch(i);
    no_epochs();
    fesetround(FE_TONEAREST);
}

int main(void)
{
    static const int modes[] = { FE_TONEAREST, FE_DOWNWARD, FE_UPWARD, FE_TOWARDZERO };
    int states = 0;

    prepare();
    for (int i = 0; i < 4; i++, states++)
        one_state(modes[i]);
#if defined __SSE2__
    _mm_setcsr(_mm_getcsr() | 0x8040); /* subnormal numbers are taken for zero, and made zero */
    for (int i = 0; i < 4; i++, states++)
        one_state(modes[i]);
#endif
    printf("%d states, %" PRIu64 " looked at, %" PRIu64 " wrong\n", states, looked, wrong);
    return wrong != 0;
}
