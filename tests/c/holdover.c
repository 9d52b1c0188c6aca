/* The hold-over forecast: figures worked by hand, each kind of bad input, the ends of the range of t, and random figures
 * against the formula in document 02's order, bit for bit. Also compiles as C++. */
#include "check.h"
#include "duskveyra.h"

#include <float.h>
#include <stdio.h>
#include <string.h>

#define MOST_SECONDS UINT32_C(16777216)

static double float_of(uint64_t bits)
{
    double x;
    memcpy(&x, &bits, sizeof x);
    return x;
}

static uint64_t bits_of(double x)
{
    uint64_t bits;
    memcpy(&bits, &x, sizeof bits);
    return bits;
}

/* The same bits, or both no number. */
static int is_same(double x, double y)
{
    return x != x ? y != y : bits_of(x) == bits_of(y);
}

static duskveyra_oscillator oscillator_of(double error, double frequency, double reference, double ageing)
{
    duskveyra_oscillator oscillator;
    oscillator.error = error;
    oscillator.frequency = frequency;
    oscillator.reference = reference;
    oscillator.ageing = ageing;
    return oscillator;
}

/* Each result is stored before it is used, so that no operation is fused or kept in a wider format. */
static double plain(duskveyra_oscillator o, uint32_t seconds)
{
    volatile double t = (double)seconds;
    volatile double x = o.frequency / o.reference;
    volatile double y = t * t;
    x = x - 1.0;
    x = x * t;
    x = o.error + x;
    y = y * o.ageing;
    y = y / 2.0;
    x = x + y;
    return x;
}

static void is_refused(duskveyra_oscillator oscillator, uint32_t seconds)
{
    duskveyra_forecast_result result = duskveyra_forecast(oscillator, seconds);
    CHECK(result.number == DUSKVEYRA_INVALID_FORECAST);
    CHECK(bits_of(result.error) == 0);
}

static void is_expected(duskveyra_oscillator oscillator, uint32_t seconds, double error)
{
    duskveyra_forecast_result result = duskveyra_forecast(oscillator, seconds);
    CHECK(result.number == DUSKVEYRA_OK);
    CHECK(is_same(result.error, error));
}

static void worked(void)
{
    /* 0.5 + (2 / 1 - 1) 3 + 9 * 2 / 2 */
    is_expected(oscillator_of(0.5, 2.0, 1.0, 2.0), 3, 12.5);
    /* a day at one part in a million, a minute late: 60 + 0.0864 */
    CHECK(duskveyra_forecast(oscillator_of(60.0, 1000001.0, 1000000.0, 0.0), 86400).error > 60.0863);
    CHECK(duskveyra_forecast(oscillator_of(60.0, 1000001.0, 1000000.0, 0.0), 86400).error < 60.0865);
    is_expected(oscillator_of(-7.25, 5.0e6, 5.0e6, 0.0), MOST_SECONDS, -7.25);
    is_expected(oscillator_of(-7.25, 3.0, 7.0, 1.0e300), 0, -7.25);
    /* where nothing drifts a starting error of -0.0 becomes 0.0 */
    is_expected(oscillator_of(-0.0, 1.0, 1.0, -0.0), 5, 0.0);
    is_expected(oscillator_of(-0.0, 0.5, 1.0, -1.0), 0, -0.0);
    /* a ratio that overflows: no number at the cut, then infinite */
    is_expected(oscillator_of(0.0, DBL_MAX, DBL_MIN, 0.0), 0, float_of(UINT64_C(0x7ff8000000000000)));
    is_expected(oscillator_of(0.0, DBL_MAX, DBL_MIN, 0.0), 1, float_of(UINT64_C(0x7ff0000000000000)));
    is_expected(oscillator_of(0.0, -DBL_MAX, DBL_MIN, 0.0), 1, float_of(UINT64_C(0xfff0000000000000)));
    /* a subnormal reference is taken */
    is_expected(oscillator_of(0.0, float_of(1), float_of(1), 0.0), 9, 0.0);
}

static void bad(void)
{
    const double not_finite[4] = {float_of(UINT64_C(0x7ff0000000000000)), float_of(UINT64_C(0xfff0000000000000)),
                                  float_of(UINT64_C(0x7ff8000000000000)), float_of(UINT64_C(0xfff0000000000001))};
    int i;
    for (i = 0; i < 4; i++) {
        is_refused(oscillator_of(not_finite[i], 1.0, 1.0, 0.0), 1);
        is_refused(oscillator_of(0.0, not_finite[i], 1.0, 0.0), 1);
        is_refused(oscillator_of(0.0, 1.0, not_finite[i], 0.0), 1);
        is_refused(oscillator_of(0.0, 1.0, 1.0, not_finite[i]), 1);
    }
    is_refused(oscillator_of(1.0, 1.0, 0.0, 1.0), 1);
    is_refused(oscillator_of(1.0, 1.0, -0.0, 1.0), 1);
    is_refused(oscillator_of(1.0, 1.0, 1.0, 1.0), MOST_SECONDS + 1);
    is_refused(oscillator_of(1.0, 1.0, 1.0, 1.0), UINT32_MAX);
    CHECK(duskveyra_forecast(oscillator_of(1.0, 1.0, 1.0, 1.0), MOST_SECONDS).number == DUSKVEYRA_OK);
}

static int is_finite(double x)
{
    return -DBL_MAX <= x && x <= DBL_MAX;
}

static double any_figure(void)
{
    uint64_t bits = random64();
    switch (random64() >> 32 & 3) {
    case 0: /* near one */
        bits = UINT64_C(0x3ff0000000000000) + (bits & 15) - 8;
        break;
    case 1: /* of middle size */
        bits = UINT64_C(0x3f00000000000000) + (bits & UINT64_C(0x01ffffffffffffff));
        break;
    default:
        break;
    }
    return float_of(bits);
}

static void random_figures(void)
{
    int i;
    for (i = 0; i < 200000; i++) {
        duskveyra_oscillator o = oscillator_of(any_figure(), any_figure(), any_figure(), any_figure());
        uint32_t seconds = (uint32_t)(random64() >> 39);
        if (is_finite(o.error) && is_finite(o.frequency) && is_finite(o.reference) && o.reference != 0.0 &&
            is_finite(o.ageing) && seconds <= MOST_SECONDS)
            is_expected(o, seconds, plain(o, seconds));
        else
            is_refused(o, seconds);
    }
}

int main(void)
{
    worked();
    bad();
    random_figures();
    printf("%lu checks, %lu failed\n", checks, failed);
    return failed != 0;
}
