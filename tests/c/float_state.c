/* The floating-point state that calls need: kundatrezo_float_state_ok reports each change of it. */
#include <fenv.h>
#include <stdio.h>

#include "kundatrezo.h"

static int failed;

static void expect(const char *state, int got, int wanted)
{
    if (got != wanted) {
        printf("floating-point state, %s: %d, not %d\n", state, got, wanted);
        failed = 1;
    }
}

/* The bits of MXCSR by the manual of the processor. */
static const struct {
    const char *name;
    unsigned flipped;
} states[] = {
    {"subnormal operands read as zero", 0x0040}, {"subnormal results flushed to zero", 0x8000}, {"rounding down", 0x2000}, {"rounding up", 0x4000},
    {"rounding toward zero", 0x6000},            {"a trap on an inexact result", 0x1000},      {"a trap on an invalid operation", 0x0080},
};

int main(void)
{
    unsigned usual = _mm_getcsr();
    expect("as the program starts", kundatrezo_float_state_ok(), 1);
    for (size_t i = 0; i < sizeof states / sizeof *states; i++) {
        _mm_setcsr(usual ^ states[i].flipped);
        int ok = kundatrezo_float_state_ok();
        _mm_setcsr(usual);
        expect(states[i].name, ok, 0);
    }
    fesetround(FE_UPWARD);
    int up = kundatrezo_float_state_ok();
    fesetround(FE_TONEAREST);
    expect("fesetround(FE_UPWARD)", up, 0);
    feraiseexcept(FE_INEXACT);
    expect("with a flag raised", kundatrezo_float_state_ok(), 1);
    puts(failed ? "floating-point state: differences" : "floating-point state: each change is reported");
    return failed;
}
