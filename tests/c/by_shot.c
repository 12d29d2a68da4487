/* Outcomes by shot and the way back, for counts around multiples of 64: each bit against the source, padding, words beyond, and refusals. The source's
 * bits past the last shot or outcome are set, so that one that lands anywhere is seen. */
#include <stdio.h>
#include <stdlib.h>
#include <string.h>

#include "kundatrezo.h"

#define BEYOND 3
#define CANARY 0x5ca1ab1e0ddba11u

typedef struct kundatrezo_answer call(uint64_t, uint64_t, const uint64_t *, size_t, uint64_t *, size_t);

static uint64_t source[1 << 17], target[1 << 17], plain[1 << 17], before[1 << 17];
static int failed;

/* xorshift: any source will do */
static uint64_t next(void)
{
    static uint64_t state = 88172645463325252u;
    state ^= state << 13;
    state ^= state >> 7;
    state ^= state << 17;
    return state;
}

static void differ(const char *what, uint64_t rows, uint64_t columns)
{
    printf("by shot: %s, %llu rows and %llu columns\n", what, (unsigned long long)rows, (unsigned long long)columns);
    failed = 1;
}

/* the first `words` words of plain: rows and columns of the source exchanged, a bit at a time */
static size_t transpose(uint64_t rows, uint64_t columns)
{
    size_t w = KUNDATREZO_ROW_WORDS(columns), v = KUNDATREZO_ROW_WORDS(rows);
    memset(plain, 0, columns * v * sizeof *plain);
    for (size_t r = 0; r < rows; r++)
        for (size_t c = 0; c < columns; c++)
            plain[c * v + r / 64] |= (source[r * w + c / 64] >> c % 64 & 1) << r % 64;
    return columns * v;
}

/* a call with so many words on either side, over words that are the canary */
static struct kundatrezo_answer called(call *by, uint64_t outcomes, uint64_t shots, size_t source_len, size_t target_len)
{
    for (size_t i = 0; i < sizeof target / sizeof *target; i++)
        target[i] = before[i] = CANARY + i;
    return by(outcomes, shots, source, source_len, target, target_len);
}

static void expect_refused(call *by, uint64_t outcomes, uint64_t shots, size_t source_len, size_t target_len, uint64_t number)
{
    struct kundatrezo_answer got = called(by, outcomes, shots, source_len, target_len);
    if (got.number != number || got.line != 0)
        differ("another refusal", outcomes, shots);
    if (memcmp(target, before, sizeof target) != 0)
        differ("a refusal wrote", outcomes, shots);
}

/* by shot: rows are outcomes; the way back: rows are shots */
static void pair(call *by, uint64_t outcomes, uint64_t shots, uint64_t rows, uint64_t columns)
{
    size_t lent = rows * KUNDATREZO_ROW_WORDS(columns), needed = transpose(rows, columns);
    struct kundatrezo_answer got = called(by, outcomes, shots, lent, needed + BEYOND);
    if (got.number != 0 || got.line != 0)
        differ("refused", rows, columns);
    if (memcmp(target, plain, needed * sizeof *target) != 0)
        differ("another bit", rows, columns);
    if (memcmp(target + needed, before + needed, sizeof target - needed * sizeof *target) != 0)
        differ("a word beyond", rows, columns);
    if (lent == 0)
        return;
    expect_refused(by, outcomes, shots, lent - 1, needed, KUNDATREZO_WORDS);
    expect_refused(by, outcomes, shots, lent, needed - 1, KUNDATREZO_WORDS);
}

int main(void)
{
    static const uint64_t outcomes[] = {0, 1, 2, 63, 64, 65, 127, 128, 129, 1023, 1024}, shots[] = {1, 2, 63, 64, 65, 127, 128, 129, 4095, 4096};
    for (size_t i = 0; i < sizeof source / sizeof *source; i++)
        source[i] = next();
    for (size_t i = 0; i < sizeof outcomes / sizeof *outcomes; i++)
        for (size_t j = 0; j < sizeof shots / sizeof *shots; j++) {
            pair(kundatrezo_by_shot, outcomes[i], shots[j], outcomes[i], shots[j]);
            pair(kundatrezo_by_outcome, outcomes[i], shots[j], shots[j], outcomes[i]);
        }
    call *calls[] = {kundatrezo_by_shot, kundatrezo_by_outcome};
    for (int i = 0; i < 2; i++) {
        size_t all = sizeof source / sizeof *source;
        expect_refused(calls[i], 1025, 1, all, all, KUNDATREZO_HEADER);
        expect_refused(calls[i], UINT64_MAX, 1, all, all, KUNDATREZO_HEADER);
        expect_refused(calls[i], 1, 0, all, all, KUNDATREZO_HEADER);
        expect_refused(calls[i], 1, 4097, all, all, KUNDATREZO_HEADER);
        expect_refused(calls[i], 1, UINT64_MAX, all, all, KUNDATREZO_HEADER);
        expect_refused(calls[i], 1025, 0, 0, 0, KUNDATREZO_HEADER);
        expect_refused(calls[i], 1, 1, 0, 0, KUNDATREZO_WORDS);
    }
    puts(failed ? "outcomes by shot from C: differences" : "outcomes by shot from C: 0 differences");
    return failed;
}
