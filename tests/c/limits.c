/* The header's limits: a job at each is accepted, and one past it refused. With an argument: the text of each refusal number, a line for each. */
#include <stdio.h>
#include <string.h>

#include "kundatrezo.h"

/* noise on the qubits of a list; over 31 of them it has 4^31 - 1 elements */
#define NOISE "op=n p=0000000000000000 corr=- cond=- parity=0 d=2 q="

static int failed;

static void expect(const char *limit, const char *job, size_t length, uint64_t number)
{
    uint64_t got = kundatrezo_check((const uint8_t *)job, length).number;
    if (got != number) {
        printf("%s: %llu, not %llu\n", limit, (unsigned long long)got, (unsigned long long)number);
        failed = 1;
    }
}

static void header(unsigned qubits, unsigned outcomes, unsigned shots, uint64_t number)
{
    char job[100];
    int length = snprintf(job, sizeof job, "op=job qubits=%u outcomes=%u shots=%u\n", qubits, outcomes, shots);
    expect("header", job, (size_t)length, number);
}

/* the numbers 0 to n - 1 with commas, from `at` on */
static size_t put_list(char *text, size_t at, unsigned n)
{
    for (unsigned i = 0; i < n; i++)
        at += (size_t)sprintf(text + at, i ? ",%u" : "%u", i);
    return at;
}

/* a line of a list of n qubits between two texts */
static void listed(const char *before, unsigned n, const char *after, uint64_t number)
{
    char job[1000];
    size_t at = (size_t)sprintf(job, "op=job qubits=40 outcomes=0 shots=1\n%s", before);
    at = put_list(job, at, n);
    at += (size_t)sprintf(job + at, "%s\n", after);
    expect(before, job, at, number);
}

/* A Clifford line on n qubits, 1 to 16: the identity's table in this many words, or one with a bit set that is not the table's. */
static void table(unsigned n, unsigned words, int bit_past, uint64_t number)
{
    char after[400];
    uint64_t bits[16] = {0};
    for (unsigned row = 0; row < 2 * n; row++) {
        unsigned bit = 2 * n * row + row;
        bits[bit / 64] |= (uint64_t)1 << bit % 64;
    }
    if (bit_past)
        bits[4 * n * n / 64] |= (uint64_t)1 << 4 * n * n % 64;
    size_t at = (size_t)sprintf(after, " t=");
    for (unsigned word = 0; word < words; word++)
        at += (size_t)sprintf(after + at, "%s%016llx", word ? "," : "", (unsigned long long)bits[word]);
    listed("op=c q=", n, after, number);
}

/* As many words as the table needs, one less and one more; a bit past the table where its last word has one; one qubit more than there may be. */
static void tables(void)
{
    unsigned n = 1;
    for (; n <= KUNDATREZO_MAX_CLIFFORD_QUBITS; n++) {
        unsigned words = KUNDATREZO_TABLE_WORDS(n);
        table(n, words, 0, 0);
        table(n, words - 1, 0, KUNDATREZO_FORM);
        table(n, words + 1, 0, KUNDATREZO_FORM);
        if (4 * n * n % 64 != 0)
            table(n, words, 1, KUNDATREZO_CLIFFORD);
    }
    for (unsigned words = 1; words <= 16; words++)
        table(n, words, 0, KUNDATREZO_OPERANDS);
    if (KUNDATREZO_TABLE_WORDS(KUNDATREZO_MAX_CLIFFORD_QUBITS) != KUNDATREZO_MAX_TABLE_WORDS) {
        printf("words of the widest table: %d\n", KUNDATREZO_MAX_TABLE_WORDS);
        failed = 1;
    }
}

static void gate(unsigned edition, unsigned code, uint64_t number)
{
    char job[100];
    int length = snprintf(job, sizeof job, "op=job edition=%u qubits=2 outcomes=0 shots=1\nop=u g=%u q=0,1\n", edition, code);
    expect("gate", job, (size_t)length, number);
}

static void elements(unsigned n, uint64_t number)
{
    char job[2000];
    size_t at = (size_t)sprintf(job, "op=job qubits=1 outcomes=0 shots=1\nop=n p=0000000000000000 corr=- cond=- parity=0 d=3 n=%u size=%u\n", n, n);
    for (unsigned i = 0; i < n; i++)
        at += (size_t)sprintf(job + at, "x=0 z=-\n");
    expect("elements", job, at, number);
}

/* Lines that change nothing, the last of them as long as is needed to fill the job. */
static void bytes(size_t length, uint64_t number)
{
    static char job[KUNDATREZO_MAX_BYTES + 2];
    static const char line[] = "op=p x=- z=-\n", begin[] = "op=p x=", end[] = " z=-\n";
    size_t at = (size_t)sprintf(job, "op=job qubits=40 outcomes=0 shots=1\n");
    while (length - at >= 2 * strlen(line))
        at += (size_t)sprintf(job + at, "%s", line);
    at += (size_t)sprintf(job + at, "%s", begin);
    unsigned place = 0;
    for (; length - at - strlen(end) > 2; place++)
        at += (size_t)sprintf(job + at, "%u,", place);
    at += (size_t)sprintf(job + at, "%u", length - at - strlen(end) == 2 ? 10 : place);
    at += (size_t)sprintf(job + at, "%s", end);
    expect("bytes", job, at, number);
    if (at != length) {
        printf("a job of %zu bytes, not %zu\n", at, length);
        failed = 1;
    }
}

/* The table of single faults of noise over n qubits, with this many empty groups. */
static void single_faults(unsigned qubits, size_t groups, uint64_t number, uint64_t line)
{
    static uint8_t out[KUNDATREZO_MAX_BYTES];
    static const uint64_t empty[KUNDATREZO_MAX_GROUPS + 1] = {0};
    char job[1000];
    size_t at = put_list(job, (size_t)sprintf(job, "op=job qubits=40 outcomes=0 shots=1\n" NOISE), qubits);
    at += (size_t)sprintf(job + at, " size=%llu\n", (1ull << 2 * qubits) - 1);
    struct kundatrezo_answer got = kundatrezo_fault_table((const uint8_t *)job, at, empty, groups, out, sizeof out).answer;
    if (got.number != number || got.line != line) {
        printf("single faults of %u qubits, %zu groups: %llu at line %llu\n", qubits, groups, (unsigned long long)got.number, (unsigned long long)got.line);
        failed = 1;
    }
}

/* Settling a job without noise for the last of so many callers. */
static void callers(size_t count, uint64_t number)
{
    static const char job[] = "op=job qubits=1 outcomes=0 shots=1\n";
    static const uint64_t shares[KUNDATREZO_MAX_CALLERS + 1] = {0};
    uint64_t marks[KUNDATREZO_MAX_CALLERS + 2] = {0}, words[1] = {0};
    uint8_t out[sizeof job];
    struct kundatrezo_answer got = kundatrezo_settle_shared((const uint8_t *)job, sizeof job - 1, words, 0, words, 0, words, 0, 0, shares, count, marks,
                                                            count + 1, count ? count - 1 : 0, out, sizeof out).answer;
    if (got.number != number || got.line != 0) {
        printf("%zu callers: %llu\n", count, (unsigned long long)got.number);
        failed = 1;
    }
}

/* A job made with these numbers and no lines. */
static void made(uint64_t qubits, uint64_t outcomes, uint64_t shots, uint64_t number)
{
    uint8_t out[100];
    struct kundatrezo_text_answer got = kundatrezo_make(qubits, outcomes, shots, 0, 1, out, sizeof out);
    if (got.answer.number != number || got.answer.line != 0) {
        printf("make: %llu\n", (unsigned long long)got.answer.number);
        failed = 1;
    }
}

static void version(void)
{
    char numbers[100];
    snprintf(numbers, sizeof numbers, "%d.%d.%d", KUNDATREZO_VERSION_MAJOR, KUNDATREZO_VERSION_MINOR, KUNDATREZO_VERSION_PATCH);
    if (strcmp(numbers, KUNDATREZO_VERSION) != 0) {
        printf("version %s, by its numbers %s\n", KUNDATREZO_VERSION, numbers);
        failed = 1;
    }
}

int main(int count, char **arguments)
{
    (void)arguments;
    if (count > 1) {
        const char *unknown = kundatrezo_refusal_text(UINT64_MAX);
        for (uint64_t number = KUNDATREZO_LENGTH; number <= KUNDATREZO_CALLER; number++) {
            const char *text = kundatrezo_refusal_text(number);
            if (strcmp(text, unknown) != 0)
                printf("%llu: %s\n", (unsigned long long)number, text);
        }
        return 0;
    }
    version();
    header(KUNDATREZO_MAX_QUBITS, KUNDATREZO_MAX_OUTCOMES, KUNDATREZO_MAX_SHOTS, 0);
    header(KUNDATREZO_MAX_QUBITS + 1, 0, 1, KUNDATREZO_HEADER);
    header(1, KUNDATREZO_MAX_OUTCOMES + 1, 1, KUNDATREZO_HEADER);
    header(1, 0, KUNDATREZO_MAX_SHOTS + 1, KUNDATREZO_HEADER);
    listed("op=p x=- z=", KUNDATREZO_MAX_MEMBERS, "", 0);
    listed("op=p x=- z=", KUNDATREZO_MAX_MEMBERS + 1, "", KUNDATREZO_OPERANDS);
    tables();
    listed(NOISE, KUNDATREZO_MAX_MEMBERS, " size=4611686018427387903", 0);
    listed(NOISE, KUNDATREZO_MAX_MEMBERS, " size=4611686018427387904", KUNDATREZO_SIZE);
    listed(NOISE, KUNDATREZO_MAX_MEMBERS + 1, " size=0", KUNDATREZO_OPERANDS);
    gate(1, 14, 0);
    gate(1, 15, KUNDATREZO_FORM);
    gate(KUNDATREZO_MAX_EDITION, KUNDATREZO_MAX_GATE, 0);
    gate(KUNDATREZO_MAX_EDITION, KUNDATREZO_MAX_GATE + 1, KUNDATREZO_FORM);
    gate(KUNDATREZO_MAX_EDITION + 1, KUNDATREZO_MAX_GATE, KUNDATREZO_EDITION);
    gate(0, 0, KUNDATREZO_EDITION);
    elements(KUNDATREZO_MAX_ELEMENTS, 0);
    elements(KUNDATREZO_MAX_ELEMENTS + 1, KUNDATREZO_ELEMENTS);
    single_faults(KUNDATREZO_MAX_FAULT_QUBITS, KUNDATREZO_MAX_GROUPS, 0, 0);
    single_faults(KUNDATREZO_MAX_FAULT_QUBITS + 1, KUNDATREZO_MAX_GROUPS, KUNDATREZO_GROUPS, 2);
    single_faults(KUNDATREZO_MAX_FAULT_QUBITS + 1, KUNDATREZO_MAX_GROUPS + 1, KUNDATREZO_GROUPS, 0);
    single_faults(1, 0, KUNDATREZO_GROUPS, 0);
    made(KUNDATREZO_MAX_QUBITS, KUNDATREZO_MAX_OUTCOMES, KUNDATREZO_MAX_SHOTS, 0);
    made(1, 0, 1, 0);
    made(KUNDATREZO_MAX_QUBITS + 1, 0, 1, KUNDATREZO_HEADER);
    made(1, KUNDATREZO_MAX_OUTCOMES + 1, 1, KUNDATREZO_HEADER);
    made(1, 0, KUNDATREZO_MAX_SHOTS + 1, KUNDATREZO_HEADER);
    made(0, 0, 1, KUNDATREZO_HEADER);
    made(1, 0, 0, KUNDATREZO_HEADER);
    callers(0, KUNDATREZO_SHARES);
    callers(1, 0);
    callers(KUNDATREZO_MAX_CALLERS, 0);
    callers(KUNDATREZO_MAX_CALLERS + 1, KUNDATREZO_SHARES);
    bytes(KUNDATREZO_MAX_BYTES, 0);
    bytes(KUNDATREZO_MAX_BYTES + 1, KUNDATREZO_LENGTH);
    puts(failed ? "limits of the C header: differences" : "limits of the C header: 0 differences");
    return failed;
}
