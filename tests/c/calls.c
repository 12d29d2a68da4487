/* The calls from C, by include/kundatrezo.h: an answer of each kind, and that every parameter and field arrives. The comparison with the
 * published Rust (tests/compare) goes through the answers themselves. */
#include <stdio.h>
#include <string.h>

#include "kundatrezo.h"

static int failed;

static void expect_check(const char *job, size_t length, uint64_t number, uint64_t line)
{
    struct kundatrezo_answer got = kundatrezo_check((const uint8_t *)job, length);
    if (got.number != number || got.line != line) {
        printf("check of %zu bytes: %llu %llu, not %llu %llu\n", length, (unsigned long long)got.number, (unsigned long long)got.line,
               (unsigned long long)number, (unsigned long long)line);
        failed = 1;
    }
}

static void check(void)
{
    static const char session[] = "op=job qubits=2 outcomes=2 shots=3\n"
                                  "op=u g=4 q=0\n"
                                  "op=u g=11 q=0,1\n"
                                  "op=i shot=1 x=0 z=-\n"
                                  "op=o x=- z=0 id=0\n"
                                  "op=o x=- z=1 id=1\n"
                                  "op=t shot=2 id=1\n";
    size_t length = sizeof session - 1;
    expect_check(session, length, 0, 0);
    expect_check(session, 0, KUNDATREZO_LENGTH, 0);
    expect_check(session, length - 1, KUNDATREZO_LENGTH, 0);
    /* from its second line on the job has no header */
    size_t header = strcspn(session, "\n") + 1;
    expect_check(session + header, length - header, KUNDATREZO_HEADER, 1);
    static const char late[] = "op=job qubits=1 outcomes=0 shots=1\nop=z q=0\nop=z q=1\n";
    expect_check(late, sizeof late - 1, KUNDATREZO_QUBIT, 3);
    static const char unknown[] = "op=job edition=3 qubits=1 outcomes=0 shots=1\n";
    expect_check(unknown, sizeof unknown - 1, KUNDATREZO_EDITION, 1);
}

static void expect_examination(const char *job, uint64_t number, uint64_t line, const uint64_t numbers[5])
{
    struct kundatrezo_examination got = kundatrezo_examine((const uint8_t *)job, strlen(job));
    const uint64_t found[5] = {got.qubits, got.outcomes, got.shots, got.recorded, got.lines};
    if (got.answer.number != number || got.answer.line != line || memcmp(found, numbers, sizeof found) != 0) {
        printf("examine: %llu %llu, %llu qubits, %llu outcomes, %llu shots, %llu recorded, %llu lines\n", (unsigned long long)got.answer.number,
               (unsigned long long)got.answer.line, (unsigned long long)got.qubits, (unsigned long long)got.outcomes,
               (unsigned long long)got.shots, (unsigned long long)got.recorded, (unsigned long long)got.lines);
        failed = 1;
    }
}

static void examine(void)
{
    static const uint64_t found[] = {3, 7, 65, 2, 4}, none[5] = {0};
    static const char job[] = "op=job qubits=3 outcomes=7 shots=65\n"
                              "op=o x=- z=0 id=0\n"
                              "op=z q=1\n"
                              "op=r id=1 angle=0\n";
    expect_examination(job, 0, 0, found);
    expect_examination("op=job qubits=3 outcomes=7 shots=65\nop=z q=3\n", KUNDATREZO_QUBIT, 2, none);
    static const uint64_t second[] = {3, 7, 65, 0, 3};
    expect_examination("op=job edition=2 qubits=3 outcomes=7 shots=65\nop=b q=2,0\nop=z q=1,2\n", 0, 0, second);
    expect_examination("op=job edition=1 qubits=3 outcomes=7 shots=65\nop=b q=2,0\n", KUNDATREZO_FORM, 2, none);
    expect_examination("", KUNDATREZO_LENGTH, 0, none);
    struct kundatrezo_examination numbers = kundatrezo_examine((const uint8_t *)job, sizeof job - 1);
    if (kundatrezo_frame_words(numbers) != 6 || kundatrezo_outcome_words(numbers) != 14) {
        puts("examine: another number of words");
        failed = 1;
    }
}

static const char flipped[] = "op=job qubits=1 outcomes=2 shots=2\n"
                              "op=i shot=1 x=0 z=-\n"
                              "op=o x=- z=0 id=0\n"
                              "op=r id=1 angle=0\n"
                              "op=t shot=1 id=1\n";

static void expect_figure(const char *call, uint64_t number, uint64_t line, uint64_t figure, struct kundatrezo_answer answer, uint64_t got)
{
    if (answer.number != number || answer.line != line || got != figure) {
        printf("%s: %llu %llu %llu, not %llu %llu %llu\n", call, (unsigned long long)answer.number, (unsigned long long)answer.line,
               (unsigned long long)got, (unsigned long long)number, (unsigned long long)line, (unsigned long long)figure);
        failed = 1;
    }
}

static void expect_walk(uint64_t shot, const uint64_t *set, size_t set_len, uint64_t number, uint64_t count)
{
    struct kundatrezo_count_answer got = kundatrezo_walk((const uint8_t *)flipped, sizeof flipped - 1, shot, set, set_len);
    expect_figure("walk", number, 0, count, got.answer, got.count);
}

static void walk(void)
{
    static const uint64_t set[] = {0, 1, 1};
    expect_walk(1, set, 2, 0, 2);
    expect_walk(1, set + 1, 1, 0, 1);
    expect_walk(0, set, 2, 0, 0);
    expect_walk(2, set, 2, KUNDATREZO_WALK, 0);
    expect_walk(1, set, 3, KUNDATREZO_WALK, 0);
}

/* One qubit, one outcome, 65 shots: two words a row. The first shot's word brings a fault, the others bring none; then the words are spent. */
static const char drawn[] = "op=job qubits=1 outcomes=1 shots=65\n"
                            "op=n p=3fe0000000000000 corr=- cond=- parity=0 d=1 x=0 z=- size=1\n"
                            "op=o x=- z=0 id=0\n";

static void run(void)
{
    uint64_t words[65], x[3] = {7, 7, 7}, z[2] = {7, 7}, deltas[2] = {7, 7}, noiseless[2] = {0, 0};
    for (int i = 0; i < 65; i++)
        words[i] = i == 0 ? 0 : UINT64_MAX;
    const uint8_t *job = (const uint8_t *)drawn;
    size_t length = sizeof drawn - 1;
    struct kundatrezo_answer got = kundatrezo_run(job, length, x, 3, z, 2, deltas, 1, noiseless, 2, words, 65, words, 0, 0);
    expect_figure("run", KUNDATREZO_WORDS, 0, 7, got, deltas[0]);
    got = kundatrezo_run(job, length, x, 3, z, 2, deltas, 2, noiseless, 2, words, 64, words, 0, 0);
    expect_figure("run", KUNDATREZO_DRAWS, 2, 0, got, x[0] | x[1] | z[0] | z[1] | deltas[0] | deltas[1]);
    got = kundatrezo_run(job, length, x, 3, z, 2, deltas, 2, noiseless, 2, words, 65, words, 0, 0);
    expect_figure("run", 0, 0, 1, got, deltas[0]);
    expect_figure("run, X words", 0, 0, 1, got, x[0]);
    expect_figure("run, words beyond", 0, 0, 7, got, x[2]);
}

/* Every line that the second edition adds, with a header that has its field: X on the control of a ControlledY is Y on its target, and a fault is reset on
 * both qubits at once. Annotation takes ControlledY for a gate of two qubits, and the barrier and the resets get no noise. */
static void second_edition(void)
{
    static const char job[] = "op=job edition=2 qubits=2 outcomes=2 shots=2\n"
                              "op=i shot=1 x=0 z=-\n"
                              "op=b q=1,0\n"
                              "op=u g=15 q=0,1\n"
                              "op=o x=- z=1 id=0\n"
                              "op=o x=1 z=- id=1\n"
                              "op=z q=0,1\n";
    uint64_t x[2] = {7, 7}, z[2] = {7, 7}, deltas[2] = {7, 7}, noiseless[2] = {0, 0}, words[1] = {0};
    static const uint64_t set[] = {0, 1};
    const uint8_t *bytes = (const uint8_t *)job;
    size_t length = sizeof job - 1;
    uint8_t out[2 * sizeof job + 200];
    struct kundatrezo_answer ran = kundatrezo_run(bytes, length, x, 2, z, 2, deltas, 2, noiseless, 2, words, 0, words, 0, 0);
    expect_figure("run, second edition", 0, 0, 2, ran, deltas[0]);
    expect_figure("run, second edition", 0, 0, 2, ran, deltas[1]);
    expect_figure("run, reset qubits", 0, 0, 0, ran, x[0] | x[1] | z[0] | z[1]);
    struct kundatrezo_count_answer counted = kundatrezo_walk(bytes, length, 1, set, 1);
    expect_figure("walk, second edition", 0, 0, 1, counted.answer, counted.count);
    counted = kundatrezo_walk(bytes, length, 1, set, 2);
    expect_figure("walk, second edition", 0, 0, 0, counted.answer, counted.count);
    counted = kundatrezo_locations(bytes, length);
    expect_figure("locations, second edition", 0, 0, 8, counted.answer, counted.count);
    struct kundatrezo_text_answer settled = kundatrezo_settle(bytes, length, noiseless, 2, words, 0, words, 0, 0, out, sizeof out);
    expect_figure("settle, second edition", 0, 0, length, settled.answer, settled.figure);
    if (memcmp(out, job, length) != 0) {
        printf("settle does not copy a job of the second edition\n");
        failed = 1;
    }
}

/* The totals: shot 1 flips outcome 0 by a fault and outcome 1 by a flip, which another takes back in shot 0. */
static void run_totals(void)
{
    static const char counted[] = "op=job qubits=1 outcomes=3 shots=2\n"
                                  "op=i shot=1 x=0 z=-\n"
                                  "op=o x=- z=0 id=0\n"
                                  "op=r id=1 angle=0\n"
                                  "op=t shot=0 id=1\n"
                                  "op=t shot=1 id=1\n"
                                  "op=t shot=0 id=1\n";
    uint64_t none[1] = {0}, x[1] = {7}, z[1] = {7}, deltas[3] = {7, 7, 7}, totals[4] = {7, 7, 7, 7}, noiseless[3] = {0, 0, 0};
    const uint8_t *job = (const uint8_t *)counted;
    size_t length = sizeof counted - 1;
    struct kundatrezo_answer got = kundatrezo_run_totals(job, length, x, 1, z, 1, deltas, 3, totals, 2, noiseless, 3, none, 0, none, 0, 0);
    expect_figure("run with too few totals", KUNDATREZO_WORDS, 0, 7, got, totals[0]);
    got = kundatrezo_run_totals(job, length, x, 1, z, 1, deltas, 3, totals, 4, noiseless, 3, none, 0, none, 0, 0);
    for (int id = 0; id < 3; id++)
        expect_figure("run, totals", 0, 0, id < 2 ? 1 : 0, got, totals[id]);
    expect_figure("run, totals beyond", 0, 0, 7, got, totals[3]);
    uint64_t words[64] = {0}, xs[2] = {0, 0}, zs[2] = {0, 0}, row[2] = {0, 0};
    got = kundatrezo_run_totals((const uint8_t *)drawn, sizeof drawn - 1, xs, 2, zs, 2, row, 2, totals, 4, noiseless, 2, words, 64, none, 0, 0);
    expect_figure("run with draws spent, totals", KUNDATREZO_DRAWS, 2, 0, got, totals[0]);
    expect_figure("run with draws spent, totals beyond", KUNDATREZO_DRAWS, 2, 1, got, totals[1]);
}

/* A condition looks at the noiseless bits of the shots alone, not at those past the last one. */
static void padding(void)
{
    static const char job[] = "op=job qubits=1 outcomes=1 shots=2\n"
                              "op=o x=- z=0 id=0\n"
                              "op=n p=3ff0000000000000 corr=- cond=0 parity=1 d=1 x=0 z=- size=1\n";
    uint64_t words[2] = {0, 0}, x[1] = {7}, z[1] = {7}, deltas[1] = {7};
    for (int padded = 0; padded < 2; padded++) {
        uint64_t noiseless[1] = {padded ? ~(uint64_t)1 : 2};
        struct kundatrezo_answer got = kundatrezo_run((const uint8_t *)job, sizeof job - 1, x, 1, z, 1, deltas, 1, noiseless, 1, words, 2, words, 0, 0);
        expect_figure("run under a condition", 0, 0, 2, got, x[0]);
    }
}

/* An encoder of the five-qubit code as one line. Before it X on qubit 1 flips the first stabilizer alone, and X on qubit 0, a logical X, none. */
static void encode(void)
{
    static const char job[] = "op=job qubits=5 outcomes=4 shots=2\n"
                              "op=i shot=0 x=1 z=-\n"
                              "op=i shot=1 x=0 z=-\n"
                              "op=c q=0,1,2,3,4 t=9f818c52929c601f,00000008ab05648c\n"
                              "op=o x=0,3 z=1,2 id=0\n"
                              "op=o x=1,4 z=2,3 id=1\n"
                              "op=o x=0,2 z=3,4 id=2\n"
                              "op=o x=1,3 z=0,4 id=3\n";
    uint64_t x[5] = {0}, z[5] = {0}, deltas[4] = {0}, noiseless[4] = {0}, words[1] = {0};
    struct kundatrezo_answer got = kundatrezo_run((const uint8_t *)job, sizeof job - 1, x, 5, z, 5, deltas, 4, noiseless, 4, words, 0, words, 0, 0);
    for (uint64_t id = 0; id < 4; id++) {
        expect_figure("run of an encoder", 0, 0, id == 0, got, deltas[id]);
        struct kundatrezo_count_answer walked = kundatrezo_walk((const uint8_t *)job, sizeof job - 1, 0, &id, 1);
        expect_figure("walk through an encoder", 0, 0, id == 0, walked.answer, walked.count);
    }
}

static void settle(void)
{
    static const char settled[] = "op=job qubits=1 outcomes=1 shots=65\n"
                                  "op=i shot=0 x=0 z=-\n"
                                  "op=o x=- z=0 id=0\n";
    uint64_t words[65], noiseless[2] = {0, 0};
    uint8_t out[sizeof settled] = {0};
    for (int i = 0; i < 65; i++)
        words[i] = i == 0 ? 0 : UINT64_MAX;
    const uint8_t *job = (const uint8_t *)drawn;
    size_t length = sizeof drawn - 1;
    struct kundatrezo_text_answer got = kundatrezo_settle(job, length, noiseless, 2, words, 65, words, 0, 0, out, 4);
    expect_figure("settle", KUNDATREZO_ROOM, 0, sizeof settled - 1, got.answer, got.figure);
    got = kundatrezo_settle(job, length, noiseless, 2, words, 65, words, 0, 0, out, sizeof out);
    expect_figure("settle", 0, 0, sizeof settled - 1, got.answer, got.figure);
    if (memcmp(out, settled, sizeof settled) != 0) {
        printf("settle wrote something else\n");
        failed = 1;
    }
}

/* Two callers: the first has two words of its own, the second one, and there are three common ones. Each shot of a job reads a word. */
static void shared(void)
{
    static const char job[] = "op=job qubits=1 outcomes=1 shots=2\n"
                              "op=n p=3fe0000000000000 corr=- cond=- parity=0 d=1 x=0 z=- size=1\n"
                              "op=o x=- z=0 id=0\n";
    static const char settled[] = "op=job qubits=1 outcomes=1 shots=2\nop=i shot=0 x=0 z=-\nop=o x=- z=0 id=0\n";
    static const uint64_t words[6] = {0, UINT64_MAX, UINT64_MAX, 0, 0, UINT64_MAX}, shares[2] = {2, 1};
    uint64_t x[1] = {7}, z[1] = {7}, deltas[1] = {7}, totals[1] = {7}, noiseless[1] = {0}, marks[4] = {0, 0, 0, 7};
    uint8_t out[sizeof settled] = {0};
    const uint8_t *bytes = (const uint8_t *)job;
    size_t length = sizeof job - 1;
#define RUN(marks_len, caller) \
    kundatrezo_run_shared(bytes, length, x, 1, z, 1, deltas, 1, totals, 1, noiseless, 1, words, 6, words, 0, 0, shares, 2, marks, marks_len, caller)
#define SETTLE(caller, room) \
    kundatrezo_settle_shared(bytes, length, noiseless, 1, words, 6, words, 0, 0, shares, 2, marks, 3, caller, out, room)
    struct kundatrezo_answer ran = RUN(2, 2);
    expect_figure("run with too few marks", KUNDATREZO_WORDS, 0, 7, ran, x[0]);
    ran = RUN(3, 2);
    expect_figure("run of no caller", KUNDATREZO_CALLER, 0, 7, ran, x[0]);
    marks[1] = 2;
    ran = RUN(3, 0);
    expect_figure("run with another's mark past the share", KUNDATREZO_SHARES, 0, 7, ran, x[0]);
    marks[1] = 0;
    /* the second caller reads word 2, its own, and word 3, the first common one */
    ran = RUN(3, 1);
    expect_figure("run of a caller", 0, 0, 2, ran, deltas[0]);
    ran = RUN(3, 0);
    expect_figure("run of a caller", 0, 0, 1, ran, deltas[0]);
    expect_figure("run of a caller, totals", 0, 0, 1, ran, totals[0]);
    expect_figure("marks", 0, 0, 211, ran, 100 * marks[0] + 10 * marks[1] + marks[2]);
    /* settling without room takes no word; with room it takes 4 and 5, and then there are none */
    struct kundatrezo_text_answer got = SETTLE(0, 3);
    expect_figure("settle of a caller", KUNDATREZO_ROOM, 0, sizeof settled - 1, got.answer, got.figure);
    expect_figure("marks after 15", KUNDATREZO_ROOM, 0, 1, got.answer, marks[2]);
    got = SETTLE(0, sizeof out);
    expect_figure("settle of a caller", 0, 0, sizeof settled - 1, got.answer, got.figure);
    if (memcmp(out, settled, sizeof settled) != 0) {
        printf("settle of a caller wrote something else\n");
        failed = 1;
    }
    expect_figure("marks after settling", 0, 0, 3, got.answer, marks[2]);
    ran = RUN(4, 1);
    expect_figure("run with both parts used up", KUNDATREZO_DRAWS, 2, 0, ran, x[0] | deltas[0] | totals[0]);
    expect_figure("marks beyond", KUNDATREZO_DRAWS, 2, 7, ran, marks[3]);
#undef RUN
#undef SETTLE
}

/* Each list of the calls that take many of one type in its own part and of its own length, so that two that change places are seen. The main list brings X on
 * qubit 1 in shot 1, the second one, read from base + 1 on, Z on qubit 0 in shot 64: so x, z, deltas and totals all differ. The base is not the caller's
 * number. A row has two words. */
static const char told[] = "op=job qubits=2 outcomes=1 shots=65\n"
                           "op=n p=3fe0000000000000 corr=- cond=- parity=0 d=1 x=1 z=- size=1\n"
                           "op=n p=3fe0000000000000 corr=1 cond=- parity=0 d=1 x=- z=0 size=1\n"
                           "op=o x=- z=1 id=0\n";

#define TOLD (const uint8_t *)told, sizeof told - 1
#define TOLD_SHOTS 65
#define TOLD_BASE 2

static const uint64_t told_shares[3] = {3, 2, 1}; /* of the words before the common ones */
static uint64_t told_main[5 + TOLD_SHOTS], told_second[TOLD_BASE + 1 + TOLD_SHOTS], told_noiseless[2];

/* Words that bring the fault of `shot` alone, from a position on. */
static void fill_told(uint64_t *words, size_t length, size_t from, size_t shot)
{
    for (size_t i = 0; i < length; i++)
        words[i] = UINT64_MAX;
    words[from + shot] = 0;
}

static void expect_told(const char *call, struct kundatrezo_answer got, const uint64_t x[4], const uint64_t z[4], const uint64_t deltas[2])
{
    static const uint64_t x_told[4] = {0, 0, 2, 0}, z_told[4] = {0, 1, 0, 0}, deltas_told[2] = {2, 0};
    int same = memcmp(x, x_told, sizeof x_told) == 0 && memcmp(z, z_told, sizeof z_told) == 0 && memcmp(deltas, deltas_told, sizeof deltas_told) == 0;
    expect_figure(call, 0, 0, 1, got, (uint64_t)same);
}

static void expect_told_text(const char *call, struct kundatrezo_text_answer got, const uint8_t *out)
{
    static const char settled[] = "op=job qubits=2 outcomes=1 shots=65\nop=i shot=1 x=1 z=-\nop=i shot=64 x=- z=0\nop=o x=- z=1 id=0\n";
    expect_figure(call, 0, 0, sizeof settled - 1, got.answer, got.figure);
    expect_figure(call, 0, 0, 0, got.answer, (uint64_t)(memcmp(out, settled, sizeof settled - 1) != 0));
}

static void lists_apart(void)
{
    uint64_t x[4], z[4], deltas[2], totals[1];
    uint8_t out[200];
    fill_told(told_second, TOLD_BASE + 1 + TOLD_SHOTS, TOLD_BASE + 1, 64);
    fill_told(told_main, TOLD_SHOTS, 0, 1);
    struct kundatrezo_answer got = kundatrezo_run(TOLD, x, 4, z, 4, deltas, 2, told_noiseless, 2, told_main, TOLD_SHOTS, told_second,
                                                  TOLD_BASE + 1 + TOLD_SHOTS, TOLD_BASE);
    expect_told("run, each list", got, x, z, deltas);
    got = kundatrezo_run_totals(TOLD, x, 4, z, 4, deltas, 2, totals, 1, told_noiseless, 2, told_main, TOLD_SHOTS, told_second, TOLD_BASE + 1 + TOLD_SHOTS,
                                TOLD_BASE);
    expect_told("run with totals, each list", got, x, z, deltas);
    expect_figure("run with totals, each list", 0, 0, 1, got, totals[0]);
    struct kundatrezo_text_answer text = kundatrezo_settle(TOLD, told_noiseless, 2, told_main, TOLD_SHOTS, told_second, TOLD_BASE + 1 + TOLD_SHOTS,
                                                           TOLD_BASE, out, sizeof out);
    expect_told_text("settle, each list", text, out);
}

/* The second of three callers has one of its two words left, which brings no fault; its other words are common ones, of which the first brings one. */
static void lists_apart_shared(void)
{
    uint64_t x[4], z[4], deltas[2], totals[1], marks[4] = {0, 1, 0, 0};
    uint8_t out[200];
    size_t main_len = 6 + TOLD_SHOTS - 1;
    fill_told(told_main, main_len, 5, 1);
    struct kundatrezo_answer got = kundatrezo_run_shared(TOLD, x, 4, z, 4, deltas, 2, totals, 1, told_noiseless, 2, told_main, main_len, told_second,
                                                         TOLD_BASE + 1 + TOLD_SHOTS, TOLD_BASE, told_shares, 3, marks, 4, 1);
    expect_told("run with a share, each list", got, x, z, deltas);
    expect_figure("run with a share, each list", 0, 0, 1, got, totals[0]);
    expect_figure("marks of a run with a share", 0, 0, 264, got, 100 * marks[1] + 1000 * (marks[0] + marks[2]) + marks[3]);
    marks[1] = 1;
    marks[3] = 0;
    struct kundatrezo_text_answer text = kundatrezo_settle_shared(TOLD, told_noiseless, 2, told_main, main_len, told_second, TOLD_BASE + 1 + TOLD_SHOTS,
                                                                  TOLD_BASE, told_shares, 3, marks, 4, 1, out, sizeof out);
    expect_told_text("settle with a share, each list", text, out);
}

/* One outcome in 65 shots, flipped in the last one: two words by outcome, 65 by shot. */
static void by_shot_and_back(void)
{
    static const uint64_t deltas[2] = {0, 1};
    uint64_t rows[65] = {0}, back[2] = {7, 7};
    struct kundatrezo_answer got = kundatrezo_by_shot(1, 65, deltas, 2, rows, 65);
    expect_figure("by shot", 0, 0, 1, got, rows[64]);
    expect_figure("by shot", 0, 0, 0, got, rows[0] | rows[1]);
    got = kundatrezo_by_outcome(1, 65, rows, 65, back, 2);
    expect_figure("by outcome", 0, 0, 1, got, back[1]);
    expect_figure("by outcome", 0, 0, 0, got, back[0]);
}

/* How many words a run takes of a list: one caller with no stretch, and the next run goes on there. */
static void words_taken(void)
{
    static const char job[] = "op=job qubits=1 outcomes=0 shots=2\nop=n p=3fe0000000000000 corr=- cond=- parity=0 d=1 x=0 z=- size=1\n";
    static const uint64_t words[5] = {0, UINT64_MAX, 0, 0, UINT64_MAX}, shares[1] = {0};
    uint64_t x[1], z[1], none[1], marks[2] = {0, 0};
    for (uint64_t run = 0; run < 2; run++) {
        struct kundatrezo_answer got = kundatrezo_run_shared((const uint8_t *)job, sizeof job - 1, x, 1, z, 1, none, 0, none, 0, none, 0, words, 5, none, 0, 0,
                                                             shares, 1, marks, 2, 0);
        expect_figure("words that a run takes", 0, 0, 2 * run + 2, got, marks[1]);
        expect_figure("a run that goes on in a list", 0, 0, run == 0 ? 1 : 3, got, x[0]);
        expect_figure("the mark of a caller with no stretch", 0, 0, 0, got, marks[0]);
    }
}

static void annotate(void)
{
    static const char measured[] = "op=job qubits=1 outcomes=1 shots=1\nop=o x=- z=0 id=0\n";
    static const char noisy[] = "op=job qubits=1 outcomes=1 shots=1\n"
                                "op=n p=3fe0000000000000 corr=- cond=- parity=0 d=2 q=0 size=3\n"
                                "op=o x=- z=0 id=0\n";
    uint8_t out[sizeof noisy + 1];
    const uint8_t *job = (const uint8_t *)measured;
    size_t length = sizeof measured - 1;
    uint64_t half = 0x3fe0000000000000, two = 0x4000000000000000;
    memset(out, 7, sizeof out);
    struct kundatrezo_text_answer got = kundatrezo_annotate(job, length, half, out, sizeof noisy - 2);
    expect_figure("annotate", KUNDATREZO_ROOM, 0, 0, got.answer, got.figure);
    got = kundatrezo_annotate(job, length, two, out, sizeof out);
    expect_figure("annotate", KUNDATREZO_PROBABILITY, 0, 0, got.answer, got.figure);
    got = kundatrezo_annotate(job, length, half, out, sizeof out);
    expect_figure("annotate", 0, 0, sizeof noisy - 1, got.answer, got.figure);
    if (memcmp(out, noisy, sizeof noisy - 1) != 0 || out[sizeof noisy - 1] != 7 || out[sizeof noisy] != 7) {
        printf("annotate wrote something else\n");
        failed = 1;
    }
    struct kundatrezo_count_answer counted = kundatrezo_locations(job, length);
    expect_figure("locations", 0, 0, 2, counted.answer, counted.count);
}

/* A qubit that control and target share gets noise once, and counts as a location for both. */
static void annotate_shared(void)
{
    static const char shared[] = "op=job qubits=2 outcomes=0 shots=1\nop=k x=0,1 z=- u=- v=0,1\n";
    static const char noisy[] = "op=job qubits=2 outcomes=0 shots=1\nop=k x=0,1 z=- u=- v=0,1\n"
                                "op=n p=0000000000000000 corr=- cond=- parity=0 d=2 q=0,1 size=15\n";
    uint8_t out[sizeof noisy];
    struct kundatrezo_text_answer got = kundatrezo_annotate((const uint8_t *)shared, sizeof shared - 1, 0, out, sizeof out);
    expect_figure("annotate", 0, 0, sizeof noisy - 1, got.answer, got.figure);
    if (memcmp(out, noisy, sizeof noisy - 1) != 0) {
        printf("annotate wrote something else over shared qubits\n");
        failed = 1;
    }
    struct kundatrezo_count_answer counted = kundatrezo_locations((const uint8_t *)shared, sizeof shared - 1);
    expect_figure("locations", 0, 0, 8, counted.answer, counted.count);
}

/* Locations are counted where annotation refuses a line on more than 31 qubits. */
static void annotate_wide(void)
{
    static const char wide[] = "op=job qubits=32 outcomes=0 shots=1\nop=u g=4 q=0\n"
                               "op=p x=31 z=0,1,2,3,4,5,6,7,8,9,10,11,12,13,14,15,16,17,18,19,20,21,22,23,24,25,26,27,28,29,30\n";
    uint8_t out[1];
    struct kundatrezo_text_answer got = kundatrezo_annotate((const uint8_t *)wide, sizeof wide - 1, 0, out, 0);
    expect_figure("annotate", KUNDATREZO_ANNOTATION, 3, 0, got.answer, got.figure);
    struct kundatrezo_count_answer counted = kundatrezo_locations((const uint8_t *)wide, sizeof wide - 1);
    expect_figure("locations", 0, 0, 66, counted.answer, counted.count);
}

/* Depolarizing noise on a bit that is then copied: X and Y flip the first outcome and the second, and no element their sum. The flip that the job has of its
 * own counts as absent, and for the number of the line. */
static void fault_table(void)
{
    static const char job[] = "op=job qubits=2 outcomes=2 shots=1\n"
                              "op=i shot=0 x=0 z=-\n"
                              "op=n p=0000000000000000 corr=- cond=- parity=0 d=2 q=0 size=3\n"
                              "op=u g=11 q=0,1\n"
                              "op=o x=- z=0 id=0\n"
                              "op=o x=- z=1 id=1\n";
    static const char table[] = "line=3 el=0 groups=1010\nline=3 el=1 groups=0000\nline=3 el=2 groups=1010\n";
    static const uint64_t groups[] = {1, 0, 2, 0, 1, 1, 1, 0, 2, 1, 0};
    size_t length = sizeof job - 1, four = 8;
    uint8_t out[sizeof table] = {0};
    struct kundatrezo_text_answer got = kundatrezo_fault_table((const uint8_t *)job, length, groups, four, out, sizeof table - 2);
    expect_figure("fault table", KUNDATREZO_ROOM, 0, 0, got.answer, got.figure);
    got = kundatrezo_fault_table((const uint8_t *)job, length, groups, sizeof groups / sizeof *groups, out, sizeof out);
    expect_figure("fault table, a group that falls", KUNDATREZO_WALK, 0, 0, got.answer, got.figure);
    got = kundatrezo_fault_table((const uint8_t *)job, length, groups, four - 2, out, sizeof out);
    expect_figure("fault table, a group cut short", KUNDATREZO_WALK, 0, 0, got.answer, got.figure);
    got = kundatrezo_fault_table((const uint8_t *)job, length, groups, 0, out, sizeof out);
    expect_figure("fault table, no groups", KUNDATREZO_GROUPS, 0, 0, got.answer, got.figure);
    expect_figure("fault table, refused", KUNDATREZO_GROUPS, 0, 0, got.answer, out[0]);
    got = kundatrezo_fault_table((const uint8_t *)job, length, groups, four, out, sizeof table - 1);
    expect_figure("fault table", 0, 0, sizeof table - 1, got.answer, got.figure);
    if (memcmp(out, table, sizeof table) != 0) {
        printf("fault table wrote something else\n%s", (const char *)out);
        failed = 1;
    }
}

static void correlation(void)
{
    static const char job[] = "op=job qubits=2 outcomes=0 shots=1\n"
                              "op=n p=0000000000000000 corr=5 cond=- parity=0 d=2 q=0 size=3\n"
                              "op=n p=0000000000000000 corr=5 cond=- parity=0 d=2 q=0,1 size=15\n";
    struct kundatrezo_answer got = kundatrezo_correlation((const uint8_t *)job, sizeof job - 1);
    expect_figure("correlation", KUNDATREZO_SIZES, 3, 0, got, 0);
}

/* Words from a seed, and a job, which the check accepts and which is the same each time. */
static void load(void)
{
    uint64_t words[3] = {7, 7, 7};
    struct kundatrezo_answer filled = kundatrezo_fill(0, words, 2);
    expect_figure("fill from zero", KUNDATREZO_SEED, 0, 7, filled, words[0]);
    filled = kundatrezo_fill(1, words, 2);
    expect_figure("fill", 0, 0, 1082269761u, filled, words[0]);
    expect_figure("fill, words beyond", 0, 0, 7, filled, words[2]);
    uint64_t second = words[1];
    filled = kundatrezo_fill(words[0], words, 1);
    expect_figure("fill goes on", 0, 0, second, filled, words[0]);

    static uint8_t out[2][20000];
    struct kundatrezo_text_answer made = kundatrezo_make(0, 4, 10, 100, 0, out[0], 0);
    expect_figure("make without qubits", KUNDATREZO_HEADER, 0, 0, made.answer, made.figure);
    made = kundatrezo_make(5, 4, 10, 100, 0, out[0], 0);
    expect_figure("make from zero", KUNDATREZO_SEED, 0, 0, made.answer, made.figure);
    made = kundatrezo_make(5, 4, 10, 100, 3, out[0], sizeof out[0]);
    struct kundatrezo_examination found = kundatrezo_examine(out[0], made.figure);
    expect_figure("make", 0, 0, 5, made.answer, found.qubits);
    expect_figure("a made job", 0, 0, 4, found.answer, found.outcomes);
    expect_figure("a made job", 0, 0, 10, found.answer, found.shots);
    struct kundatrezo_text_answer again = kundatrezo_make(5, 4, 10, 100, 3, out[1], made.figure);
    expect_figure("make again", 0, 0, made.figure, again.answer, again.figure);
    if (memcmp(out[0], out[1], made.figure) != 0) {
        printf("make wrote something else\n");
        failed = 1;
    }
    again = kundatrezo_make(5, 4, 10, 100, 3, out[1], made.figure - 1);
    expect_figure("make with a byte too few", KUNDATREZO_ROOM, 0, 0, again.answer, again.figure);
}

static void expect_part(const uint8_t *job, size_t length, uint64_t number, size_t start, size_t len)
{
    struct kundatrezo_line_part got = kundatrezo_line(job, length, number);
    if (got.start != start || got.len != len) {
        printf("line %llu: %zu bytes from %zu on\n", (unsigned long long)number, got.len, got.start);
        failed = 1;
    }
}

static void line(void)
{
    static const char text[] = "one\n\nthree";
    const uint8_t *job = (const uint8_t *)text;
    size_t length = sizeof text - 1;
    expect_part(job, length, 0, length, 0);
    expect_part(job, length, 1, 0, 3);
    expect_part(job, length, 2, 4, 0);
    expect_part(job, length, 3, 5, 5);
    expect_part(job, length, 4, length, 0);
    expect_part(job, length, UINT64_MAX, length, 0);
}

int main(void)
{
    check();
    examine();
    run();
    second_edition();
    run_totals();
    padding();
    encode();
    settle();
    shared();
    lists_apart();
    lists_apart_shared();
    by_shot_and_back();
    words_taken();
    walk();
    annotate();
    annotate_shared();
    annotate_wide();
    correlation();
    fault_table();
    load();
    line();
    puts(failed ? "calls from C: differences" : "calls from C: 0 differences");
    return failed;
}
