/* The stack that each call takes, against what the header states. A call runs on a stack that was painted before, in a process of its own, so that it also
 * binds the memcpy and memset that it uses. The jobs have every form of line, so that each part of a call runs. */
#define _XOPEN_SOURCE 700
#include <limits.h>
#include <pthread.h>
#include <stdio.h>
#include <sys/wait.h>
#include <ucontext.h>
#include <unistd.h>

#include "kundatrezo.h"

#define PAINT 0xa5

#define PLAIN \
    "op=job edition=2 qubits=40 outcomes=4 shots=130\n" \
    "op=u g=4 q=0\n" \
    "op=u g=11 q=0,1\n" \
    "op=u g=14 q=2,3\n" \
    "op=u g=15 q=3,4\n" \
    "op=b q=0,1,2,3,4,5,6,7,8,9,10,11,12,13,14,15,16,17,18,19,20,21,22,23,24,25,26,27,28,29,30\n" \
    "op=c q=3,2,1,0 t=8040201008040201\n" \
    "op=c q=7,6,5,4,3,2,1,0 t=0008000400020001,0080004000200010,0800040002000100,8000400020001000\n" \
    "op=p x=0,1,2,3,4,5,6,7,8,9,10,11,12,13,14,15,16,17,18,19,20,21,22,23,24,25,26,27,28,29,30 z=3,4\n" \
    "op=e x=0,1,2 z=3,4\n" \
    "op=k x=0,1 z=2 u=3 v=4,5\n" \
    "op=m s=2,1,0,3 q=4,5,6,7\n" \
    "op=o x=0,1,2,3,4,5,6,7,8,9,10,11,12,13,14,15,16,17,18,19,20,21,22,23,24,25,26,27,28,29,30 z=3,4 id=0\n" \
    "op=r id=1 angle=1\n" \
    "op=f x=0 z=1 id=0,1 parity=1\n" \
    "op=z q=0,2\n" \
    "op=i shot=129 x=0 z=1\n" \
    "op=t shot=64 id=1\n" \
    "op=o x=- z=0,1 id=2\n"

#define PLAIN_END "op=f x=0 z=1 id=0,1 parity=1\nop=o x=- z=0,1 id=3\n"

#define NOISE \
    "op=n p=3ff0000000000000 corr=- cond=- parity=0 d=1 x=0 z=1 size=1\n" \
    "op=n p=3fe0000000000000 corr=3 cond=- parity=0 d=3 n=2 size=2\n" \
    "x=0 z=-\n" \
    "x=0,1 z=2\n" \
    "op=n p=3fe0000000000000 corr=- cond=2 parity=0 d=4 n=3 size=3\n" \
    "w=3fe0000000000000 x=0 z=-\n" \
    "w=3fd0000000000000 x=1 z=-\n" \
    "w=0000000000000001 x=2 z=3,4\n" \
    "op=n p=3fe0000000000000 corr=4 cond=- parity=0 d=2 q=5 size=3\n"

#define WIDE \
    "op=n p=3ff0000000000000 corr=- cond=0,1 parity=0 d=2 q=0,1,2,3,4,5,6,7,8,9,10,11,12,13,14,15,16,17,18,19,20,21,22,23,24,25,26,27,28,29,30 size=4611686018427387903\n"

/* for the table of single faults */
#define NARROW "op=n p=3ff0000000000000 corr=- cond=0,1 parity=0 d=2 q=7,4,0,1 size=255\n"

static const char plain[] = PLAIN, noisy[] = PLAIN WIDE NOISE, narrow[] = PLAIN NARROW NOISE PLAIN_END;

/* a job and its length */
#define WITHOUT_NOISE (const uint8_t *)plain, sizeof plain - 1
#define NOISY (const uint8_t *)noisy, sizeof noisy - 1
#define WITH_NARROW_NOISE (const uint8_t *)narrow, sizeof narrow - 1

static uint8_t out[KUNDATREZO_MAX_BYTES];
static uint64_t x[200], z[200], deltas[40], totals[4], noiseless[40], main_words[5000], second[5000], set[] = {0, 2};

/* what the calls answer, for which nobody asks here */
static uint64_t refusals;

static void no_call(void) {}

static void check(void) { refusals += kundatrezo_check(NOISY).number; }

static void examine(void) { refusals += kundatrezo_examine(NOISY).answer.number; }

static void run(void)
{
    refusals += kundatrezo_run(NOISY, x, 200, z, 200, deltas, 40, noiseless, 40, main_words, 5000, second, 5000, 0).number;
}

static void run_totals(void)
{
    refusals += kundatrezo_run_totals(NOISY, x, 200, z, 200, deltas, 40, totals, 4, noiseless, 40, main_words, 5000, second, 5000, 0).number;
}

static void settle(void)
{
    refusals += kundatrezo_settle(NOISY, noiseless, 40, main_words, 5000, second, 5000, 0, out, sizeof out).answer.number;
}

static const uint64_t shares[] = {10, 100, 50};
static uint64_t marks[4];

static void run_shared(void)
{
    refusals += kundatrezo_run_shared(NOISY, x, 200, z, 200, deltas, 40, totals, 4, noiseless, 40, main_words, 5000, second, 5000, 0, shares, 3, marks, 4, 1).number;
}

static void settle_shared(void)
{
    refusals += kundatrezo_settle_shared(NOISY, noiseless, 40, main_words, 5000, second, 5000, 0, shares, 3, marks, 4, 1, out, sizeof out).answer.number;
}

static void walk(void) { refusals += kundatrezo_walk(WITHOUT_NOISE, 129, set, 2).answer.number; }

static void annotate(void) { refusals += kundatrezo_annotate(NOISY, 0x3fe0000000000000, out, sizeof out).answer.number; }

static void locations(void) { refusals += kundatrezo_locations(NOISY).answer.number; }

/* sixteen groups */
static uint64_t groups[] = {1, 0, 1, 1, 1, 2, 1, 3, 2, 0, 1, 2, 1, 2, 2, 2, 3, 3, 0, 1, 2, 3, 1, 2, 3, 4, 0, 1, 2, 3, 0, 1, 0, 1, 1, 1, 2, 1, 3, 2, 0, 3};

static void fault_table(void) { refusals += kundatrezo_fault_table(WITH_NARROW_NOISE, groups, sizeof groups / sizeof *groups, out, sizeof out).answer.number; }

/* more bytes than the small table of the correlation check is for */
static uint8_t long_job[20000];
static size_t long_job_len;

static void add_to_long_job(const char *text)
{
    /* by hand: memcpy is to be bound by the call */
    for (volatile uint8_t *place = long_job + long_job_len; *text != 0; long_job_len++)
        *place++ = (uint8_t)*text++;
}

static void correlation(void) { refusals += kundatrezo_correlation(long_job, long_job_len).number; }

static void line(void) { kundatrezo_line(NOISY, 20); }

static void fill(void) { refusals += kundatrezo_fill(1, main_words, 5000).number; }

static void make(void) { refusals += kundatrezo_make(256, 1024, 4096, 1000, 1, out, sizeof out).answer.number; }

static void by_shot(void) { refusals += kundatrezo_by_shot(130, 129, main_words, 390, second, 387).number; }

static void by_outcome(void) { refusals += kundatrezo_by_outcome(130, 129, main_words, 387, second, 390).number; }

static unsigned char stack[1 << 18];
static ucontext_t here, there;

static size_t taken(void (*call)(void))
{
    /* by hand: memset is to be bound by the call */
    for (volatile unsigned char *place = stack; place < stack + sizeof stack; place++)
        *place = PAINT;
    getcontext(&there);
    there.uc_stack.ss_sp = stack;
    there.uc_stack.ss_size = sizeof stack;
    there.uc_link = &here;
    makecontext(&there, call, 0);
    swapcontext(&here, &there);
    size_t untouched = 0;
    while (untouched < sizeof stack && stack[untouched] == PAINT)
        untouched++;
    return sizeof stack - untouched;
}

static const struct {
    const char *name;
    void (*call)(void);
    size_t stated;
} calls[] = {
    {"check", check, KUNDATREZO_OTHER_STACK},
    {"examine", examine, KUNDATREZO_OTHER_STACK},
    {"run", run, KUNDATREZO_RUN_STACK},
    {"run_totals", run_totals, KUNDATREZO_RUN_STACK},
    {"settle", settle, KUNDATREZO_SETTLE_STACK},
    {"run_shared", run_shared, KUNDATREZO_RUN_STACK},
    {"settle_shared", settle_shared, KUNDATREZO_SETTLE_STACK},
    {"walk", walk, KUNDATREZO_OTHER_STACK},
    {"annotate", annotate, KUNDATREZO_OTHER_STACK},
    {"locations", locations, KUNDATREZO_OTHER_STACK},
    {"fault_table", fault_table, KUNDATREZO_FAULT_TABLE_STACK},
    {"correlation", correlation, KUNDATREZO_CORRELATION_STACK},
    {"line", line, KUNDATREZO_OTHER_STACK},
    {"fill", fill, KUNDATREZO_OTHER_STACK},
    {"make", make, KUNDATREZO_OTHER_STACK},
    {"by_shot", by_shot, KUNDATREZO_OTHER_STACK},
    {"by_outcome", by_outcome, KUNDATREZO_OTHER_STACK},
};

static void *in_a_thread(void *call)
{
    ((void (**)(void))call)[0]();
    return NULL;
}

/* 1 if the call ran in a thread whose stack has the stated size and a page. A stack that is too small ends the process. */
static int runs_in_a_thread(size_t i)
{
    pthread_attr_t attributes;
    pthread_t thread;
    size_t size = calls[i].stated + 4096 < PTHREAD_STACK_MIN ? PTHREAD_STACK_MIN : calls[i].stated + 4096;
    void (*call[1])(void) = {calls[i].call};
    return pthread_attr_init(&attributes) == 0 && pthread_attr_setstacksize(&attributes, size) == 0 &&
           pthread_create(&thread, &attributes, in_a_thread, call) == 0 && pthread_join(thread, NULL) == 0;
}

/* 1 where the call takes more than is stated, or does not run in a thread with that and a page */
static int exceeds(size_t i)
{
    size_t bytes = taken(calls[i].call) - taken(no_call);
    printf("stack: %s takes %zu of %zu bytes\n", calls[i].name, bytes, calls[i].stated);
    fflush(stdout);
    return bytes > calls[i].stated || !runs_in_a_thread(i);
}

static int exceeds_in_a_process(size_t i)
{
    fflush(stdout);
    pid_t child = fork();
    if (child == 0) {
        int status = exceeds(i);
        fflush(stdout);
        _exit(status);
    }
    int status = 1;
    return child < 0 || waitpid(child, &status, 0) != child || status != 0;
}

/* Where a call refused its job, it would stop before its deepest part. */
static int accepted(void)
{
    struct kundatrezo_count_answer walked = kundatrezo_walk(WITHOUT_NOISE, 129, set, 2);
    struct kundatrezo_text_answer settled = kundatrezo_settle(NOISY, noiseless, 40, main_words, 5000, second, 5000, 0, out, sizeof out);
    struct kundatrezo_text_answer shared = kundatrezo_settle_shared(NOISY, noiseless, 40, main_words, 5000, second, 5000, 0, shares, 3, marks, 4, 1, out, sizeof out);
    struct kundatrezo_text_answer annotated = kundatrezo_annotate(NOISY, 0, out, sizeof out);
    struct kundatrezo_text_answer tabled = kundatrezo_fault_table(WITH_NARROW_NOISE, groups, sizeof groups / sizeof *groups, out, sizeof out);
    struct kundatrezo_answer shots = kundatrezo_by_shot(130, 129, main_words, 390, second, 387);
    struct kundatrezo_answer outcomes = kundatrezo_by_outcome(130, 129, main_words, 387, second, 390);
    return shots.number == 0 && outcomes.number == 0 && kundatrezo_correlation(long_job, long_job_len).number == 0 && walked.answer.number == 0 && settled.answer.number == 0 && annotated.answer.number == 0 &&
           tabled.answer.number == 0 && shared.answer.number == 0 && kundatrezo_make(256, 1024, 4096, 1000, 1, out, sizeof out).answer.number == 0;
}

int main(void)
{
    int failed = 0;
    add_to_long_job(noisy);
    while (long_job_len < 19000)
        add_to_long_job("op=u g=4 q=0\n");
    for (size_t i = 0; i < sizeof calls / sizeof *calls; i++)
        failed |= exceeds_in_a_process(i);
    if (failed)
        puts("stack: a call takes more than the header states");
    if (!accepted()) {
        puts("stack: a job is refused");
        failed = 1;
    }
    return failed;
}
