/* Kundatrezo: a Pauli-frame noise engine. The calls of libkundatrezo.a, for x86-64 Linux.
 *
 * docs/JOBS.md describes the language of jobs, docs/REFUSALS.md each refusal with examples and remedies, docs/TRUST.md what is proved and what has to be
 * believed.
 *
 * What a caller owes
 *
 * A list is lent as a pointer to its first element and its length in elements. Nothing is asked of what a list holds or of how long it is: a job of any
 * bytes gets an answer. The rest is the caller's, and no call tests it:
 *
 * - Pointers are not null, not even that of an empty list, as data() of an empty std::vector may be: lend any aligned address with length 0.
 * - Pointers to uint64_t are aligned to 8 bytes.
 * - The memory is as long as is said. What a call reads is initialised: the job, words, sets, rows and, though they are written too, marks. What it only
 *   writes (x, z, deltas and totals of a run, words of fill, out) need not be.
 * - What a call writes overlaps with no other list of the call. Lists that it only reads may overlap.
 * - While a call runs, nothing else writes what it reads, or touches what it writes: no other thread, and no other process through shared memory or a mapped
 *   file. A call tests a job and then reads it again, relying on the tests: a job that changes in between can make it write out of bounds. Copy a job that
 *   others can change into memory of your own, and lend the copy. Calls on memory of their own may run at the same time.
 * - The stack has room: see KUNDATREZO_RUN_STACK and those beside it.
 * - The floating-point state is the one that a program starts with: round to nearest, subnormal numbers on, no trap. With subnormals off, as in a program
 *   linked with -ffast-math, or another rounding, probabilities and weights are read wrongly and rates are wrong. kundatrezo_float_state_ok tests it.
 *
 * The library keeps no state and no pointer, calls nothing but memcpy and memset, and takes no memory but the stack. It may leave floating-point exception
 * flags raised.
 */
#ifndef KUNDATREZO_H
#define KUNDATREZO_H

#if !defined(__x86_64__) || !defined(__linux__) || defined(__ILP32__)
#error "libkundatrezo.a is compiled for x86-64 Linux with 64-bit pointers; there is none for this target"
#endif

#include <stddef.h>
#include <stdint.h>
#include <xmmintrin.h>

/* Before a call whose answer tells whether its results are there: the compiler warns where it is not looked at. */
#if defined(__GNUC__)
#define KUNDATREZO_ANSWERED __attribute__((warn_unused_result))
#else
#define KUNDATREZO_ANSWERED
#endif

#ifdef __cplusplus
extern "C" {
#endif

/* ---- version: that of this header, which is to be the library's */

#define KUNDATREZO_VERSION "0.1.0"
#define KUNDATREZO_VERSION_MAJOR 0
#define KUNDATREZO_VERSION_MINOR 1
#define KUNDATREZO_VERSION_PATCH 0

/* ---- limits of a job */

#define KUNDATREZO_MAX_BYTES 1048576     /* of a job, and of a text that a call writes */
#define KUNDATREZO_MAX_QUBITS 256        /* a header has 1 to this */
#define KUNDATREZO_MAX_OUTCOMES 1024     /* 0 to this */
#define KUNDATREZO_MAX_SHOTS 4096        /* 1 to this */
#define KUNDATREZO_MAX_MEMBERS 31        /* of a list on a line */
#define KUNDATREZO_MAX_EDITION 2         /* 1 to this; 1 for a header that names none */
#define KUNDATREZO_MAX_GATE 15           /* the last gate code of edition 2; that of edition 1 is 14 */
#define KUNDATREZO_MAX_CLIFFORD_QUBITS 8 /* of a Clifford line */
#define KUNDATREZO_MAX_TABLE_WORDS 4     /* of the table of a Clifford line: KUNDATREZO_TABLE_WORDS(KUNDATREZO_MAX_CLIFFORD_QUBITS) */
#define KUNDATREZO_MAX_ELEMENTS 64       /* of a noise line with d=3 or d=4: 1 to this */
#define KUNDATREZO_MAX_GROUPS 16         /* of outcomes, for the table of single faults: 1 to this */
#define KUNDATREZO_MAX_FAULT_QUBITS 4    /* of a noise line with d=2, for the table of single faults */
#define KUNDATREZO_MAX_CALLERS 8         /* with shares of a main list: 1 to this */

/* The words of the table of a Clifford line of k qubits, 4 k^2 bits: 1 up to 4 qubits, 2 for 5, 3 for 6, 4 for 7 and 8. A line has them in hexadecimal, the
 * least significant first, with commas between. */
#define KUNDATREZO_TABLE_WORDS(k) ((4 * (k) * (k) + 63) / 64)

/* ---- answers */

/* What a call says. */
struct kundatrezo_answer {
    uint64_t number; /* 0: success; else the number of the refusal */
    uint64_t line;   /* the line of the refusal, from 1; 0 with success, and where no line fits */
};

/* What a call that writes a text says. */
struct kundatrezo_text_answer {
    struct kundatrezo_answer answer;
    uint64_t figure; /* with success, the bytes that were written; else 0, but for KUNDATREZO_ROOM from settling: exactly the bytes that the text takes */
};

/* What a call that counts says. */
struct kundatrezo_count_answer {
    struct kundatrezo_answer answer;
    uint64_t count; /* 0 with a refusal */
};

/* What an examination says: with a refusal all numbers are 0. */
struct kundatrezo_examination {
    struct kundatrezo_answer answer;
    uint64_t qubits; /* the header's numbers, but for its edition */
    uint64_t outcomes;
    uint64_t shots;
    uint64_t recorded; /* the outcomes that the job records: those of id 0 to recorded - 1 */
    uint64_t lines;    /* the job's lines, its header's included */
};

/* ---- the numbers of refusals
 *
 * Every call on a job but kundatrezo_line makes the tests of a job: the first bad line of the job counts, and its lowest number. After them come the call's own
 * tests. */

#define KUNDATREZO_LENGTH 1       /* line 0 */
#define KUNDATREZO_FORM 2         /* the bad line; where element lines are missing, the last line */
#define KUNDATREZO_HEADER 3       /* the bad line; 0 for the numbers that kundatrezo_by_shot, kundatrezo_by_outcome and kundatrezo_make are given */
#define KUNDATREZO_QUBIT 4        /* the bad line */
#define KUNDATREZO_OPERANDS 5     /* the bad line */
#define KUNDATREZO_PERMUTATION 6  /* the bad line */
#define KUNDATREZO_CLIFFORD 7     /* the bad line */
#define KUNDATREZO_NEXT_ID 8      /* the bad line */
#define KUNDATREZO_NOT_RECORDED 9 /* the bad line */
#define KUNDATREZO_SHOT 10        /* the bad line */
#define KUNDATREZO_PROBABILITY 11 /* the bad line; 0 for the p that annotation is given */
#define KUNDATREZO_ELEMENTS 12    /* the noise line for n, the element line for its weight, the last element line for the total */
#define KUNDATREZO_WORDS 13       /* line 0 */
#define KUNDATREZO_DRAWS 14       /* the noise line */
#define KUNDATREZO_ROOM 15        /* line 0 */
#define KUNDATREZO_NOISE 16       /* the first noise line */
#define KUNDATREZO_WALK 17        /* line 0 */
#define KUNDATREZO_ANNOTATION 18  /* the first line whose noise does not fit a noise line */
#define KUNDATREZO_SIZES 19       /* the later line */
#define KUNDATREZO_CONTROL 20     /* the bad line; a test of the line, after 12 */
#define KUNDATREZO_SIZE 21        /* the noise line; a test of the line, after 12 and 20 */
#define KUNDATREZO_SEED 22        /* line 0 */
#define KUNDATREZO_EDITION 23     /* line 1; a test of the header, after 3 */
#define KUNDATREZO_GROUPS 24      /* line 0 for the number of groups; else the first noise line with too many qubits */
#define KUNDATREZO_SHARES 25      /* line 0 */
#define KUNDATREZO_CALLER 26      /* line 0 */

/* What a number means, in words. */
static inline const char *kundatrezo_refusal_text(uint64_t number)
{
    switch (number) {
    case 0: return "accepted";
    case KUNDATREZO_LENGTH: return "the job is empty, longer than 1,048,576 bytes, or has no LF at its end";
    case KUNDATREZO_FORM: return "form of a line in the job's edition, an unknown gate code, or the job ends before its element lines";
    case KUNDATREZO_HEADER: return "header missing, repeated or out of range";
    case KUNDATREZO_QUBIT: return "a qubit not below the header's qubits";
    case KUNDATREZO_OPERANDS: return "number of operands, a repeated operand, or a list of more than 31";
    case KUNDATREZO_PERMUTATION: return "s is no permutation of the places";
    case KUNDATREZO_CLIFFORD: return "not a Clifford";
    case KUNDATREZO_NEXT_ID: return "id of a measurement or an allocation not the next one, or not below the header's outcomes";
    case KUNDATREZO_NOT_RECORDED: return "an outcome that is not recorded yet";
    case KUNDATREZO_SHOT: return "a shot not below the header's shots";
    case KUNDATREZO_PROBABILITY: return "p is NaN or above 1";
    case KUNDATREZO_ELEMENTS: return "n not 1 to 64; a weight below zero or not finite; their total zero or not finite";
    case KUNDATREZO_WORDS: return "lent words too few";
    case KUNDATREZO_DRAWS: return "a needed draw lies past its list";
    case KUNDATREZO_ROOM: return "the text is longer than the lent bytes or 1,048,576";
    case KUNDATREZO_NOISE: return "noise in a walk";
    case KUNDATREZO_WALK: return "the walk's shot not below the header's shots; a set or group cut short, not strictly rising, or with an outcome that is not recorded";
    case KUNDATREZO_ANNOTATION: return "annotation over more than 31 qubits";
    case KUNDATREZO_SIZES: return "sizes of one correlation differ";
    case KUNDATREZO_CONTROL: return "control and target of a controlled Pauli anticommute";
    case KUNDATREZO_SIZE: return "the size written differs from the distribution's";
    case KUNDATREZO_SEED: return "the seed is zero";
    case KUNDATREZO_EDITION: return "the header's edition is neither 1 nor 2";
    case KUNDATREZO_GROUPS: return "no groups, more than 16, or noise with d=2 over more than 4 qubits in a table of single faults";
    case KUNDATREZO_SHARES: return "the shares total more than the list, there are no callers or more than 8, or more is marked taken than a part holds";
    case KUNDATREZO_CALLER: return "the caller's number is not below the number of callers";
    default: return "a number that this header does not know";
    }
}

/* ---- before a call */

/* 1 where the floating-point state of this thread is the one that calls need, else 0. */
static inline int kundatrezo_float_state_ok(void)
{
    /* of MXCSR: denormals-are-zero, the six exception masks, the rounding mode, flush-to-zero */
    return (_mm_getcsr() & 0xffc0u) == 0x1f80u;
}

/* The bytes of stack that a call takes at most, those of memcpy and memset and of binding them included. The tests measure them. They are for the call
 * alone: a thread whose whole stack has this size has less for the call, since the thread's own data and guard page lie there, too. One page more,
 * KUNDATREZO_RUN_STACK + 4096 for a thread that only runs jobs, is enough (and at least PTHREAD_STACK_MIN, which the system asks for). */
#define KUNDATREZO_RUN_STACK 69632    /* with totals and with a share, too */
#define KUNDATREZO_SETTLE_STACK 45056 /* with a share, too */
#define KUNDATREZO_CORRELATION_STACK 98304
#define KUNDATREZO_FAULT_TABLE_STACK 16384
#define KUNDATREZO_OTHER_STACK 8192 /* every other call */

/* Words of a row: bit s % 64 of word s / 64 is shot s. */
#define KUNDATREZO_ROW_WORDS(shots) (((shots) + 63) / 64)

/* The words that x and z of a run need, each. */
static inline size_t kundatrezo_frame_words(struct kundatrezo_examination job)
{
    return job.qubits * KUNDATREZO_ROW_WORDS(job.shots);
}

/* The words that deltas and noiseless need, each. */
static inline size_t kundatrezo_outcome_words(struct kundatrezo_examination job)
{
    return job.outcomes * KUNDATREZO_ROW_WORDS(job.shots);
}

/* ---- the calls */

/* The tests of a job: number 0 if the job is accepted, else the first bad line and its lowest number. Nothing is written. */
KUNDATREZO_ANSWERED
struct kundatrezo_answer kundatrezo_check(const uint8_t *job, size_t job_len);

/* The same tests, and of an accepted job the numbers that a caller needs to lend memory for it. Nothing is written. */
KUNDATREZO_ANSWERED
struct kundatrezo_examination kundatrezo_examine(const uint8_t *job, size_t job_len);

/* A run of all shots from cleared frames.
 *
 * w = KUNDATREZO_ROW_WORDS(shots) words make a row, bit s % 64 of word s / 64 being shot s; rows lie one after the other. x and z have a row for each
 * qubit of the header: the X and Z parts of the frames. deltas has a row for each outcome of the header, recorded or not: where it is 1, the outcome
 * differs from the noiseless one. noiseless has the outcomes' noiseless bits in the same layout, which conditions of noise lines look at. It is needed
 * even if no line has a condition. main_words and second are lists of random words: noise lines read on in main_words, and one with corr c reads second
 * from base + c on, modulo 2^64.
 *
 * x, z and deltas are written: the words that the header needs hold the frames and deltas at the end, their bits past the last shot 0; words beyond them
 * stay. Bits of noiseless past the last shot are not looked at. A refusal writes nothing, but for KUNDATREZO_DRAWS, which leaves the needed words 0. */
KUNDATREZO_ANSWERED
struct kundatrezo_answer kundatrezo_run(const uint8_t *job, size_t job_len, uint64_t *x, size_t x_len, uint64_t *z, size_t z_len, uint64_t *deltas,
                                        size_t deltas_len, const uint64_t *noiseless, size_t noiseless_len, const uint64_t *main_words,
                                        size_t main_len, const uint64_t *second, size_t second_len, uint64_t base);

/* The same run, which also counts for each outcome the shots in which it is flipped: totals has a number for each outcome of the header, and becomes the ones
 * in its row of deltas; that of an outcome which no line records is 0. Numbers beyond the header's outcomes stay. A list that is shorter than the outcomes is
 * refused by KUNDATREZO_WORDS, and KUNDATREZO_DRAWS leaves the numbers of the header's outcomes 0. */
KUNDATREZO_ANSWERED
struct kundatrezo_answer kundatrezo_run_totals(const uint8_t *job, size_t job_len, uint64_t *x, size_t x_len, uint64_t *z, size_t z_len, uint64_t *deltas,
                                               size_t deltas_len, uint64_t *totals, size_t totals_len, const uint64_t *noiseless, size_t noiseless_len,
                                               const uint64_t *main_words, size_t main_len, const uint64_t *second, size_t second_len,
                                               uint64_t base);

/* Settling: the job with each noise line, with its element lines, replaced by the injections that a run with the same words draws. Bytes of out
 * beyond the text stay, and a refusal writes nothing; the figure of KUNDATREZO_ROOM is exactly the bytes that the text takes, which may be more than
 * KUNDATREZO_MAX_BYTES; with as many lent, and the same draws, a second call succeeds where it is not. */
KUNDATREZO_ANSWERED
struct kundatrezo_text_answer kundatrezo_settle(const uint8_t *job, size_t job_len, const uint64_t *noiseless, size_t noiseless_len,
                                                const uint64_t *main_words, size_t main_len, const uint64_t *second, size_t second_len,
                                                uint64_t base, uint8_t *out, size_t out_len);

/* ---- callers with shares of a main list
 *
 * Up to KUNDATREZO_MAX_CALLERS callers run and settle jobs from one main list. shares has a number for each caller: so many words, a stretch at the front of
 * main_words, in the order of callers. What lies behind all stretches is common. marks has a number for each caller, how many words were taken of the stretch,
 * and behind them one more, how many were taken of the common part; each part is taken from its front on. Before the first job all marks are 0, and each call
 * is lent those that the last one left. caller is the number of the one who calls, from 0.
 *
 * A job takes words of the caller's own stretch first and then common ones, and never another's; the draws of one noise line may lie in both. KUNDATREZO_DRAWS
 * at a line that reads the main list means that both are used up at the word needed. With success, and with KUNDATREZO_DRAWS for either list, the words that
 * the job took stay taken, and the caller's mark and that of the common part are written. A job that is refused by any other number takes none, and marks stay;
 * so do numbers of marks behind those of the callers and the common part.
 *
 * How many words a run takes of a list: one caller with no stretch, shares {0} and marks {0, 0}, has the whole list as its common part, and the call leaves in
 * marks[1] how many words were taken from its front. The next run goes on there, with the marks as they are. A line with a corr takes none of this list.
 *
 * So no word is handed out twice, and a caller whose jobs stay within the own stretch gets the same whatever the others do. This is so for the same list and
 * shares, and for calls that are made one after the other: no two calls may be lent the same marks at the same time.
 *
 * After the tests of a job come KUNDATREZO_WORDS (fewer marks than one more than the callers, too), KUNDATREZO_SHARES, which looks at all shares and marks,
 * KUNDATREZO_CALLER, KUNDATREZO_DRAWS and, with settling, KUNDATREZO_ROOM. */

/* The run of kundatrezo_run_totals, with the words that are available to the caller in the place of main_words. What is lent, written and refused is as there,
 * but for the marks. */
KUNDATREZO_ANSWERED
struct kundatrezo_answer kundatrezo_run_shared(const uint8_t *job, size_t job_len, uint64_t *x, size_t x_len, uint64_t *z, size_t z_len, uint64_t *deltas,
                                               size_t deltas_len, uint64_t *totals, size_t totals_len, const uint64_t *noiseless, size_t noiseless_len,
                                               const uint64_t *main_words, size_t main_len, const uint64_t *second, size_t second_len, uint64_t base,
                                               const uint64_t *shares, size_t shares_len, uint64_t *marks, size_t marks_len, uint64_t caller);

/* Settling with the words that are available to the caller, which it takes as a run does: to settle a job and then run it takes words twice, so run the settled
 * text. KUNDATREZO_ROOM takes none, so that a second call with as many bytes as its figure says draws the same. */
KUNDATREZO_ANSWERED
struct kundatrezo_text_answer kundatrezo_settle_shared(const uint8_t *job, size_t job_len, const uint64_t *noiseless, size_t noiseless_len,
                                                       const uint64_t *main_words, size_t main_len, const uint64_t *second, size_t second_len,
                                                       uint64_t base, const uint64_t *shares, size_t shares_len, uint64_t *marks, size_t marks_len,
                                                       uint64_t caller, uint8_t *out, size_t out_len);

/* ---- the walk, and around the engine */

/* The walk: how many of the job's injections and flips in the shot flip the sum of the outcomes in the set. The job has no noise (settle it first);
 * the set's outcomes rise strictly and are recorded by the job. Nothing is written. */
KUNDATREZO_ANSWERED
struct kundatrezo_count_answer kundatrezo_walk(const uint8_t *job, size_t job_len, uint64_t shot, const uint64_t *set, size_t set_len);

/* Annotation: the job with a depolarizing noise line before each measurement and after each gate (u, c, p, e, k, m lines). p_bits is the
 * probability by the bits of its double; one that is NaN or above 1 is refused by KUNDATREZO_PROBABILITY with line 0. Bytes of out beyond the text stay,
 * and a refusal writes nothing. A qubit that control and target of a k line share stands in its noise line once, with the control's; size= is that of
 * the list as it stands there.
 * KUNDATREZO_ANNOTATION names the first line whose noise line would have more than KUNDATREZO_MAX_MEMBERS. */
KUNDATREZO_ANSWERED
struct kundatrezo_text_answer kundatrezo_annotate(const uint8_t *job, size_t job_len, uint64_t p_bits, uint8_t *out, size_t out_len);

/* How many fault locations the job has: twice the qubits of the lines to which annotation adds noise, summed. A qubit that control and target of a k line
 * share counts for both. It counts also where annotation refuses by KUNDATREZO_ANNOTATION or KUNDATREZO_ROOM. Nothing is written. */
KUNDATREZO_ANSWERED
struct kundatrezo_count_answer kundatrezo_locations(const uint8_t *job, size_t job_len);

/* The table of single faults: what each possible fault does to groups of outcomes. For each noise line, in the job's order, and each element of its
 * distribution, in the distribution's order, it has a line
 *
 *     line=L el=I groups=G
 *
 * and LF: L is the noise line's number in the job, I counts the elements from 0, and G has a character for each group, the first group first: 1 where that
 * element, as the only fault of a shot, makes the deltas of the group sum to 1 modulo 2, else 0. The job's own injections and flips and all other noise count
 * as absent. Probabilities, weights, conditions and draws play no part: an element that is never drawn has its line, too. Element I of d=2 is the one that the
 * choice I takes.
 *
 * groups is one list: a group's length, then its outcomes, then the next group's length, and so on to the list's end. The outcomes of a group rise strictly
 * and are recorded by the job; a group may be empty. A group that is not so, or that the list's end cuts short, is refused by KUNDATREZO_WALK, whichever it
 * is. After that KUNDATREZO_GROUPS refuses no groups or more than KUNDATREZO_MAX_GROUPS, with line 0, and then the first noise line with d=2 over more than
 * KUNDATREZO_MAX_FAULT_QUBITS qubits.
 *
 * Bytes of out beyond the table stay, and a refusal writes nothing. The figure of KUNDATREZO_ROOM is 0: lend KUNDATREZO_MAX_BYTES, more than which no
 * accepted table has. */
KUNDATREZO_ANSWERED
struct kundatrezo_text_answer kundatrezo_fault_table(const uint8_t *job, size_t job_len, const uint64_t *groups, size_t groups_len, uint8_t *out,
                                                     size_t out_len);

/* The correlation check: whether noise lines of one correlation all have one size, as their field size= says it. Nothing is written. */
KUNDATREZO_ANSWERED
struct kundatrezo_answer kundatrezo_correlation(const uint8_t *job, size_t job_len);

/* ---- a reproducible load
 *
 * The same seed gives the same words, and the same parameters the same job, on every machine. */

/* Words from a seed: Marsaglia's 64-bit xorshift. The state begins as the seed, and each step changes it by exclusive or with itself shifted left 13, then
 * right 7, then left 17, all in 64 bits; the new state is the next word. Every word of the list is written. From 1 the first word is 1,082,269,761. The last
 * word is the seed by which a further call goes on. A seed of 0 is refused by KUNDATREZO_SEED, also for an empty list, and nothing is written.
 *
 * The streams of small seeds begin alike: for a series of runs take one stream and go on in it, or seeds that are random themselves. */
KUNDATREZO_ANSWERED
struct kundatrezo_answer kundatrezo_fill(uint64_t seed, uint64_t *words, size_t words_len);

/* A job made from the same stream, by the rule of docs/MAKING.md: a header with these numbers, of an edition that the stream chooses, and as many lines behind
 * it as are asked for, the element lines of noise not counted. Every made job is accepted by kundatrezo_check, and, for 1 to 1,000 lines with
 * KUNDATREZO_MAX_BYTES lent, every kind of line that these numbers allow comes up for some seed. Numbers that a header may not hold are refused by
 * KUNDATREZO_HEADER with line 0, then a seed of 0 by KUNDATREZO_SEED, then a text that does not fit by KUNDATREZO_ROOM, whose figure is 0. Up to 1,000 lines
 * always fit KUNDATREZO_MAX_BYTES. Bytes of out beyond the text stay, and a refusal writes nothing. */
KUNDATREZO_ANSWERED
struct kundatrezo_text_answer kundatrezo_make(uint64_t qubits, uint64_t outcomes, uint64_t shots, uint64_t lines, uint64_t seed, uint8_t *out,
                                              size_t out_len);

/* ---- lines, and outcomes by shot */

/* Where a line lies in the job's bytes. */
struct kundatrezo_line_part {
    size_t start;
    size_t len; /* without the LF */
};

/* Where the line lies that an answer names by its number, from 1, so that a caller can show it: len bytes from start on. Where there is no such line,
 * start is job_len and len 0. The bytes need not be those of an accepted job. Nothing is written. */
struct kundatrezo_line_part kundatrezo_line(const uint8_t *job, size_t job_len, uint64_t number);

/* Outcomes by shot: deltas, which has a row of KUNDATREZO_ROW_WORDS(shots) words for each outcome, as a run leaves them, becomes a row of
 * KUNDATREZO_ROW_WORDS(outcomes) words for each shot, in order: bit o % 64 of word o / 64 is outcome o, and bits past the last outcome are 0. Bits of deltas
 * past the last shot go nowhere. Counts that a header may not hold are refused by KUNDATREZO_HEADER, and fewer words than that on either side by
 * KUNDATREZO_WORDS, each with line 0. A refusal writes nothing, and words of out beyond the rows stay. */
KUNDATREZO_ANSWERED
struct kundatrezo_answer kundatrezo_by_shot(uint64_t outcomes, uint64_t shots, const uint64_t *deltas, size_t deltas_len, uint64_t *out, size_t out_len);

/* The way back: rows by shot become deltas, whose bits past the last shot are 0. Bits of rows past the last outcome go nowhere. The words needed on each side,
 * and what is refused, are as for kundatrezo_by_shot. */
KUNDATREZO_ANSWERED
struct kundatrezo_answer kundatrezo_by_outcome(uint64_t outcomes, uint64_t shots, const uint64_t *rows, size_t rows_len, uint64_t *out, size_t out_len);

#ifdef __cplusplus
}
#endif

#endif
