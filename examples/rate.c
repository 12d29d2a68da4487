/* How often an odd number of the outcomes 4, 5 and 6 of a job is flipped, in 1,000 runs of its shots. In the repository's folder:
 *
 *     cc -Iinclude examples/rate.c "$(./setup --library)/libkundatrezo.a" -o target/rate && target/rate <examples/syndrome.job
 */
#include <stdio.h>
#include <stdlib.h>

#include "kundatrezo.h"

#define RUNS 1000

static uint64_t *lent(size_t words)
{
    uint64_t *list = calloc(words > 0 ? words : 1, sizeof *list); /* an empty list has an address, too */
    if (list == NULL) {
        fprintf(stderr, "no memory\n");
        exit(2);
    }
    return list;
}

static uint64_t ones(uint64_t word)
{
    uint64_t count = 0;
    for (; word != 0; word &= word - 1)
        count++;
    return count;
}

int main(void)
{
    static uint8_t job[KUNDATREZO_MAX_BYTES + 1]; /* one byte more than a job may have tells a longer one */
    size_t job_len = fread(job, 1, sizeof job, stdin);
    struct kundatrezo_examination found = kundatrezo_examine(job, job_len);
    struct kundatrezo_answer answer = found.answer;
    if (answer.number == 0 && found.recorded < 7) {
        fprintf(stderr, "the job is to record outcomes 0 to 6\n");
        return 2;
    }
    size_t frame = kundatrezo_frame_words(found), outcome = kundatrezo_outcome_words(found), row = KUNDATREZO_ROW_WORDS(found.shots);
    uint64_t *x = lent(frame), *z = lent(frame), *deltas = lent(outcome), *noiseless = lent(outcome);
    /* a noise line reads up to two words for each shot, and one more for each that is rejected, which is seldom */
    size_t main_len = 2 * found.shots * found.lines + 64;
    uint64_t *main_words = lent(main_len), *second_words = lent(0);
    uint64_t seed = 0x9e3779b97f4a7c15u, odd = 0;
    for (int run = 0; answer.number == 0 && run < RUNS; run++) {
        answer = kundatrezo_fill(seed, main_words, main_len);
        seed = main_words[main_len - 1]; /* the stream goes on from the last word */
        if (answer.number == 0)
            answer = kundatrezo_run(job, job_len, x, frame, z, frame, deltas, outcome, noiseless, outcome, main_words, main_len, second_words, 0, 0);
        for (size_t word = 0; word < row; word++)
            odd += ones(deltas[4 * row + word] ^ deltas[5 * row + word] ^ deltas[6 * row + word]);
    }
    free(x);
    free(z);
    free(deltas);
    free(noiseless);
    free(main_words);
    free(second_words);
    if (answer.number != 0) {
        fprintf(stderr, "refused: %llu (%s) at line %llu\n", (unsigned long long)answer.number, kundatrezo_refusal_text(answer.number),
                (unsigned long long)answer.line);
        return 1;
    }
    printf("%llu of %llu shots\n", (unsigned long long)odd, (unsigned long long)(RUNS * found.shots));
    return 0;
}
