/* A session from C: the ceilings, setup, an objective of two subjects and its shrinkage, the same with replies
 * that lend one subject's observations, the same again from kept evaluations, calls that are not due, and a
 * simulator that fails. Exits with 0 where all of it is as document 01 says. */
#include "curlewstand.h"

#include <stdio.h>
#include <string.h>

enum { SUBJECTS = 2, K = 64 };

static struct curlewstand_tally tally = {7, 7};
static uint64_t state[CURLEWSTAND_STATE_WORDS], answer[CURLEWSTAND_ANSWER_WORDS];
static uint64_t cache[24 * K], work[12], warm[SUBJECTS], results[5 * SUBJECTS];
static const uint64_t counts[SUBJECTS] = {1, 1};
static const struct curlewstand_observation observations[SUBJECTS] = {{0, 0, 1.2, 1., 0.}, {0, 0, 0.7, 1., 0.}};
static const struct curlewstand_setup setup = {
    .effects = 1, .omega_00 = 1., .eta_bound = 4., .gradient_tolerance = 1e-4, .width = 1, .k = K,
    .output_budget = 100, .max_evaluations = 1000,
};
static int failures;

static double number(uint64_t word) {
    double x;
    memcpy(&x, &word, sizeof x);
    return x;
}

static uint64_t word(double x) {
    uint64_t w;
    memcpy(&w, &x, sizeof w);
    return w;
}

static void expect(bool holds, const char *what) {
    if (!holds) {
        fprintf(stderr, "session.c: %s does not hold\n", what);
        failures++;
    }
}

#define EXPECT(fact) expect(fact, #fact)

static uint32_t objective(double theta) {
    struct curlewstand_parameters parameters = {.theta = theta, .omega = 1.};
    return curlewstand_objective(setup, parameters, observations, SUBJECTS, counts, SUBJECTS, &tally,
                                 state, CURLEWSTAND_STATE_WORDS, answer, CURLEWSTAND_ANSWER_WORDS,
                                 cache, 24 * K, work, 12, warm, SUBJECTS, results, 5 * SUBJECTS);
}

static uint32_t reply(const uint64_t *words, size_t n) {
    return curlewstand_reply(setup, observations, SUBJECTS, counts, SUBJECTS, words, n, &tally,
                             state, CURLEWSTAND_STATE_WORDS, answer, CURLEWSTAND_ANSWER_WORDS,
                             cache, 24 * K, work, 12, warm, SUBJECTS, results, 5 * SUBJECTS);
}

/* the same, with the observations of the awaited subject alone */
static uint32_t subject_reply(const uint64_t *words, size_t n) {
    const struct curlewstand_observation *own = observations + state[CURLEWSTAND_STATE_FIRST];
    return curlewstand_subject_reply(setup, own, counts[state[CURLEWSTAND_STATE_SUBJECT]], counts, SUBJECTS, words, n,
                                     &tally, state, CURLEWSTAND_STATE_WORDS, answer, CURLEWSTAND_ANSWER_WORDS,
                                     cache, 24 * K, work, 12, warm, SUBJECTS, results, 5 * SUBJECTS);
}

static uint32_t open_session(void) {
    return curlewstand_setup(setup, observations, SUBJECTS, counts, SUBJECTS, &tally, state, CURLEWSTAND_STATE_WORDS,
                             answer, CURLEWSTAND_ANSWER_WORDS, cache, 24 * K, work, 12, warm, SUBJECTS,
                             results, 5 * SUBJECTS);
}

/* the shrinkage as state and answer tell it, with so many words of the state and so many counts */
static uint32_t shrinkage(size_t words, size_t subjects, double *told) {
    return curlewstand_shrinkage(counts, subjects, state, words, answer, CURLEWSTAND_ANSWER_WORDS, told);
}

/* there is no shrinkage, and what stood in its place stays */
static bool has_no_shrinkage(size_t words, size_t subjects) {
    double told = 0.25;
    return shrinkage(words, subjects, &told) == 19 && told == 0.25;
}

int main(void) {
    EXPECT(curlewstand_ceiling(1) == 82 && curlewstand_ceiling(2) == 6343);
    EXPECT(curlewstand_ceiling(0) == 0 && curlewstand_ceiling(3) == 0);

    EXPECT(has_no_shrinkage(CURLEWSTAND_STATE_WORDS, SUBJECTS));
    EXPECT(open_session() == 0);
    EXPECT(answer[0] == CURLEWSTAND_ENDED && tally.calls == 0 && tally.cached_rows == 0);
    EXPECT(has_no_shrinkage(CURLEWSTAND_STATE_WORDS, SUBJECTS));
    EXPECT(has_no_shrinkage(CURLEWSTAND_STATE_WORDS, 1));

    /* an objective whose replies lend the awaited subject's observations: what it leaves is set aside */
    static uint64_t results_alone[5 * SUBJECTS], cache_alone[24 * K], state_alone[CURLEWSTAND_STATE_WORDS];
    uint32_t alone = objective(1.);
    while (alone == 0 && answer[0] == CURLEWSTAND_ASKED) {
        uint64_t row[4] = {word(0.), 0, answer[3], word(1.)};
        alone = subject_reply(row, 4);
    }
    EXPECT(alone == 0 && answer[0] == CURLEWSTAND_ENDED);
    uint64_t objective_alone = answer[1];
    struct curlewstand_tally tally_alone = tally;
    memcpy(results_alone, results, sizeof results);
    memcpy(cache_alone, cache, sizeof cache);
    memcpy(state_alone, state, sizeof state);

    /* one that nobody asked for, and one that lends what the subject's count does not say */
    EXPECT(subject_reply(counts, SUBJECTS) == 19);
    EXPECT(objective(2.) == 0 && answer[0] == CURLEWSTAND_ASKED);
    EXPECT(curlewstand_subject_reply(setup, observations, SUBJECTS, counts, SUBJECTS, counts, SUBJECTS, &tally,
                                     state, CURLEWSTAND_STATE_WORDS, answer, CURLEWSTAND_ANSWER_WORDS, cache, 24 * K,
                                     work, 12, warm, SUBJECTS, results, 5 * SUBJECTS) == 1);
    EXPECT(answer[0] == CURLEWSTAND_REFUSED && answer[2] == CURLEWSTAND_NOWHERE);

    /* a new session, whose replies lend all observations */
    EXPECT(open_session() == 0);

    /* the simulator predicts the individual value itself */
    uint32_t refused = objective(1.), questions = 0;
    while (refused == 0 && answer[0] == CURLEWSTAND_ASKED) {
        uint64_t row[4] = {word(0.), 0, answer[3], word(1.)};
        EXPECT(has_no_shrinkage(CURLEWSTAND_STATE_WORDS, SUBJECTS));
        questions++;
        refused = reply(row, 4);
    }
    EXPECT(refused == 0 && answer[0] == CURLEWSTAND_ENDED);
    EXPECT(questions <= curlewstand_ceiling(setup.effects) * SUBJECTS && tally.calls == questions);
    double value = number(answer[1]);

    /* its shrinkage, with omega 1; there is none of another number of subjects, or of too few words */
    double shrunk = 0., squares = number(results[0]) * number(results[0]) + number(results[3]) * number(results[3]);
    EXPECT(shrinkage(CURLEWSTAND_STATE_WORDS, SUBJECTS, &shrunk) == 0);
    EXPECT(shrunk == 1. - squares / SUBJECTS / 1.);
    EXPECT(has_no_shrinkage(CURLEWSTAND_STATE_WORDS, SUBJECTS - 1));
    EXPECT(has_no_shrinkage(CURLEWSTAND_STATE_WORDS, 0));
    EXPECT(has_no_shrinkage(CURLEWSTAND_STATE_WORDS - 1, SUBJECTS));
    EXPECT(answer[1] == objective_alone && tally.calls == tally_alone.calls);
    EXPECT(tally.cached_rows == tally_alone.cached_rows && memcmp(state, state_alone, sizeof state) == 0);
    EXPECT(memcmp(results, results_alone, sizeof results) == 0 && memcmp(cache, cache_alone, sizeof cache) == 0);
    EXPECT(number(results[0]) > 0. && number(results[3]) < 0.);
    EXPECT(number(warm[0]) == number(results[0]) && number(warm[1]) == number(results[3]));

    /* a reply that nobody asked for alters nothing */
    EXPECT(reply(counts, SUBJECTS) == 19);
    EXPECT(answer[0] == CURLEWSTAND_REFUSED && answer[1] == 19 && answer[2] == CURLEWSTAND_NOWHERE);
    EXPECT(has_no_shrinkage(CURLEWSTAND_STATE_WORDS, SUBJECTS));

    /* the same objective again, from kept evaluations alone: the warm trials are its only questions */
    refused = objective(1.);
    while (refused == 0 && answer[0] == CURLEWSTAND_ASKED) {
        uint64_t row[4] = {word(0.), 0, answer[3], word(1.)};
        refused = reply(row, 4);
    }
    EXPECT(refused == 0 && number(answer[1]) == value);

    /* a simulator that fails */
    EXPECT(objective(2.) == 0 && answer[0] == CURLEWSTAND_ASKED);
    EXPECT(curlewstand_failure(setup, observations, SUBJECTS, counts, SUBJECTS, &tally, state, CURLEWSTAND_STATE_WORDS,
                               answer, CURLEWSTAND_ANSWER_WORDS, cache, 24 * K, work, 12, warm, SUBJECTS,
                               results, 5 * SUBJECTS) == 8);
    EXPECT(answer[2] == CURLEWSTAND_SUBJECT && answer[3] == 0);
    EXPECT(has_no_shrinkage(CURLEWSTAND_STATE_WORDS, SUBJECTS));
    if (failures == 0) printf("session.c: %u evaluations, objective %.6f\n", tally.calls, value);
    return failures != 0;
}
