/* A session with one effect from C: the ceilings, setup, an objective of two subjects with replies that lend one
 * subject's observations, the same with replies that lend all of them, its shrinkage and its scale, the same
 * again from kept evaluations and in a session that is opened anew, calls that are not due, short answers,
 * refused setups, settings that do nothing, and a simulator that fails. The struct of the header is used where
 * what is lent is not what is tested. Exits with 0 where all of it is as document 01 and the header say. */
#include "curlewstand.h"

#include <stdio.h>

enum { SUBJECTS = 2, K = 64, ROW = CURLEWSTAND_ROW_WORDS(1, 1) };

static uint64_t cache[CURLEWSTAND_CACHE_WORDS(K)], work[CURLEWSTAND_WORK_WORDS(1)];
static uint64_t warm[CURLEWSTAND_WARM_WORDS(1, SUBJECTS)];
static uint64_t results[CURLEWSTAND_RESULT_WORDS(SUBJECTS, SUBJECTS) + 2]; /* two more than are lent */
static const uint64_t counts[SUBJECTS] = {1, 1};
static const struct curlewstand_observation observations[SUBJECTS] = {{0, 0, 1.2, 1., 0.}, {0, 0, 0.7, 1., 0.}};
static struct curlewstand_session s = {
    .setup = {.effects = 1, .omega_00 = 1., .eta_bound = 4., .gradient_tolerance = 1e-4, .width = 1, .k = K,
              .output_budget = 100, .max_evaluations = 1000},
    .observations = observations, .n_observations = SUBJECTS, .counts = counts, .n_subjects = SUBJECTS,
    .cache = cache, .n_cache = CURLEWSTAND_CACHE_WORDS(K), .work = work, .n_work = CURLEWSTAND_WORK_WORDS(1),
    .warm = warm, .n_warm = CURLEWSTAND_WARM_WORDS(1, SUBJECTS),
    .results = results, .n_results = CURLEWSTAND_RESULT_WORDS(SUBJECTS, SUBJECTS),
};
static int failures;

static void expect(bool holds, const char *what) {
    if (!holds) {
        fprintf(stderr, "session_struct.c: %s does not hold\n", what);
        failures++;
    }
}

#define EXPECT(fact) expect(fact, #fact)

/* ---- the calls whose arguments are what is tested */

static uint32_t setup(size_t n_answer) {
    return curlewstand_setup(s.setup, observations, SUBJECTS, counts, SUBJECTS, &s.tally, s.state,
                             CURLEWSTAND_STATE_WORDS, s.answer, n_answer, cache, s.n_cache, work, s.n_work,
                             warm, s.n_warm, results, s.n_results);
}

/* a reply with the observations of all subjects */
static uint32_t reply(const uint64_t *words, size_t n) {
    return curlewstand_reply(s.setup, observations, SUBJECTS, counts, SUBJECTS, words, n, &s.tally, s.state,
                             CURLEWSTAND_STATE_WORDS, s.answer, CURLEWSTAND_ANSWER_WORDS, cache, s.n_cache,
                             work, s.n_work, warm, s.n_warm, results, s.n_results);
}

/* all observations where those of the awaited subject are due */
static uint32_t subject_reply_with_all(void) {
    return curlewstand_subject_reply(s.setup, observations, SUBJECTS, counts, SUBJECTS, counts, SUBJECTS, &s.tally,
                                     s.state, CURLEWSTAND_STATE_WORDS, s.answer, CURLEWSTAND_ANSWER_WORDS,
                                     cache, s.n_cache, work, s.n_work, warm, s.n_warm, results, s.n_results);
}

/* the shrinkage as state and answer tell it, with so many words of the state and so many counts */
static uint32_t shrinkage(size_t words, size_t subjects, double *told) {
    return curlewstand_shrinkage(counts, subjects, s.state, words, s.answer, CURLEWSTAND_ANSWER_WORDS, told);
}

/* there is no shrinkage, and what stood in its place stays */
static bool has_no_shrinkage(size_t words, size_t subjects) {
    double told = 0.25;
    return shrinkage(words, subjects, &told) == 19 && told == 0.25;
}

/* ---- an objective */

static uint32_t begin(double theta) {
    struct curlewstand_parameters parameters = {.theta = theta, .omega = 1.};
    return curlewstand_begin(&s, parameters);
}

/* answers the questions of an objective that was begun with theta 1, with the one kind of reply or the other;
 * the simulator predicts the individual value itself */
static uint32_t play(bool lends_all, uint32_t *questions) {
    uint32_t before = s.tally.calls, refused = begin(1.);
    for (*questions = 0; refused == 0 && curlewstand_asks(&s);) {
        uint64_t row[ROW];
        double value = curlewstand_asked_individual(&s, 0), derivative = 1.;
        EXPECT(curlewstand_row(&s, row, 2., CURLEWSTAND_POST, &value, &derivative) == row + ROW);
        EXPECT(curlewstand_float(row[0]) == 2. && row[1] == 1);
        EXPECT(row[2] == s.answer[3] && curlewstand_float(row[3]) == 1.);
        EXPECT(fabs(exp(curlewstand_asked_eta(&s, 0)) - value) < 1e-12 * value && isnan(curlewstand_asked_eta(&s, 1)));
        EXPECT(curlewstand_asked_subject(&s) == s.state[CURLEWSTAND_STATE_SUBJECT] && isnan(curlewstand_value(&s)));
        EXPECT(has_no_shrinkage(CURLEWSTAND_STATE_WORDS, SUBJECTS) && isnan(curlewstand_shrinkage_now(&s)));
        /* the awaited evaluation is counted */
        ++*questions;
        EXPECT(s.tally.calls == before + *questions);
        refused = lends_all ? reply(row, ROW) : curlewstand_resume(&s, row, ROW);
    }
    return refused;
}

/* ---- what is tested */

static void figures(void) {
    EXPECT(curlewstand_interface_2() == CURLEWSTAND_INTERFACE);
    EXPECT(curlewstand_ceiling(1) == 82 && curlewstand_ceiling(2) == 6343);
    EXPECT(curlewstand_ceiling(0) == 0 && curlewstand_ceiling(3) == 0);
    EXPECT(curlewstand_booked(&s) == 82 * SUBJECTS);
    EXPECT(strcmp(curlewstand_sentence(0), "nothing is refused") == 0);
    EXPECT(strcmp(curlewstand_sentence(21), "an unknown refusal") == 0);
    for (uint32_t number = 1; number <= 21; number++)
        for (uint32_t other = 0; other < number; other++)
            EXPECT(strcmp(curlewstand_sentence(number), curlewstand_sentence(other)) != 0);
}

/* what the last word of each size is for: with one less 5 is the answer, and with all of them 0 */
static void sizes(void) {
    size_t *lengths[] = {&s.n_cache, &s.n_work, &s.n_warm, &s.n_results};
    for (int i = 0; i < 4; i++) {
        --*lengths[i];
        EXPECT(curlewstand_open(&s) == 5 && begin(1.) == 19 && s.tally.calls == 0);
        ++*lengths[i];
        EXPECT(curlewstand_open(&s) == 0);
    }
}

/* of an answer that is lent fewer words the first are written, and no more of them than are lent */
static void short_answers(void) {
    for (size_t n = 0; n <= CURLEWSTAND_ANSWER_WORDS; n++) {
        for (size_t i = 0; i < CURLEWSTAND_ANSWER_WORDS; i++) s.answer[i] = 77;
        EXPECT(setup(n) == 0);
        for (size_t i = 0; i < CURLEWSTAND_ANSWER_WORDS; i++)
            EXPECT(s.answer[i] == (i >= n ? 77 : i == 0 ? CURLEWSTAND_ENDED : 0));
        EXPECT(begin(1.) == 0 && curlewstand_asks(&s));
    }
}

/* the accessors are the words, and NaN where there is none */
static void accessors(void) {
    EXPECT(curlewstand_word(curlewstand_value(&s)) == s.answer[1]);
    for (size_t i = 0; i < SUBJECTS; i++) {
        EXPECT(curlewstand_word(curlewstand_eta(&s, i, 0)) == results[3 * i] && isnan(curlewstand_eta(&s, i, 1)));
        EXPECT(curlewstand_word(curlewstand_negative_log_likelihood(&s, i)) == results[3 * i + 2]);
        EXPECT(curlewstand_population_prediction(&s, i) == 1.);
        EXPECT(curlewstand_word(curlewstand_individual_prediction(&s, i)) == results[3 * SUBJECTS + 2 * i + 1]);
    }
    for (size_t more = 0; more <= 2; more += 2) {
        s.n_results += more;
        EXPECT(isnan(curlewstand_eta(&s, SUBJECTS, 0)) && isnan(curlewstand_negative_log_likelihood(&s, SUBJECTS)));
        EXPECT(isnan(curlewstand_population_prediction(&s, SUBJECTS)));
        EXPECT(isnan(curlewstand_individual_prediction(&s, SUBJECTS)));
        s.n_results -= more;
    }
    size_t lent = s.n_results;
    s.n_results = 0;
    EXPECT(isnan(curlewstand_eta(&s, 0, 0)) && isnan(curlewstand_negative_log_likelihood(&s, 0)));
    EXPECT(isnan(curlewstand_population_prediction(&s, 0)) && isnan(curlewstand_individual_prediction(&s, 0)));
    s.n_results = lent;
}

/* the negative log likelihood has 0.5 log 2 pi for each observation, and the objective has not */
static void scale(void) {
    double objective = 0., log_2_pi = log(8. * atan(1.));
    for (size_t i = 0; i < SUBJECTS; i++) {
        double f = curlewstand_individual_prediction(&s, i), eta = curlewstand_eta(&s, i, 0);
        double squares = (observations[i].value - f) * (observations[i].value - f);
        EXPECT(fabs(curlewstand_negative_log_likelihood(&s, i) - (0.5 * log_2_pi + 0.5 * squares)) < 1e-12);
        objective += squares + eta * eta + log(1. + f * f);
    }
    EXPECT(fabs(curlewstand_value(&s) - objective) < 1e-12);
}

/* the shrinkage, with omega 1; there is none of another number of subjects, or of too few words */
static void shrinkages(void) {
    double shrunk = 0., first = curlewstand_eta(&s, 0, 0), second = curlewstand_eta(&s, 1, 0);
    EXPECT(shrinkage(CURLEWSTAND_STATE_WORDS, SUBJECTS, &shrunk) == 0);
    EXPECT(shrunk == 1. - (first * first + second * second) / SUBJECTS / 1.);
    EXPECT(curlewstand_shrinkage_now(&s) == shrunk);
    EXPECT(has_no_shrinkage(CURLEWSTAND_STATE_WORDS, SUBJECTS - 1));
    EXPECT(has_no_shrinkage(CURLEWSTAND_STATE_WORDS, 0));
    EXPECT(has_no_shrinkage(CURLEWSTAND_STATE_WORDS - 1, SUBJECTS));
}

/* with one effect the setup's omega and override are tested, and no objective uses them */
static void settings_that_do_nothing(uint64_t objective) {
    uint32_t questions;
    s.setup.omega_00 = 0.;
    EXPECT(curlewstand_open(&s) == 2);
    s.setup.omega_00 = 1000., s.setup.omega_01 = NAN, s.setup.has_additive = true, s.setup.additive = -1.;
    EXPECT(curlewstand_open(&s) == 3);
    s.setup.additive = 50.;
    EXPECT(curlewstand_open(&s) == 0 && play(false, &questions) == 0 && s.answer[1] == objective);
    s.setup.omega_00 = 1., s.setup.omega_01 = 0., s.setup.has_additive = false, s.setup.additive = 0.;
}

/* opened anew with its warm starts: the same objective, in fewer evaluations than the first time */
static void opened_anew(uint64_t objective, uint32_t taken) {
    uint64_t modes[SUBJECTS];
    uint32_t questions;
    memcpy(modes, warm, sizeof modes);
    EXPECT(curlewstand_open(&s) == 0 && warm[0] == 0 && warm[1] == 0 && s.tally.calls == 0);
    memcpy(warm, modes, sizeof modes);
    EXPECT(play(false, &questions) == 0 && s.answer[1] == objective && s.tally.calls < taken);
}

/* an objective whose replies lend the awaited subject's observations, and in a new session the same one with
 * replies that lend all of them: what they leave is the same */
static uint32_t both_replies(void) {
    uint32_t alone, all;
    EXPECT(play(false, &alone) == 0 && s.answer[0] == CURLEWSTAND_ENDED);
    static struct curlewstand_session left;
    static uint64_t left_results[sizeof results / sizeof *results], left_cache[sizeof cache / sizeof *cache];
    left = s;
    memcpy(left_results, results, sizeof results);
    memcpy(left_cache, cache, sizeof cache);

    /* a reply that nobody asked for, and one that lends what the subject's count does not say */
    EXPECT(curlewstand_resume(&s, counts, SUBJECTS) == 19);
    EXPECT(begin(2.) == 0 && curlewstand_asks(&s));
    EXPECT(subject_reply_with_all() == 1);
    EXPECT(s.answer[0] == CURLEWSTAND_REFUSED && s.answer[CURLEWSTAND_ANSWER_PLACE] == CURLEWSTAND_NOWHERE);

    EXPECT(setup(CURLEWSTAND_ANSWER_WORDS) == 0);
    EXPECT(play(true, &all) == 0 && s.answer[0] == CURLEWSTAND_ENDED);
    EXPECT(all <= curlewstand_booked(&s) && s.tally.calls == all && all == alone);
    EXPECT(memcmp(s.answer, left.answer, sizeof s.answer) == 0 && memcmp(s.state, left.state, sizeof s.state) == 0);
    EXPECT(s.tally.calls == left.tally.calls && s.tally.cached_rows == left.tally.cached_rows);
    EXPECT(memcmp(results, left_results, sizeof results) == 0 && memcmp(cache, left_cache, sizeof cache) == 0);
    EXPECT(curlewstand_eta(&s, 0, 0) > 0. && curlewstand_eta(&s, 1, 0) < 0.);
    EXPECT(warm[0] == results[0] && warm[1] == results[3]);
    return all;
}

/* calls that are not due alter nothing, and a simulator that fails ends the objective */
static void not_due_and_failed(uint64_t objective) {
    uint32_t questions;
    EXPECT(reply(counts, SUBJECTS) == 19 && curlewstand_fail(&s) == 19);
    EXPECT(s.answer[0] == CURLEWSTAND_REFUSED && s.answer[1] == 19 && s.answer[2] == CURLEWSTAND_NOWHERE);
    EXPECT(has_no_shrinkage(CURLEWSTAND_STATE_WORDS, SUBJECTS));

    /* the same objective again, from kept evaluations: the warm trials are its only questions */
    EXPECT(play(true, &questions) == 0 && s.answer[1] == objective && questions <= SUBJECTS);

    EXPECT(begin(2.) == 0 && curlewstand_asks(&s) && begin(2.) == 19);

    /* a state whose words point beyond what is lent: nothing is read there */
    uint64_t subject = s.state[CURLEWSTAND_STATE_SUBJECT], first = s.state[CURLEWSTAND_STATE_FIRST];
    s.state[CURLEWSTAND_STATE_SUBJECT] = UINT64_MAX / 16;
    EXPECT(curlewstand_resume(&s, counts, SUBJECTS) == 19);
    s.state[CURLEWSTAND_STATE_SUBJECT] = subject, s.state[CURLEWSTAND_STATE_FIRST] = UINT64_MAX / 64;
    EXPECT(curlewstand_resume(&s, counts, SUBJECTS) != 0);
    s.state[CURLEWSTAND_STATE_FIRST] = first;

    EXPECT(curlewstand_fail(&s) == 8);
    EXPECT(s.answer[CURLEWSTAND_ANSWER_PLACE] == CURLEWSTAND_SUBJECT && s.answer[CURLEWSTAND_ANSWER_SUBJECT] == 0);
    EXPECT(has_no_shrinkage(CURLEWSTAND_STATE_WORDS, SUBJECTS));
}

int main(void) {
    figures();
    EXPECT(has_no_shrinkage(CURLEWSTAND_STATE_WORDS, SUBJECTS) && begin(1.) == 19);
    s.tally = (struct curlewstand_tally){7, 7};
    EXPECT(setup(CURLEWSTAND_ANSWER_WORDS) == 0);
    EXPECT(s.answer[0] == CURLEWSTAND_ENDED && s.tally.calls == 0 && s.tally.cached_rows == 0);
    EXPECT(has_no_shrinkage(CURLEWSTAND_STATE_WORDS, SUBJECTS) && has_no_shrinkage(CURLEWSTAND_STATE_WORDS, 1));
    uint32_t taken = both_replies();
    uint64_t objective = s.answer[1];
    accessors();
    scale();
    shrinkages();
    not_due_and_failed(objective);
    opened_anew(objective, taken);
    settings_that_do_nothing(objective);
    sizes();
    short_answers();
    if (failures == 0) printf("session_struct.c: %u evaluations, objective %.6f\n", taken, curlewstand_float(objective));
    return failures != 0;
}
