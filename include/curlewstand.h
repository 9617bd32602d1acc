/* Curlewstand: whole sessions of FOCEI population fits, proved.
 *
 * Link libcurlewstand.a: `./library` at the top of the repository proves and builds it in target/staticlib, and
 * `./install PREFIX` puts it below PREFIX, with this file and one for pkg-config. It is for x86-64 Linux.
 *
 * The functions keep nothing of their own: all that a session has stands in what the host lends. Between the
 * calls of a session the host changes none of it but the reply, and between objectives the warm starts. The
 * calls take each thing that is lent by itself; struct curlewstand_session, further below, holds all of them,
 * and the functions over it are the short way to write a host (examples/host.c is a whole one).
 *
 * A session is for one model. Evaluations are kept by subject, theta, eta and override, and answer for the
 * simulator from then on. Where the simulator changes in anything but the individual values theta * exp(eta),
 * as when a fit moves a parameter that has no effect, those that are kept are of the old model; nothing tells,
 * and the fit goes wrong. Before the next objective curlewstand_setup is to be called again. It zeroes tally and
 * warm starts: a host that wants to go on from its modes copies the warm words aside and back, adds up the
 * evaluations itself, and lowers max_evaluations by those already taken.
 *
 * The objective is -2 log likelihood, as FOCEI approximates it, without the n log 2 pi of n observations: the
 * scale of NONMEM's OFV. The negative log likelihoods of the results have it, 0.5 log 2 pi for each observation.
 *
 * What the caller owes. The functions are proved for calls that keep these rules. Nothing tests them, and of a
 * call that breaks one nothing is promised:
 *
 *   - A slice is a pointer and a number of elements, and there are as many there. The pointer is aligned as its
 *     type is, and not null, also where the number is 0. What is lent has been written before, all of it.
 *   - What is lent to be written overlaps nothing else that is lent to the same call.
 *   - A bool is 0 or 1, also where its struct is filled in byte by byte.
 *   - The floating-point environment is that of a C program's beginning: rounding to nearest, no flushing to
 *     zero, subnormals not taken for zero, no traps. Otherwise questions, counts and results are other ones.
 *   - While a call runs no other thread writes what is lent to it, or reads what it writes. Calls of which none
 *     is lent what another writes may run at the same time.
 *   - 8 KB of stack are left, of which a call takes up to 5; for curlewstand_fit 96, of which it takes some 75.
 *
 * Floats in words are their bits. With these rules kept every call returns, whatever the floats, words, lengths
 * and the order of calls. Its result is 0, or the number of a refusal (curlewstand_sentence has it in words):
 *
 *   1   effects 1 or 2; subjects 1 to 4,096; observations at least 1 for each subject, at most 100,000 in
 *       all, as many as the counts say
 *   2   omega: each diagonal entry from 2^-20 to 2^20; with two effects symmetric, with an inverse
 *   3   eta_bound 2^-10 to 16; gradient_tolerance finite, above 0; width 1 to 64; k 1 to 100,000; an
 *       override finite, not below 0, and none with two effects
 *   4   an observation: output below width, value finite, both deviations finite, not below 0, not both 0
 *   5   too few words: the macros for sizes below say how many there are to be
 *   6   no evaluation is left
 *   7   an individual value theta * exp(eta) that is not finite and above 0
 *   8   no reply, or not whole rows
 *   9   more values and derivatives than the output budget
 *   10  an observation's row is missing
 *   11  a variance that is not finite and above 0, or a sensitivity or a prediction that is not finite
 *   12  terms or sums that are not finite
 *   13  no mode is found within the bound. With one effect: the score, which is to be below 0 at -eta_bound and
 *       above 0 at eta_bound, does not rise through zero on the grid. With two, for one of the six starts: where
 *       the search from it ends, the norm (the larger absolute penalised score) is above 1e-3, so that it is
 *       unresolved, or an absolute eta is not below eta_bound - 1e-6, so that it reaches the bound
 *   14  several modes
 *   15  the search has not settled
 *   16  no positive curvature at the mode
 *   17  times or sides that differ between eta zero and the mode
 *   18  the objective is not finite
 *   19  no such call is due, or the state or the tally is none of a session's
 *   20  records that are not whole, more than 256, or out of order: in the text of curlewstand_fit alone
 *
 * Refusals 1 to 5 and 19 alter nothing but the answer. The others end the objective: results of subjects
 * past 17 stay written, the rest is untouched; tally, cache and warm words are as reached; the work words
 * are zeroed, as where it finishes. */
#ifndef CURLEWSTAND_H
#define CURLEWSTAND_H

#include <math.h>
#include <stdbool.h>
#include <stddef.h>
#include <stdint.h>
#include <string.h>

#ifdef __cplusplus
extern "C" {
#endif

/* ---- the version, and the library that it is linked with */

/* The second number of the version is that of the interface, which each change of this file's calls raises. */
#define CURLEWSTAND_VERSION "0.2.0"
#define CURLEWSTAND_INTERFACE 2

/* The library's interface: 2. A library of another interface has no function of this name. */
uint32_t curlewstand_interface_2(void);

/* Each unit that includes this file refers to that function, so that it links with no other library: the
 * linker then names what is missing. The attributes keep the reference where nothing uses it. */
#if defined(__has_attribute)
#if __has_attribute(retain)
__attribute__((retain))
#endif
#endif
#if defined(__GNUC__)
__attribute__((used))
#endif
static uint32_t (*const curlewstand_linked_interface)(void) = curlewstand_interface_2;

/* ---- sizes */

/* The words of a session's state and of an answer. */
#define CURLEWSTAND_STATE_WORDS 44
#define CURLEWSTAND_ANSWER_WORDS 5

/* The words to lend: work for the observations of the largest subject, cache for k kept rows, warm for the warm
 * starts, results for those of all subjects and observations. More may be lent. */
#define CURLEWSTAND_WORK_WORDS(largest) ((size_t)12 * (size_t)(largest))
#define CURLEWSTAND_CACHE_WORDS(k) ((size_t)24 * (size_t)(k))
#define CURLEWSTAND_WARM_WORDS(effects, subjects) ((size_t)(effects) * (size_t)(subjects))
#define CURLEWSTAND_RESULT_WORDS(subjects, observations) \
    ((size_t)CURLEWSTAND_SUBJECT_RESULTS * (size_t)(subjects) \
     + (size_t)CURLEWSTAND_OBSERVATION_RESULTS * (size_t)(observations))

/* The words of the results of one subject, and of one observation. */
#define CURLEWSTAND_SUBJECT_RESULTS 3
#define CURLEWSTAND_OBSERVATION_RESULTS 2

/* The words of one row of a reply. */
#define CURLEWSTAND_ROW_WORDS(width, effects) ((size_t)2 + (size_t)(width) * ((size_t)1 + (size_t)(effects)))

/* The bytes to lend for the text of curlewstand_fit. */
#define CURLEWSTAND_LONGEST_TEXT 30267

/* ---- the words that a host reads */

/* The words of the state that have the subject which is searched, counted from 0, and the number of its first
 * observation among those of all subjects. A question is about this subject: the answer does not name it. */
#define CURLEWSTAND_STATE_SUBJECT 8
#define CURLEWSTAND_STATE_FIRST 9

/* The first word of an answer, and what the other four are. Of a host that lends fewer than
 * CURLEWSTAND_ANSWER_WORDS the first words of the answer are written, as many as it lends; nothing is refused
 * for it, and the call does all else as it would. Words beyond the fifth are not written. */
enum curlewstand_kind {
    CURLEWSTAND_ASKED = 0,   /* a reply is awaited: eta, second eta, individual value, second one */
    CURLEWSTAND_ENDED = 1,   /* the objective, and zeros; for a setup zeros alone */
    CURLEWSTAND_REFUSED = 2, /* the number, a place, the subject, the observation */
};

/* The words of an answer by what they are: first those of a question, with one effect the second of each pair
 * is 0; then that of an end; then those of a refusal. */
#define CURLEWSTAND_ANSWER_KIND 0
#define CURLEWSTAND_ANSWER_ETA 1
#define CURLEWSTAND_ANSWER_INDIVIDUAL 3
#define CURLEWSTAND_ANSWER_OBJECTIVE 1
#define CURLEWSTAND_ANSWER_NUMBER 1
#define CURLEWSTAND_ANSWER_PLACE 2
#define CURLEWSTAND_ANSWER_SUBJECT 3
#define CURLEWSTAND_ANSWER_OBSERVATION 4

/* The place of a refusal: the third word of its answer. */
enum curlewstand_place {
    CURLEWSTAND_NOWHERE = 0,
    CURLEWSTAND_SUBJECT = 1,
    CURLEWSTAND_OBSERVATION = 2, /* counted from 0 within its subject */
};

/* The side of a row of a reply. Any word but 0 counts as post. */
enum curlewstand_side {
    CURLEWSTAND_PRE = 0,
    CURLEWSTAND_POST = 1,
};

/* ---- what a host gives */

/* What a session is given for all its objectives. `additive` overrides the observations' own deviations where
 * `has_additive`. Some of it counts with one number of effects alone:
 *
 *   - With one effect omega_00 and the override are tested by curlewstand_setup (2 and 3) and never used: each
 *     objective has its own in its parameters. The other entries of omega are not looked at.
 *   - With two effects omega counts for all objectives. An override is refused with 3. gradient_tolerance is
 *     tested (3) and never used. */
struct curlewstand_setup {
    uint32_t effects;
    double omega_00, omega_01, omega_10, omega_11;
    double eta_bound;
    double gradient_tolerance; /* the outer fit's: a mode is found to 1e-4 of it, within 1e-12 to 1e-8 */
    uint32_t width;            /* the outputs of a row */
    size_t k;                  /* the most rows of evaluations that are kept */
    bool has_additive;
    double additive;
    uint32_t output_budget;    /* the most values and derivatives of a reply */
    uint32_t max_evaluations;  /* of the session, over all its objectives */
};

/* What may change with each objective: theta, and with one effect omega and the override, which are tested (2
 * and 3) when it begins. With one effect theta_2 is not looked at. With two effects omega is not looked at, and
 * an override is refused with 3. */
struct curlewstand_parameters {
    double theta, theta_2;
    double omega;
    bool has_additive;
    double additive;
};

struct curlewstand_observation {
    size_t output; /* of those of a row */
    size_t row;    /* of those of the subject's reply */
    double value, additive, proportional;
};

/* The evaluations taken since setup, and the rows that are kept. Taken is one for each question, the awaited
 * one included, and one for a point that is refused with 7. What a kept evaluation answers is not counted. */
struct curlewstand_tally {
    uint32_t calls;
    size_t cached_rows;
};

/* ---- the calls of a session */

/* Opens a session: tally, cache, work and warm words are zeroed, and the state is written. Where fewer than
 * CURLEWSTAND_STATE_WORDS words are lent for the state it is refused with 19, before 1 to 5 are tested. */
uint32_t curlewstand_setup(struct curlewstand_setup setup,
                           const struct curlewstand_observation *observations, size_t n_observations,
                           const uint64_t *counts, size_t n_counts,
                           struct curlewstand_tally *tally,
                           uint64_t *state, size_t n_state,
                           uint64_t *answer, size_t n_answer,
                           uint64_t *cache, size_t n_cache,
                           uint64_t *work, size_t n_work,
                           uint64_t *warm, size_t n_warm,
                           const uint64_t *results, size_t n_results);

/* Begins an objective, and runs on through kept evaluations until it asks for one or ends. */
uint32_t curlewstand_objective(struct curlewstand_setup setup,
                               struct curlewstand_parameters parameters,
                               const struct curlewstand_observation *observations, size_t n_observations,
                               const uint64_t *counts, size_t n_counts,
                               struct curlewstand_tally *tally,
                               uint64_t *state, size_t n_state,
                               uint64_t *answer, size_t n_answer,
                               const uint64_t *cache, size_t n_cache,
                               uint64_t *work, size_t n_work,
                               uint64_t *warm, size_t n_warm,
                               uint64_t *results, size_t n_results);

/* The simulator's reply: whole rows of words, each time, side (0 pre, any other post), `width` values, then
 * `width` derivatives by each individual value. Runs on as the objective does.
 *
 * Results are three words for each subject, eta, second eta and negative log likelihood, and after the last
 * subject two for each observation, its predictions at eta zero and at the mode. */
uint32_t curlewstand_reply(struct curlewstand_setup setup,
                           const struct curlewstand_observation *observations, size_t n_observations,
                           const uint64_t *counts, size_t n_counts,
                           const uint64_t *reply, size_t n_reply,
                           struct curlewstand_tally *tally,
                           uint64_t *state, size_t n_state,
                           uint64_t *answer, size_t n_answer,
                           uint64_t *cache, size_t n_cache,
                           uint64_t *work, size_t n_work,
                           uint64_t *warm, size_t n_warm,
                           uint64_t *results, size_t n_results);

/* The same, with the observations of the awaited subject alone: those from number CURLEWSTAND_STATE_FIRST on,
 * as many as its count says. It does not look at the observations of the other subjects, and at their counts
 * only where a search comes to them, so that its time does not grow with the number of subjects. It is for a
 * host that has changed no count and no observation since setup: then it does what curlewstand_reply does
 * with all of them, and where that is refused with 1 to 5, which no such host sees, this may not be.
 *
 * 1 to 5 are tested of what is lent: 1 of the subject's count, which is the number of observations lent; 4 of
 * these; 5 of 12 work words for each of these, 24 cache words for each of k, a warm word for each subject and
 * effect, and 2 results for each of these and 3 for each subject. Of results that are too short for all
 * subjects the words that are lent are written, and nothing beyond their end. */
uint32_t curlewstand_subject_reply(struct curlewstand_setup setup,
                                   const struct curlewstand_observation *observations, size_t n_observations,
                                   const uint64_t *counts, size_t n_counts,
                                   const uint64_t *reply, size_t n_reply,
                                   struct curlewstand_tally *tally,
                                   uint64_t *state, size_t n_state,
                                   uint64_t *answer, size_t n_answer,
                                   uint64_t *cache, size_t n_cache,
                                   uint64_t *work, size_t n_work,
                                   uint64_t *warm, size_t n_warm,
                                   uint64_t *results, size_t n_results);

/* The simulator failed: the objective ends with 8. */
uint32_t curlewstand_failure(struct curlewstand_setup setup,
                             const struct curlewstand_observation *observations, size_t n_observations,
                             const uint64_t *counts, size_t n_counts,
                             struct curlewstand_tally *tally,
                             uint64_t *state, size_t n_state,
                             uint64_t *answer, size_t n_answer,
                             const uint64_t *cache, size_t n_cache,
                             uint64_t *work, size_t n_work,
                             const uint64_t *warm, size_t n_warm,
                             const uint64_t *results, size_t n_results);

/* The most evaluations that one subject's search asks for within one objective, whatever the data and the
 * replies are: 82 with one effect, 6,343 with two; 0 with any other number, with which no session opens. So
 * many for each subject are to be booked for an objective. */
uint32_t curlewstand_ceiling(uint32_t effects);

/* The shrinkage of an objective with one effect, 1 - ((sum of eta^2) / n) / omega over its n subjects: it is
 * written where the latest call of the session has finished such an objective, and the result is 0. To be lent
 * are the session's counts, and state and answer as that call left them. In all other cases the result is 19
 * and nothing is written: after a setup, a question or a refusal, with two effects, with fewer than
 * CURLEWSTAND_STATE_WORDS words for the state, with words that are no state, with no word of the answer, or
 * with another number of subjects. It alters nothing but the shrinkage.
 *
 * Whether an objective was finished or refused is in the answer alone, and a refused call writes an answer too:
 * the shrinkage is to be asked for before the next call. An answer that is lent with the state of another call
 * may pass, and then what is written is that expression of the state's own sum. */
uint32_t curlewstand_shrinkage(const uint64_t *counts, size_t n_counts,
                               const uint64_t *state, size_t n_state,
                               const uint64_t *answer, size_t n_answer,
                               double *shrinkage);

/* ---- the program `focei` as a call */

/* From the bytes of its records to the text that the program prints (examples/README.md says what both are).
 * The text, of which none is empty, stands at the front of `text` without a zero byte after it, and its length
 * is given back; what is lent beyond it is not altered. A refusal is a text too, and begins with `R `. Where
 * fewer than CURLEWSTAND_LONGEST_TEXT bytes are lent the length is 0 and nothing is written. */
size_t curlewstand_fit(const uint8_t *records, size_t n_records, uint8_t *text, size_t n_text);

/* ---- refusals in words */

/* A refusal's sentence, as the Rust crate has it too. */
static inline const char *curlewstand_sentence(uint32_t number) {
    switch (number) {
    case 0: return "nothing is refused";
    case 1: return "there are 1 to 4,096 subjects, each with an observation, and at most 100,000 observations in all";
    case 2: return "omega's diagonal is from 2^-20 to 2^20, and with two effects omega is symmetric and has an inverse";
    case 3: return "the bound of eta, the tolerance, the width, the kept rows or the override is out of range";
    case 4: return "an observation has no such output, a value that is not finite, or no valid deviation";
    case 5: return "too little memory is lent";
    case 6: return "no evaluation is left of those that the session may ask for";
    case 7: return "an individual value theta·exp(eta) is not finite and above 0";
    case 8: return "the simulator failed, or its reply is not whole rows";
    case 9: return "the reply has more values and derivatives than the output budget";
    case 10: return "the reply lacks the observation's row";
    case 11: return "the variance is not finite and above 0, or the prediction or its sensitivity is not finite";
    case 12: return "terms or sums of the likelihood are not finite";
    case 13: return "the subject's mode is not within the bound of eta";
    case 14: return "the subject has several modes";
    case 15: return "the search for the subject's mode has not settled";
    case 16: return "the curvature at the subject's mode, or on the way there, is not positive";
    case 17: return "times or sides of the rows differ between eta zero and the mode";
    case 18: return "the objective is not finite";
    case 19: return "the call is not due: a reply is taken only where one is awaited, and an objective begun only where none is";
    case 20: return "the records are not whole, are more than 256, have a reserved word that is not 0, or subjects that do not count up from 0";
    default: return "an unknown refusal";
    }
}

/* ---- floats and their words */

static inline uint64_t curlewstand_word(double x) {
    uint64_t word;
    memcpy(&word, &x, sizeof word);
    return word;
}

static inline double curlewstand_float(uint64_t word) {
    double x;
    memcpy(&x, &word, sizeof x);
    return x;
}

/* ---- a session in one struct
 *
 * The host fills in what stands above the tally and calls curlewstand_open; then for each objective
 * curlewstand_begin, and as long as curlewstand_asks holds curlewstand_resume with the simulator's rows, or
 * curlewstand_fail. These four give the number of a refusal, or 0, as the calls above do, and have nothing else
 * of their own: whatever does not fit, lengths too, is refused by the calls. Nothing is allocated.
 *
 * The accessors read what is there, and are NaN for a subject, an effect or an observation that is not. */
struct curlewstand_session {
    struct curlewstand_setup setup;
    const struct curlewstand_observation *observations; /* those of all subjects, one subject after the other */
    size_t n_observations;
    const uint64_t *counts; /* of each subject, how many observations are its own */
    size_t n_subjects;
    uint64_t *cache; /* CURLEWSTAND_CACHE_WORDS(setup.k) */
    size_t n_cache;
    uint64_t *work; /* CURLEWSTAND_WORK_WORDS(the largest count) */
    size_t n_work;
    uint64_t *warm; /* CURLEWSTAND_WARM_WORDS(setup.effects, n_subjects) */
    size_t n_warm;
    uint64_t *results; /* CURLEWSTAND_RESULT_WORDS(n_subjects, n_observations) */
    size_t n_results;

    struct curlewstand_tally tally;
    uint64_t state[CURLEWSTAND_STATE_WORDS];
    uint64_t answer[CURLEWSTAND_ANSWER_WORDS];
};

/* Opens the session, or opens it anew for another model. Where it is refused there is no session, and until one
 * is opened all other calls are refused with 19. */
static inline uint32_t curlewstand_open(struct curlewstand_session *s) {
    memset(&s->tally, 0, sizeof s->tally);
    memset(s->state, 0, sizeof s->state);
    memset(s->answer, 0, sizeof s->answer);
    return curlewstand_setup(s->setup, s->observations, s->n_observations, s->counts, s->n_subjects, &s->tally,
                             s->state, CURLEWSTAND_STATE_WORDS, s->answer, CURLEWSTAND_ANSWER_WORDS,
                             s->cache, s->n_cache, s->work, s->n_work, s->warm, s->n_warm, s->results, s->n_results);
}

/* Begins an objective. */
static inline uint32_t curlewstand_begin(struct curlewstand_session *s, struct curlewstand_parameters parameters) {
    return curlewstand_objective(s->setup, parameters, s->observations, s->n_observations, s->counts, s->n_subjects,
                                 &s->tally, s->state, CURLEWSTAND_STATE_WORDS, s->answer, CURLEWSTAND_ANSWER_WORDS,
                                 s->cache, s->n_cache, s->work, s->n_work, s->warm, s->n_warm,
                                 s->results, s->n_results);
}

/* Whether the latest call has asked a question. */
static inline bool curlewstand_asks(const struct curlewstand_session *s) {
    return s->answer[CURLEWSTAND_ANSWER_KIND] == CURLEWSTAND_ASKED;
}

/* The subject that the question is about, counted from 0. */
static inline size_t curlewstand_asked_subject(const struct curlewstand_session *s) {
    return (size_t)s->state[CURLEWSTAND_STATE_SUBJECT];
}

/* Whether the session has the effect 0 or 1. */
static inline bool curlewstand_has_effect(const struct curlewstand_session *s, uint32_t effect) {
    return effect < 2 && effect < s->setup.effects;
}

/* The question's eta of an effect, and its individual value theta * exp(eta). */
static inline double curlewstand_asked_eta(const struct curlewstand_session *s, uint32_t effect) {
    return curlewstand_has_effect(s, effect) ? curlewstand_float(s->answer[CURLEWSTAND_ANSWER_ETA + effect]) : NAN;
}

static inline double curlewstand_asked_individual(const struct curlewstand_session *s, uint32_t effect) {
    return curlewstand_has_effect(s, effect)
               ? curlewstand_float(s->answer[CURLEWSTAND_ANSWER_INDIVIDUAL + effect]) : NAN;
}

/* Writes a row of a reply: its time and side, `width` values, and `width` derivatives by each individual value,
 * those by the first before those by the second. The place is of CURLEWSTAND_ROW_WORDS(width, effects) words;
 * the one after them is given back, for the next row. */
static inline uint64_t *curlewstand_row(const struct curlewstand_session *s, uint64_t *row, double time,
                                        enum curlewstand_side side, const double *values, const double *derivatives) {
    size_t width = s->setup.width, effects = s->setup.effects, i;
    *row++ = curlewstand_word(time);
    *row++ = (uint64_t)side;
    for (i = 0; i < width; i++) *row++ = curlewstand_word(values[i]);
    for (i = 0; i < width * effects; i++) *row++ = curlewstand_word(derivatives[i]);
    return row;
}

/* Takes the simulator's rows, n_words words in all, and runs on. The observations that are lent to
 * curlewstand_subject_reply are those of the subject that was asked about. */
static inline uint32_t curlewstand_resume(struct curlewstand_session *s, const uint64_t *rows, size_t n_words) {
    size_t subject = curlewstand_asked_subject(s), first = (size_t)s->state[CURLEWSTAND_STATE_FIRST], own = 0;
    if (subject < s->n_subjects && first <= s->n_observations && s->counts[subject] <= s->n_observations - first)
        own = (size_t)s->counts[subject];
    return curlewstand_subject_reply(s->setup, own == 0 ? s->observations : s->observations + first, own,
                                     s->counts, s->n_subjects, rows, n_words, &s->tally,
                                     s->state, CURLEWSTAND_STATE_WORDS, s->answer, CURLEWSTAND_ANSWER_WORDS,
                                     s->cache, s->n_cache, s->work, s->n_work, s->warm, s->n_warm,
                                     s->results, s->n_results);
}

/* The simulator has no rows for the question: the objective ends with 8. A host that stops a fit calls it too. */
static inline uint32_t curlewstand_fail(struct curlewstand_session *s) {
    return curlewstand_failure(s->setup, s->observations, s->n_observations, s->counts, s->n_subjects, &s->tally,
                               s->state, CURLEWSTAND_STATE_WORDS, s->answer, CURLEWSTAND_ANSWER_WORDS,
                               s->cache, s->n_cache, s->work, s->n_work, s->warm, s->n_warm,
                               s->results, s->n_results);
}

/* The objective, where the latest call has finished one. */
static inline double curlewstand_value(const struct curlewstand_session *s) {
    return s->answer[CURLEWSTAND_ANSWER_KIND] == CURLEWSTAND_ENDED
               ? curlewstand_float(s->answer[CURLEWSTAND_ANSWER_OBJECTIVE]) : NAN;
}

/* A word of the results, NaN where it is not lent. */
static inline double curlewstand_result(const struct curlewstand_session *s, size_t word) {
    return word < s->n_results ? curlewstand_float(s->results[word]) : NAN;
}

/* Of a subject that has its mode in the latest objective: eta of an effect, and the negative log likelihood
 * there, without the prior's part. */
static inline double curlewstand_eta(const struct curlewstand_session *s, size_t subject, uint32_t effect) {
    return subject < s->n_subjects && curlewstand_has_effect(s, effect)
               ? curlewstand_result(s, CURLEWSTAND_RESULT_WORDS(subject, 0) + effect) : NAN;
}

static inline double curlewstand_negative_log_likelihood(const struct curlewstand_session *s, size_t subject) {
    return subject < s->n_subjects ? curlewstand_result(s, CURLEWSTAND_RESULT_WORDS(subject, 0) + 2) : NAN;
}

/* The predictions of an observation, by its number among those of all subjects: at eta zero, and at the mode. */
static inline double curlewstand_population_prediction(const struct curlewstand_session *s, size_t observation) {
    return observation < s->n_observations
               ? curlewstand_result(s, CURLEWSTAND_RESULT_WORDS(s->n_subjects, observation)) : NAN;
}

static inline double curlewstand_individual_prediction(const struct curlewstand_session *s, size_t observation) {
    return observation < s->n_observations
               ? curlewstand_result(s, CURLEWSTAND_RESULT_WORDS(s->n_subjects, observation) + 1) : NAN;
}

/* The shrinkage of the objective with one effect that the latest call has finished; NaN where it has not. */
static inline double curlewstand_shrinkage_now(const struct curlewstand_session *s) {
    double shrinkage = NAN;
    curlewstand_shrinkage(s->counts, s->n_subjects, s->state, CURLEWSTAND_STATE_WORDS,
                          s->answer, CURLEWSTAND_ANSWER_WORDS, &shrinkage);
    return shrinkage;
}

/* The evaluations to book for one objective: the ceiling for each subject. */
static inline uint64_t curlewstand_booked(const struct curlewstand_session *s) {
    return (uint64_t)curlewstand_ceiling(s->setup.effects) * s->n_subjects;
}

#ifdef __cplusplus
}
#endif
#endif
