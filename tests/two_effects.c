/* A host with two effects, over the struct of the header: five patients, one dose into the vein, measured four
 * times each; clearance and volume vary from patient to patient. It prints a table of the modes, and holds them
 * and the objective to the model itself: each mode is a stationary point, and the objective is the sum over the
 * modes. Then what counts with two effects and what does not. Exits with 0 where all of it holds. */
#include "curlewstand.h"

#include <stdio.h>

enum { SUBJECTS = 5, TIMES = 4, OBSERVATIONS = SUBJECTS * TIMES, K = 5000, ROW = CURLEWSTAND_ROW_WORDS(1, 2) };

static const double DOSE = 100., DEVIATION = 0.15, CLEARANCE = 3., VOLUME = 20.;
static const double OMEGA[2][2] = {{0.09, 0.01}, {0.01, 0.04}};
static const double times[TIMES] = {1., 2., 4., 8.};
static const double measured[SUBJECTS][TIMES] = {
    {3.95, 3.47, 2.59, 1.62}, {3.95, 3.16, 2.19, 1.01}, {3.98, 3.69, 2.85, 2.02}, {4.89, 4.26, 3.39, 1.91},
    {3.87, 3.67, 2.60, 1.55},
};

static uint64_t cache[CURLEWSTAND_CACHE_WORDS(K)], work[CURLEWSTAND_WORK_WORDS(TIMES)];
static uint64_t warm[CURLEWSTAND_WARM_WORDS(2, SUBJECTS)];
static uint64_t results[CURLEWSTAND_RESULT_WORDS(SUBJECTS, OBSERVATIONS)];
static uint64_t counts[SUBJECTS];
static struct curlewstand_observation observations[OBSERVATIONS];
static int failures;

static void expect(bool holds, const char *what) {
    if (!holds) {
        fprintf(stderr, "two_effects.c: %s does not hold\n", what);
        failures++;
    }
}

#define EXPECT(fact) expect(fact, #fact)

/* ---- the host */

/* the concentration at a time, and its derivatives by clearance and volume */
static double concentration(double time, double clearance, double volume, double derivatives[2]) {
    double c = DOSE / volume * exp(-clearance / volume * time);
    derivatives[0] = -time / volume * c;
    derivatives[1] = (clearance * time / volume - 1.) / volume * c;
    return c;
}

static void fill_in(struct curlewstand_session *s) {
    for (size_t i = 0; i < OBSERVATIONS; i++)
        observations[i] = (struct curlewstand_observation){
            .row = i % TIMES, .value = measured[i / TIMES][i % TIMES], .additive = DEVIATION};
    for (size_t i = 0; i < SUBJECTS; i++) counts[i] = TIMES;
    *s = (struct curlewstand_session){
        .setup = {.effects = 2, .omega_00 = OMEGA[0][0], .omega_01 = OMEGA[0][1], .omega_10 = OMEGA[1][0],
                  .omega_11 = OMEGA[1][1], .eta_bound = 4., .gradient_tolerance = 1e-4, .width = 1, .k = K,
                  .output_budget = UINT32_MAX, .max_evaluations = 100000},
        .observations = observations, .n_observations = OBSERVATIONS, .counts = counts, .n_subjects = SUBJECTS,
        .cache = cache, .n_cache = CURLEWSTAND_CACHE_WORDS(K), .work = work, .n_work = CURLEWSTAND_WORK_WORDS(TIMES),
        .warm = warm, .n_warm = CURLEWSTAND_WARM_WORDS(2, SUBJECTS),
        .results = results, .n_results = CURLEWSTAND_RESULT_WORDS(SUBJECTS, OBSERVATIONS),
    };
}

/* one objective, question by question */
static uint32_t objective(struct curlewstand_session *s, struct curlewstand_parameters parameters) {
    uint32_t refused = curlewstand_begin(s, parameters);
    while (refused == 0 && curlewstand_asks(s)) {
        uint64_t rows[TIMES * ROW], *row = rows;
        double clearance = curlewstand_asked_individual(s, 0), volume = curlewstand_asked_individual(s, 1);
        for (size_t i = 0; i < TIMES; i++) {
            double derivatives[2], value = concentration(times[i], clearance, volume, derivatives);
            row = curlewstand_row(s, row, times[i], CURLEWSTAND_PRE, &value, derivatives);
        }
        refused = curlewstand_resume(s, rows, (size_t)(row - rows));
    }
    return refused;
}

static void table(const struct curlewstand_session *s) {
    printf("patient  eta clearance  eta volume  -log likelihood  at 8 h: measured  typical  own\n");
    for (size_t i = 0; i < SUBJECTS; i++) {
        size_t last = i * TIMES + TIMES - 1;
        printf("%7zu  %13.4f  %10.4f  %15.4f  %16.2f  %7.2f  %4.2f\n", i, curlewstand_eta(s, i, 0),
               curlewstand_eta(s, i, 1), curlewstand_negative_log_likelihood(s, i), observations[last].value,
               curlewstand_population_prediction(s, last), curlewstand_individual_prediction(s, last));
    }
    printf("objective %.6f; %u evaluations taken, %llu booked\n", curlewstand_value(s), s->tally.calls,
           (unsigned long long)curlewstand_booked(s));
}

/* ---- the model beside it */

static double determinant(double m[2][2]) { return m[0][0] * m[1][1] - m[0][1] * m[1][0]; }

/* a patient's negative log likelihood at eta, its gradient with the prior's part, and the curvature there */
static double likelihood(size_t subject, const double eta[2], double gradient[2], double curvature[2][2]) {
    double det = OMEGA[0][0] * OMEGA[1][1] - OMEGA[0][1] * OMEGA[1][0], nll = 0.;
    double precision[2][2] = {{OMEGA[1][1] / det, -OMEGA[0][1] / det}, {-OMEGA[1][0] / det, OMEGA[0][0] / det}};
    double individual[2] = {CLEARANCE * exp(eta[0]), VOLUME * exp(eta[1])}, by[2];
    memcpy(curvature, precision, sizeof precision);
    for (int i = 0; i < 2; i++) gradient[i] = precision[i][0] * eta[0] + precision[i][1] * eta[1];
    for (size_t t = 0; t < TIMES; t++) {
        double residual = measured[subject][t] - concentration(times[t], individual[0], individual[1], by);
        nll += 0.5 * (log(8. * atan(1.)) + log(DEVIATION * DEVIATION) + residual * residual / (DEVIATION * DEVIATION));
        for (int i = 0; i < 2; i++) {
            gradient[i] -= residual * by[i] * individual[i] / (DEVIATION * DEVIATION);
            for (int j = 0; j < 2; j++)
                curvature[i][j] += by[i] * individual[i] * by[j] * individual[j] / (DEVIATION * DEVIATION);
        }
    }
    return nll;
}

/* each mode is stationary, its likelihood is the model's, and the objective is the sum over the modes */
static void hold_to_the_model(const struct curlewstand_session *s) {
    double omega[2][2], sum = 0.;
    memcpy(omega, OMEGA, sizeof omega);
    for (size_t i = 0; i < SUBJECTS; i++) {
        double eta[2] = {curlewstand_eta(s, i, 0), curlewstand_eta(s, i, 1)}, gradient[2], curvature[2][2];
        double nll = likelihood(i, eta, gradient, curvature);
        double prior = (omega[1][1] * eta[0] * eta[0] - 2. * omega[0][1] * eta[0] * eta[1] +
                        omega[0][0] * eta[1] * eta[1]) / determinant(omega);
        EXPECT(fabs(gradient[0]) < 1e-3 && fabs(gradient[1]) < 1e-3);
        EXPECT(fabs(nll - curlewstand_negative_log_likelihood(s, i)) < 1e-9);
        sum += 2. * nll - TIMES * log(8. * atan(1.)) + prior + log(determinant(omega) * determinant(curvature));
    }
    EXPECT(fabs(sum - curlewstand_value(s)) < 1e-9);
}

/* ---- what counts with two effects, and what does not */

static void settings(struct curlewstand_session *s, struct curlewstand_parameters parameters) {
    double first = curlewstand_value(s);
    EXPECT(isnan(curlewstand_shrinkage_now(s)));

    /* the parameters' omega is not looked at, and an override is refused wherever it is given */
    parameters.omega = NAN;
    EXPECT(objective(s, parameters) == 0 && curlewstand_value(s) == first);
    parameters.has_additive = true, parameters.additive = 1.;
    EXPECT(objective(s, parameters) == 3 && isnan(curlewstand_value(s)));
    parameters.has_additive = false;
    s->setup.has_additive = true, s->setup.additive = 1.;
    EXPECT(curlewstand_open(s) == 3);
    s->setup.has_additive = false;

    /* gradient_tolerance is tested and not used; the setup's omega counts */
    s->setup.gradient_tolerance = 0.;
    EXPECT(curlewstand_open(s) == 3);
    s->setup.gradient_tolerance = 1e6;
    EXPECT(curlewstand_open(s) == 0 && objective(s, parameters) == 0 && curlewstand_value(s) == first);
    s->setup.omega_00 = 0.16;
    EXPECT(curlewstand_open(s) == 0 && objective(s, parameters) == 0 && curlewstand_value(s) != first);

    /* a reply of two rows, where the first patient has four observations: the third has no row */
    static const uint64_t rows[2 * ROW];
    EXPECT(curlewstand_open(s) == 0 && curlewstand_begin(s, parameters) == 0 && curlewstand_asks(s));
    EXPECT(curlewstand_resume(s, rows, 2 * ROW) == 10 && s->answer[CURLEWSTAND_ANSWER_SUBJECT] == 0);
    EXPECT(s->answer[CURLEWSTAND_ANSWER_PLACE] == CURLEWSTAND_OBSERVATION);
    EXPECT(s->answer[CURLEWSTAND_ANSWER_OBSERVATION] == 2);

    /* a search that reaches the bound, of the first patient */
    s->setup.eta_bound = 0.0625;
    EXPECT(curlewstand_open(s) == 0 && objective(s, parameters) == 13);
    EXPECT(s->answer[CURLEWSTAND_ANSWER_NUMBER] == 13 && s->answer[CURLEWSTAND_ANSWER_PLACE] == CURLEWSTAND_SUBJECT);
    EXPECT(s->answer[CURLEWSTAND_ANSWER_SUBJECT] == 0);
}

int main(void) {
    static struct curlewstand_session s;
    struct curlewstand_parameters parameters = {.theta = CLEARANCE, .theta_2 = VOLUME};
    fill_in(&s);
    uint32_t refused = curlewstand_open(&s);
    if (refused == 0) refused = objective(&s, parameters);
    if (refused != 0) {
        fprintf(stderr, "two_effects.c: refused with %u: %s\n", refused, curlewstand_sentence(refused));
        return 1;
    }
    table(&s);
    hold_to_the_model(&s);
    EXPECT(s.tally.calls <= curlewstand_booked(&s));
    settings(&s, parameters);
    return failures != 0;
}
