/* A host in C: three patients, measured twice each, and one objective.
 *
 *     ./library
 *     gcc -Iinclude examples/host.c target/staticlib/libcurlewstand.a -o host */
#include <curlewstand.h>
#include <stdio.h>

enum { PATIENTS = 3, TIMES = 2, ALL = PATIENTS * TIMES, K = 1000 };

/* output, row, value, additive and proportional deviation */
static const struct curlewstand_observation observations[ALL] = {
    {0, 0, 1.1, 0.5, 0.}, {0, 1, 2.4, 0.5, 0.}, {0, 0, 0.8, 0.5, 0.},
    {0, 1, 1.5, 0.5, 0.}, {0, 0, 1.9, 0.5, 0.}, {0, 1, 3.7, 0.5, 0.},
};
static const uint64_t counts[PATIENTS] = {TIMES, TIMES, TIMES};
static uint64_t cache[CURLEWSTAND_CACHE_WORDS(K)], work[CURLEWSTAND_WORK_WORDS(TIMES)];
static uint64_t warm[CURLEWSTAND_WARM_WORDS(1, PATIENTS)], results[CURLEWSTAND_RESULT_WORDS(PATIENTS, ALL)];

int main(void) {
    struct curlewstand_session session = {
        .setup = {.effects = 1, .omega_00 = 0.2, .eta_bound = 4., .gradient_tolerance = 1e-4, .width = 1, .k = K,
                  .output_budget = 1000, .max_evaluations = 1000},
        .observations = observations, .n_observations = ALL, .counts = counts, .n_subjects = PATIENTS,
        .cache = cache, .n_cache = CURLEWSTAND_CACHE_WORDS(K), .work = work, .n_work = CURLEWSTAND_WORK_WORDS(TIMES),
        .warm = warm, .n_warm = CURLEWSTAND_WARM_WORDS(1, PATIENTS),
        .results = results, .n_results = CURLEWSTAND_RESULT_WORDS(PATIENTS, ALL),
    };
    struct curlewstand_parameters parameters = {.theta = 1., .omega = 0.2};
    uint32_t refused = curlewstand_open(&session);
    if (refused == 0) refused = curlewstand_begin(&session, parameters);
    while (refused == 0 && curlewstand_asks(&session)) {
        /* the simulator: at time t it predicts (1 + t) times the individual value */
        uint64_t rows[TIMES * CURLEWSTAND_ROW_WORDS(1, 1)], *end = rows;
        for (int t = 0; t < TIMES; t++) {
            double derivative = 1. + t, value = derivative * curlewstand_asked_individual(&session, 0);
            end = curlewstand_row(&session, end, t, CURLEWSTAND_PRE, &value, &derivative);
        }
        refused = curlewstand_resume(&session, rows, (size_t)(end - rows));
    }
    if (refused != 0) {
        fprintf(stderr, "refused with %u: %s\n", refused, curlewstand_sentence(refused));
        return 1;
    }
    printf("objective %.6f: %u evaluations taken, %u booked\n", curlewstand_value(&session), session.tally.calls,
           (unsigned)curlewstand_booked(&session));
    for (int i = 0; i < PATIENTS; i++) printf("patient %d: eta %.4f\n", i, curlewstand_eta(&session, i, 0));
    return 0;
}
