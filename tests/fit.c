/* The program `focei` as a call: tests/fit RECORDS TEXT exits with 0 where curlewstand_fit makes the text in one
 * file of the records in the other, and keeps to what the header says of its text. */
#include "curlewstand.h"

#include <stdio.h>

enum { MOST_BYTES = 1 << 16, LENT = CURLEWSTAND_LONGEST_TEXT };

static uint8_t records[MOST_BYTES], wanted[MOST_BYTES], text[LENT + 1];
static int failures;

static void expect(bool holds, const char *what) {
    if (!holds) {
        fprintf(stderr, "fit.c: %s does not hold\n", what);
        failures++;
    }
}

#define EXPECT(fact) expect(fact, #fact)

static size_t contents(const char *name, uint8_t *bytes) {
    FILE *file = fopen(name, "rb");
    size_t n = file == NULL ? 0 : fread(bytes, 1, MOST_BYTES, file);
    if (file != NULL) fclose(file);
    EXPECT(n > 0 && n < MOST_BYTES);
    return n;
}

/* from byte `from` on the text is as it was lent */
static bool is_unaltered(size_t from) {
    for (size_t i = from; i < sizeof text; i++)
        if (text[i] != '~') return false;
    return true;
}

/* so many bytes of records make this text, and nothing beyond it is written */
static bool makes(size_t n_records, size_t n_text, const uint8_t *wants, size_t n) {
    memset(text, '~', sizeof text);
    return curlewstand_fit(records, n_records, text, n_text) == n && memcmp(text, wants, n) == 0 && is_unaltered(n);
}

static bool refuses(size_t n_records, const char *wants) {
    return makes(n_records, LENT, (const uint8_t *)wants, strlen(wants));
}

int main(int n, char **arguments) {
    if (n != 3) {
        fprintf(stderr, "usage: fit RECORDS TEXT\n");
        return 2;
    }
    size_t n_records = contents(arguments[1], records), n_wanted = contents(arguments[2], wanted);
    EXPECT(makes(n_records, LENT, wanted, n_wanted) && makes(n_records, LENT + 1, wanted, n_wanted));

    /* with a byte less there is no text, and nothing is written */
    EXPECT(makes(n_records, LENT - 1, wanted, 0) && makes(n_records, 0, wanted, 0));

    /* no records, records that are not whole, and more than 256 */
    EXPECT(refuses(0, "R 1 - -\n") && refuses(1, "R 20 - -\n") && refuses(n_records - 1, "R 20 - -\n"));
    EXPECT(refuses(257 * 48, "R 20 - -\n"));
    if (failures == 0) printf("fit.c: %zu bytes of records, %zu of text\n", n_records, n_wanted);
    return failures != 0;
}
