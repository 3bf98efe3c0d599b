/*
 * A label table: a tablet at level 17 opens one column of a sheet and is refused another, for the way the labels stand.
 * Prints each answer, and stops where it is not the one that is expected.
 *
 *     cc -Iinclude examples/column.c target/staticlib/libsheetguard.a -o target/column && target/column
 */
#include <stdio.h>
#include <stdlib.h>

#include "sheetguard.h"

static uint64_t table[SHEETGUARD_WORDS];

/* Prints a label request's answer beside the one that is expected, and stops where they differ. */
static void ask(const char *what, uint64_t code, uint64_t a, uint64_t b, uint64_t c, uint64_t expected)
{
    uint64_t spent;
    uint64_t answer = sheetguard_label_request(table, SHEETGUARD_WORDS, code, a, b, c, &spent);

    printf("%-48s %s (%d)\n", what, answer == SHEETGUARD_YES ? "yes" : answer == SHEETGUARD_NO ? "no" : "refused",
           (int)answer);
    if (answer != expected)
        exit(EXIT_FAILURE);
}

/* The same for how the first label stands to the second. */
static void compare(const char *what, uint64_t first, uint64_t second, uint64_t expected)
{
    static const char *const words[] = {"equal", "above", "below", "apart"};
    uint64_t answer = sheetguard_compare_labels(first, second);

    printf("%-48s %s (%d)\n", what, answer <= SHEETGUARD_APART ? words[answer] : "refused", (int)answer);
    if (answer != expected)
        exit(EXIT_FAILURE);
}

int main(void)
{
    uint8_t clearances[64] = {0};
    uint8_t labels[64] = {0};

    clearances[4] = 17; /* user 4: class 2, brand 1 */
    labels[7] = 9;      /* object 7: class 1, brand 1 */
    labels[8] = 25;     /* object 8: class 3, brand 1 */
    if (sheetguard_label_setup(table, SHEETGUARD_WORDS, clearances, 64, labels, 64) != SHEETGUARD_YES)
        return EXIT_FAILURE;

    ask("session 2 starts for user 4 at level 17", SHEETGUARD_LABEL_START, 2, 4, 17, SHEETGUARD_YES);
    ask("session 2 reads column 7, label 9", SHEETGUARD_LABEL_OPEN, 2, 7, 0, SHEETGUARD_YES);
    ask("session 2 writes column 7: that is down", SHEETGUARD_LABEL_OPEN, 2, 7, 1, SHEETGUARD_NO);
    ask("session 2 reads column 8, label 25: that is up", SHEETGUARD_LABEL_OPEN, 2, 8, 0, SHEETGUARD_NO);
    compare("    level 17 beside label 25", 17, 25, SHEETGUARD_BELOW);
    ask("session 2 writes column 8", SHEETGUARD_LABEL_OPEN, 2, 8, 1, SHEETGUARD_YES);
    ask("session 32 ends: there is none", SHEETGUARD_LABEL_END, 32, 0, 0, SHEETGUARD_BAD_ARGUMENT);
    compare("label 32 beside label 25: there is none", 32, 25, SHEETGUARD_BAD_ARGUMENT);
    return EXIT_SUCCESS;
}
