/*
 * A role table and a tally: openings that lend it are counted, and a statement charges them at 3 cents per thousand. Prints each
 * answer and the statement, and stops where it is not what is expected.
 *
 *     cc -Iinclude examples/statement.c target/staticlib/libsheetguard.a -o target/statement && target/statement
 */
#include <stdio.h>
#include <stdlib.h>

#include "sheetguard.h"

static uint64_t table[SHEETGUARD_WORDS];
static struct sheetguard_tally tally = {{0}};

/* Makes a role request that is answered yes. */
static void ask(uint64_t code, uint64_t a, uint64_t b, uint64_t c)
{
    if (sheetguard_role_request(table, SHEETGUARD_WORDS, code, a, b, c) != SHEETGUARD_YES)
        exit(EXIT_FAILURE);
}

/* Opens an object to read so many times with the tally, prints the last answer beside the user's count, and stops where an
   answer is not the one that is expected. */
static void open_times(const char *what, int times, uint64_t session, uint64_t object, uint64_t user, uint64_t expected)
{
    uint64_t answer = expected;

    while (times-- > 0 && answer == expected)
        answer = sheetguard_open_tallied(table, SHEETGUARD_WORDS, &tally, session, object, 0);
    printf("%-48s %s (%d), count %lu\n", what,
           answer == SHEETGUARD_YES ? "yes" : answer == SHEETGUARD_NO ? "no" : "refused", (int)answer,
           (unsigned long)tally.counts[user]);
    if (answer != expected)
        exit(EXIT_FAILURE);
}

int main(void)
{
    uint64_t juniors[64] = {0}, permissions[8] = {0}, charges[64], total;
    int user;

    permissions[0] = UINT64_C(1) << 9; /* reading column 9 is a permission */
    if (sheetguard_role_setup(table, SHEETGUARD_WORDS, juniors, 64, permissions, 8) != SHEETGUARD_YES)
        return EXIT_FAILURE;
    ask(SHEETGUARD_GRANT, 1, 0, 9);
    ask(SHEETGUARD_ASSIGN, 2, 1, 0);
    ask(SHEETGUARD_ASSIGN, 5, 1, 0);
    ask(SHEETGUARD_START, 0, 2, UINT64_C(1) << 1);
    ask(SHEETGUARD_START, 4, 5, UINT64_C(1) << 1);

    open_times("session 0 of user 2 reads column 9, 1,500 times", 1500, 0, 9, 2, SHEETGUARD_YES);
    open_times("session 0 reads column 8: that is not counted", 1, 0, 8, 2, SHEETGUARD_NO);
    open_times("session 4 of user 5 reads column 9, 833 times", 833, 4, 9, 5, SHEETGUARD_YES);
    ask(SHEETGUARD_OPEN, 4, 9, 0); /* lends no tally and is not counted */

    if (sheetguard_statement(&tally, 3, charges, &total) != SHEETGUARD_YES)
        return EXIT_FAILURE;
    for (user = 0; user < 64; user++)
        if (tally.counts[user] != 0)
            printf("user %d: %lu openings, %lu cents\n", user, (unsigned long)tally.counts[user],
                   (unsigned long)charges[user]);
    printf("total: %lu cents\n", (unsigned long)total);
    /* 4.5 and 2.499 cents */
    if (charges[2] != 5 || charges[5] != 2 || total != 7)
        return EXIT_FAILURE;
    if (sheetguard_statement(&tally, SHEETGUARD_LARGEST_RATE + 1, charges, &total) != SHEETGUARD_BAD_RATE || total != 7)
        return EXIT_FAILURE;
    return EXIT_SUCCESS;
}
