/*
 * The sheet guard: role tables, and the label walls that they carry.
 *
 * Link with libsheetguard.a, which `tools/build sheetguard` writes to target/staticlib (x86-64 Linux).
 *
 * The guard keeps nothing. The caller lends it a table of SHEETGUARD_WORDS words at each call and stores the table as it
 * likes; sheetguard_compare_labels and sheetguard_statement alone take none. A programmer who has to store, restore or
 * migrate one finds in docs/TABLE.md the layout of the words, what sound means, which fault gets which refusal, and byte
 * order. For readers of a backup the table keeps what each session may open: word 1096 + 8 * session + mode is the set of
 * objects that are effective for the session in this mode. Every YES leaves these words true, and a table where one is not
 * is not sound. Every function returns, whatever the words and numbers are, and answers with a number:
 *
 *     SHEETGUARD_YES, SHEETGUARD_NO, or a refusal, 12 to 23, the first that fits in the order of the numbers (of two
 *     tables, the first table's before the second's), 23 only in place of a yes. In place of yes and no
 *     sheetguard_compare_labels answers SHEETGUARD_EQUAL, SHEETGUARD_ABOVE, SHEETGUARD_BELOW or SHEETGUARD_APART.
 *
 * A no and a refusal leave all that is lent unchanged, but for *spent, which every label request writes: 0 at a refusal.
 * Of the eight functions that take a table five change it, and at a yes alone: the two set-ups, the two requests and the
 * opening with a tally. A request may write words and put them back before it answers no, so that its table has to be
 * writable memory. The other three only read it.
 *
 * Who bills openings keeps a tally beside the table, stores it as well, and lends it to sheetguard_open_tallied. No other
 * call changes one: openings by the two requests are not counted.
 *
 * What a caller owes:
 *   - a pointer is never NULL, also where its length is 0, and is aligned for its type;
 *   - it points to as many words or bytes as its length says, where it has none to a whole tally, 64 charges or one word;
 *   - what is lent to be written (a pointer without const) does not overlap anything else that is lent in the same call,
 *     as a table and the tally beside it, and no other thread uses it during the call.
 *
 * Users, roles and objects are 0 to 63, sessions 0 to 31, modes 0 to 7, labels 0 to 31. A set of them is a word, with
 * bit i (worth UINT64_C(1) << i) set when i is a member. There is no state beside what is lent, so different tables and
 * tallies may be used by different threads at the same time.
 */
#ifndef SHEETGUARD_H
#define SHEETGUARD_H

#include <stddef.h>
#include <stdint.h>

#ifdef __cplusplus
extern "C" {
#endif

/* The number of words of a table. */
#define SHEETGUARD_WORDS 1352

/* The largest count of a tally, which 32 bits hold, and the largest rate of a statement. */
#define SHEETGUARD_LARGEST_COUNT 4294967295u
#define SHEETGUARD_LARGEST_RATE 1000000

/* The answers, but for the four of sheetguard_compare_labels. */
enum {
    SHEETGUARD_NO = 0,
    SHEETGUARD_YES = 1,
    SHEETGUARD_WRONG_LENGTH = 12,    /* the table has not 1,352 words */
    SHEETGUARD_UNSOUND = 13,         /* the table is not sound */
    SHEETGUARD_NO_IMAGE = 14,        /* a label request on a sound table that no label set-up and label requests lead to */
    SHEETGUARD_BAD_CODE = 15,        /* the code is not one of the requests */
    SHEETGUARD_BAD_ARGUMENT = 16,    /* an argument is out of range, or an unlisted one is not 0 */
    SHEETGUARD_NO_PERMISSION = 17,   /* a grant or revoke names a pair that is no permission */
    SHEETGUARD_BAD_LIST_LENGTH = 18, /* a set-up list has not its length */
    SHEETGUARD_BAD_VALUE = 19,       /* a label in a set-up list is over 31 */
    SHEETGUARD_CYCLE = 20,           /* direct juniors lead from a role through another back to it */
    SHEETGUARD_BAD_PAIR = 21,        /* a set's bound is below 2 or above the number of its roles, and not both are 0 */
    SHEETGUARD_BAD_RATE = 22,        /* the rate of a statement is over 1,000,000 */
    SHEETGUARD_FULL_COUNT = 23       /* an opening would be YES, and the count that it advances is 4,294,967,295 already */
};

/* How the first label stands to the second; what dominates means is said at the codes of label requests. */
enum {
    SHEETGUARD_EQUAL = 0, /* they are the same label */
    SHEETGUARD_ABOVE = 1, /* the first dominates the second, and they differ */
    SHEETGUARD_BELOW = 2, /* the second dominates the first, and they differ */
    SHEETGUARD_APART = 3  /* neither dominates the other */
};

/*
 * Codes of role requests, with their arguments a, b, c; an argument that is not listed is 0.
 *
 * A session is idle until it is started, and again once it has ended. The authorised roles of a user are those assigned and
 * all their juniors. A pair of a mode and an object is effective for a session when the set-up made it a permission and it
 * is granted to an active role of the session or to a junior of one.
 *
 * A separation set is a set of roles and a bound: a number of these roles that nobody may have together. There are 16 static
 * sets, which look at the authorised roles of every user, with a session or without, and 16 dynamic ones, which look at the
 * active roles of every session, without their juniors. Who edits may not release: a static set of the two roles with
 * bound 2.
 *
 * Seniority comes from direct juniors: a role is senior to its direct juniors, to theirs, and so on. The set-up gives the
 * direct juniors, and two requests change them while the table is in use.
 */
enum {
    SHEETGUARD_OPEN = 1,         /* session, object, mode: yes when the pair is effective for the session */
    SHEETGUARD_CLOSE = 2,        /* session, object, mode: always yes */
    SHEETGUARD_START = 3,        /* session, user, roles (a set, any word): yes when the session is idle, every role of the
                                    set is authorised for the user and no dynamic set breaks; then exactly these are
                                    active */
    SHEETGUARD_END = 4,          /* session: yes when it is not idle */
    SHEETGUARD_ACTIVATE = 5,     /* session, role: yes when the role is authorised for the session's user and no dynamic
                                    set breaks */
    SHEETGUARD_DROP = 6,         /* session, role: yes when the table without it is sound */
    SHEETGUARD_ASSIGN = 7,       /* user, role: yes when no static set breaks */
    SHEETGUARD_DEASSIGN = 8,     /* user, role: yes when the table without it is sound */
    SHEETGUARD_GRANT = 9,        /* role, mode, object: always yes for a permission */
    SHEETGUARD_REVOKE = 10,      /* role, mode, object: yes when the table without it is sound */
    SHEETGUARD_STATIC_SET = 11,  /* set 0 to 15, roles (a set, any word), bound (any word): yes when every user has fewer of
                                    the roles than the bound; they replace what the set was. Roles 0 with bound 0 empty
                                    it, which is always yes */
    SHEETGUARD_DYNAMIC_SET = 12, /* the same for a dynamic set and the active roles of every session */
    SHEETGUARD_LINK = 13,        /* role, role: yes when they differ, the second is not senior to the first and no static
                                    set breaks; the second is then a direct junior of the first. Yes also where it is a
                                    junior already, direct or not */
    SHEETGUARD_UNLINK = 14       /* role, role: yes when the second is a direct junior of the first and the table without
                                    this link is sound; it then is none, and may be a junior through another role still */
};

/*
 * Codes of label requests. Mode 0 reads, mode 1 writes without reading; there is no other.
 *
 * A label is class * 8 + brand set: a class 0 to 3, and a set of three brands, worth 1, 2 and 4. Label a dominates b when
 * a's class is at least b's and a's set holds all of b's. So the first of two labels is equal to the second, above it,
 * below it or apart from it: 25 (class 3, brand 1) is above 9 (class 1, brand 1), and 9 below 25; 17 (class 2, brand 1)
 * and 18 (class 2, brand 2) are apart. Each label dominates itself and those to the right of it in its line:
 *
 *     31 -- 27 -- 17 --  9 -- 0     31: class 3, all brands; 27: class 3, brands 1 and 2; 0: class 0, no brand
 *     31 -- 27 -- 18 -- 10 -- 0     17 and 9 are apart from 18 and 10
 */
enum {
    SHEETGUARD_LABEL_OPEN = 1,   /* session, object, mode: yes when not idle and, in mode 0, its level dominates the
                                    object's label, or, in mode 1, the label its level */
    SHEETGUARD_LABEL_CLOSE = 2,  /* session, object, mode: always yes */
    SHEETGUARD_LABEL_START = 3,  /* session, user, level: yes when idle and the clearance dominates the level */
    SHEETGUARD_LABEL_END = 4,    /* session: yes when it is not idle */
    SHEETGUARD_LABEL_RECLEAR = 5 /* user, clearance: yes when it dominates the level of every session of the user */
};

/*
 * Table: changed at YES.
 * Writes a fresh role table: who is senior to whom, what is a permission, and nothing else. juniors has 64 words, word r
 * the direct juniors of role r (its own bit is ignored); permissions has 8 words, word x the objects o for which (mode x,
 * object o) is a permission. Old contents of the table do not matter.
 * Answers YES, or refusal 12, 18 or 20.
 */
uint64_t sheetguard_role_setup(uint64_t *table, size_t words,
                               const uint64_t *juniors, size_t n_juniors,
                               const uint64_t *permissions, size_t n_permissions);

/*
 * Table: changed at YES.
 * A role request. Answers YES, NO, or refusal 12, 13, 15, 16, 17 or 21.
 */
uint64_t sheetguard_role_request(uint64_t *table, size_t words,
                                 uint64_t code, uint64_t a, uint64_t b, uint64_t c);

/*
 * Tables: only read.
 * Whether two tables are alike: the same openings, the same effective permissions of each session, and the same authorised
 * roles of each of the 64 users, with a session or without. Nothing else counts: not by which assignments, links or grants,
 * not whose session it is, not which roles it has active, no separation set. Alike tables answer every list of openings and
 * closings alike and are alike after it; other requests they may answer differently. Answers YES or NO, or refusal 12 or 13
 * for the first table, then for the second. The two may be the same table.
 */
uint64_t sheetguard_alike(const uint64_t *first, size_t n_first,
                          const uint64_t *second, size_t n_second);

/*
 * Table: changed at YES.
 * Writes a fresh label table, all sessions idle: 64 clearances, one a user, and 64 labels, one an object, a byte each. A
 * label is class * 8 + brand set, as 25 for class 3 and brand 1 (see the codes of label requests). Old contents of the
 * table do not matter.
 * Answers YES, or refusal 12, 18 or 19.
 */
uint64_t sheetguard_label_setup(uint64_t *table, size_t words,
                                const uint8_t *clearances, size_t n_clearances,
                                const uint8_t *labels, size_t n_labels);

/*
 * Table: changed at YES. *spent: always written.
 * A label request. Answers YES, NO, or refusal 12, 13, 14, 15 or 16; *spent becomes the number of role requests that were
 * made for it, at most 3.
 */
uint64_t sheetguard_label_request(uint64_t *table, size_t words,
                                  uint64_t code, uint64_t a, uint64_t b, uint64_t c,
                                  uint64_t *spent);

/*
 * No table.
 * How the first label stands to the second. Answers EQUAL, ABOVE, BELOW or APART, or refusal 16, which is no standing,
 * where a number is over 31. The answer is not to be read as YES or NO, which have the numbers of ABOVE and EQUAL.
 */
uint64_t sheetguard_compare_labels(uint64_t first, uint64_t second);

/*
 * Table: only read. masks: written at YES.
 * Writes the effective permissions of a session into eight lent words, word x the objects of mode x, as the table keeps
 * them in its words from 1096 + 8 * session on. n_masks is 8.
 * Answers YES, or refusal 12, 13, or 16 where there is no such session or n_masks is not 8.
 */
uint64_t sheetguard_effective_permissions(const uint64_t *table, size_t words,
                                          uint64_t session,
                                          uint64_t *masks, size_t n_masks);

/*
 * Table: only read. roles: written at YES.
 * Writes the authorised roles of a user, those assigned and all their juniors, into one lent word. n_roles is 1.
 * Answers YES, or refusal 12, 13, or 16 where there is no such user or n_roles is not 1.
 */
uint64_t sheetguard_authorised_roles(const uint64_t *table, size_t words,
                                     uint64_t user,
                                     uint64_t *roles, size_t n_roles);

/*
 * A tally: counts[u] is the number of openings of user u that lent it and were answered YES. It begins with every count 0,
 *
 *     struct sheetguard_tally tally = {{0}};
 *
 * and is lent to each opening as the one before left it.
 */
struct sheetguard_tally {
    uint32_t counts[64];
};

/*
 * Table: changed at YES. Tally: changed at YES.
 * A role opening that is counted. It is answered as sheetguard_role_request answers code SHEETGUARD_OPEN; at YES the count
 * of the session's user is one higher, also where the session held the object open already.
 * Answers YES, NO, or refusal 12, 13, 16, or, in place of YES, 23 where that count is SHEETGUARD_LARGEST_COUNT already.
 */
uint64_t sheetguard_open_tallied(uint64_t *table, size_t words,
                                 struct sheetguard_tally *tally,
                                 uint64_t session, uint64_t object, uint64_t mode);

/*
 * No table. Tally: only read. charges and *total: written at YES.
 * A statement of what the openings of a tally cost, at a rate in cents per thousand openings. charges[u] becomes the charge
 * of user u in cents, counts[u] * rate / 1000 rounded to the nearest cent, halves up: 1,500 openings at 3 are 4.5 cents,
 * charged 5. *total becomes the sum of the 64 charges as they are rounded.
 * Answers YES, or refusal 22 where the rate is over SHEETGUARD_LARGEST_RATE.
 */
uint64_t sheetguard_statement(const struct sheetguard_tally *tally, uint64_t rate,
                              uint64_t charges[64], uint64_t *total);

#ifdef __cplusplus
}
#endif

#endif
