/* Bunlayog: a text for each answer of a call. The archive has no strings, so the table stands here. */
#ifndef BUNLAYOG_TEXT_H
#define BUNLAYOG_TEXT_H

#include "bunlayog.h"

/* What an answer means: of BUNLAYOG_OK, of each refusal, and of any other number. The text is ASCII, ends with a 0 and is never freed. */
static inline const char *bunlayog_refusal_text(uint32_t number) {
    static const char *const texts[] = {
        /* 0 */ "accepted",
        /* 1 */ "the pool breaks a rule, or a table has another length",
        /* 2 */ "a node number given is not below the count",
        /* 3 */ "a variable number is above 65,535",
        /* 4 */ "a literal or point is outside the literal range",
        /* 5 */ "an order is above 24, an expansion's list has 0 or more than 25 entries, a coefficient index is outside its list, or subst gets two lists of unequal length",
        /* 6 */ "a table of values has more than 65,536 entries, or a residue in it is 2,147,483,647 or more",
        /* 7 */ "a node file is shorter than 4 bytes, its n is 0 or above 4,096, or its length is not 4 + 9 * n",
        /* 8 */ "an entry of the file is no node by the table and the literal range, or a part is not below the entry's own number",
        /* 9 */ "the file's entries are not in the writing order",
        /* 10 */ "a Max is reached by derive, by an expansion or by printing, or max is asked of an expansion that is no constant",
        /* 11 */ "exp or log of a literal is needed that has none",
        /* 12 */ "a folded literal leaves the literal range",
        /* 13 */ "an exponent sum is above 4,294,967,295",
        /* 14 */ "a constructor would run at depth 201",
        /* 15 */ "a variable that is reached has no entry in the table of values",
        /* 16 */ "evaluation comes to Exp or Log, or by residues to Max, its parts being done, or a key strip is to be made of an expression that reaches Exp or Log",
        /* 17 */ "by residues, a divisor has no inverse",
        /* 18 */ "one more node is needed and the count is 4,096",
        /* 19 */ "the lent output is too short, or a text or key strip has more than 65,535 bytes",
        /* 20 to 26 are no answers: they read as any other number that is not given */
        0, 0, 0, 0, 0, 0, 0,
        /* 27 */ "more than 128 places would be in use",
        /* 28 */ "a code is unknown, what follows a code is cut off or breaks the table or literal range, values are missing, more than 128 places are needed, or not exactly one value is left",
    };
    return number < sizeof texts / sizeof texts[0] && texts[number] ? texts[number] : "no answer has this number";
}

#endif
