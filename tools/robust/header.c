/*
 * Prints what include/roognaps.h says, for comparing with the Rust crate, which says it again
 * (rust/roognaps/tests/header.rs). In C11 and in C++11.
 *
 *     cc -std=c11 -Iinclude tools/robust/header.c -o header
 *     ./header [FUNCTION BITS]..
 *
 * Prints the lengths, the refusals by their numbers, with a few that there aren't, and what BITS, in
 * hexadecimal digits, say as a result of FUNCTION: load, answer or answer_from.
 */
#include <inttypes.h>
#include <stdio.h>
#include <stdlib.h>
#include <string.h>

#include "roognaps.h"

static void print_lengths(void)
{
    printf("lengths %d %d %d %d %d\n", ROOGNAPS_RECORD_WORDS, ROOGNAPS_TYPE_WORDS, ROOGNAPS_PLACES,
           ROOGNAPS_ANSWER_BYTES, ROOGNAPS_QUESTIONS);
}

/* The ends of the names in the header's enums; a dash where there is none. The compiler tells of one that lacks. */

static const char *refusal_name(enum roognaps_refusal refusal)
{
    switch (refusal) {
    case ROOGNAPS_REFUSAL_SHORT_BUFFER:
        return "SHORT_BUFFER";
    case ROOGNAPS_REFUSAL_FIRST_LINE:
        return "FIRST_LINE";
    case ROOGNAPS_REFUSAL_LIMIT:
        return "LIMIT";
    case ROOGNAPS_REFUSAL_FORM:
        return "FORM";
    case ROOGNAPS_REFUSAL_LINK:
        return "LINK";
    case ROOGNAPS_REFUSAL_MISSING_CHILD:
        return "MISSING_CHILD";
    case ROOGNAPS_REFUSAL_RING:
        return "RING";
    case ROOGNAPS_REFUSAL_TOO_DEEP:
        return "TOO_DEEP";
    case ROOGNAPS_REFUSAL_TOO_MANY_TYPES:
        return "TOO_MANY_TYPES";
    case ROOGNAPS_REFUSAL_LONG_TEXT:
        return "LONG_TEXT";
    }
    return "-";
}

static const char *load_name(enum roognaps_load_result_kind kind)
{
    switch (kind) {
    case ROOGNAPS_LOAD_ACCEPTED:
        return "ACCEPTED";
    case ROOGNAPS_LOAD_REFUSED:
        return "REFUSED";
    case ROOGNAPS_LOAD_OTHER:
        break;
    }
    return "-";
}

static const char *answer_name(enum roognaps_answer_result_kind kind)
{
    switch (kind) {
    case ROOGNAPS_ANSWER_LINE:
        return "LINE";
    case ROOGNAPS_ANSWER_REFUSED:
        return "REFUSED";
    case ROOGNAPS_ANSWER_PAST_LAST:
        return "PAST_LAST";
    case ROOGNAPS_ANSWER_FILE_REFUSED:
        return "FILE_REFUSED";
    case ROOGNAPS_ANSWER_OTHER:
        break;
    }
    return "-";
}

static const char *answer_from_name(enum roognaps_answer_from_result_kind kind)
{
    switch (kind) {
    case ROOGNAPS_ANSWER_FROM_END:
        return "END";
    case ROOGNAPS_ANSWER_FROM_MORE:
        return "MORE";
    case ROOGNAPS_ANSWER_FROM_FILE_REFUSED:
        return "FILE_REFUSED";
    case ROOGNAPS_ANSWER_FROM_OTHER:
        break;
    }
    return "-";
}

static void print_refusals(void)
{
    uint32_t number, file_line;
    for (number = 0; number < 16; number++)
        for (file_line = 0; file_line < 2; file_line++)
            printf("refusal %" PRIu32 " %s %" PRIu32 " %s\n", number, refusal_name((enum roognaps_refusal)number),
                   file_line, roognaps_refusal_text(number, file_line));
}

static void print_load(roognaps_load_result result)
{
    printf("load %s %" PRIu32 " %" PRIu32 "\n", load_name(roognaps_load_kind(result)),
           roognaps_load_refusal(result), roognaps_load_file_line(result));
}

static void print_answer(roognaps_answer_result result)
{
    printf("answer %s %zu %" PRIu32 " %" PRIu32 "\n", answer_name(roognaps_answer_kind(result)),
           roognaps_answer_bytes(result), roognaps_answer_refusal(result), roognaps_answer_file_line(result));
}

static void print_answer_from(roognaps_answer_from_result result)
{
    printf("answer_from %s %zu %" PRIu32 " %" PRIu32 " %" PRIu32 " %" PRIu32 "\n",
           answer_from_name(roognaps_answer_from_kind(result)), roognaps_answer_from_bytes(result),
           roognaps_answer_from_next_question(result), roognaps_answer_from_next_line(result),
           roognaps_answer_from_refusal(result), roognaps_answer_from_file_line(result));
}

/* False if there is no such function. */
static int print_result(const char *function, uint64_t bits)
{
    roognaps_load_result load = {bits};
    roognaps_answer_result answer = {bits};
    roognaps_answer_from_result answer_from = {bits};
    if (strcmp(function, "load") == 0)
        print_load(load);
    else if (strcmp(function, "answer") == 0)
        print_answer(answer);
    else if (strcmp(function, "answer_from") == 0)
        print_answer_from(answer_from);
    else
        return 0;
    return 1;
}

int main(int count, char **words)
{
    int which;
    print_lengths();
    print_refusals();
    for (which = 1; which + 1 < count; which += 2)
        if (!print_result(words[which], strtoull(words[which + 1], NULL, 16)))
            return 2;
    return which == count ? 0 : 2;
}
