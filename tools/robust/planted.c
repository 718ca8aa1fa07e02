/*
 * The library with a fault: its functions stand here under the names proved_.., and what they give is
 * spoilt in the way that the environment variable PLANTED names. tools/library_runs.py links this between
 * the library and vectors.c, which must notice each.
 */
#include <stdlib.h>
#include <string.h>

#include "roognaps.h"

roognaps_load_result proved_load(const uint8_t *, size_t, uint32_t *, size_t);
roognaps_answer_result proved_answer(const uint8_t *, size_t, uint32_t, uint32_t, uint32_t *, size_t, uint32_t *,
                                     size_t, roognaps_place *, size_t, uint8_t *, size_t);
roognaps_answer_from_result proved_answer_from(const uint8_t *, size_t, uint32_t, uint32_t, uint32_t *, size_t,
                                               uint32_t *, size_t, roognaps_place *, size_t, uint8_t *, size_t);

static int planted(const char *fault)
{
    const char *named = getenv("PLANTED");
    return named != NULL && strcmp(named, fault) == 0;
}

static const uint64_t one_further = 1, other_number = (uint64_t)1 << 32, next_line_further = (uint64_t)1 << 16;

roognaps_load_result roognaps_load(const uint8_t *file, size_t file_bytes, uint32_t *records, size_t record_count)
{
    uint32_t held = record_count == 0 ? 0 : records[0];
    roognaps_load_result given = proved_load(file, file_bytes, records, record_count);
    if (roognaps_load_kind(given) == ROOGNAPS_LOAD_REFUSED) {
        if (planted("load_refuses_a_line_further"))
            given.bits += one_further;
        if (planted("load_refuses_by_another_number"))
            given.bits ^= other_number;
    }
    if (planted("load_goes_by_the_words") && held == 0xA5A5A5A5u)
        given.bits ^= one_further;
    return given;
}

/* What is spoilt of one line's answer, by its kind. */
static void spoil_line(roognaps_answer_result *given, uint32_t *types, uint8_t *out)
{
    size_t bytes = roognaps_answer_bytes(*given);
    int is_none = bytes > 6 && memcmp(out + bytes - 6, "\tnone\n", 6) == 0;
    if (planted("no_types_after_none") && is_none)
        memset(types, 0, ROOGNAPS_TYPE_WORDS * sizeof *types);
    if (planted("another_letter"))
        out[0] ^= 1;
    if (planted("a_byte_less"))
        given->bits -= one_further;
}

static void spoil_refused(roognaps_answer_result *given)
{
    if (planted("another_refusal"))
        given->bits ^= other_number;
    if (planted("bytes_behind_a_refusal"))
        given->bits += one_further;
}

static void spoil_past_last(roognaps_answer_result *given, uint32_t *records, uint32_t *types, roognaps_place *places,
                            uint8_t *out)
{
    if (planted("past_the_last_is_a_line"))
        given->bits = one_further;
    if (planted("past_the_last_has_bytes"))
        given->bits += one_further;
    if (planted("past_the_last_changes_a_record"))
        records[ROOGNAPS_RECORD_WORDS - 1] ^= 1;
    if (planted("past_the_last_leaves_a_type"))
        types[ROOGNAPS_TYPE_WORDS - 1] = 1;
    if (planted("past_the_last_leaves_a_place"))
        places[ROOGNAPS_PLACES - 1][4] = 1;
    if (planted("past_the_last_writes_a_byte"))
        out[ROOGNAPS_ANSWER_BYTES - 1] ^= 1;
}

roognaps_answer_result roognaps_answer(const uint8_t *file, size_t file_bytes, uint32_t number, uint32_t line,
                                       uint32_t *records, size_t record_count, uint32_t *types, size_t type_count,
                                       roognaps_place *places, size_t place_count, uint8_t *out, size_t out_count)
{
    roognaps_answer_result given = proved_answer(file, file_bytes, number, line, records, record_count, types,
                                                 type_count, places, place_count, out, out_count);
    switch (roognaps_answer_kind(given)) {
    case ROOGNAPS_ANSWER_LINE:
        spoil_line(&given, types, out);
        break;
    case ROOGNAPS_ANSWER_REFUSED:
        spoil_refused(&given);
        break;
    case ROOGNAPS_ANSWER_PAST_LAST:
        spoil_past_last(&given, records, types, places, out);
        break;
    case ROOGNAPS_ANSWER_FILE_REFUSED:
        if (planted("the_file_is_refused_a_line_further"))
            given.bits += one_further;
        break;
    case ROOGNAPS_ANSWER_OTHER:
        break;
    }
    return given;
}

/* What is spoilt of the lines from a place on that is past a question's last line. */
static void spoil_gone_on(roognaps_answer_from_result *given, uint32_t *types, roognaps_place *places, uint8_t *out)
{
    if (planted("going_on_gives_another_length"))
        given->bits ^= one_further;
    if (planted("going_on_changes_a_type"))
        types[ROOGNAPS_TYPE_WORDS - 1] ^= 1;
    if (planted("going_on_changes_a_place"))
        places[ROOGNAPS_PLACES - 1][4] ^= 1;
    if (planted("going_on_writes_a_byte"))
        out[ROOGNAPS_ANSWER_BYTES - 1] ^= 1;
}

roognaps_answer_from_result roognaps_answer_from(const uint8_t *file, size_t file_bytes, uint32_t from, uint32_t line,
                                                 uint32_t *records, size_t record_count, uint32_t *types,
                                                 size_t type_count, roognaps_place *places, size_t place_count,
                                                 uint8_t *out, size_t out_count)
{
    int is_past = line > 0;
    roognaps_answer_from_result given;
    if (planted("going_on_repeats_the_question"))
        line = 0;
    given = proved_answer_from(file, file_bytes, from, line, records, record_count, types, type_count, places,
                               place_count, out, out_count);
    switch (roognaps_answer_from_kind(given)) {
    case ROOGNAPS_ANSWER_FROM_MORE:
        if (planted("more_skips_a_line"))
            given.bits += next_line_further;
        if (planted("more_is_the_end"))
            given.bits = roognaps_answer_from_bytes(given);
        break;
    case ROOGNAPS_ANSWER_FROM_END:
    case ROOGNAPS_ANSWER_FROM_OTHER:
        break;
    case ROOGNAPS_ANSWER_FROM_FILE_REFUSED:
        if (planted("the_file_of_lines_is_refused_a_line_further"))
            given.bits += one_further;
        return given;
    }
    if (is_past)
        spoil_gone_on(&given, types, places, out);
    return given;
}
