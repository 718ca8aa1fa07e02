/*
 * Replays files of vectors (rust/vectors/README.md) through the static library: meant for valgrind.
 * Every buffer is a block of its own of exactly the length that is lent, so that a step outside it is
 * seen. Before most calls it holds nothing, so that a decision by what it held is seen too; where a
 * buffer is to stay as it was, it is filled first.
 *
 *     cc -std=c11 -g -Iinclude tools/robust/vectors.c -Lcrates/export/out -lexport -o vectors
 *     valgrind --error-exitcode=9 ./vectors rust/vectors/accepted-1.txt ..
 *
 * Each vector is loaded, answered all at once and question by question, and asked with each buffer
 * one element too short. Every question of the vectors has one line: line 1 is past the last, and going
 * on from there is going on with the next question. After a line `none` the types are the six that
 * every line begins with. Exit status 0: every byte as stored; 1: a difference; 2: no vectors.
 */
#include <inttypes.h>
#include <stdio.h>
#include <stdlib.h>
#include <string.h>

#include "roognaps.h"

/* What a filled buffer holds. */
#define FILLED 0xA5

/* Of so many questions of a vector, and of the last, the lines behind them are compared as well. */
#define GONE_ON_FROM 2

/* Lengths in elements. */
struct lengths {
    size_t records, types, places, out;
};

static const struct lengths enough = {ROOGNAPS_RECORD_WORDS, ROOGNAPS_TYPE_WORDS, ROOGNAPS_PLACES,
                                      ROOGNAPS_ANSWER_BYTES};

/* The buffers of a call. */
struct buffers {
    struct lengths by;
    uint32_t *records, *types;
    roognaps_place *places;
    uint8_t *out;
};

/* An index file and the lines owed for it. */
struct vector {
    const char *name;
    const uint8_t *file;
    size_t file_bytes;
    const char *answer;
    size_t answer_bytes;
};

static size_t vectors_seen, questions_seen, differences;

static void *block(size_t bytes)
{
    void *made = malloc(bytes == 0 ? 1 : bytes);
    if (made == NULL) {
        fprintf(stderr, "vectors: no memory\n");
        exit(2);
    }
    return made;
}

static void differs(const struct vector *vector, const char *what)
{
    differences++;
    if (differences <= 20)
        printf("%s: %s\n", vector->name, what);
}

/* ---------------------------------------------------------------- buffers */

/* Buffers that hold nothing. */
static struct buffers lent(struct lengths by)
{
    struct buffers made = {by, NULL, NULL, NULL, NULL};
    made.records = block(by.records * sizeof *made.records);
    made.types = block(by.types * sizeof *made.types);
    made.places = block(by.places * sizeof *made.places);
    made.out = block(by.out);
    return made;
}

static struct buffers lent_filled(void)
{
    struct buffers made = lent(enough);
    memset(made.records, FILLED, enough.records * sizeof *made.records);
    memset(made.types, FILLED, enough.types * sizeof *made.types);
    memset(made.places, FILLED, enough.places * sizeof *made.places);
    memset(made.out, FILLED, enough.out);
    return made;
}

static void give_back(struct buffers buffers)
{
    free(buffers.records);
    free(buffers.types);
    free(buffers.places);
    free(buffers.out);
}

static int types_and_places_are_zero(struct buffers buffers)
{
    static const uint32_t types[ROOGNAPS_TYPE_WORDS];
    static const roognaps_place places[ROOGNAPS_PLACES];
    return memcmp(buffers.types, types, sizeof types) == 0 && memcmp(buffers.places, places, sizeof places) == 0;
}

static int are_equal(struct buffers first, struct buffers second)
{
    return memcmp(first.records, second.records, enough.records * sizeof *first.records) == 0 &&
           memcmp(first.types, second.types, enough.types * sizeof *first.types) == 0 &&
           memcmp(first.places, second.places, enough.places * sizeof *first.places) == 0 &&
           memcmp(first.out, second.out, enough.out) == 0;
}

/* ---------------------------------------------------------------- calls */

static roognaps_load_result load(const struct vector *vector, struct buffers to)
{
    return roognaps_load(vector->file, vector->file_bytes, to.records, to.by.records);
}

static roognaps_answer_result answer(const struct vector *vector, uint32_t number, uint32_t line, struct buffers to)
{
    return roognaps_answer(vector->file, vector->file_bytes, number, line, to.records, to.by.records, to.types,
                           to.by.types, to.places, to.by.places, to.out, to.by.out);
}

static roognaps_answer_from_result answer_from(const struct vector *vector, uint32_t from, uint32_t line,
                                               struct buffers to)
{
    return roognaps_answer_from(vector->file, vector->file_bytes, from, line, to.records, to.by.records, to.types,
                                to.by.types, to.places, to.by.places, to.out, to.by.out);
}

/* The same of line 0, with buffers that hold nothing and that nobody looks at. */
static roognaps_answer_result answer_alone(const struct vector *vector, uint32_t number, struct lengths by)
{
    struct buffers buffers = lent(by);
    roognaps_answer_result result = answer(vector, number, 0, buffers);
    give_back(buffers);
    return result;
}

static roognaps_answer_from_result answer_from_alone(const struct vector *vector, uint32_t from, struct lengths by)
{
    struct buffers buffers = lent(by);
    roognaps_answer_from_result result = answer_from(vector, from, 0, buffers);
    give_back(buffers);
    return result;
}

static int is_refused(roognaps_answer_result result, uint32_t refusal, uint32_t file_line)
{
    return roognaps_answer_kind(result) == ROOGNAPS_ANSWER_FILE_REFUSED &&
           roognaps_answer_refusal(result) == refusal && roognaps_answer_file_line(result) == file_line;
}

static int is_refused_from(roognaps_answer_from_result result, uint32_t refusal, uint32_t file_line)
{
    return roognaps_answer_from_kind(result) == ROOGNAPS_ANSWER_FROM_FILE_REFUSED &&
           roognaps_answer_from_refusal(result) == refusal && roognaps_answer_from_file_line(result) == file_line;
}

/* Both functions that answer refuse the file. */
static int both_refuse(const struct vector *vector, uint32_t number, struct lengths by, uint32_t refusal,
                       uint32_t file_line)
{
    return is_refused(answer_alone(vector, number, by), refusal, file_line) &&
           is_refused_from(answer_from_alone(vector, number, by), refusal, file_line);
}

/* ---------------------------------------------------------------- what is compared */

static void short_buffers(const struct vector *vector)
{
    int which;
    for (which = 0; which < 4; which++) {
        struct lengths by = enough;
        by.records -= which == 0;
        by.types -= which == 1;
        by.places -= which == 2;
        by.out -= which == 3;
        if (!both_refuse(vector, 0, by, ROOGNAPS_REFUSAL_SHORT_BUFFER, 0))
            differs(vector, "a short buffer isn't refused with 1");
    }
}

/* Whether the owed bytes from a place on begin with these. */
static int is_owed(const struct vector *vector, size_t at, const void *bytes, size_t count)
{
    return at <= vector->answer_bytes && count <= vector->answer_bytes - at &&
           memcmp(vector->answer + at, bytes, count) == 0;
}

/* A refused file: its one line is owed, and every function refuses it. */
static void refused_file(const struct vector *vector, roognaps_load_result loaded)
{
    uint32_t refusal = roognaps_load_refusal(loaded), file_line = roognaps_load_file_line(loaded);
    char line[64];
    int n = snprintf(line, sizeof line, "refused\t%" PRIu32 "\t%" PRIu32 "\n", refusal, file_line);
    if (n < 0 || (size_t)n != vector->answer_bytes || !is_owed(vector, 0, line, (size_t)n))
        differs(vector, "load");
    if (!both_refuse(vector, 0, enough, refusal, file_line))
        differs(vector, "answer or answer_from of a refused file");
}

/* All lines, call by call. */
static void all_lines(const struct vector *vector)
{
    uint32_t from = 0, line = 0;
    size_t at = 0;
    enum roognaps_answer_from_result_kind kind;
    do {
        struct buffers buffers = lent(enough);
        roognaps_answer_from_result result = answer_from(vector, from, line, buffers);
        size_t bytes = roognaps_answer_from_bytes(result);
        int is_right;
        kind = roognaps_answer_from_kind(result);
        is_right = kind == ROOGNAPS_ANSWER_FROM_END || (kind == ROOGNAPS_ANSWER_FROM_MORE && bytes > 0);
        is_right = is_right && bytes <= enough.out && is_owed(vector, at, buffers.out, bytes);
        give_back(buffers);
        if (!is_right) {
            differs(vector, "answer_from");
            return;
        }
        at += bytes;
        from = roognaps_answer_from_next_question(result);
        line = roognaps_answer_from_next_line(result);
    } while (kind == ROOGNAPS_ANSWER_FROM_MORE);
    if (at != vector->answer_bytes)
        differs(vector, "answer_from ends early");
}

/* Whether a line ends as one that is refused with this number. */
static int ends_refused(const char *line, size_t length, uint32_t refusal)
{
    char tail[32];
    int n = snprintf(tail, sizeof tail, "\trefused\t%" PRIu32 "\n", refusal);
    return n > 0 && length >= (size_t)n && memcmp(line + length - (size_t)n, tail, (size_t)n) == 0;
}

/* Whether a line is one that says `none`. */
static int ends_none(const char *line, size_t length)
{
    static const char tail[] = "\tnone\n";
    size_t n = sizeof tail - 1;
    return length >= n && memcmp(line + length - n, tail, n) == 0;
}

/* What the types hold after a line that makes no type: the six first ones and zeros. */
static uint32_t first_types[ROOGNAPS_TYPE_WORDS];

/* Whether types and places are as a line `none` leaves them. */
static int types_are_the_first(struct buffers buffers)
{
    static const roognaps_place places[ROOGNAPS_PLACES];
    return memcmp(buffers.types, first_types, sizeof first_types) == 0 &&
           memcmp(buffers.places, places, sizeof places) == 0;
}

/* Asks what `felt` stands for, which makes no type. */
static void find_first_types(void)
{
    static const char file[] = "index\t1\nM\tm\nS\t-\tmodule\nT\tfelt\nQ\ttype\t0\t0\t0\n";
    static const char line[] = "type\t0\t0\ttype\tfelt\n";
    const struct vector felt = {"felt", (const uint8_t *)file, sizeof file - 1, line, sizeof line - 1};
    struct buffers buffers = lent_filled();
    roognaps_answer_result result = answer(&felt, 0, 0, buffers);
    if (roognaps_answer_kind(result) != ROOGNAPS_ANSWER_LINE || types_and_places_are_zero(buffers))
        differs(&felt, "the types of a line");
    memcpy(first_types, buffers.types, sizeof first_types);
    give_back(buffers);
}

/* The line of a question, whose owed bytes these are; or that it is refused as they say. */
static void one_line(const struct vector *vector, uint32_t number, const char *line, size_t length)
{
    struct buffers buffers = lent(enough);
    roognaps_answer_result result = answer(vector, number, 0, buffers);
    size_t bytes = roognaps_answer_bytes(result);
    int is_right = 0;
    switch (roognaps_answer_kind(result)) {
    case ROOGNAPS_ANSWER_LINE:
        is_right = bytes == length && memcmp(line, buffers.out, length) == 0;
        if (ends_none(line, length) && !types_are_the_first(buffers))
            differs(vector, "the types or places after none");
        break;
    case ROOGNAPS_ANSWER_REFUSED:
        is_right = bytes == 0 && ends_refused(line, length, roognaps_answer_refusal(result));
        break;
    case ROOGNAPS_ANSWER_PAST_LAST:
    case ROOGNAPS_ANSWER_FILE_REFUSED:
    case ROOGNAPS_ANSWER_OTHER:
        break;
    }
    if (!is_right)
        differs(vector, "answer");
    give_back(buffers);
}

/* Line 1 of a question: records and `out` are as in filled buffers after `load`, types and places are zero. */
static void past_the_last(const struct vector *vector, uint32_t number, struct buffers loaded)
{
    struct buffers buffers = lent_filled();
    roognaps_answer_result result = answer(vector, number, 1, buffers);
    if (result.bits != (uint64_t)ROOGNAPS_ANSWER_PAST_LAST << 48)
        differs(vector, "line 1 isn't past the last");
    if (memcmp(buffers.records, loaded.records, enough.records * sizeof *loaded.records) != 0)
        differs(vector, "the records past the last line");
    if (!types_and_places_are_zero(buffers))
        differs(vector, "the types or places past the last line");
    if (memcmp(buffers.out, loaded.out, enough.out) != 0)
        differs(vector, "the answer buffer past the last line");
    give_back(buffers);
}

/* From line 1 of a question on is from the next question on: the result and every buffer. */
static void gone_on(const struct vector *vector, uint32_t number)
{
    struct buffers behind = lent_filled(), next = lent_filled();
    roognaps_answer_from_result from_behind = answer_from(vector, number, 1, behind);
    roognaps_answer_from_result from_next = answer_from(vector, number + 1, 0, next);
    if (from_behind.bits != from_next.bits || !are_equal(behind, next))
        differs(vector, "going on past the last line");
    give_back(behind);
    give_back(next);
}

static size_t line_count(const struct vector *vector)
{
    size_t count = 0, at;
    for (at = 0; at < vector->answer_bytes; at++)
        count += vector->answer[at] == '\n';
    return count;
}

/* The questions one by one; each owes one line. */
static void each_question(const struct vector *vector, struct buffers loaded)
{
    size_t count = line_count(vector), step = count / GONE_ON_FROM + 1, at = 0;
    uint32_t number;
    for (number = 0; number < count; number++) {
        const char *line = vector->answer + at;
        const char *end = memchr(line, '\n', vector->answer_bytes - at);
        size_t length = end == NULL ? vector->answer_bytes - at : (size_t)(end - line) + 1;
        one_line(vector, number, line, length);
        past_the_last(vector, number, loaded);
        if (number % step == 0 || number + 1 == count)
            gone_on(vector, number);
        at += length;
        questions_seen++;
    }
}

/* At the number of questions there is none to answer and no line is left; above it both are refused. */
static void behind_the_last_question(const struct vector *vector)
{
    uint32_t count = (uint32_t)line_count(vector);
    roognaps_answer_from_result left = answer_from_alone(vector, count, enough);
    if (!is_refused(answer_alone(vector, count, enough), ROOGNAPS_REFUSAL_LINK, 0))
        differs(vector, "a question that isn't there");
    if (roognaps_answer_from_kind(left) != ROOGNAPS_ANSWER_FROM_END || roognaps_answer_from_bytes(left) != 0)
        differs(vector, "lines behind the last question");
    if (!both_refuse(vector, count + 1, enough, ROOGNAPS_REFUSAL_LINK, 0))
        differs(vector, "a question number that is too large");
}

static void replay(const struct vector *vector)
{
    struct buffers empty = lent(enough), filled = lent_filled();
    roognaps_load_result loaded = load(vector, empty);
    vectors_seen++;
    if (load(vector, filled).bits != loaded.bits)
        differs(vector, "load goes by what the records held");
    short_buffers(vector);
    if (roognaps_load_kind(loaded) == ROOGNAPS_LOAD_ACCEPTED) {
        all_lines(vector);
        each_question(vector, filled);
        behind_the_last_question(vector);
    } else {
        refused_file(vector, loaded);
    }
    give_back(empty);
    give_back(filled);
}

/* ---------------------------------------------------------------- files of vectors */

static char *whole_file(const char *path, size_t *length)
{
    FILE *from = fopen(path, "rb");
    char *bytes = block(1 << 21);
    if (from == NULL) {
        perror(path);
        exit(2);
    }
    *length = fread(bytes, 1, 1 << 21, from);
    fclose(from);
    return bytes;
}

/* A vector's head line: its name and two lengths. How many bytes it has; 0 if it is none. */
static size_t read_head(const char *bytes, size_t length, char name[128], size_t *file_bytes, size_t *answer_bytes)
{
    char head[128];
    const char *end = memchr(bytes, '\n', length);
    size_t n = end == NULL ? sizeof head : (size_t)(end - bytes) + 1;
    if (n >= sizeof head)
        return 0;
    memcpy(head, bytes, n);
    head[n] = '\0';
    if (sscanf(head, "vector %127s %zu %zu\n", name, file_bytes, answer_bytes) != 3)
        return 0;
    length -= n;
    return length < *file_bytes || length - *file_bytes < *answer_bytes ? 0 : n;
}

/* Replays the vector that stands first. How many bytes it has; 0 if there is none. */
static size_t replay_first(const char *bytes, size_t length)
{
    char name[128];
    struct vector vector = {name, NULL, 0, NULL, 0};
    size_t head = read_head(bytes, length, name, &vector.file_bytes, &vector.answer_bytes);
    uint8_t *file = NULL;
    if (head == 0)
        return 0;
    if (vector.file_bytes > 0) {
        file = block(vector.file_bytes);
        memcpy(file, bytes + head, vector.file_bytes);
    }
    vector.file = file;
    vector.answer = bytes + head + vector.file_bytes;
    replay(&vector);
    free(file);
    return head + vector.file_bytes + vector.answer_bytes;
}

int main(int count, char **paths)
{
    int which;
    find_first_types();
    for (which = 1; which < count; which++) {
        size_t length, at = 0;
        char *bytes = whole_file(paths[which], &length);
        while (at < length) {
            size_t read = replay_first(bytes + at, length - at);
            if (read == 0) {
                fprintf(stderr, "%s: no vectors\n", paths[which]);
                return 2;
            }
            at += read;
        }
        free(bytes);
    }
    printf("%zu vectors, %zu questions, %zu differences\n", vectors_seen, questions_seen, differences);
    return vectors_seen == 0 ? 2 : differences != 0;
}
