/*
 * Answers an index file.
 *
 *     cc -std=c11 -Iinclude examples/c/answer.c -Lcrates/export/out -lexport -o answer
 *     ./answer FILE                  every question: prints what the program `resolve` prints.
 *                                    Without FILE standard input is read
 *     ./answer FILE QUESTION         one question: prints its first line. If it is refused, `refused`, the
 *                                    refusal and the line of the file, which is 0 for 6 to 10
 *     ./answer FILE QUESTION LINE    the same for another line of the question; both are numbered from 0
 *
 * Exit status 0: answered, also where lines or the file are refused; 1: the question has no such line,
 * which standard error says, and nothing is printed; 2: it couldn't be read or written, or the arguments
 * are wrong.
 */
#include <errno.h>
#include <inttypes.h>
#include <stdio.h>
#include <stdlib.h>
#include <string.h>

#include "roognaps.h"

enum { ANSWERED = 0, NO_SUCH_LINE = 1, FAILED = 2 };

/* One set of buffers a thread. Static, so that they take no stack. */
static uint32_t records[ROOGNAPS_RECORD_WORDS];
static uint32_t types[ROOGNAPS_TYPE_WORDS];
static roognaps_place places[ROOGNAPS_PLACES];
static uint8_t out[ROOGNAPS_ANSWER_BYTES];

/* One byte more than a file may have, so that one that is too large is refused, not cut. */
static uint8_t file[ROOGNAPS_FILE_BYTES + 1];
static size_t file_bytes;

static int written(int is_written)
{
    if (is_written && fflush(stdout) == 0)
        return ANSWERED;
    fprintf(stderr, "answer: the answer can't be written: %s\n", strerror(errno));
    return FAILED;
}

static int print_refused(uint32_t refusal, uint32_t file_line)
{
    return written(printf("refused\t%" PRIu32 "\t%" PRIu32 "\n", refusal, file_line) > 0);
}

/* The first bytes of `out`. */
static int print_out(size_t bytes)
{
    return written(fwrite(out, 1, bytes, stdout) == bytes);
}

static int answer_all(void)
{
    uint32_t question = 0, line = 0;
    for (;;) {
        roognaps_answer_from_result result =
            roognaps_answer_from(file, file_bytes, question, line, records, ROOGNAPS_RECORD_WORDS, types,
                                 ROOGNAPS_TYPE_WORDS, places, ROOGNAPS_PLACES, out, ROOGNAPS_ANSWER_BYTES);
        enum roognaps_answer_from_result_kind kind = roognaps_answer_from_kind(result);
        int status;
        if (kind == ROOGNAPS_ANSWER_FROM_FILE_REFUSED)
            return print_refused(roognaps_answer_from_refusal(result), roognaps_answer_from_file_line(result));
        status = print_out(roognaps_answer_from_bytes(result));
        if (status != ANSWERED || kind != ROOGNAPS_ANSWER_FROM_MORE)
            return status;
        question = roognaps_answer_from_next_question(result);
        line = roognaps_answer_from_next_line(result);
    }
}

static int answer_one(uint32_t question, uint32_t line)
{
    roognaps_answer_result result =
        roognaps_answer(file, file_bytes, question, line, records, ROOGNAPS_RECORD_WORDS, types,
                        ROOGNAPS_TYPE_WORDS, places, ROOGNAPS_PLACES, out, ROOGNAPS_ANSWER_BYTES);
    switch (roognaps_answer_kind(result)) {
    case ROOGNAPS_ANSWER_LINE:
        return print_out(roognaps_answer_bytes(result));
    case ROOGNAPS_ANSWER_REFUSED:
    case ROOGNAPS_ANSWER_FILE_REFUSED:
        return print_refused(roognaps_answer_refusal(result), roognaps_answer_file_line(result));
    case ROOGNAPS_ANSWER_PAST_LAST:
        fprintf(stderr, "answer: question %" PRIu32 " has no line %" PRIu32 "\n", question, line);
        return NO_SUCH_LINE;
    case ROOGNAPS_ANSWER_OTHER:
        break;
    }
    fprintf(stderr, "answer: not the library of this header\n");
    return FAILED;
}

/* Reads the file of a path, or standard input without one. False, and a message, if it can't be read. */
static int read_file(const char *path)
{
    FILE *from = path == NULL ? stdin : fopen(path, "rb");
    if (from != NULL)
        file_bytes = fread(file, 1, sizeof file, from);
    if (from == NULL || ferror(from)) {
        fprintf(stderr, "answer: %s: %s\n", path == NULL ? "standard input" : path, strerror(errno));
        return 0;
    }
    return 1;
}

/* Reads a number in decimal. False, and a message, if it is none. */
static int read_number(const char *word, uint32_t *number)
{
    char *end;
    unsigned long long read;
    errno = 0;
    read = strtoull(word, &end, 10);
    if (word[0] < '0' || word[0] > '9' || *end != '\0' || errno != 0 || read > UINT32_MAX) {
        fprintf(stderr, "answer: %s is no number of a question or a line\n", word);
        return 0;
    }
    *number = (uint32_t)read;
    return 1;
}

int main(int count, char **words)
{
    uint32_t question = 0, line = 0;
    if (count > 4) {
        fprintf(stderr, "usage: answer [FILE [QUESTION [LINE]]]\n");
        return FAILED;
    }
    if (count > 2 && !read_number(words[2], &question))
        return FAILED;
    if (count > 3 && !read_number(words[3], &line))
        return FAILED;
    if (!read_file(count > 1 ? words[1] : NULL))
        return FAILED;
    return count > 2 ? answer_one(question, line) : answer_all();
}
