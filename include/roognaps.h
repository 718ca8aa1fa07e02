/*
 * Roognaps: the types of a Cairo-M program, from its index file.
 *
 * The functions of the static library libexport.a, which `rt lib` in the folder crates/export proves
 * and makes (x86-64). Link with `cc .. -L crates/export/out -lexport`.
 *
 * What all of them promise, proved for any input: they read and write nothing but the buffers that
 * are lent, in the given lengths; nothing overflows; every call ends; the result and every byte of
 * `out` are those of the definition. The words and places are what is said with each function: the
 * definition's index and table, zero, or as they were. Of words that no record or type uses nothing
 * is said after an accepted file. Behind the lengths below nothing changes. Each call loads its file:
 * what stands in the buffers before it, record words among it, has no part in the result.
 *
 * Not proved, but so by the sources, which declare no C function: the functions keep nothing between
 * two calls and allocate nothing; compiled, they call nothing but memcpy and memset of the C library.
 * So calls from several threads are fine as long as no two of them share a buffer that is written.
 *
 * What the caller promises: each pointer is valid for its length (counted in elements, not in bytes),
 * aligned for its element, and not NULL unless the length is 0; no buffer that is written overlaps
 * another one; a call that answers is made on a thread with ROOGNAPS_STACK_BYTES of stack. How long an
 * answer takes has no useful bound (docs/DIFFERENCES.md, 3).
 *
 * Refusals 1 to 10: docs/REFUSALS.md. From source to answers by example: docs/USING.md. For C11 and
 * C++11.
 */
#ifndef ROOGNAPS_H
#define ROOGNAPS_H

#include <assert.h>
#include <stddef.h>
#include <stdint.h>

#ifdef __cplusplus
extern "C" {
#endif

/* The version of this header and of the library that it is for (CHANGELOG.md). */
#define ROOGNAPS_VERSION_MAJOR 0
#define ROOGNAPS_VERSION_MINOR 4
#define ROOGNAPS_VERSION_PATCH 1
#define ROOGNAPS_VERSION "0.4.1"

/* The lengths that the buffers need. Shorter ones are refusal 1; in longer ones the rest stays. */
#define ROOGNAPS_RECORD_WORDS 16384 /* uint32_t */
#define ROOGNAPS_TYPE_WORDS 8192    /* uint32_t */
#define ROOGNAPS_PLACES 256         /* roognaps_place */
#define ROOGNAPS_ANSWER_BYTES 4160  /* uint8_t */

/* A file has at most so many bytes and questions; else it is refused (3). */
#define ROOGNAPS_FILE_BYTES 65536
#define ROOGNAPS_QUESTIONS 256

/*
 * The stack of a thread on which a call answers: the most that was found is 4.7 MB, and no bound is proved
 * (docs/BENCHMARKS.md). Too little ends the process. A program's first thread usually has 8 MB; for
 * others see pthread_attr_setstacksize.
 */
#define ROOGNAPS_STACK_BYTES (8u << 20)

/* A place of the list of open demands. */
typedef uint32_t roognaps_place[5];

/* Why a file (1 to 5) or a line (6 to 10) is refused. roognaps_refusal_text says what each means. */
enum roognaps_refusal {
    ROOGNAPS_REFUSAL_SHORT_BUFFER = 1,
    ROOGNAPS_REFUSAL_FIRST_LINE = 2,
    ROOGNAPS_REFUSAL_LIMIT = 3,
    ROOGNAPS_REFUSAL_FORM = 4,
    ROOGNAPS_REFUSAL_LINK = 5,
    ROOGNAPS_REFUSAL_MISSING_CHILD = 6,
    ROOGNAPS_REFUSAL_RING = 7,
    ROOGNAPS_REFUSAL_TOO_DEEP = 8,
    ROOGNAPS_REFUSAL_TOO_MANY_TYPES = 9,
    ROOGNAPS_REFUSAL_LONG_TEXT = 10
};

/*
 * Results. Each function has a type of its own, so that none is read as another's; the functions at the
 * end read them. For callers without this header: a result is one number of 64 bits,
 *   bits 63 to 48  its kind, by the enum below
 *   bits 47 to 32  a refusal's number, or the question to go on with; else 0
 *   bits 31 to 0   the line of a refused file, or the bytes in `out`; for ROOGNAPS_ANSWER_FROM_MORE the
 *                  line to go on with in bits 31 to 16 and the bytes in bits 15 to 0
 * and by the calling convention of x86-64 (System V), for which the library is made, a struct of one
 * uint64_t comes back in the same register as a uint64_t.
 */
typedef struct {
    uint64_t bits;
} roognaps_load_result;

typedef struct {
    uint64_t bits;
} roognaps_answer_result;

typedef struct {
    uint64_t bits;
} roognaps_answer_from_result;

static_assert(sizeof(roognaps_load_result) == sizeof(uint64_t) &&
                  sizeof(roognaps_answer_result) == sizeof(uint64_t) &&
                  sizeof(roognaps_answer_from_result) == sizeof(uint64_t),
              "each result is one number of 64 bits");

/*
 * Kinds. The library gives none of ROOGNAPS_.._OTHER; it is there so that any 16 bits are a value of the
 * enum, and a number of another library is seen to be none of the other kinds.
 */
enum roognaps_load_result_kind {
    ROOGNAPS_LOAD_ACCEPTED = 0,
    ROOGNAPS_LOAD_REFUSED = 3,
    ROOGNAPS_LOAD_OTHER = 0xffff
};

enum roognaps_answer_result_kind {
    ROOGNAPS_ANSWER_LINE = 0,
    ROOGNAPS_ANSWER_REFUSED = 1,
    ROOGNAPS_ANSWER_PAST_LAST = 2,
    ROOGNAPS_ANSWER_FILE_REFUSED = 3,
    ROOGNAPS_ANSWER_OTHER = 0xffff
};

enum roognaps_answer_from_result_kind {
    ROOGNAPS_ANSWER_FROM_END = 0,
    ROOGNAPS_ANSWER_FROM_MORE = 1,
    ROOGNAPS_ANSWER_FROM_FILE_REFUSED = 3,
    ROOGNAPS_ANSWER_FROM_OTHER = 0xffff
};

/*
 * Checks a file by loading it. Takes little stack.
 *   ROOGNAPS_LOAD_ACCEPTED  the record words hold the file's index, for looking at by docs/LAYOUT.md, as
 *                           in a debugger: no function here reads record words that the caller hands over
 *   ROOGNAPS_LOAD_REFUSED   with the refusal, 1 to 5, and the line of the file, 0 where no line is at
 *                           fault: after 1 the words are as they were, after 2 to 5 the first 16,384 are
 *                           zero
 */
roognaps_load_result roognaps_load(const uint8_t *file, size_t file_bytes, uint32_t *records, size_t record_count);

/*
 * Loads a file and answers a line of the question of a number (the Q lines, from 0): the line of a
 * number, from 0. Every question of index 1 has one line. Its last field is the text of a type; or
 * `none`, of the question `at` where no expression covers the byte or the file has no such module.
 *   ROOGNAPS_ANSWER_LINE          with the bytes of the line, LF included, at the start of `out`; the bytes
 *                                 behind it are as they were. The records hold the index (docs/LAYOUT.md),
 *                                 the types the table of types that the line made, the places are zero.
 *                                 After `none` the types hold the six that every line begins with: felt,
 *                                 bool, u32, unknown, error, ()
 *   ROOGNAPS_ANSWER_REFUSED       with the refusal of the line, 6 to 10, and the bytes that stand for it at
 *                                 the start of `out`, 0 today: `out` is as it was. The records hold the
 *                                 index, types and places are zero
 *   ROOGNAPS_ANSWER_PAST_LAST     the question has no line of this number: `out` is as it was, the records
 *                                 hold the index, types and places are zero
 *   ROOGNAPS_ANSWER_FILE_REFUSED  with the refusal of the file, 1 to 5, and its line, 0 where no line is at
 *                                 fault. After 1 all buffers are as they were; after 2 to 5 the records are
 *                                 zero and the other buffers as they were. 5 with line 0: the file has no
 *                                 question of this number
 */
roognaps_answer_result roognaps_answer(const uint8_t *file, size_t file_bytes, uint32_t number, uint32_t line,
                                       uint32_t *records, size_t record_count,
                                       uint32_t *types, size_t type_count,
                                       roognaps_place *places, size_t place_count,
                                       uint8_t *out, size_t out_count);

/*
 * Loads a file and answers its questions from a question's line on: the lines, one behind the other
 * at the start of `out`, as many as fit into ROOGNAPS_ANSWER_BYTES, at least one if there is one.
 * Where the question has no such line it goes on with the next. A line with refusal 6 to 10 is among
 * them.
 *   ROOGNAPS_ANSWER_FROM_END           with the bytes of the lines: these are the last. The records hold the
 *                                      index. With lines the types hold the table of the last, or are zero
 *                                      if it is refused, and the places are zero; without any, 0 bytes,
 *                                      types and places are as they were
 *   ROOGNAPS_ANSWER_FROM_MORE          with the bytes of the lines and with the question and the line to go
 *                                      on with. The records hold the index, types and places are zero
 *   ROOGNAPS_ANSWER_FROM_FILE_REFUSED  as for roognaps_answer; 5 with line 0: the number is above the number
 *                                      of questions
 * The bytes of `out` behind the lines are as they were.
 */
roognaps_answer_from_result roognaps_answer_from(const uint8_t *file, size_t file_bytes, uint32_t from, uint32_t line,
                                                 uint32_t *records, size_t record_count,
                                                 uint32_t *types, size_t type_count,
                                                 roognaps_place *places, size_t place_count,
                                                 uint8_t *out, size_t out_count);

/* The three fields of a result's bits. Callers have the functions below. */
static inline uint32_t roognaps_bits_kind(uint64_t bits)
{
    return (uint32_t)(bits >> 48);
}

static inline uint32_t roognaps_bits_number(uint64_t bits)
{
    return (uint32_t)(bits >> 32) & 0xffffu;
}

static inline uint32_t roognaps_bits_rest(uint64_t bits)
{
    return (uint32_t)bits;
}

/* ---------------------------------------------------------------- results of roognaps_load */

static inline enum roognaps_load_result_kind roognaps_load_kind(roognaps_load_result result)
{
    return (enum roognaps_load_result_kind)roognaps_bits_kind(result.bits);
}

/* The number of the refusal, 1 to 5. 0 for an accepted file. */
static inline uint32_t roognaps_load_refusal(roognaps_load_result result)
{
    return roognaps_load_kind(result) == ROOGNAPS_LOAD_REFUSED ? roognaps_bits_number(result.bits) : 0;
}

/* The line of the file, from 1, or 0 where no line is at fault. 0 for an accepted file. */
static inline uint32_t roognaps_load_file_line(roognaps_load_result result)
{
    return roognaps_load_kind(result) == ROOGNAPS_LOAD_REFUSED ? roognaps_bits_rest(result.bits) : 0;
}

/* ---------------------------------------------------------------- results of roognaps_answer */

static inline enum roognaps_answer_result_kind roognaps_answer_kind(roognaps_answer_result result)
{
    return (enum roognaps_answer_result_kind)roognaps_bits_kind(result.bits);
}

/* How many bytes stand at the start of `out`, for a line or for a refused one (0 today). 0 for the other kinds. */
static inline size_t roognaps_answer_bytes(roognaps_answer_result result)
{
    enum roognaps_answer_result_kind kind = roognaps_answer_kind(result);
    int has_bytes = kind == ROOGNAPS_ANSWER_LINE || kind == ROOGNAPS_ANSWER_REFUSED;
    return has_bytes ? roognaps_bits_rest(result.bits) : 0;
}

/* The number of the refusal, 6 to 10 of the line or 1 to 5 of the file. 0 for the other kinds. */
static inline uint32_t roognaps_answer_refusal(roognaps_answer_result result)
{
    enum roognaps_answer_result_kind kind = roognaps_answer_kind(result);
    int is_refused = kind == ROOGNAPS_ANSWER_REFUSED || kind == ROOGNAPS_ANSWER_FILE_REFUSED;
    return is_refused ? roognaps_bits_number(result.bits) : 0;
}

/* Of a refused file: its line, from 1, or 0 where no line is at fault. 0 for the other kinds. */
static inline uint32_t roognaps_answer_file_line(roognaps_answer_result result)
{
    return roognaps_answer_kind(result) == ROOGNAPS_ANSWER_FILE_REFUSED ? roognaps_bits_rest(result.bits) : 0;
}

/* ---------------------------------------------------------------- results of roognaps_answer_from */

static inline enum roognaps_answer_from_result_kind roognaps_answer_from_kind(roognaps_answer_from_result result)
{
    return (enum roognaps_answer_from_result_kind)roognaps_bits_kind(result.bits);
}

/* How many bytes of lines stand at the start of `out`. 0 for a refused file. */
static inline size_t roognaps_answer_from_bytes(roognaps_answer_from_result result)
{
    uint32_t rest = roognaps_bits_rest(result.bits);
    switch (roognaps_answer_from_kind(result)) {
    case ROOGNAPS_ANSWER_FROM_END:
        return rest;
    case ROOGNAPS_ANSWER_FROM_MORE:
        return rest & 0xffffu;
    case ROOGNAPS_ANSWER_FROM_FILE_REFUSED:
    case ROOGNAPS_ANSWER_FROM_OTHER:
        break;
    }
    return 0;
}

/* The question to go on with. 0 for the other kinds than ROOGNAPS_ANSWER_FROM_MORE. */
static inline uint32_t roognaps_answer_from_next_question(roognaps_answer_from_result result)
{
    return roognaps_answer_from_kind(result) == ROOGNAPS_ANSWER_FROM_MORE ? roognaps_bits_number(result.bits) : 0;
}

/* The line of that question to go on with. 0 for the other kinds than ROOGNAPS_ANSWER_FROM_MORE. */
static inline uint32_t roognaps_answer_from_next_line(roognaps_answer_from_result result)
{
    return roognaps_answer_from_kind(result) == ROOGNAPS_ANSWER_FROM_MORE ? roognaps_bits_rest(result.bits) >> 16 : 0;
}

/* The number of the file's refusal, 1 to 5. 0 for the other kinds. */
static inline uint32_t roognaps_answer_from_refusal(roognaps_answer_from_result result)
{
    int is_refused = roognaps_answer_from_kind(result) == ROOGNAPS_ANSWER_FROM_FILE_REFUSED;
    return is_refused ? roognaps_bits_number(result.bits) : 0;
}

/* Of a refused file: its line, from 1, or 0 where no line is at fault. 0 for the other kinds. */
static inline uint32_t roognaps_answer_from_file_line(roognaps_answer_from_result result)
{
    int is_refused = roognaps_answer_from_kind(result) == ROOGNAPS_ANSWER_FROM_FILE_REFUSED;
    return is_refused ? roognaps_bits_rest(result.bits) : 0;
}

/* ---------------------------------------------------------------- refusals in words */

/*
 * What a refusal means. The line of the file counts for 3 and 5, which mean something else where no line
 * is at fault; for the others any will do. Of a number that no refusal has: that there is none.
 */
static inline const char *roognaps_refusal_text(uint32_t refusal, uint32_t file_line)
{
    switch (refusal) {
    case ROOGNAPS_REFUSAL_SHORT_BUFFER:
        return "a buffer is too short";
    case ROOGNAPS_REFUSAL_FIRST_LINE:
        return "the first line isn't that of an index file of version 1";
    case ROOGNAPS_REFUSAL_LIMIT:
        return file_line == 0 ? "the file has over 65,536 bytes" : "a limit of the file is passed";
    case ROOGNAPS_REFUSAL_FORM:
        return "a line of wrong form, place or last byte, or a module name that was there before";
    case ROOGNAPS_REFUSAL_LINK:
        return file_line == 0 ? "the file has no question of this number"
                              : "a link to no record, a wrong parent, or a module without a scope";
    case ROOGNAPS_REFUSAL_MISSING_CHILD:
        return "an expression needs a child that has no record";
    case ROOGNAPS_REFUSAL_RING:
        return "the type is needed to find itself: a ring";
    case ROOGNAPS_REFUSAL_TOO_DEEP:
        return "the program is nested too deeply: a 257th demand would be open";
    case ROOGNAPS_REFUSAL_TOO_MANY_TYPES:
        return "the question needs over 256 types, or over 2,048 items of types";
    case ROOGNAPS_REFUSAL_LONG_TEXT:
        return "the text of the type has over 4,096 bytes";
    default:
        return "there is no refusal of this number";
    }
}

#ifdef __cplusplus
}
#endif

#endif
