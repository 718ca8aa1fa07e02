/*
 * A library that keeps within the buffers and answers at random, in place of the proved one: what the Rust
 * crate makes of it must be an error value, never a panic (rust/roognaps/tests/wrong_library.rs).
 *
 *     cc -std=c11 -fPIC -Iinclude -c tools/robust/wrong.c && ar rcs libexport.a wrong.o
 */
#include <string.h>

#include "roognaps.h"

static _Thread_local uint64_t state = 1;

static uint64_t any(void)
{
    uint64_t z = state += 0x9E3779B97F4A7C15u;
    z = (z ^ (z >> 30)) * 0xBF58476D1CE4E5B9u;
    z = (z ^ (z >> 27)) * 0x94D049BB133111EBu;
    return z ^ (z >> 31);
}

static uint64_t below(uint64_t end)
{
    return any() % end;
}

/* Pieces of lines, right and wrong; the first four are whole lines. */
static const char *const pieces[] = {
    "expr\t0\t0\ttype\tfelt\n", "def\t7\t9\trefused\t7\n", "type\t0\t1\ttype\t(u32,bool)\n",
    "at\t0\t4294967295\tnone\n",
    "expr\t", "def", "at\t", "none", "\t", "\n", "0", "-1", "00", "4294967296", "99999999999999999999", "type\t",
    "refused\t", "felt", "(", ")", "[", ";", "]", ",", "ptr(", "struct:", "fn:", "0.0", "\xff", "\xc3", "\xc3\xa9", "\r", " ",
};

static void scribble(uint8_t *out, size_t count)
{
    size_t at = 0;
    uint64_t way = below(4);
    while (at < count) {
        const char *piece = pieces[below(way == 0 ? 4 : sizeof pieces / sizeof *pieces)];
        size_t n = strlen(piece);
        if (way == 1 && below(8) == 0)
            piece = "((((((((", n = 8;
        if (n > count - at)
            n = count - at;
        memcpy(out + at, piece, n);
        at += n;
        if (way == 2)
            out[below(at)] = (uint8_t)any();
    }
}

/* Some lines that are right, at the start of `out`; how many bytes they have. */
static uint64_t write_lines(uint8_t *out, uint64_t count)
{
    size_t n = strlen(pieces[0]), at;
    for (at = 0; at < count; at++)
        memcpy(out + n * at, pieces[0], n);
    return n * count;
}

/* The four parts of 16 bits of a result. */
static uint64_t bits(uint64_t kind, uint64_t number, uint64_t high, uint64_t low)
{
    return (kind << 48) + (number << 32) + (high << 16) + low;
}

/* A result of which each part is near something right, or anything; some are near a refusal. */
static uint64_t any_result(void)
{
    uint64_t kind = below(10) ? below(4) : any() >> 48;
    uint64_t number = below(3) ? below(14) : below(2) ? below(300) : any() >> 48;
    uint64_t high = below(3) ? 0 : below(2) ? below(4) : any() >> 48;
    uint64_t low = below(4) ? strlen(pieces[0]) * below(4) : below(2) ? below(5000) : any() >> 48;
    if (below(4) == 0)
        return bits(below(2) ? ROOGNAPS_ANSWER_REFUSED : ROOGNAPS_ANSWER_FILE_REFUSED, below(12), 0, below(3));
    return bits(kind, below(2) ? 0 : number, high, low);
}

roognaps_load_result roognaps_load(const uint8_t *file, size_t file_bytes, uint32_t *records, size_t record_count)
{
    roognaps_load_result given;
    (void)file, (void)file_bytes, (void)records, (void)record_count;
    given.bits = below(4) ? any_result() : 0;
    return given;
}

roognaps_answer_result roognaps_answer(const uint8_t *file, size_t file_bytes, uint32_t number, uint32_t line,
                                       uint32_t *records, size_t record_count, uint32_t *types, size_t type_count,
                                       roognaps_place *places, size_t place_count, uint8_t *out, size_t out_count)
{
    roognaps_answer_result given;
    (void)file, (void)file_bytes, (void)number, (void)line, (void)records, (void)record_count;
    (void)types, (void)type_count, (void)places, (void)place_count;
    scribble(out, out_count);
    given.bits = any_result();
    /* Often a whole line. */
    if (below(2))
        given.bits = bits(ROOGNAPS_ANSWER_LINE, 0, 0, write_lines(out, 1));
    return given;
}

roognaps_answer_from_result roognaps_answer_from(const uint8_t *file, size_t file_bytes, uint32_t from, uint32_t line,
                                                 uint32_t *records, size_t record_count, uint32_t *types,
                                                 size_t type_count, roognaps_place *places, size_t place_count,
                                                 uint8_t *out, size_t out_count)
{
    roognaps_answer_from_result given;
    (void)file, (void)file_bytes, (void)line, (void)records, (void)record_count;
    (void)types, (void)type_count, (void)places, (void)place_count;
    scribble(out, out_count);
    given.bits = any_result();
    /* Often whole lines, and more behind them or the end. */
    if (below(4)) {
        uint64_t kind = below(3) ? ROOGNAPS_ANSWER_FROM_MORE : ROOGNAPS_ANSWER_FROM_END;
        uint64_t is_more = kind == ROOGNAPS_ANSWER_FROM_MORE;
        uint64_t lines = below(20);
        given.bits = bits(kind, is_more * (from + below(3)), is_more * below(4), write_lines(out, lines));
    }
    return given;
}
