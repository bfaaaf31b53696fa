/* Each C entry: a value, each of its refusals in their order, and the bytes around what is written. */
#include "vaimalofo.h"

#include <stddef.h>

#include <stdio.h>
#include <string.h>

static int failures;

static void same(const char *what, int64_t got, int64_t expected) {
    if (got != expected) {
        printf("%s: %lld, expected %lld\n", what, (long long)got, (long long)expected);
        failures++;
    }
}

/* A run of `words` words and a tail, watched on both sides, with its bytes as they were before a call. */
struct watched {
    uint8_t all[64], before[64];
    uint8_t *run;
    size_t length;
};

static struct watched watch(struct watched *w, size_t words, size_t tail) {
    memset(w->all, 0xA5, sizeof w->all);
    memset(w->before, 0xA5, sizeof w->before);
    w->run = w->all + 16;
    w->length = words * 4 + tail;
    return *w;
}

static uint32_t word_at(const uint8_t *at) {
    return (uint32_t)at[0] | (uint32_t)at[1] << 8 | (uint32_t)at[2] << 16 | (uint32_t)at[3] << 24;
}

/* Puts a word where it stands before a call. */
static void stand(struct watched *w, size_t position, uint32_t word) {
    for (size_t i = 0; i < 4; i++) w->run[position * 4 + i] = (uint8_t)(word >> 8 * i);
    memcpy(w->before, w->all, sizeof w->all);
}

/* The answer is `words` words from the position on, and every other byte is as before. */
static void wrote(const char *what, const struct watched *w, uint64_t answer, size_t position, size_t count, const uint32_t *words) {
    size_t start = 16 + position * 4;
    same(what, (int64_t)vaimalofo_refusal(answer), 0);
    same(what, (int64_t)vaimalofo_words(answer), (int64_t)count);
    same(what, vaimalofo_value(answer), (int64_t)count + 256 * (int64_t)vaimalofo_low12(answer));
    for (size_t i = 0; i < sizeof w->all; i++) {
        if (i < start || i >= start + count * 4) same(what, w->all[i], w->before[i]);
    }
    for (size_t i = 0; i < count; i++) same(what, word_at(w->all + start + i * 4), words[i]);
}

static void refused(const char *what, const struct watched *w, uint64_t answer, unsigned refusal) {
    same(what, (int64_t)answer, (int64_t)refusal);
    same(what, vaimalofo_value(answer), 0);
    for (size_t i = 0; i < sizeof w->all; i++) same(what, w->all[i], w->before[i]);
}

/* The greatest address that a word has. */
static const uint64_t last = UINT64_C(0xFFFFFFFFFFFFFFFC);

static void moves(uint64_t base) {
    struct watched w;
    const uint32_t two[] = {0xD28ACF00, 0xF2A24680};
    const uint32_t patchable[] = {0xD2800005, 0xF2A00005, 0xF2C00005, 0xF2E00005};
    for (size_t tail = 0; tail < 4; tail++) {
        watch(&w, 3, tail);
        wrote("move", &w, vaimalofo_move(w.run, w.length, base, 1, 0x12345678, 0), 1, 2, two);
        watch(&w, 2, tail);
        refused("move 8", &w, vaimalofo_move(w.run, w.length, base, 1, 0x12345678, 0), VAIMALOFO_NO_ROOM);
        refused("move 8, past", &w, vaimalofo_move(w.run, w.length, base, SIZE_MAX, 0, 0), VAIMALOFO_NO_ROOM);
        refused("move 2", &w, vaimalofo_move(w.run, w.length, base, 9, 0, 31), VAIMALOFO_REGISTER);
        watch(&w, 4, tail);
        wrote("patchable", &w, vaimalofo_patchable_move(w.run, w.length, base, 0, 0, 64, 5), 0, 4, patchable);
        watch(&w, 3, tail);
        refused("patchable 8", &w, vaimalofo_patchable_move(w.run, w.length, base, 0, 0, 64, 5), VAIMALOFO_NO_ROOM);
        refused("patchable 2", &w, vaimalofo_patchable_move(w.run, w.length, base, 0, 0, 64, 31), VAIMALOFO_REGISTER);
        refused("patchable 1", &w, vaimalofo_patchable_move(w.run, w.length, base, 0, 0, 16, 31), VAIMALOFO_WIDTH);
    }
}

static void logical(uint64_t base) {
    struct watched w;
    const uint32_t and_ff[] = {0x92401C20};
    watch(&w, 1, 3);
    wrote("word", &w, vaimalofo_logical_word(w.run, w.length, base, 0, VAIMALOFO_AND, 0xFF, 64, 1, 0), 0, 1, and_ff);
    watch(&w, 1, 3);
    refused("word 7", &w, vaimalofo_logical_word(w.run, w.length, base, 1, 4, 0, 16, 32, 0), VAIMALOFO_UNKNOWN);
    refused("word 1", &w, vaimalofo_logical_word(w.run, w.length, base, 1, 0, 0, 16, 32, 0), VAIMALOFO_WIDTH);
    refused("word 2", &w, vaimalofo_logical_word(w.run, w.length, base, 1, 0, 0, 32, 0, 32), VAIMALOFO_REGISTER);
    refused("word 3", &w, vaimalofo_logical_word(w.run, w.length, base, 1, 0, 0, 32, 0, 31), VAIMALOFO_NO_FIELD);
    refused("word 8", &w, vaimalofo_logical_word(w.run, w.length, base, 1, 0, 1, 32, 0, 31), VAIMALOFO_NO_ROOM);
}

static void distances(uint64_t base) {
    struct watched w;
    const uint32_t back[] = {0x17FFFFFF};
    watch(&w, 2, 1);
    wrote("branch", &w, vaimalofo_displacement(w.run, w.length, base, 1, VAIMALOFO_BRANCH_26, 0x14000000, -4), 1, 1, back);
    watch(&w, 2, 1);
    refused("disp 7", &w, vaimalofo_displacement(w.run, w.length, base, 2, 6, 0xFFFFFFFF, 1), VAIMALOFO_UNKNOWN);
    refused("disp 11", &w, vaimalofo_displacement(w.run, w.length, base, 2, 0, 0xFFFFFFFF, 1), VAIMALOFO_WRONG_FORM);
    refused("disp 6", &w, vaimalofo_displacement(w.run, w.length, base, 2, 0, 0x14000001, 1), VAIMALOFO_TAKEN);
    refused("disp 4", &w, vaimalofo_displacement(w.run, w.length, base, 2, 0, 0x14000000, INT64_MAX), VAIMALOFO_STEP);
    refused("disp 5", &w, vaimalofo_displacement(w.run, w.length, base, 2, 0, 0x14000000, INT64_MIN), VAIMALOFO_RANGE);
    refused("disp 8", &w, vaimalofo_displacement(w.run, w.length, base, 2, 0, 0x14000000, 0), VAIMALOFO_NO_ROOM);
    refused("page by distance 4", &w, vaimalofo_displacement(w.run, w.length, base, 2, 4, 0x90000000, 0x2004), VAIMALOFO_STEP);
}

/* Targets, by their distance from the word at position 1 or 2, modulo 2^64. */
static void targets(uint64_t base) {
    struct watched w;
    const uint32_t two_on[] = {0x14000002}, back[] = {0x17FFFFFF};
    uint64_t at = vaimalofo_address(base, 1), past = vaimalofo_address(base, 2);
    watch(&w, 2, 1);
    wrote("to, on", &w, vaimalofo_displacement_to(w.run, w.length, base, 1, VAIMALOFO_BRANCH_26, 0x14000000, at + 8), 1, 1, two_on);
    watch(&w, 2, 1);
    wrote("to, back", &w, vaimalofo_displacement_to(w.run, w.length, base, 1, VAIMALOFO_BRANCH_26, 0x14000000, at - 4), 1, 1, back);
    watch(&w, 2, 1);
    same("no low bits", (int64_t)vaimalofo_displacement_to(w.run, w.length, base, 1, VAIMALOFO_ADR_21, 0x10000000, at + 0xFFF), 256);
    watch(&w, 2, 1);
    refused("to 7", &w, vaimalofo_displacement_to(w.run, w.length, base, 2, 6, 0xFFFFFFFF, past + 1), VAIMALOFO_UNKNOWN);
    refused("to 11", &w, vaimalofo_displacement_to(w.run, w.length, base, 2, 0, 0x10000000, past + 1), VAIMALOFO_WRONG_FORM);
    refused("to 6", &w, vaimalofo_displacement_to(w.run, w.length, base, 2, 0, 0x14000001, past + 1), VAIMALOFO_TAKEN);
    refused("to 4", &w, vaimalofo_displacement_to(w.run, w.length, base, 2, 0, 0x14000000, past + 134217730), VAIMALOFO_STEP);
    refused("to 5", &w, vaimalofo_displacement_to(w.run, w.length, base, 2, 0, 0x14000000, past - 134217732), VAIMALOFO_RANGE);
    refused("to 8", &w, vaimalofo_displacement_to(w.run, w.length, base, 2, 0, 0x14000000, past - 134217728), VAIMALOFO_NO_ROOM);
}

/* From each word of a page to each place of the second page on; and the page of an address past 2^64. */
static void pages(void) {
    struct watched w;
    const uint32_t page[] = {0xD0000000}, next[] = {0xB0000000};
    for (uint32_t low = 0; low < 4096; low++) {
        uint64_t base = 0x1FF8 - low / 4 * 4;
        watch(&w, 2, 1);
        uint64_t answer = vaimalofo_displacement_to(w.run, w.length, base, 1, VAIMALOFO_ADRP_21, 0x90000000, 0x3000 + low);
        wrote("inside a page", &w, answer, 1, 1, page);
        same("low bits", vaimalofo_low12(answer), low);
    }
    watch(&w, 2, 1);
    wrote("from the last page", &w, vaimalofo_displacement_to(w.run, w.length, last, 0, 4, 0x90000000, 0), 0, 1, next);
    watch(&w, 2, 1);
    wrote("from the first page", &w, vaimalofo_displacement_to(w.run, w.length, last, 1, 4, 0x90000000, 0x1000), 1, 1, next);
    watch(&w, 2, 1);
    refused("page 6", &w, vaimalofo_displacement_to(w.run, w.length, 0, 2, 4, 0x90000020, 0x3004), VAIMALOFO_TAKEN);
    refused("page 5", &w, vaimalofo_displacement_to(w.run, w.length, 0xFF0, 2, 4, 0x90000000, 0x100000FFF), VAIMALOFO_RANGE);
    refused("page 8", &w, vaimalofo_displacement_to(w.run, w.length, 0, 2, 4, 0x90000000, 0x3004), VAIMALOFO_NO_ROOM);
}

/* An address counts modulo 2^64, also of a position that no run has: there the target is in range, and only the room is missing. */
static void addresses(void) {
    struct watched w;
    const size_t quarter = SIZE_MAX / 4 + 1;
    same("address", (int64_t)vaimalofo_address(0x1000, 2), 0x1008);
    same("address, around", (int64_t)vaimalofo_address(last, 1), 0);
    same("address, quarter", (int64_t)vaimalofo_address(0x1000, quarter), 0x1000);
    same("address, last", (int64_t)vaimalofo_address(0x1000, SIZE_MAX), 0xFFC);
    watch(&w, 2, 1);
    refused("to 8, quarter", &w, vaimalofo_displacement_to(w.run, w.length, 0x1000, quarter, 0, 0x14000000, 0x1000), VAIMALOFO_NO_ROOM);
    refused("to 8, last", &w, vaimalofo_displacement_to(w.run, w.length, 0, SIZE_MAX, 0, 0x14000000, 0), VAIMALOFO_NO_ROOM);
    refused("to 5, last", &w, vaimalofo_displacement_to(w.run, w.length, 0, SIZE_MAX, 0, 0x14000000, 134217724), VAIMALOFO_RANGE);
}

/* 15 before each other refusal, and where there is none. */
static void unaligned(uint64_t base) {
    struct watched w;
    const unsigned refusal = VAIMALOFO_UNALIGNED;
    watch(&w, 4, 1);
    refused("move 15", &w, vaimalofo_move(w.run, w.length, base, 0, 0, 0), refusal);
    refused("move 15, 2, 8", &w, vaimalofo_move(w.run, w.length, base, 9, 0, 31), refusal);
    refused("patchable 15", &w, vaimalofo_patchable_move(w.run, w.length, base, 0, 0, 64, 5), refusal);
    refused("patchable 15, 1, 2, 8", &w, vaimalofo_patchable_move(w.run, w.length, base, 9, 0, 16, 31), refusal);
    refused("word 15", &w, vaimalofo_logical_word(w.run, w.length, base, 0, 0, 0xFF, 64, 1, 0), refusal);
    refused("word 15, 7, 1, 2, 3, 8", &w, vaimalofo_logical_word(w.run, w.length, base, 9, 4, 0, 16, 32, 32), refusal);
    refused("disp 15", &w, vaimalofo_displacement(w.run, w.length, base, 0, 0, 0x14000000, 4), refusal);
    refused("disp 15, 7, 8", &w, vaimalofo_displacement(w.run, w.length, base, 9, 6, 0xFFFFFFFF, 1), refusal);
    refused("disp 15, 11, 4, 5, 8", &w, vaimalofo_displacement(w.run, w.length, base, 9, 0, 0xFFFFFFFF, INT64_MAX), refusal);
    refused("to 15", &w, vaimalofo_displacement_to(w.run, w.length, base, 0, 0, 0x14000000, base), refusal);
    refused("to 15, page", &w, vaimalofo_displacement_to(w.run, w.length, base, 0, 4, 0x90000000, base), refusal);
    refused("to 15, 7, 8", &w, vaimalofo_displacement_to(w.run, w.length, base, 9, 6, 0xFFFFFFFF, 1), refusal);
    refused("to 15, 6, 5, 8", &w, vaimalofo_displacement_to(w.run, w.length, base, 9, 0, 0x14000001, base + (UINT64_C(1) << 63)), refusal);
    stand(&w, 0, 0x17FFFFFF);
    refused("again 15", &w, vaimalofo_retarget(w.run, w.length, base, 0, 0, 4), refusal);
    refused("again 15, 7, 8", &w, vaimalofo_retarget(w.run, w.length, base, 9, 6, 1), refusal);
    refused("again 15, 11, 4, 5", &w, vaimalofo_retarget(w.run, w.length, base, 1, 0, INT64_MAX), refusal);
    refused("again to 15", &w, vaimalofo_retarget_to(w.run, w.length, base, 0, 0, base), refusal);
    refused("again to 15, 7, 8", &w, vaimalofo_retarget_to(w.run, w.length, base, 9, 6, 1), refusal);
    refused("again to 15, 11, 5", &w, vaimalofo_retarget_to(w.run, w.length, base, 1, 0, base + (UINT64_C(1) << 63)), refusal);
}

/* A word of a format at a distance, its other bits those of the base. */
static uint32_t displaced(uint32_t format, uint32_t base, int64_t distance) {
    uint8_t word[4];
    same("displaced", (int64_t)vaimalofo_displacement(word, 4, 0, 0, format, base, distance), 256);
    return word_at(word);
}

/* At each format the ends of its range and what is around 0, from each to each, by distance and by target; every other bit stays. */
static void again(uint64_t base) {
    static const struct {
        uint32_t base;
        int64_t least, step;
        uint64_t steps;
    } formats[] = {
        {0x94000000, -134217728, 4, 1 << 26}, {0xB500001F, -1048576, 4, 1 << 19}, {0xB7F8001F, -32768, 4, 1 << 14},
        {0x1000001F, -1048576, 1, 1 << 21}, {0x9000001F, INT64_C(-4294967296), 4096, 1 << 21}, {0x9C00001F, -1048576, 4, 1 << 19},
    };
    struct watched w;
    for (uint32_t k = 0; k < 6 * 25; k++) {
        const uint32_t format = k / 25, word = formats[format].base;
        const int64_t least = formats[format].least, step = formats[format].step;
        const int64_t all[] = {least, -step, 0, step, least + (int64_t)(formats[format].steps - 1) * step};
        const int64_t from = all[k % 5], to = all[k / 5 % 5];
        const uint32_t old = displaced(format, word, from), new = displaced(format, word, to);
        const uint64_t at = vaimalofo_address(base, 1), origin = format == 4 ? at & ~UINT64_C(0xFFF) : at;
        watch(&w, 3, k % 4);
        stand(&w, 1, old);
        wrote("again", &w, vaimalofo_retarget(w.run, w.length, base, 1, format, to), 1, 1, &new);
        wrote("again, back", &w, vaimalofo_retarget(w.run, w.length, base, 1, format, from), 1, 1, &old);
        wrote("again to", &w, vaimalofo_retarget_to(w.run, w.length, base, 1, format, origin + (uint64_t)to), 1, 1, &new);
        wrote("again to, back", &w, vaimalofo_retarget_to(w.run, w.length, base, 1, format, origin + (uint64_t)from), 1, 1, &old);
        refused("again 5, less", &w, vaimalofo_retarget(w.run, w.length, base, 1, format, all[0] - step), VAIMALOFO_RANGE);
        refused("again 5, more", &w, vaimalofo_retarget(w.run, w.length, base, 1, format, all[4] + step), VAIMALOFO_RANGE);
    }
}

/* The refusals of both in their order, from a branch at position 0 and a word of no format at position 1, before a tail. */
static void again_refused(uint64_t base) {
    struct watched w;
    const uint64_t at = base, far = UINT64_C(1) << 63;
    for (size_t tail = 0; tail < 4; tail++) {
        watch(&w, 2, tail);
        stand(&w, 0, 0x17FFFFFF);
        refused("again 7", &w, vaimalofo_retarget(w.run, w.length, base, 2, 6, 1), VAIMALOFO_UNKNOWN);
        refused("again 8", &w, vaimalofo_retarget(w.run, w.length, base, 2, 0, 1), VAIMALOFO_NO_ROOM);
        refused("again 8, last", &w, vaimalofo_retarget(w.run, w.length, base, SIZE_MAX, 0, 4), VAIMALOFO_NO_ROOM);
        refused("again 8, around", &w, vaimalofo_retarget(w.run, w.length, base, SIZE_MAX / 4 + 1, 0, 4), VAIMALOFO_NO_ROOM);
        refused("again 8, no word", &w, vaimalofo_retarget(w.run, tail, base, 0, 0, 4), VAIMALOFO_NO_ROOM);
        refused("again 11", &w, vaimalofo_retarget(w.run, w.length, base, 1, 0, INT64_MAX), VAIMALOFO_WRONG_FORM);
        refused("again 11, another", &w, vaimalofo_retarget(w.run, w.length, base, 0, 1, 4), VAIMALOFO_WRONG_FORM);
        refused("again 4", &w, vaimalofo_retarget(w.run, w.length, base, 0, 0, INT64_MAX), VAIMALOFO_STEP);
        refused("again 5", &w, vaimalofo_retarget(w.run, w.length, base, 0, 0, INT64_MIN), VAIMALOFO_RANGE);
        refused("again to 7", &w, vaimalofo_retarget_to(w.run, w.length, base, 2, 6, at + 1), VAIMALOFO_UNKNOWN);
        refused("again to 8", &w, vaimalofo_retarget_to(w.run, w.length, base, 2, 0, at + 1), VAIMALOFO_NO_ROOM);
        refused("again to 8, last", &w, vaimalofo_retarget_to(w.run, w.length, base, SIZE_MAX, 0, at), VAIMALOFO_NO_ROOM);
        refused("again to 8, no word", &w, vaimalofo_retarget_to(w.run, tail, base, 0, 0, at), VAIMALOFO_NO_ROOM);
        refused("again to 11", &w, vaimalofo_retarget_to(w.run, w.length, base, 1, 0, at + far + 1), VAIMALOFO_WRONG_FORM);
        refused("again to 4", &w, vaimalofo_retarget_to(w.run, w.length, base, 0, 0, at + far + 1), VAIMALOFO_STEP);
        refused("again to 5", &w, vaimalofo_retarget_to(w.run, w.length, base, 0, 0, at + far), VAIMALOFO_RANGE);
        stand(&w, 0, 0xF0FFFFE0);
        refused("again page 4", &w, vaimalofo_retarget(w.run, w.length, base, 0, 4, 0x2004), VAIMALOFO_STEP);
        refused("again page 5", &w, vaimalofo_retarget_to(w.run, w.length, base, 0, 4, at + far + 1), VAIMALOFO_RANGE);
    }
}

/* An ADRP sent from another page to each place of the second page on. */
static void again_pages(void) {
    struct watched w;
    const uint32_t page[] = {0xD0000005};
    for (uint32_t low = 0; low < 4096; low++) {
        uint64_t base = 0x1FF8 - low / 4 * 4;
        watch(&w, 2, low % 4);
        stand(&w, 1, 0xF0FFFFE5);
        uint64_t answer = vaimalofo_retarget_to(w.run, w.length, base, 1, VAIMALOFO_ADRP_21, 0x3000 + low);
        wrote("again inside a page", &w, answer, 1, 1, page);
        same("again low bits", vaimalofo_low12(answer), low);
    }
    watch(&w, 2, 1);
    stand(&w, 1, 0x70FFFFE5);
    same("again no low bits", (int64_t)vaimalofo_retarget_to(w.run, w.length, 0, 1, VAIMALOFO_ADR_21, 0x1003), 256);
}

/* Each element length at both widths, with N, S and R where they stood before the length; and a refusal, which has none of them. */
static void fields(void) {
    static const struct {
        uint64_t value;
        uint32_t width, n, s, r, length;
    } cases[] = {
        {0x5555555555555555, 64, 0, 60, 0, 2},
        {0x7777777777777777, 64, 0, 58, 0, 4},
        {0x8181818181818181, 64, 0, 49, 1, 8},
        {0x0FF00FF00FF00FF0, 64, 0, 39, 12, 16},
        {0x00FFFF0000FFFF00, 64, 0, 15, 24, 32},
        {0xFF, 64, 1, 7, 0, 64},
        {0x8000000000000001, 64, 1, 1, 1, 64},
        {0xFFFFFFFFFFFFFFFE, 64, 1, 62, 63, 64},
        {0xAAAAAAAA, 32, 0, 60, 1, 2},
        {0x88888888, 32, 0, 56, 1, 4},
        {0xE0E0E0E0, 32, 0, 50, 3, 8},
        {0x00010001, 32, 0, 32, 0, 16},
        {0xFFF00FFF, 32, 0, 23, 12, 32},
        {0x1000000FF, 32, 0, 7, 0, 32},
    };
    for (size_t i = 0; i < sizeof cases / sizeof *cases; i++) {
        uint32_t n = cases[i].n, s = cases[i].s, r = cases[i].r, length = cases[i].length;
        uint64_t answer = vaimalofo_logical_fields(cases[i].value, cases[i].width);
        int64_t value = vaimalofo_value(answer);
        same("fields, refusal", vaimalofo_refusal(answer), 0);
        same("fields, n", vaimalofo_n(answer), n);
        same("fields, s", vaimalofo_s(answer), s);
        same("fields, r", vaimalofo_r(answer), r);
        same("fields, length", vaimalofo_element_length(answer), length);
        same("fields, value", value, length * INT64_C(16777216) + n * 65536 + s * 256 + r);
        same("fields, low 32 bits", (uint32_t)answer, (int64_t)n << 24 | s << 16 | r << 8);
        same("fields, old n", value >> 16 & 0xFF, n);
        same("fields, old s", value >> 8 & 0xFF, s);
        same("fields, old r", value & 0xFF, r);
    }
    same("fields 3", (int64_t)vaimalofo_logical_fields(5, 64), VAIMALOFO_NO_FIELD);
    same("fields 1", (int64_t)vaimalofo_logical_fields(5, 16), VAIMALOFO_WIDTH);
}

/* Fields into masks, in runs with and without room; and what is no field, whatever else is wrong. */
static void decoded(void) {
    static const struct {
        uint32_t n, s, r, width;
        uint64_t mask;
    } cases[] = {
        {1, 7, 0, 64, 0xFF},       {0, 60, 1, 64, 0xAAAAAAAAAAAAAAAA}, {1, 1, 1, 64, 0x8000000000000001}, {0, 7, 0, 64, 0xFF000000FF},
        {0, 60, 5, 32, 0xAAAAAAAA}, {0, 39, 28, 64, 0x0FF00FF00FF00FF0}, {0, 7, 0, 32, 0xFF}, {1, 62, 63, 64, 0xFFFFFFFFFFFFFFFE},
    };
    static const uint32_t wrong[][4] = {{0, 62, 0, 64}, {0, 63, 0, 64}, {0, 61, 0, 32}, {0, 31, 9, 64}, {1, 63, 0, 64}, {1, 7, 0, 32},
                                        {2, 7, 0, 64}, {0, 64, 0, 64}, {0, 7, 64, 32}, {UINT32_MAX, 7, 0, 64}, {0, 7, UINT32_MAX, 64}};
    struct watched w;
    for (size_t i = 0; i < 8 * 12; i++) {
        uint32_t n = cases[i / 12].n, s = cases[i / 12].s, r = cases[i / 12].r, width = cases[i / 12].width;
        const uint32_t words[] = {(uint32_t)cases[i / 12].mask, (uint32_t)(cases[i / 12].mask >> 32)};
        watch(&w, 2, i % 12);
        wrote("decode", &w, vaimalofo_decode_logical(w.run, w.length, n, s, r, width), 0, 2, words);
        same("decode, mask", (int64_t)vaimalofo_mask(w.run), (int64_t)cases[i / 12].mask);
        watch(&w, 0, i % 8);
        refused("decode 8", &w, vaimalofo_decode_logical(w.run, w.length, n, s, r, width), VAIMALOFO_NO_ROOM);
        refused("decode 1", &w, vaimalofo_decode_logical(w.run, w.length, n, 64, r, width / 2 * 3), VAIMALOFO_WIDTH);
    }
    for (size_t i = 0; i < sizeof wrong / sizeof *wrong; i++) {
        const uint32_t *f = wrong[i];
        watch(&w, i % 4, 0);
        refused("decode 3", &w, vaimalofo_decode_logical(w.run, w.length, f[0], f[1], f[2], f[3]), VAIMALOFO_NO_FIELD);
        same("normalise 3", (int64_t)vaimalofo_normalise_logical(f[0], f[1], f[2], f[3]), VAIMALOFO_NO_FIELD);
        same("normalise 1", (int64_t)vaimalofo_normalise_logical(f[0], f[1], f[2], 16), VAIMALOFO_WIDTH);
    }
}

/* Document 01's example; and of all fields the normal ones are those of their mask, which decode to it again. */
static void normalised(void) {
    const uint64_t example = vaimalofo_normalise_logical(0, 60, 5, 64);
    same("normalise, n", vaimalofo_n(example), 0);
    same("normalise, s", vaimalofo_s(example), 60);
    same("normalise, r", vaimalofo_r(example), 1);
    same("normalise, length", vaimalofo_element_length(example), 2);
    int legal = 0;
    for (uint32_t i = 0; i < 2 * 2 * 64 * 64; i++) {
        uint32_t n = i >> 12 & 1, s = i >> 6 & 63, r = i & 63, width = i >> 13 ? 32 : 64;
        uint8_t mask[8], back[8];
        uint64_t decoded = vaimalofo_decode_logical(mask, 8, n, s, r, width), normal = vaimalofo_normalise_logical(n, s, r, width);
        same("normalise, refusal", vaimalofo_refusal(normal), vaimalofo_refusal(decoded));
        if (vaimalofo_refusal(decoded) != 0) continue;
        legal++;
        same("normalise", (int64_t)normal, (int64_t)vaimalofo_logical_fields(vaimalofo_mask(mask), width));
        same("normalise, r", vaimalofo_r(normal), r & (vaimalofo_element_length(normal) - 1));
        decoded = vaimalofo_decode_logical(back, 8, vaimalofo_n(normal), vaimalofo_s(normal), vaimalofo_r(normal), width);
        same("decode, words", (int64_t)vaimalofo_words(decoded), 2);
        same("decode, back", memcmp(mask, back, 8), 0);
    }
    /* At width 32 the runs of 1 to e - 1 of each element length e up to 32, at 64 those of 64 too, each with every R. */
    same("legal fields", legal, 64 * (1 + 3 + 7 + 15 + 31) * 2 + 64 * 63);
}

static void floats(void) {
    static const struct {
        uint64_t value;
        uint32_t width;
        int64_t imm8;
    } cases[] = {
        {0x3FF0000000000000, 64, 112}, {0x3F800000, 32, 112}, {0x3C00, 16, 112}, {0xFFFFFFFFFFFF3C00, 16, 112}, {0xDEADBEEF3F800000, 32, 112},
        {0xC000000000000000, 64, 128}, {0x403F000000000000, 64, 63}, {0x3FC0000000000000, 64, 64}, {0xBFFF000000000000, 64, 255},
        {0, 64, -1}, {0x8000000000000000, 64, -1}, {0x3FF0000000000001, 64, -1}, {0x3FF0800000000000, 64, -1}, {0x7FF0000000000000, 64, -1},
        {0x4040000000000000, 64, -1}, {0x3F800001, 32, -1}, {0, 32, -1}, {0x3F800000, 64, -1}, {0x7C00, 16, -1}, {0x3C01, 16, -1},
    };
    static const uint32_t widths[] = {0, 8, 15, 17, 48, 65, 128, UINT32_MAX};
    for (size_t i = 0; i < sizeof cases / sizeof *cases; i++) {
        uint64_t answer = vaimalofo_float_imm8(cases[i].value, cases[i].width), yes = cases[i].imm8 >= 0;
        same("float", (int64_t)answer, yes ? cases[i].imm8 * 256 : VAIMALOFO_NO_FIELD);
        same("is float", (int64_t)vaimalofo_is_float_imm8(cases[i].value, cases[i].width), (int64_t)yes * 256);
        same("float 1", (int64_t)vaimalofo_float_imm8(cases[i].value, widths[i % 8]), VAIMALOFO_WIDTH);
        same("is float 1", (int64_t)vaimalofo_is_float_imm8(cases[i].value, widths[i % 8]), VAIMALOFO_WIDTH);
    }
    /* All halves: each of the 256 once. */
    int seen[256] = {0}, found = 0;
    for (uint64_t value = 0; value < 65536; value++) {
        uint64_t answer = vaimalofo_float_imm8(value, 16);
        same("is half", vaimalofo_value(vaimalofo_is_float_imm8(value, 16)), vaimalofo_refusal(answer) == 0);
        if (vaimalofo_refusal(answer) == 0) found += !seen[vaimalofo_value(answer) & 255]++;
    }
    same("halves", found, 256);
}

/* All byte masks, each with one bit of each byte turned over. */
static void byte_masks(void) {
    same("mask", (int64_t)vaimalofo_byte_mask_imm8(0xFF000000000000FF), 129 * 256);
    same("mask 3", (int64_t)vaimalofo_byte_mask_imm8(0xFF000001000000FF), VAIMALOFO_NO_FIELD);
    for (int imm8 = 0; imm8 < 256; imm8++) {
        uint64_t value = 0;
        for (int i = 0; i < 8; i++) value |= (uint64_t)(imm8 >> i & 1 ? 0xFF : 0) << 8 * i;
        same("masks", (int64_t)vaimalofo_byte_mask_imm8(value), imm8 * 256);
        for (int bit = 0; bit < 64; bit++) same("masks 3", (int64_t)vaimalofo_byte_mask_imm8(value ^ UINT64_C(1) << bit), VAIMALOFO_NO_FIELD);
    }
}

/* The entries that refuse nothing. */
static void checks(void) {
    same("halfwords of 0", (int64_t)vaimalofo_count_zero_half_words(0), 4 * 256);
    same("halfwords of a low one", (int64_t)vaimalofo_count_zero_half_words(0xFFFF), 3 * 256);
    same("halfwords across", (int64_t)vaimalofo_count_zero_half_words(0x0000800100000000), 3 * 256);
    same("halfwords in turn", (int64_t)vaimalofo_count_zero_half_words(0x0001000000010000), 2 * 256);
    same("halfwords, none", (int64_t)vaimalofo_count_zero_half_words(0x8000000100010080), 0);
    for (uint32_t id = 0; id < 300; id++) {
        same("gp, 31", (int64_t)vaimalofo_check_gp_id(id, 31), id <= 31 ? 256 : 0);
        same("gp, 63", (int64_t)vaimalofo_check_gp_id(id, 63), id < 31 || id == 63 ? 256 : 0);
        same("gp, 0", (int64_t)vaimalofo_check_gp_id(id, 0), id < 31 ? 256 : 0);
        same("vec", (int64_t)vaimalofo_check_vec_id(id), id < 32 ? 256 : 0);
        same("cond", (int64_t)vaimalofo_cond_field(id), (id + 14) % 16 * 256);
    }
    same("gp, greatest", (int64_t)vaimalofo_check_gp_id(UINT32_MAX, UINT32_MAX), 256);
    same("gp, great", (int64_t)vaimalofo_check_gp_id(UINT32_MAX, 31), 0);
    same("vec, great", (int64_t)vaimalofo_check_vec_id(0x80000000), 0);
    same("cond, greatest", (int64_t)vaimalofo_cond_field(UINT32_MAX), 13 * 256);
}

static void without_a_run(void) {
    same("form, yes", vaimalofo_value(vaimalofo_has_form(VAIMALOFO_BRANCH_26, 0x17FFFFFF)), 1);
    same("form, no", (int64_t)vaimalofo_has_form(VAIMALOFO_ADR_21, 0x17FFFFFF), 0);
    same("form 7", (int64_t)vaimalofo_has_form(6, 0x17FFFFFF), VAIMALOFO_UNKNOWN);
    same("read", vaimalofo_value(vaimalofo_read_displacement(0x17FFFFFF, 0)), -4);
    same("read, refusal", vaimalofo_refusal(vaimalofo_read_displacement(0x17FFFFFF, 0)), 0);
    same("read least", vaimalofo_value(vaimalofo_read_displacement(0x90800000, 4)), INT64_C(-4294967296));
    same("read 7", (int64_t)vaimalofo_read_displacement(0, 6), VAIMALOFO_UNKNOWN);
}

/* The record that the library reads and writes, where the compiler puts each part of it. */
typedef char use_has_24_bytes[sizeof(struct vaimalofo_use) == 24 ? 1 : -1];
typedef char label_at_0[offsetof(struct vaimalofo_use, label) == 0 ? 1 : -1];
typedef char at_at_8[offsetof(struct vaimalofo_use, at) == 8 ? 1 : -1];
typedef char format_at_16[offsetof(struct vaimalofo_use, format) == 16 ? 1 : -1];

/* A table, a sheet and a run, each with more behind it that is not lent, and a copy of all as it was. */
enum { TABLE = 300, SHEET = 1100, RUN = 9000, BEHIND = 4 };
struct lent {
    size_t labels[TABLE + BEHIND];
    struct vaimalofo_use uses[SHEET + BEHIND];
    uint32_t words[RUN + BEHIND];
};
static struct lent lent, lent_before;

enum { B = 0x14000000, CBZ = 0x34000003, TBZ = 0x36000003 };

static struct vaimalofo_use use_of(uint32_t label, size_t at, uint32_t format) {
    struct vaimalofo_use one;
    memset(&one, 0, sizeof one);
    one.label = label;
    one.at = at;
    one.format = format;
    return one;
}

/* All labels unbound, records that mean nothing, and a run of one word. */
static void lend(uint32_t word) {
    memset(&lent, 0, sizeof lent);
    for (size_t i = 0; i < SHEET + BEHIND; i++) lent.uses[i] = use_of(UINT32_MAX, SIZE_MAX, UINT32_MAX);
    for (size_t i = 0; i < RUN + BEHIND; i++) lent.words[i] = word;
    lent_before = lent;
}

/* The answer, and of what was lent as much changed as `lent_before` says. */
static void answered(const char *what, uint64_t answer, uint64_t expected) {
    same(what, (int64_t)answer, (int64_t)expected);
    same(what, memcmp(lent.labels, lent_before.labels, sizeof lent.labels), 0);
    same(what, memcmp(lent.words, lent_before.words, sizeof lent.words), 0);
    for (size_t i = 0; i < SHEET + BEHIND; i++) {
        const struct vaimalofo_use *one = lent.uses + i, *old = lent_before.uses + i;
        if (one->label != old->label || one->at != old->at || one->format != old->format) same(what, (int64_t)i, -1);
    }
}

static uint64_t bind(size_t table, size_t run, uint64_t base, size_t position, uint32_t label) {
    return vaimalofo_bind_label(lent.labels, table, lent.words, run, base, position, label);
}

static uint64_t add(size_t sheet, size_t count, size_t run, uint64_t base, size_t position, uint32_t label, uint32_t format) {
    return vaimalofo_use_label(lent.uses, sheet, count, label, format, lent.labels, 4, lent.words, run, base, position);
}

static uint64_t finish(size_t sheet, size_t count, size_t run, uint64_t base) {
    return vaimalofo_finish_labels(lent.uses, sheet, count, lent.labels, 4, lent.words, run, base);
}

static void bound(uint64_t base) {
    lend(B);
    lent_before.labels[3] = 1 + 8;
    answered("bind, end", bind(4, 8, base, 8, 3), 0);
    lent_before.labels[0] = 1;
    answered("bind, start", bind(4, 8, base, 0, 0), 0);
    lent_before.labels[255] = 1 + 2;
    answered("bind, last", bind(TABLE, 8, base, 2, 255), 0);
    for (uint64_t off = 1; off < 4; off++) answered("bind 15, 12, 8", bind(4, 8, base + off, 9, 4), VAIMALOFO_UNALIGNED);
    answered("bind 15, 13, 8", bind(4, 8, base + 2, 9, 3), VAIMALOFO_UNALIGNED);
    answered("bind 12, 8", bind(4, 8, base, 9, 4), VAIMALOFO_LABEL);
    answered("bind 12, long table", bind(TABLE, 8, base, 0, 256), VAIMALOFO_LABEL);
    answered("bind 12, greatest", bind(TABLE, 8, base, 0, UINT32_MAX), VAIMALOFO_LABEL);
    answered("bind 12, no table", bind(0, 8, base, 0, 0), VAIMALOFO_LABEL);
    answered("bind 13, 8", bind(4, 8, base, 9, 3), VAIMALOFO_TWICE);
    answered("bind 8", bind(4, 8, base, 9, 1), VAIMALOFO_NO_ROOM);
    answered("bind 8, greatest", bind(4, 8, base, SIZE_MAX, 1), VAIMALOFO_NO_ROOM);
    answered("bind 8, no word", bind(4, 0, base, 1, 1), VAIMALOFO_NO_ROOM);
    lent_before.labels[1] = 1;
    answered("bind, no word", bind(4, 0, base, 0, 1), 0);
}

static void used(uint64_t base) {
    lend(CBZ);
    lent.words[6] = lent_before.words[6] = CBZ + 0x20;
    lent.words[7] = lent_before.words[7] = UINT32_MAX;
    lent_before.uses[0] = use_of(3, 5, VAIMALOFO_BRANCH_19);
    answered("use", add(2, 0, 8, base, 5, 3, VAIMALOFO_BRANCH_19), 256);
    answered("use 15", add(1, 1, 8, base + 1, 8, 4, 6), VAIMALOFO_UNALIGNED);
    answered("use 7", add(1, 1, 8, base, 8, 4, 6), VAIMALOFO_UNKNOWN);
    answered("use 7, greatest", add(1, 1, 8, base, 8, 4, UINT32_MAX), VAIMALOFO_UNKNOWN);
    answered("use 12", add(1, 1, 8, base, 8, 4, 1), VAIMALOFO_LABEL);
    answered("use 8", add(1, 1, 8, base, 8, 3, 1), VAIMALOFO_NO_ROOM);
    answered("use 8, greatest", add(1, 1, 8, base, SIZE_MAX, 3, 1), VAIMALOFO_NO_ROOM);
    answered("use 11", add(1, 1, 8, base, 7, 3, 1), VAIMALOFO_WRONG_FORM);
    answered("use 11, another", add(1, 1, 8, base, 5, 3, 0), VAIMALOFO_WRONG_FORM);
    answered("use 6", add(1, 1, 8, base, 6, 3, 1), VAIMALOFO_TAKEN);
    answered("use 16", add(1, 1, 8, base, 5, 3, 1), VAIMALOFO_AGAIN);
    answered("use 14", add(1, 1, 8, base, 4, 3, 1), VAIMALOFO_FULL);
    answered("use 14, no sheet", add(0, 0, 8, base, 4, 3, 1), VAIMALOFO_FULL);
    answered("use 14, count above", add(1, 2, 8, base, 4, 3, 1), VAIMALOFO_FULL);
    answered("use 14, greatest", add(1, SIZE_MAX, 8, base, 4, 3, 1), VAIMALOFO_FULL);
    answered("use 16, greatest", add(1, SIZE_MAX, 8, base, 5, 3, 1), VAIMALOFO_AGAIN);
    lent_before.uses[1] = use_of(0, 4, VAIMALOFO_BRANCH_19);
    answered("use, second", add(2, 1, 8, base, 4, 0, VAIMALOFO_BRANCH_19), 2 * 256);
    lent_before.uses[0] = use_of(0, 5, VAIMALOFO_BRANCH_19);
    answered("use, none waits", add(2, 0, 8, base, 5, 0, VAIMALOFO_BRANCH_19), 256);
}

/* Each refusal of a use that comes second, behind one that passes and before one that is refused otherwise. */
static void finish_refused(uint64_t base) {
    const struct {
        struct vaimalofo_use wrong;
        unsigned refusal;
    } cases[] = {
        {use_of(4, RUN, 6), VAIMALOFO_UNKNOWN}, {use_of(4, RUN, 2), VAIMALOFO_LABEL}, {use_of(2, RUN, 2), VAIMALOFO_LABEL},
        {use_of(3, RUN, 2), VAIMALOFO_NO_ROOM}, {use_of(1, 7, 2), VAIMALOFO_NO_ROOM}, {use_of(3, 7, 2), VAIMALOFO_WRONG_FORM},
        {use_of(3, 5, 1), VAIMALOFO_WRONG_FORM}, {use_of(3, 6, 2), VAIMALOFO_TAKEN}, {use_of(3, 5, 2), VAIMALOFO_AGAIN},
        {use_of(3, 4, 2), VAIMALOFO_RANGE},
    };
    const size_t count = sizeof cases / sizeof *cases;
    for (size_t i = 0; i < count * count; i++) {
        lend(TBZ);
        lent.labels[0] = 1;
        lent.labels[1] = 1 + RUN + 1;
        lent.labels[3] = 1 + RUN;
        lent.words[6] = TBZ + 0x20;
        lent.words[7] = UINT32_MAX;
        lent.uses[0] = use_of(0, 5, 2);
        lent.uses[1] = cases[i % count].wrong;
        lent.uses[2] = cases[i / count].wrong;
        lent_before = lent;
        answered("finish", finish(3, 3, RUN, base), cases[i % count].refusal);
        answered("finish 14", finish(3, 4, RUN, base), VAIMALOFO_FULL);
        answered("finish 14, greatest", finish(3, SIZE_MAX, RUN, base), VAIMALOFO_FULL);
        answered("finish 15", finish(3, 4, RUN, base + 3), VAIMALOFO_UNALIGNED);
        answered("finish, none", finish(0, 0, RUN, base), 0);
    }
}

/* Of each format two words, forward and back, as vaimalofo_displacement_to makes them; at the sheet's limit, and again. */
static void finished(uint64_t base) {
    static const uint32_t bases[] = {0x94000000, 0xB500001F, 0xB7F8001F, 0x1000001F, 0x9000001F, 0x9C00001F};
    for (uint32_t format = 0; format < 6; format++) {
        lend(bases[format]);
        lent.labels[0] = lent_before.labels[0] = 1 + 1;
        lent.labels[3] = lent_before.labels[3] = 1 + 8;
        lent_before.uses[0] = use_of(3, 2, format);
        answered("use, forward", add(2, 0, 8, base, 2, 3, format), 256);
        lent_before.uses[1] = use_of(0, 7, format);
        answered("use, back", add(2, 1, 8, base, 7, 0, format), 2 * 256);
        uint8_t *expected = (uint8_t *)lent_before.words;
        const uint64_t start = vaimalofo_address(base, 1), end = vaimalofo_address(base, 8);
        same("forward", (int64_t)vaimalofo_words(vaimalofo_displacement_to(expected, 32, base, 2, format, bases[format], end)), 1);
        same("back", (int64_t)vaimalofo_words(vaimalofo_displacement_to(expected, 32, base, 7, format, bases[format], start)), 1);
        answered("finish", finish(2, 2, 8, base), 0);
        /* Of a page to itself the distance is 0, so that the field is clear still. */
        answered("finish again", finish(2, 2, 8, base), format == VAIMALOFO_ADRP_21 ? 0 : VAIMALOFO_TAKEN);
    }
}

static void filled(void) {
    lend(B);
    lent.labels[0] = lent_before.labels[0] = 1;
    for (size_t round = 0; round < 2; round++) {
        const size_t first = 1 + round * VAIMALOFO_USES;
        for (size_t i = 0; i < VAIMALOFO_USES; i++) same("fill", (int64_t)add(SHEET, i, RUN, 0, first + i, 0, 0), (int64_t)(i + 1) * 256);
        for (size_t i = 0; i < VAIMALOFO_USES; i++) lent_before.uses[i] = use_of(0, first + i, 0);
        answered("full", add(SHEET, VAIMALOFO_USES, RUN, 0, RUN - 1, 0, 0), VAIMALOFO_FULL);
        answered("full, again", add(SHEET, VAIMALOFO_USES, RUN, 0, first + VAIMALOFO_USES - 1, 0, 0), VAIMALOFO_AGAIN);
        answered("too full", finish(SHEET, VAIMALOFO_USES + 1, RUN, 0), VAIMALOFO_FULL);
        for (size_t i = 0; i < VAIMALOFO_USES; i++) lent_before.words[first + i] = B | (0x4000000 - (uint32_t)(first + i));
        answered("finish all", finish(SHEET, VAIMALOFO_USES, RUN, 0), 0);
    }
}

/* The numbers that are lent and one behind them, each of which begins as this. */
enum { LENT_AND_ONE = VAIMALOFO_NUMBERS + 1 };
static const uint64_t untouched = UINT64_C(0xA5A5A5A5A5A5A5A5);

/* What stands at a position: the kind and these numbers, and every other lent number as before. */
static void is_read(const char *what, const uint32_t *words, size_t count, size_t position, unsigned kind, size_t told, const uint64_t *expected) {
    uint64_t numbers[LENT_AND_ONE];
    for (size_t i = 0; i < LENT_AND_ONE; i++) numbers[i] = untouched;
    same(what, (int64_t)vaimalofo_read(words, count, position, numbers, VAIMALOFO_NUMBERS), (int64_t)kind * 256);
    for (size_t i = 0; i < LENT_AND_ONE; i++) same(what, (int64_t)numbers[i], (int64_t)(i < told ? expected[i] : untouched));
}

static void read_back(void) {
    const uint32_t words[] = {
        0xD2800023, /* movz x3, #1 */
        0xF2A00043, /* movk x3, #2, lsl #16 */
        0xF2C00063, /* movk x3, #3, lsl #32 */
        0xF2E00083, /* movk x3, #4, lsl #48 */
        0xF28000A3, /* movk x3, #5 */
        0xF2A000C3, /* movk x3, #6, lsl #16 */
        0xF2A000E3, /* movk x3, #7, lsl #16 */
        0x72A24683, /* movk w3, #0x1234, lsl #16 */
        0x12800003, /* movn w3, #0 */
        0x92401C20, /* and x0, x1, #0xff */
        0x3209C043, /* orr w3, w2, #0x80808080, R 9 */
        0x17FFFFFF, /* b .-4 */
        0xF0FFFFFE, /* adrp x30, .-4096 */
        0xD280001F, /* movz xzr, #0 */
    };
    const size_t count = sizeof words / sizeof *words;
    const uint64_t join[] = {7, 3, 64, UINT64_C(0x0004000300070005), 7}, movk[] = {8, 3, 32, 0x1234, 1}, ones[] = {9, 3, 32, 0xFFFFFFFF, 1};
    const uint64_t and[] = {10, VAIMALOFO_AND, 64, 1, 0, 0xFF, 1, 7, 0, 64, 1}, orr[] = {11, VAIMALOFO_ORR, 32, 2, 3, 0x80808080, 0, 48, 9, 8, 0};
    const uint64_t branch[] = {12, VAIMALOFO_BRANCH_26, 0x14000000, (uint64_t)-4}, page[] = {13, VAIMALOFO_ADRP_21, 0x9000001E, (uint64_t)-4096};
    const uint64_t zero[] = {14, 0xD280001F, 13}, middle[] = {2, 3, 64, 2, 1};
    is_read("constant", words, count, 0, VAIMALOFO_CONSTANT, 5, join);
    is_read("movk of a constant", words, count, 1, VAIMALOFO_MOVK, 5, middle);
    is_read("movk", words, count, 7, VAIMALOFO_MOVK, 5, movk);
    is_read("movn", words, count, 8, VAIMALOFO_CONSTANT, 5, ones);
    is_read("logical", words, count, 9, VAIMALOFO_LOGICAL, 11, and);
    is_read("logical, not normal", words, count, 10, VAIMALOFO_LOGICAL, 11, orr);
    is_read("branch back", words, count, 11, VAIMALOFO_DISPLACEMENT, 4, branch);
    is_read("page", words, count, 12, VAIMALOFO_DISPLACEMENT, 4, page);
    is_read("register 31", words, count, 13, VAIMALOFO_OTHER, 3, zero);
    is_read("end", words, count, 14, VAIMALOFO_END, 0, NULL);
    is_read("no words", words, 0, 0, VAIMALOFO_END, 0, NULL);
    /* A run that ends within a constant is a shorter one. */
    for (uint64_t length = 1; length < 7; length++) {
        static const uint64_t values[] = {
            1, 0x20001, UINT64_C(0x300020001), UINT64_C(0x4000300020001), UINT64_C(0x4000300020005), UINT64_C(0x4000300060005),
        };
        const uint64_t part[] = {length, 3, 64, values[length - 1], length};
        is_read("part", words, (size_t)length, 0, VAIMALOFO_CONSTANT, 5, part);
    }
}

static void read_refused(void) {
    const uint32_t words[] = {0xD503201F, 0xD503201F};
    uint64_t numbers[VAIMALOFO_NUMBERS];
    for (size_t i = 0; i < VAIMALOFO_NUMBERS; i++) numbers[i] = untouched;
    same("read 8", (int64_t)vaimalofo_read(words, 2, 3, numbers, VAIMALOFO_NUMBERS), VAIMALOFO_NO_ROOM);
    same("read 8, greatest", (int64_t)vaimalofo_read(words, 2, SIZE_MAX, numbers, VAIMALOFO_NUMBERS), VAIMALOFO_NO_ROOM);
    for (size_t room = 0; room < VAIMALOFO_NUMBERS; room++) {
        for (size_t position = 0; position < 4; position++) {
            same("read 8, numbers", (int64_t)vaimalofo_read(words, 2, position, numbers, room), VAIMALOFO_NO_ROOM);
        }
    }
    for (size_t i = 0; i < VAIMALOFO_NUMBERS; i++) same("nothing written", (int64_t)numbers[i], (int64_t)untouched);
}

static void rewritten(void) {
    static const uint32_t normal[] = {0xD2800023, 0x72A24683, 0x12800003, 0x92401C20, 0x17FFFFFF, 0xF0FFFFFE, 0xD503201F, 0, 0xFFFFFFFF, 0xD280001F};
    for (size_t i = 0; i < sizeof normal / sizeof *normal; i++) same("again", (int64_t)vaimalofo_rewrite(normal[i]), (int64_t)normal[i] * 256);
    same("again, R 9 at 8", (int64_t)vaimalofo_rewrite(0x3209C043), INT64_C(0x3201C043) * 256);
    same("again, R 5 at 2", (int64_t)vaimalofo_rewrite(0x9205F020), INT64_C(0x9201F020) * 256);
}

int main(void) {
    const uint64_t bases[] = {0, 4, last};
    for (size_t i = 0; i < sizeof bases / sizeof *bases; i++) {
        moves(bases[i]);
        logical(bases[i]);
        distances(bases[i]);
        targets(bases[i]);
        again(bases[i]);
        again_refused(bases[i]);
        bound(bases[i]);
        used(bases[i]);
        finish_refused(bases[i]);
        finished(bases[i]);
        for (uint64_t off = 1; off < 4; off++) unaligned(bases[i] + off);
    }
    filled();
    pages();
    again_pages();
    addresses();
    fields();
    decoded();
    normalised();
    floats();
    byte_masks();
    checks();
    without_a_run();
    read_back();
    read_refused();
    rewritten();
    puts(failures == 0 ? "the C entries answer as they should" : "the C entries do not answer as they should");
    return failures != 0;
}
