/* stored REQUESTS ANSWERS: asks the C entries those of the stored requests that they serve (docs/REQUESTS.md), and compares what they answer and write
 * with the stored answers.
 *
 * A parameter of 32 bits is declared with 64 here, also the one that lies on the stack: what a caller leaves in the upper half is nobody's, so each
 * request is asked with four upper halves. Its run starts at four distances from a multiple of four, with a tail of 0 to 3 bytes, between bytes that
 * must stay. */
#include <inttypes.h>
#include <stdio.h>
#include <string.h>

#include "requests.h"
#include "watched.h"

uint64_t vaimalofo_move(uint8_t *, size_t, uint64_t, size_t, uint64_t, uint64_t reg);
uint64_t vaimalofo_patchable_move(uint8_t *, size_t, uint64_t, size_t, uint64_t, uint64_t size, uint64_t reg);
uint64_t vaimalofo_logical_fields(uint64_t, uint64_t width);
uint64_t vaimalofo_logical_word(uint8_t *, size_t, uint64_t, size_t, uint64_t operation, uint64_t, uint64_t width, uint64_t rn, uint64_t rd);
uint64_t vaimalofo_displacement(uint8_t *, size_t, uint64_t, size_t, uint64_t format, uint64_t base, int64_t);
uint64_t vaimalofo_displacement_to(uint8_t *, size_t, uint64_t, size_t, uint64_t format, uint64_t base, uint64_t);
uint64_t vaimalofo_has_form(uint64_t format, uint64_t word);
uint64_t vaimalofo_read_displacement(uint64_t word, uint64_t format);
uint64_t vaimalofo_decode_logical(uint8_t *, size_t, uint64_t n, uint64_t s, uint64_t r, uint64_t width);
uint64_t vaimalofo_normalise_logical(uint64_t n, uint64_t s, uint64_t r, uint64_t width);
uint64_t vaimalofo_float_imm8(uint64_t, uint64_t width);
uint64_t vaimalofo_is_float_imm8(uint64_t, uint64_t width);
uint64_t vaimalofo_byte_mask_imm8(uint64_t);
uint64_t vaimalofo_count_zero_half_words(uint64_t);
uint64_t vaimalofo_check_gp_id(uint64_t id, uint64_t high);
uint64_t vaimalofo_check_vec_id(uint64_t id);
uint64_t vaimalofo_cond_field(uint64_t cond);

enum { AROUND = 16, MOST_WORDS = 8, ALL = AROUND + 3 + 4 * MOST_WORDS + 3 + AROUND, UNTOUCHED = 0x5C };

/* The words that the C entry is lent: a request for a mask has no run, but the entry writes it into two words. */
static size_t lent_of(const uint64_t *q) {
    return q[0] == 64 ? 2 : words_of(q);
}

static int served(uint64_t entry) {
    static const uint8_t all[] = {32, 35, 38, 48, 49, 64, 65, 80, 82, 96, 112, 113, 114, 115, 128, 129, 130, 131, 132};
    return entry < 256 && memchr(all, (int)entry, sizeof all) != NULL;
}

static uint64_t ask(const uint64_t *q, uint64_t upper, uint8_t *run, size_t length) {
    uint64_t position = q[run_at(q[0]) + 1], base = q[run_at(q[0]) + 2], cut[9];
    for (int i = 0; i < 9; i++) cut[i] = (q[i] & 0xFFFFFFFF) | upper;
    switch (q[0]) {
    case 32: return CALL(vaimalofo_check_gp_id)(cut[1], cut[2]);
    case 35: return CALL(vaimalofo_check_vec_id)(cut[1]);
    case 38: return CALL(vaimalofo_cond_field)(cut[1]);
    case 48: return CALL(vaimalofo_logical_fields)(q[1], cut[2]);
    case 49: return CALL(vaimalofo_logical_word)(run, length, base, position, cut[1], q[2], cut[3], cut[4], cut[5]);
    case 64: return CALL(vaimalofo_decode_logical)(run, length, cut[1], cut[2], cut[3], cut[4]);
    case 65: return CALL(vaimalofo_normalise_logical)(cut[1], cut[2], cut[3], cut[4]);
    case 80: return CALL(vaimalofo_move)(run, length, base, position, q[1], cut[2]);
    case 82: return CALL(vaimalofo_count_zero_half_words)(q[1]);
    case 96: return CALL(vaimalofo_patchable_move)(run, length, base, position, q[1], cut[2], cut[3]);
    case 112: return CALL(vaimalofo_displacement)(run, length, base, position, cut[1], cut[2], (int64_t)q[3]);
    case 113: return CALL(vaimalofo_displacement_to)(run, length, base, position, cut[1], cut[2], q[3]);
    case 114: return CALL(vaimalofo_read_displacement)(cut[1], cut[2]);
    case 115: return CALL(vaimalofo_has_form)(cut[1], cut[2]);
    case 128: return CALL(vaimalofo_float_imm8)(q[1], cut[2]);
    case 132: return CALL(vaimalofo_byte_mask_imm8)(q[1]);
    default: return CALL(vaimalofo_is_float_imm8)(q[1], (q[0] == 129 ? 16 : q[0] == 130 ? 32 : 64) | upper);
    }
}

/* Answer and run in the letters of the stored answers. A bit that an answer should not have shows in a number. */
static void spell(char *text, const uint64_t *q, uint64_t answer, const uint8_t *run) {
    uint64_t value = answer >> 8;
    size_t words = words_of(q);
    if (answer & 0xFF) {
        text += sprintf(text, "no %" PRIu64 "\n", answer);
    } else if (q[0] == 64 && value == 2) {
        text += sprintf(text, "ok %02x%02x%02x%02x %02x%02x%02x%02x\n", run[7], run[6], run[5], run[4], run[3], run[2], run[1], run[0]);
    } else if (q[0] == 48 || q[0] == 65) {
        text += sprintf(text, "ok %u %u %u %" PRIu64 "\n", (unsigned)(value >> 16 & 255), (unsigned)(value >> 8 & 255), (unsigned)(value & 255), value >> 24);
    } else if (q[0] == 114) {
        text += sprintf(text, "ok %08x %08x\n", (unsigned)(value >> 32 | (value >> 55 ? 0xFF000000 : 0)), (unsigned)value);
    } else if (run_at(q[0]) == 0) {
        text += sprintf(text, "ok %" PRIu64 "\n", value);
    } else {
        text += sprintf(text, "ok %" PRIu64, q[run_at(q[0]) + 1] + (value & 255));
        if (value >> 8 || (q[0] == 113 && (q[1] & 0xFFFFFFFF) == 4)) text += sprintf(text, " %" PRIu64, value >> 8);
        text += sprintf(text, "\n");
    }
    for (size_t i = 0; i < words; i++, run += 4) {
        text += sprintf(text, "%s%02x%02x%02x%02x", i % 4 == 0 ? "ok " : " ", run[3], run[2], run[1], run[0]);
        if (i % 4 == 3 || i + 1 == words) text += sprintf(text, "\n");
    }
}

/* Asks a request in the k-th of four ways: how many bytes have changed that no answer shows, and in `got` what came. These are the bytes
 * beside its words, and the words themselves where no mask is written into them. */
static size_t asked(const uint64_t *q, size_t k, char *got) {
    static const uint64_t upper[4] = {0, UINT64_C(0xFFFFFFFF00000000), UINT64_C(0xA5A5A5A500000000), UINT64_C(0x8000000100000000)};
    size_t words = lent_of(q), start = AROUND + k, shown = words, changed = 0;
    uint8_t all[ALL] __attribute__((aligned(16))), before[ALL];
    memset(all, UNTOUCHED, sizeof all);
    for (size_t i = 0; i < words; i++) memcpy(all + start + 4 * i, (uint8_t[4]){(uint8_t)i, 0, 0, 0xA5}, 4);
    memcpy(before, all, sizeof all);
    spell(got, q, ask(q, upper[k], all + start, 4 * words + k), all + start);
    if (q[0] == 64 && got[0] == 'n') shown = 0;
    for (size_t i = 0; i < ALL; i++) changed += (i < start || i >= start + 4 * shown) && all[i] != before[i];
    return changed;
}

int main(int count, char **names) {
    FILE *requests = count == 3 ? fopen(names[1], "rb") : NULL, *answers = requests ? fopen(names[2], "r") : NULL;
    unsigned long read = 0, served_here = 0, wrong = 0;
    uint8_t bytes[72];
    if (!answers) return fprintf(stderr, "usage: stored REQUESTS ANSWERS\n"), 2;
    while (fread(bytes, 1, sizeof bytes, requests) == sizeof bytes) {
        uint64_t q[9] = {0};
        char expected[256] = "", got[256], line[128];
        for (int i = 0; i < 72; i++) q[i / 8] |= (uint64_t)bytes[i] << i % 8 * 8;
        for (size_t i = 0; i < 1 + (words_of(q) + 3) / 4; i++) {
            if (!fgets(line, sizeof line, answers)) return puts("the stored answers end too early"), 1;
            strcat(expected, line);
        }
        read++;
        if (!served(q[0])) continue;
        served_here++;
        for (size_t k = 0; k < 4; k++) {
            size_t changed = asked(q, k, got);
            if (strcmp(got, expected) == 0 && changed == 0) continue;
            if (wrong++ < 5) printf("entry %" PRIu64 ", way %zu:\n%sstored:\n%s%zu other bytes changed\n", q[0], k, got, expected, changed);
        }
    }
    if (fgetc(answers) != EOF) return puts("the stored answers go on"), 1;
    printf("%lu of %lu stored requests asked of the C entries, each in four ways: %lu wrong%s\n", served_here, read, wrong,
           watched_lost ? ", and registers were lost" : "");
    return served_here == 0 || wrong != 0 || watched_lost != 0;
}
