/* reader REQUESTS ANSWERS: reads the words of the stored answers back by the C entries, and compares what is read with what was asked; then reads words
 * that look random, and prints a sum of all that is read, which is the same on every target.
 *
 * The numbers that are lent stand between others that must stay, and so must those that a kind does not have. As in stored.c a parameter of 32 bits is
 * declared with 64, and what is asked is asked with four upper halves. */
#include <inttypes.h>
#include <stdio.h>
#include <string.h>

#include "requests.h"
#include "watched.h"

uint64_t vaimalofo_read(const uint32_t *, size_t, size_t, uint64_t *, size_t);
uint64_t vaimalofo_rewrite(uint64_t word);

enum { AROUND = 2, NUMBERS = 11, ALL = AROUND + NUMBERS + AROUND, MOST_WORDS = 8, RANDOM = 4096, ROUNDS = 64 };
static const uint64_t untouched = UINT64_C(0x5C5C5C5C5C5C5C5C);
static const size_t numbers_of[] = {0, 5, 5, 11, 4, 3};
static unsigned long wrong, items, asked;

static void expect(const char *what, uint64_t got, uint64_t expected) {
    if (got != expected && wrong++ < 5) printf("%s: %" PRIx64 ", expected %" PRIx64 "\n", what, got, expected);
}

/* What stands at a position: its kind, or 6 with a refusal. The numbers that it has not must stay. */
static uint64_t read_at(const uint32_t *words, size_t count, size_t position, uint64_t *numbers) {
    uint64_t all[ALL];
    for (int i = 0; i < ALL; i++) all[i] = untouched;
    const uint64_t answer = CALL(vaimalofo_read)(words, count, position, all + AROUND, NUMBERS), kind = answer % 256 ? 6 : answer >> 8;
    const size_t told = kind < 6 ? numbers_of[kind] : 0;
    for (size_t i = 0; i < ALL; i++) {
        if (i < AROUND || i >= AROUND + told) expect("another number", all[i], untouched);
    }
    if (kind == 6) expect("refusal", answer, 8);
    memcpy(numbers, all + AROUND, NUMBERS * sizeof *numbers);
    return kind;
}

/* A word again, with each upper half. */
static uint32_t again(uint32_t word) {
    static const uint64_t upper[4] = {0, UINT64_C(0xFFFFFFFF00000000), UINT64_C(0xA5A5A5A500000000), UINT64_C(0x8000000100000000)};
    const uint64_t first = CALL(vaimalofo_rewrite)(word);
    for (int k = 1; k < 4; k++) expect("upper half", CALL(vaimalofo_rewrite)(word | upper[k]), first);
    expect("refusal", first & 255, 0);
    expect("above a word", first >> 40, 0);
    return (uint32_t)(first >> 8);
}

/* Every word of a run belongs to one item; a sum of the kinds and numbers, each counting once more than the one before it. */
static uint64_t whole(const uint32_t *words, size_t count) {
    uint64_t numbers[NUMBERS], sum = 0, kind;
    size_t position = 0;
    while ((kind = read_at(words, count, position, numbers)) != 0 && kind < 6 && numbers[0] > position) {
        sum = sum * 31 + kind;
        for (size_t i = 0; i < numbers_of[kind]; i++) sum = sum * 31 + numbers[i];
        position = (size_t)numbers[0];
        items++;
    }
    expect("the end", kind, 0);
    expect("the last position", position, count);
    expect("past the end", read_at(words, count, count + 1, numbers), 6);
    return sum;
}

/* What a request asks to be read back, as kind and numbers, where it asks for one of these: whether it does. */
static int expected_of(const uint64_t *q, uint64_t next, const uint32_t *words, uint64_t *kind, uint64_t *numbers) {
    const uint64_t at = q[run_at(q[0]) + 1], count = next - at, size = q[0] == 80 ? (words[at] >> 31 ? 64 : 32) : q[2] & 0xFFFFFFFF;
    uint64_t cut[9];
    for (int i = 0; i < 9; i++) cut[i] = q[i] & 0xFFFFFFFF;
    const uint64_t move[] = {next, cut[2], size, q[1], count}, patchable[] = {next, cut[3], size, size == 64 ? q[1] : cut[1], count};
    const uint64_t logical[] = {next, cut[1], cut[3], cut[4], cut[5], cut[3] == 64 ? q[2] : cut[2]}, displacement[] = {next, cut[1], cut[2], q[3]};
    memcpy(numbers, q[0] == 80 ? move : patchable, sizeof move);
    if (q[0] == 49) memcpy(numbers, logical, sizeof logical);
    if (q[0] == 112) memcpy(numbers, displacement, sizeof displacement);
    *kind = q[0] == 49 ? 3 : q[0] == 112 ? 4 : 1;
    return q[0] == 80 || q[0] == 96 || q[0] == 49 || q[0] == 112;
}

/* The run of a stored answer, read back: what was written is read as what was asked. */
static uint64_t judged(const uint64_t *q, const char *answer, const uint32_t *words, size_t count) {
    uint64_t kind, expected[NUMBERS], numbers[NUMBERS], next;
    if (sscanf(answer, "ok %" SCNu64, &next) == 1 && expected_of(q, next, words, &kind, expected)) {
        expect("kind", read_at(words, count, q[run_at(q[0]) + 1], numbers), kind);
        for (size_t i = 0; i < (kind == 3 ? 6 : numbers_of[kind]); i++) expect("number", numbers[i], expected[i]);
        if (kind == 3) expect("normal", numbers[10], 1);
        asked++;
    }
    for (size_t i = 0; i < count; i++) expect("again", again(words[i]), words[i]);
    return whole(words, count);
}

/* The lines of an answer: its first one, and the words of its run. Whether they are there. */
static int answered(FILE *answers, size_t count, char *first, size_t room, uint32_t *words) {
    char line[128];
    if (!fgets(first, (int)room, answers)) return 0;
    for (size_t i = 0; i < count; i += 4) {
        if (!fgets(line, sizeof line, answers)) return 0;
        const size_t many = count - i < 4 ? count - i : 4;
        if (sscanf(line, "ok %" SCNx32 " %" SCNx32 " %" SCNx32 " %" SCNx32, words + i, words + i + 1, words + i + 2, words + i + 3) != (int)many) return 0;
    }
    return 1;
}

/* Words that look random; of four, one has the fixed bits of a wide move to one of two registers, one of a logical immediate, one of ADR or LDR. */
static uint64_t random_words(void) {
    static const uint32_t fixed[4][2] = {{0, 0}, {0x1F80001E, 0x12800000}, {0x1F800000, 0x12000000}, {0x1B000000, 0x10000000}};
    static uint32_t words[RANDOM];
    uint64_t state = UINT64_C(0x9E3779B97F4A7C15), sum = 0;
    for (int round = 0; round < ROUNDS; round++) {
        for (size_t i = 0; i < RANDOM; i++) {
            state ^= state << 13;
            state ^= state >> 7;
            state ^= state << 17;
            const uint32_t *one = fixed[state >> 40 & 3];
            words[i] = ((uint32_t)state & ~one[0]) | one[1];
            sum = sum * 31 + again(words[i]);
        }
        sum = sum * 31 + whole(words, RANDOM);
    }
    return sum;
}

int main(int given, char **names) {
    FILE *requests = given == 3 ? fopen(names[1], "rb") : NULL, *answers = requests ? fopen(names[2], "r") : NULL;
    uint8_t bytes[72];
    uint64_t sum = 0;
    if (!answers) return fprintf(stderr, "usage: reader REQUESTS ANSWERS\n"), 2;
    while (fread(bytes, 1, sizeof bytes, requests) == sizeof bytes) {
        uint64_t q[9] = {0};
        uint32_t words[MOST_WORDS + 4];
        char first[128];
        for (int i = 0; i < 72; i++) q[i / 8] |= (uint64_t)bytes[i] << i % 8 * 8;
        const size_t count = words_of(q);
        if (!answered(answers, count, first, sizeof first, words)) return puts("the stored answers end elsewhere"), 1;
        if (run_at(q[0]) != 0) sum = sum * 31 + judged(q, first, words, count);
    }
    sum = sum * 31 + random_words();
    printf("%lu stored answers read back as asked, %lu items in all, sum %016" PRIx64 ": %lu wrong%s\n", asked, items, sum, wrong,
           watched_lost ? ", and registers were lost" : "");
    return asked == 0 || wrong != 0 || watched_lost != 0;
}
