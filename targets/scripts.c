/* scripts CALLS ANSWERS: makes the stored calls about labels (crates/label_scripts) at the C entries, and compares what they answer and write with the
 * stored answers.
 *
 * As in stored.c a parameter of 32 bits is declared with 64, and the calls are made with four upper halves. Table, sheet and run stand between others that
 * must stay; so must all three where a call is refused, and those that it does not write to else. */
#include <inttypes.h>
#include <stdio.h>
#include <string.h>

#include "watched.h"

struct use {
    uint32_t label;
    size_t at;
    uint32_t format;
};

uint64_t vaimalofo_bind_label(size_t *, size_t, const uint32_t *, size_t, uint64_t, size_t, uint64_t label);
uint64_t vaimalofo_use_label(struct use *, size_t, size_t, uint64_t label, uint64_t format, const size_t *, size_t, const uint32_t *, size_t, uint64_t,
                             size_t);
uint64_t vaimalofo_finish_labels(const struct use *, size_t, size_t, const size_t *, size_t, uint32_t *, size_t, uint64_t);

enum { AROUND = 4, TABLE = 300, SHEET = 1100, RUN = 2048 };

/* What is lent, and what stands around it. */
struct all {
    size_t labels[AROUND + TABLE + AROUND];
    struct use uses[AROUND + SHEET + AROUND];
    uint32_t words[AROUND + RUN + AROUND];
};
static struct all now, before;
static size_t table, sheet, run, count;

static size_t *const labels = now.labels + AROUND;
static struct use *const uses = now.uses + AROUND;
static uint32_t *const words = now.words + AROUND;

static size_t least(uint64_t a, size_t b) {
    return a < b ? (size_t)a : b;
}

/* All zero within these lengths, and no zero behind them. */
static void anew(uint64_t table_asked, uint64_t sheet_asked, uint64_t run_asked) {
    table = least(table_asked, TABLE);
    sheet = least(sheet_asked, SHEET);
    run = least(run_asked, RUN);
    count = 0;
    memset(&now, 0x5C, sizeof now);
    memset(labels, 0, table * sizeof *labels);
    memset(uses, 0, sheet * sizeof *uses);
    memset(words, 0, run * sizeof *words);
}

static size_t differ(const void *some, const void *others, size_t length) {
    const uint8_t *a = some, *b = others;
    size_t different = 0;
    if (memcmp(a, b, length) == 0) return 0;
    for (size_t i = 0; i < length; i++) different += a[i] != b[i];
    return different;
}

/* How many bytes have changed that the call had no business with. */
static size_t changed(uint64_t kind, uint64_t answer, uint64_t label) {
    if ((answer & 0xFF) == 0) {
        if (kind == 2) before.labels[AROUND + label % TABLE] = now.labels[AROUND + label % TABLE];
        if (kind == 3) before.uses[AROUND + (answer >> 8) % (SHEET + 1) - 1] = now.uses[AROUND + (answer >> 8) % (SHEET + 1) - 1];
        if (kind == 4) memcpy(before.words + AROUND, words, run * sizeof *words);
    }
    return differ(now.labels, before.labels, sizeof now.labels) + differ(now.uses, before.uses, sizeof now.uses) +
           differ(now.words, before.words, sizeof now.words);
}

static uint64_t call(const uint64_t *q, uint64_t upper) {
    const uint64_t label = (q[2] & 0xFFFFFFFF) | upper, format = (q[4] & 0xFFFFFFFF) | upper;
    switch (q[0]) {
    case 2: return CALL(vaimalofo_bind_label)(labels, table, words, run, q[1], q[3], label);
    case 3: return CALL(vaimalofo_use_label)(uses, sheet, count, label, format, labels, table, words, run, q[1], q[3]);
    default: return CALL(vaimalofo_finish_labels)(uses, sheet, count, labels, table, words, run, q[1]);
    }
}

/* What is left after a finish, of which `waited` uses waited before it: five sums, each place counting once more than the one before it. */
static char *summed(char *text, size_t waited) {
    uint64_t sums[5] = {0};
    for (size_t i = 0; i < run; i++) sums[0] += (i + 1) * words[i];
    for (size_t i = 0; i < table; i++) sums[1] += (i + 1) * labels[i];
    for (size_t i = 0; i < waited; i++) {
        sums[2] += (i + 1) * uses[i].label;
        sums[3] += (i + 1) * uses[i].at;
        sums[4] += (i + 1) * uses[i].format;
    }
    for (int i = 0; i < 5; i++) text += sprintf(text, "sum %" PRIu64 "\n", sums[i]);
    return text;
}

/* Does what a record says and spells the answer: how many bytes changed that should not have. */
static size_t done(const uint64_t *q, uint64_t upper, char *text) {
    const size_t waited = count;
    if (q[0] == 0) anew(q[2], q[3], q[4]);
    if (q[0] == 1 && q[3] < run) words[q[3]] = (uint32_t)q[2];
    if (q[0] < 2 || q[0] > 4) return (size_t)(sprintf(text, q[0] < 2 ? "ok 0\n" : "bad\n") < 0);
    before = now;
    const uint64_t answer = call(q, upper);
    if (answer & 0xFF) {
        text += sprintf(text, "refused %" PRIu64 "\n", answer);
    } else {
        text += sprintf(text, "ok %" PRIu64 "\n", answer >> 8);
        if (q[0] > 2) count = answer >> 8;
    }
    if (q[0] == 4) summed(text, waited);
    return changed(q[0], answer, q[2] & 0xFFFFFFFF);
}

static unsigned long wrong, calls;

/* All calls once; whether the stored answers were read to their end. */
static int through(FILE *records, FILE *answers, uint64_t upper) {
    uint8_t bytes[40];
    rewind(records);
    rewind(answers);
    anew(0, 0, 0);
    while (fread(bytes, 1, sizeof bytes, records) == sizeof bytes) {
        uint64_t q[5] = {0};
        char expected[256] = "", got[256], line[64];
        for (int i = 0; i < 40; i++) q[i / 8] |= (uint64_t)bytes[i] << i % 8 * 8;
        for (int i = 0; i < (q[0] == 4 ? 6 : 1); i++) {
            if (!fgets(line, sizeof line, answers)) return 0;
            strcat(expected, line);
        }
        calls += q[0] >= 2 && q[0] <= 4;
        const size_t bytes_changed = done(q, upper, got);
        if (strcmp(got, expected) == 0 && bytes_changed == 0) continue;
        if (wrong++ < 5) printf("kind %" PRIu64 ":\n%sstored:\n%s%zu other bytes changed\n", q[0], got, expected, bytes_changed);
    }
    return fgetc(answers) == EOF;
}

int main(int given, char **names) {
    static const uint64_t upper[4] = {0, UINT64_C(0xFFFFFFFF00000000), UINT64_C(0xA5A5A5A500000000), UINT64_C(0x8000000100000000)};
    FILE *records = given == 3 ? fopen(names[1], "rb") : NULL, *answers = records ? fopen(names[2], "r") : NULL;
    if (!answers) return fprintf(stderr, "usage: scripts CALLS ANSWERS\n"), 2;
    for (int k = 0; k < 4; k++) {
        if (!through(records, answers, upper[k])) return puts("the stored answers end elsewhere"), 1;
    }
    printf("%lu stored calls about labels made at the C entries, each in four ways: %lu wrong%s\n", calls / 4, wrong,
           watched_lost ? ", and registers were lost" : "");
    return calls == 0 || wrong != 0 || watched_lost != 0;
}
