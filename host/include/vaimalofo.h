/*
 * Vaimalofo: A64 machine words from proved encoders. Link the static library that `./library TARGET` writes (docs/HOST.md).
 *
 * A run is a pointer to bytes and their number. The pointer is not NULL, also where the number is 0, and during a call nothing else
 * uses the bytes. In a run a word is four bytes, low byte first, and a tail under four bytes is no room. A position counts words.
 *
 * A base address is the address of the run's first word where the code will run, a multiple of 4; the bytes need not be there now. The
 * word at a position has the address base address + 4 * position, modulo 2^64 (vaimalofo_address).
 *
 * Every entry answers one 64-bit number. Its low byte is a refusal's number, 0 where nothing was refused; the bits above it, read as
 * signed, are the value, 0 with a refusal. Any numbers may be asked. With a refusal no byte of the run has changed; else the words
 * asked for stand from the position on (those of vaimalofo_decode_logical, which takes none, from the run's start), and every other byte
 * is as before.
 *
 * The entries for labels take a run of words in place of its bytes, a table and a sheet, each a pointer and how many there are: these are
 * aligned as C has it, do not overlap, and else are as a run is. The bytes of such a run are (uint8_t *)words. vaimalofo_read takes such a
 * run, too, which it only reads, and a run of numbers.
 */
#ifndef VAIMALOFO_H
#define VAIMALOFO_H

#include <stddef.h>
#include <stdint.h>

#ifdef __cplusplus
extern "C" {
#endif

/* Refusals. Where several apply, an entry gives the first of the order that stands beside it. */
enum {
    VAIMALOFO_WIDTH = 1,    /* the width or register size is not one that the entry names */
    VAIMALOFO_REGISTER = 2, /* a register number above 30 (moves) or above 31 (logical words) */
    VAIMALOFO_NO_FIELD = 3, /* no field spells the value, or the fields are not legal */
    VAIMALOFO_STEP = 4,     /* the distance is not a multiple of the format's step */
    VAIMALOFO_RANGE = 5,    /* the distance is outside the format's range */
    VAIMALOFO_TAKEN = 6,    /* the base word already has a bit set in the field */
    VAIMALOFO_UNKNOWN = 7,  /* an unknown format or operation number */
    VAIMALOFO_NO_ROOM = 8,  /* the words do not fit from the position on, the position lies past the end, no whole word stands there, or too few
                             * numbers are lent */
    VAIMALOFO_WRONG_FORM = 11, /* the base word, or the word at the position, is not an instruction of this format */
    VAIMALOFO_LABEL = 12,      /* there is no such label, or, at finishing, it is not bound */
    VAIMALOFO_TWICE = 13,      /* the label is bound already */
    VAIMALOFO_FULL = 14,       /* the sheet is full, or the count is above what it may hold */
    VAIMALOFO_UNALIGNED = 15,  /* the base address is not a multiple of 4 */
    VAIMALOFO_AGAIN = 16       /* an earlier use that waits names the same word */
};

/* Displacement formats. */
enum {
    VAIMALOFO_BRANCH_26 = 0, /* B, BL */
    VAIMALOFO_BRANCH_19 = 1, /* B.cond, CBZ, CBNZ */
    VAIMALOFO_BRANCH_14 = 2, /* TBZ, TBNZ */
    VAIMALOFO_ADR_21 = 3,
    VAIMALOFO_ADRP_21 = 4,
    VAIMALOFO_LDR_19 = 5 /* LDR, LDRSW, PRFM (literal), of SIMD registers too */
};

/* Logical operations. */
enum { VAIMALOFO_AND = 0, VAIMALOFO_ORR = 1, VAIMALOFO_EOR = 2, VAIMALOFO_ANDS = 3 };

/* Kinds of what vaimalofo_read reads, and how many numbers it must be lent. */
enum {
    VAIMALOFO_END = 0,          /* the end of the run */
    VAIMALOFO_CONSTANT = 1,     /* a MOVZ or MOVN, and the MOVK words that follow at the same register and size */
    VAIMALOFO_MOVK = 2,         /* a MOVK that follows no such word */
    VAIMALOFO_LOGICAL = 3,      /* AND, ORR, EOR or ANDS with an immediate */
    VAIMALOFO_DISPLACEMENT = 4, /* an instruction of one of the formats */
    VAIMALOFO_OTHER = 5         /* any other word */
};
enum { VAIMALOFO_NUMBERS = 11 };

/* How many labels there are at most, and how many uses wait at most, however long table and sheet are. */
enum { VAIMALOFO_LABELS = 256, VAIMALOFO_USES = 1024 };

/* A use of a label that waits, in a sheet: the word at position `at` is to reach the label, at a format. */
struct vaimalofo_use {
    uint32_t label;
    size_t at;
    uint32_t format;
};

/* The refusal of an answer: 0 where nothing was refused. */
static inline unsigned vaimalofo_refusal(uint64_t answer) {
    return (unsigned)(answer & 0xFF);
}

/* The value of an answer. */
static inline int64_t vaimalofo_value(uint64_t answer) {
    uint64_t above = answer >> 8;
    return above < (UINT64_C(1) << 55) ? (int64_t)above : -(int64_t)((UINT64_C(1) << 56) - above);
}

/* The address of the word at a position of a run. */
static inline uint64_t vaimalofo_address(uint64_t base_address, size_t position) {
    return base_address + 4 * (uint64_t)position;
}

/* Of an entry that writes, without a refusal: how many words it has written. */
static inline size_t vaimalofo_words(uint64_t answer) {
    return (size_t)(answer >> 8 & 0xFF);
}

/* Of vaimalofo_displacement_to and vaimalofo_retarget_to, without a refusal: for ADRP the low 12 bits of the target, 0 at the other formats. */
static inline uint32_t vaimalofo_low12(uint64_t answer) {
    return (uint32_t)(answer >> 16 & 0xFFF);
}

/* Of vaimalofo_logical_fields and vaimalofo_normalise_logical, without a refusal: N, 1 only for an element of 64 bits. */
static inline uint32_t vaimalofo_n(uint64_t answer) {
    return (uint32_t)(answer >> 24 & 0xFF);
}

/* Of the same two, without a refusal: S, the length of the run less 1, below a prefix that tells the element's length. */
static inline uint32_t vaimalofo_s(uint64_t answer) {
    return (uint32_t)(answer >> 16 & 0xFF);
}

/* Of the same two, without a refusal: R, how far the run is turned to the right, below the element's length. */
static inline uint32_t vaimalofo_r(uint64_t answer) {
    return (uint32_t)(answer >> 8 & 0xFF);
}

/* Of the same two, without a refusal: the element's length in bits, 2, 4, 8, 16, 32 or 64. The value repeats every so many bits. */
static inline uint32_t vaimalofo_element_length(uint64_t answer) {
    return (uint32_t)(answer >> 32 & 0xFF);
}

/* The mask that vaimalofo_decode_logical has written at the start of a run: 8 bytes, low byte first. */
static inline uint64_t vaimalofo_mask(const uint8_t *bytes) {
    uint64_t mask = 0;
    for (int i = 7; i >= 0; i--) mask = mask << 8 | bytes[i];
    return mask;
}

/* A move of a value to a register, 1 to 4 words. Order 15, 2, 8. Value: the number of words. */
uint64_t vaimalofo_move(uint8_t *bytes, size_t length, uint64_t base_address, size_t position, uint64_t value,
                        uint32_t reg);

/* A move that can be patched: four words at size 64, two at 32, of the low 32 bits. Order 15, 1, 2, 8. Value: the number of words. */
uint64_t vaimalofo_patchable_move(uint8_t *bytes, size_t length, uint64_t base_address, size_t position, uint64_t value,
                                  uint32_t size, uint32_t reg);

/* The fields of a logical immediate at width 32 or 64, and the length of its element. Order 1, 3. Value: length * 16777216 + N * 65536 +
 * S * 256 + R, so that the answer has R in bits 8 to 15, S in 16 to 23, N in 24 to 31 and the length in 32 to 39, and every other bit is 0:
 * vaimalofo_r, vaimalofo_s, vaimalofo_n and vaimalofo_element_length take them apart.
 * WARNING: before it had the length, nothing stood above N. R, S and N are where they were, but a host that takes N as value >> 16 now gets
 * the length with it, and must mask it: value >> 16 & 0xFF. */
uint64_t vaimalofo_logical_fields(uint64_t value, uint32_t width);

/* The mask that the fields N, S and R of a logical immediate spell at width 32 or 64, as Arm decodes them, written at the run's start as two
 * words, the low one first: vaimalofo_mask reads them. At width 32 the high one is 0. The fields are not legal where Arm leaves them
 * undefined, where N is 1 at width 32, and where one of them is too great for its 1, 6 and 6 bits. Order 1, 3, 8. Value: the number of
 * words, 2. */
uint64_t vaimalofo_decode_logical(uint8_t *bytes, size_t length, uint32_t n, uint32_t s, uint32_t r, uint32_t width);

/* The fields that vaimalofo_logical_fields gives for the mask of these: R is then below the element's length. Order 1, 3. Value: as there. */
uint64_t vaimalofo_normalise_logical(uint32_t n, uint32_t s, uint32_t r, uint32_t width);

/* AND, ORR, EOR or ANDS with an immediate. Order 15, 7, 1, 2, 3, 8. Value: the number of words, 1. */
uint64_t vaimalofo_logical_word(uint8_t *bytes, size_t length, uint64_t base_address, size_t position,
                                uint32_t operation, uint64_t value, uint32_t width, uint32_t rn, uint32_t rd);

/* A base word with a distance in bytes in the field of a format. The base is an instruction of the format, and its field is clear.
 * Order 15, 7, 11, 6, 4, 5, 8. Value: the number of words, 1. */
uint64_t vaimalofo_displacement(uint8_t *bytes, size_t length, uint64_t base_address, size_t position, uint32_t format,
                                uint32_t base, int64_t distance);

/* The same to a target: the distance is target minus the address of the instruction, vaimalofo_address(base_address, position), modulo 2^64
 * and read as signed; for ADRP both first lose their low 12 bits, so that it gives the target's page and never 4. Order 15, 7, 11, 6, 4, 5,
 * 8. Value: the number of words, 1, and for ADRP 256 times the low 12 bits of the target for the ADD that follows: vaimalofo_words and
 * vaimalofo_low12 take them apart.
 * WARNING: before it took a base address it had as many arguments, in another order and meaning: (bytes, length, position, format, base,
 * target, address). A call written for those still compiles, and asks for something else; the address at its end is gone. */
uint64_t vaimalofo_displacement_to(uint8_t *bytes, size_t length, uint64_t base_address, size_t position,
                                   uint32_t format, uint32_t base, uint64_t target);

/* Another distance in the word that stands at the position: the format's field of it is cleared, whatever it holds, and takes the distance;
 * every other bit stays. The word is an instruction of the format. Order 15, 7, 8, 11, 4, 5; 8 where no whole word stands at the position.
 * Value: the number of words, 1. */
uint64_t vaimalofo_retarget(uint8_t *bytes, size_t length, uint64_t base_address, size_t position, uint32_t format,
                            int64_t distance);

/* The same to a target, which counts as at vaimalofo_displacement_to: for ADRP it gives the target's page and never 4. Order 15, 7, 8, 11, 4,
 * 5. Value: the number of words, 1, and for ADRP 256 times the low 12 bits of the target for the ADD that follows, whose word stays as it
 * is. */
uint64_t vaimalofo_retarget_to(uint8_t *bytes, size_t length, uint64_t base_address, size_t position, uint32_t format,
                               uint64_t target);

/* Whether a word has the fixed bits of an instruction of a format, whatever its field holds. Order 7. Value: 1 or 0. */
uint64_t vaimalofo_has_form(uint32_t format, uint32_t word);

/* The distance that any word spells at a format. Order 7. Value: the distance in bytes. */
uint64_t vaimalofo_read_displacement(uint32_t word, uint32_t format);

/* Labels. A label is a number below 256 and below the length of a table that the host lends: its entry there is 0 where it is unbound, else
 * one more than the word position that it is bound to. The host clears the table first. A sheet is an array of uses, of which the first
 * `count` wait: the host keeps the count, at first 0. It is full where `count` is 1024 or its length; what stands behind is not read.
 *
 * Binds a label to a position: of a word, or the end. Order 15, 12, 13, 8; 8 where the position lies past the end. Value: 0. */
uint64_t vaimalofo_bind_label(size_t *labels, size_t labels_len, const uint32_t *words, size_t words_len,
                              uint64_t base_address, size_t position, uint32_t label);

/* The word that stands at the position waits for a label, bound or not: uses[count] takes it. The word is a base of the format. Order 15, 7,
 * 12, 8, 11, 6, 16, 14; 8 where no word stands at the position. Value: the count after it. */
uint64_t vaimalofo_use_label(struct vaimalofo_use *uses, size_t uses_len, size_t count, uint32_t label, uint32_t format,
                             const size_t *labels, size_t labels_len, const uint32_t *words, size_t words_len,
                             uint64_t base_address, size_t position);

/* Gives each word that waits the distance to its label, as vaimalofo_displacement_to does to the label's address, which for ADRP is to its
 * page; every other word stays. All uses are tested before a word is written. Order 15; 14 where `count` is above 1024 or the sheet's length;
 * then the first that a use has, in the sheet's order: 7, 12 (no such label, or not bound), 8 (the word, or the label, is not in the run), 11,
 * 6, 16, 4, 5. Value: 0, which is the count after it. Records and table stay as they are: the labels are bound still, and the sheet's room
 * is free. */
uint64_t vaimalofo_finish_labels(const struct vaimalofo_use *uses, size_t uses_len, size_t count, const size_t *labels,
                                 size_t labels_len, uint32_t *words, size_t words_len, uint64_t base_address);

/* What stands at a position of a run of words, item by item. A MOVZ or MOVN and the MOVK words that follow at the same register and size are
 * one constant; every other word is an item of its own, and a wide move to register 31 is none of these. Its numbers are written from
 * numbers[0] on, and the others stay; they and the run do not overlap.
 *
 *   VAIMALOFO_END           none
 *   VAIMALOFO_CONSTANT      next, register, size (32 or 64), value in all 64 bits, words
 *   VAIMALOFO_MOVK          next, register, size, halfword, place (it goes to bits 16 * place on)
 *   VAIMALOFO_LOGICAL       next, operation, width, rn, rd, value, N, S, R, element length, normal (1 where R is below the length, else 0)
 *   VAIMALOFO_DISPLACEMENT  next, format, base (the word with its field clear), distance in bytes, as its 64 bits
 *   VAIMALOFO_OTHER         next, word, position
 *
 * `next` is the position after the item, at which the next one begins: to read a run, begin at 0 and go on from there up to VAIMALOFO_END.
 * Order 8; 8 where the position lies past the end, the end itself being VAIMALOFO_END, and where fewer than VAIMALOFO_NUMBERS numbers are
 * lent; then and at the end nothing is written. Value: the kind. */
uint64_t vaimalofo_read(const uint32_t *words, size_t words_len, size_t position, uint64_t *numbers,
                        size_t numbers_len);

/* A word written again from what vaimalofo_read reads of it alone: the same word, but for a logical immediate that is not normal, whose R is
 * then below the element's length. No refusal. Value: the word. */
uint64_t vaimalofo_rewrite(uint32_t word);

/* The 8-bit float that spells a value, given by its bits, at width 16, 32 or 64; bits above the width are ignored. Order 1, 3. Value: the 8
 * bits, 0 to 255. */
uint64_t vaimalofo_float_imm8(uint64_t value, uint32_t width);

/* Whether an 8-bit float spells a value at width 16, 32 or 64; bits above the width are ignored. Order 1. Value: 1 or 0. */
uint64_t vaimalofo_is_float_imm8(uint64_t value, uint32_t width);

/* The byte mask of a value whose bytes are 00 or FF. Order 3. Value: the 8 bits, bit i set where byte i is FF; byte 0 is the low one. */
uint64_t vaimalofo_byte_mask_imm8(uint64_t value);

/* How many of the four halfwords of a value are 0. No refusal. Value: 0 to 4. */
uint64_t vaimalofo_count_zero_half_words(uint64_t value);

/* Whether a general register's number is below 31 or the high number given. No refusal. Value: 1 or 0. */
uint64_t vaimalofo_check_gp_id(uint32_t id, uint32_t high);

/* Whether a vector register's number is below 32. No refusal. Value: 1 or 0. */
uint64_t vaimalofo_check_vec_id(uint32_t id);

/* The condition field of a condition's number in asmkit's counting, where EQ is 2 and AL is 0: (cond - 2) mod 16, for every number. No
 * refusal. Value: 0 to 15. */
uint64_t vaimalofo_cond_field(uint32_t cond);

#ifdef __cplusplus
}
#endif

#endif
