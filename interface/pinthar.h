/* The questions of document 01 about an instrument file, for C.
 *
 * Link with crates/pinthar/out/libpinthar.a, which `rt lib` makes in crates/pinthar. The functions allocate nothing, keep nothing from call to
 * call and may run on several threads at once; each is proved to answer as its contract in crates/pinthar says, for all bytes.
 *
 * Slices. A file is a pointer and the number of its bytes; a lent buffer is a pointer and the number of its entries. An empty one may have
 * any pointer that is aligned for its entries and not null. The file and the buffer must not overlap. Nothing else is asked of a caller.
 *
 * Results. The upper 32 bits are 0, or the number of the refusal, 1 to 13; the lower 32 bits are the answer, 0 where it is refused. A
 * refused call leaves every lent buffer as it was. Entries past the result are left as they were.
 *
 * Stack. The functions hold their tables on the caller's stack, and a smaller stack is overrun without notice. PINTHAR_STACK bytes are
 * recommended for every function; interface/README.md has the measured need of each. The main thread of a Linux process usually has 8 MB;
 * other threads often have less.
 */
#ifndef PINTHAR_H
#define PINTHAR_H

#include <stddef.h>
#include <stdint.h>

#ifdef __cplusplus
extern "C" {
#endif

#define PINTHAR_STACK ((size_t)8 << 20)

/* The two parts of a result. */
#define PINTHAR_REFUSAL(result) ((uint32_t)((result) >> 32))
#define PINTHAR_ANSWER(result) ((uint32_t)((result) & 0xffffffffu))

/* Refusals. Number 14 is not used any more. */
enum {
    PINTHAR_FILE_ENDS = 1,           /* file ends inside or before a number */
    PINTHAR_NUMBER_FORM = 2,         /* form not shortest, or above 2^64 - 1 */
    PINTHAR_OUTSIDE_RANGE = 3,       /* count, or asked component number, outside its range */
    PINTHAR_LISTED_SIGNAL = 4,       /* listed signal not ascending or not below W */
    PINTHAR_OUTPUT_TAKEN = 5,        /* output already driven, or also an own input */
    PINTHAR_WORD_OR_SET = 6,         /* output word or successor set with a bit too high */
    PINTHAR_KIND_OR_OPERAND = 7,     /* unknown kind, or operand not an earlier node */
    PINTHAR_UNDRIVEN_SIGNAL = 8,     /* formula names a signal that no component drives */
    PINTHAR_NO_SUCH_STATE = 9,       /* start or asked state not in its component */
    PINTHAR_BYTES_AFTER_STARTS = 10, /* bytes after the last start */
    PINTHAR_FULL_TOO_LARGE = 11,     /* full combination over 4,096 states */
    PINTHAR_MERGED_TOO_LARGE = 12,   /* merged combination over 4,096 states */
    PINTHAR_BUFFER_TOO_SHORT = 13    /* lent result shorter than its entries */
};

/* So many entries are room enough for every file. */
#define PINTHAR_MOST_WORDS 4096 /* full words, merged words */
#define PINTHAR_MOST_MARKS 192
#define PINTHAR_MOST_NAMES 256
#define PINTHAR_MOST_TEXT 2048

/* The full way: writes a word per combined state, bit k the truth of node k, and answers how many. Refused by 1 to 10, 11, 13. */
uint64_t pinthar_full_words(const uint8_t *file, size_t file_size, uint32_t *out, size_t out_size);

/* Marks: writes two words of 64 bits for every component and node, PASS then FAIL, bit t for state t, components outermost, and answers how
 * many. 1 to 10, 13. */
uint64_t pinthar_mark_words(const uint8_t *file, size_t file_size, uint64_t *out, size_t out_size);

/* Classes: writes the name of every state's class, a byte per state, components in order, and answers how many. 1 to 10, 13. */
uint64_t pinthar_class_names(const uint8_t *file, size_t file_size, uint8_t *out, size_t out_size);

/* Merged words: writes a word per merged state, bit k the truth of node k if that is the root or stands under it, and answers how many.
 * 1 to 10, 12, 13. */
uint64_t pinthar_merged_words(const uint8_t *file, size_t file_size, uint32_t *out, size_t out_size);

/* The listing program's lines: writes their bytes, each line ending with byte 10 and no byte 0 after the last, and answers how many.
 * 1 to 10, 12, 13. */
uint64_t pinthar_listing(const uint8_t *file, size_t file_size, uint8_t *out, size_t out_size);

/* The lookup: answers 1 if the root is true in the combined state of these states, in component order, and 0 if it is false. Numbers past
 * the last component must be 0. 1 to 10 (9 also for the asked state), 12. */
uint64_t pinthar_lookup(const uint8_t *file, size_t file_size, uint32_t s0, uint32_t s1, uint32_t s2, uint32_t s3);

/* The verdict on the starts and the stage that gives it. 1 to 10, 12. */
enum { PINTHAR_FAILS_MARKS = 0, PINTHAR_HOLDS_MARKS = 1, PINTHAR_FAILS_MERGED = 2, PINTHAR_HOLDS_MERGED = 3 };
uint64_t pinthar_verdict(const uint8_t *file, size_t file_size);

/* A component's own part of the file, from its state count to its last successor set: answers the place of its first byte in the upper 16
 * bits and how many bytes it has, at least one, in the lower 16. 1 to 10, 3. */
#define PINTHAR_PLACE(result) ((uint32_t)(result) >> 16)
#define PINTHAR_SIZE(result) ((uint32_t)(result) & 0xffffu)
uint64_t pinthar_component(const uint8_t *file, size_t file_size, uint32_t component);

#ifdef __cplusplus
}
#endif

#endif
