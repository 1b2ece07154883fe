/* The C entry points of Zhgarelli. docs/MANUAL.md says what every number means; the sections are named below.
 *
 * Each function takes any contents: every image, text, set, start, room and allowance has an answer. What it cannot test, and so
 * needs from its caller:
 *   - a pointer and the length after it name memory that is there, that long (in elements, not bytes) and aligned for its type. Where
 *     the length is 0 nothing is read or written through the pointer, and it may be null;
 *   - memory behind a pointer without `const` overlaps nothing else of the same call;
 *   - nobody else writes any of this memory, or reads what is lent for writing, until the function returns.
 * Nothing is kept between calls, nothing is allocated, and calls on separate memory may run at the same time.
 *
 * The numbers given back go to the front of `out`, in the order named, and the function answers how many they are. The rest of `out`
 * stays as it was. Where `out` is too short for them nothing is written there and the answer is 0; a buffer or a tree is then still
 * left as the call leaves it, so give room: 6 is enough for every function. */
#ifndef ZHGARELLI_H
#define ZHGARELLI_H

#include <stddef.h>
#include <stdint.h>

#ifdef __cplusplus
extern "C" {
#endif

/* Reads a pack text of either form into an image: 2 numbers, code (0, 1, 2, 3, 4) and number. With 0 the image stands at the front of the
 * buffer and the number is its words; a refusal leaves the buffer as it was. 20,589 words are room for every image. (Sections 1.2, 1.5, 1.7,
 * 5.) */
size_t zhg_read(const uint8_t *text, size_t text_bytes, uint16_t *buffer, size_t buffer_words, uint64_t *out, size_t out_len);

/* Writes an image as pack text of form 1: 2 numbers, code (0, 2, 3, 4) and number, in bytes, likewise. 65,535 bytes are room for every
 * text. (Sections 1.2, 1.5, 5.) */
size_t zhg_write(const uint16_t *img, size_t img_words, uint8_t *buffer, size_t buffer_bytes, uint64_t *out, size_t out_len);

/* Writes an image as pack text of form 2, likewise. One form may fit where the other is too long. (Sections 1.5, 1.7, 5.) */
size_t zhg_write2(const uint16_t *img, size_t img_words, uint8_t *buffer, size_t buffer_bytes, uint64_t *out, size_t out_len);

/* Moves a pack text of form 1 to form 2: 2 numbers, code (0, 1, 2, 3, 4) and number, in bytes. With 0 the other text stands at the front of
 * the buffer and the number is its bytes; a refusal leaves the buffer as it was. A text of form 2 is code 1 at 0. (Sections 1.7, 5.) */
size_t zhg_form2(const uint8_t *text, size_t text_bytes, uint8_t *buffer, size_t buffer_bytes, uint64_t *out, size_t out_len);

/* Moves a pack text of form 2 to form 1, likewise. A text of form 1 is code 1 at 0. (Sections 1.7, 5.) */
size_t zhg_form1(const uint8_t *text, size_t text_bytes, uint8_t *buffer, size_t buffer_bytes, uint64_t *out, size_t out_len);

/* The shape of an image: 2 numbers, code (0, 4) and place. (Section 1.6.) */
size_t zhg_shape(const uint16_t *img, size_t img_words, uint64_t *out, size_t out_len);

/* The check of an image: 4 numbers, code (0, 4, 5), number, first and second. With 4 the number is the word; with 5 it is the condition,
 * 1 to 6, and first and second are its places. (Section 4.) */
size_t zhg_check(const uint16_t *img, size_t img_words, uint64_t *out, size_t out_len);

/* The scan called by itself: 5 numbers, code (0, 4, 6, 13), place, set, length and moves. (Section 2.3.) */
size_t zhg_scan(const uint16_t *img, size_t img_words, const uint8_t *text, size_t text_bytes, size_t start, uint64_t set,
                uint32_t allowance, uint64_t *out, size_t out_len);

/* The parse: 6 numbers, code (0, 4, 6 to 13), place, length, terminal, records and moves. The records stand at the front of the tree, four
 * words each, and the rest of it stays as it was. The image needs no check before; one that passes the check never gives 9 or 10.
 * (Section 3.) */
size_t zhg_parse(const uint16_t *img, size_t img_words, const uint8_t *text, size_t text_bytes, uint16_t *tree, size_t tree_words,
                 uint32_t allowance, uint64_t *out, size_t out_len);

/* A leaf's bytes: 2 numbers, where they start in the text and how many they are. The record is the first four words of the row; a row of
 * fewer words counts as a bad record, and a bad record gives 0 and 0. (Section 3.5.) */
size_t zhg_leaf(const uint8_t *text, size_t text_bytes, const uint16_t *record, size_t record_words, uint64_t *out, size_t out_len);

/* Prints the derivation that a tree's records stand for: 2 numbers, code (0, 3, 14, 15) and number, in bytes. With 0 the printout stands at
 * the front of the buffer and the number is its bytes; a refusal leaves the buffer as it was. The words are all of the tree: after a parse
 * they are its records, four words each. (Section 3.6.) */
size_t zhg_print(const uint8_t *text, size_t text_bytes, const uint16_t *tree, size_t tree_words, uint8_t *buffer, size_t buffer_bytes,
                 uint64_t *out, size_t out_len);

#ifdef __cplusplus
}
#endif

#endif
