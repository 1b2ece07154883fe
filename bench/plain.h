/* The plain versions, with the arguments and answers of include/zhgarelli.h: plain.c in C, plain.rs in safe Rust. `plain_c_run` is
 * `plain_c_parse` for a query and an image that are known to be good: it tests neither. fast.c has what C can be made to do. */
#ifndef PLAIN_H
#define PLAIN_H

#include <stddef.h>
#include <stdint.h>

size_t plain_c_shape(const uint16_t *img, size_t img_words, uint64_t *out, size_t out_len);
size_t plain_c_scan(const uint16_t *img, size_t img_words, const uint8_t *text, size_t text_bytes, size_t start, uint64_t set,
                    uint32_t allowance, uint64_t *out, size_t out_len);
size_t plain_c_read(const uint8_t *text, size_t text_bytes, uint16_t *buffer, size_t buffer_words, uint64_t *out, size_t out_len);
size_t plain_c_write(const uint16_t *img, size_t img_words, uint8_t *buffer, size_t buffer_bytes, uint64_t *out, size_t out_len);
size_t plain_c_write2(const uint16_t *img, size_t img_words, uint8_t *buffer, size_t buffer_bytes, uint64_t *out, size_t out_len);
size_t plain_c_form2(const uint8_t *text, size_t text_bytes, uint8_t *buffer, size_t buffer_bytes, uint64_t *out, size_t out_len);
size_t plain_c_form1(const uint8_t *text, size_t text_bytes, uint8_t *buffer, size_t buffer_bytes, uint64_t *out, size_t out_len);
size_t plain_c_check(const uint16_t *img, size_t img_words, uint64_t *out, size_t out_len);
size_t plain_c_parse(const uint16_t *img, size_t img_words, const uint8_t *text, size_t text_bytes, uint16_t *tree, size_t tree_words,
                     uint32_t allowance, uint64_t *out, size_t out_len);
size_t plain_c_run(const uint16_t *img, size_t img_words, const uint8_t *text, size_t text_bytes, uint16_t *tree, size_t tree_words,
                   uint32_t allowance, uint64_t *out, size_t out_len);
size_t plain_c_print(const uint8_t *text, size_t text_bytes, const uint16_t *tree, size_t tree_words, uint8_t *buffer, size_t buffer_bytes,
                     uint64_t *out, size_t out_len);

size_t fast_c_shape(const uint16_t *img, size_t img_words, uint64_t *out, size_t out_len);
size_t fast_c_read(const uint8_t *text, size_t text_bytes, uint16_t *buffer, size_t buffer_words, uint64_t *out, size_t out_len);
size_t fast_c_write(const uint16_t *img, size_t img_words, uint8_t *buffer, size_t buffer_bytes, uint64_t *out, size_t out_len);

size_t plain_rust_shape(const uint16_t *img, size_t img_words, uint64_t *out, size_t out_len);
size_t plain_rust_scan(const uint16_t *img, size_t img_words, const uint8_t *text, size_t text_bytes, size_t start, uint64_t set,
                       uint32_t allowance, uint64_t *out, size_t out_len);
size_t plain_rust_read(const uint8_t *text, size_t text_bytes, uint16_t *buffer, size_t buffer_words, uint64_t *out, size_t out_len);
size_t plain_rust_write(const uint16_t *img, size_t img_words, uint8_t *buffer, size_t buffer_bytes, uint64_t *out, size_t out_len);
size_t plain_rust_write2(const uint16_t *img, size_t img_words, uint8_t *buffer, size_t buffer_bytes, uint64_t *out, size_t out_len);
size_t plain_rust_form2(const uint8_t *text, size_t text_bytes, uint8_t *buffer, size_t buffer_bytes, uint64_t *out, size_t out_len);
size_t plain_rust_form1(const uint8_t *text, size_t text_bytes, uint8_t *buffer, size_t buffer_bytes, uint64_t *out, size_t out_len);
size_t plain_rust_check(const uint16_t *img, size_t img_words, uint64_t *out, size_t out_len);
size_t plain_rust_parse(const uint16_t *img, size_t img_words, const uint8_t *text, size_t text_bytes, uint16_t *tree, size_t tree_words,
                        uint32_t allowance, uint64_t *out, size_t out_len);
size_t plain_rust_print(const uint8_t *text, size_t text_bytes, const uint16_t *tree, size_t tree_words, uint8_t *buffer,
                        size_t buffer_bytes, uint64_t *out, size_t out_len);

#endif
