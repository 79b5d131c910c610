/* What the bench's peers share. */
#ifndef BENCH_H
#define BENCH_H

#include <stddef.h>
#include <stdint.h>

#ifdef __cplusplus
extern "C" {
#endif

/* re2c's functions: 1 and the places, or 0. */
int re2c_feed(const unsigned char *line, int32_t *places);
int re2c_noise(const unsigned char *line, int32_t *places);
int re2c_shift(const unsigned char *line, int32_t *places);
int re2c_fields(const unsigned char *line, int32_t *places);
int re2c_registers(const unsigned char *line, int32_t *places);
int re2c_ambiguous(const unsigned char *line, int32_t *places);

/* Rust's regex: null if the pattern is refused; 1 and two places a group, or 0. */
void *rust_regex_new(const uint8_t *text, size_t len);
int rust_regex_match(void *regex, const uint8_t *line, size_t len, int32_t *bounds, size_t groups);
void rust_regex_free(void *regex);

/* The builder in plain Rust: as cv_build, but for the work memory. */
uint8_t plain_rust_build(const uint8_t *net, size_t net_len, uint8_t *out, size_t out_len, size_t *length,
                         size_t *situations, size_t *registers);

#ifdef __cplusplus
}
#endif

#endif
