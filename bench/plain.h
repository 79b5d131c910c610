/* Plain C versions of the calls, written straight from document 01: what the bench measures the proved ones against. */
#ifndef PLAIN_H
#define PLAIN_H

#include <stddef.h>
#include <stdint.h>

#ifdef __cplusplus
extern "C" {
#endif

/* As cv_pattern. */
uint8_t plain_pattern(const uint8_t *text, size_t len, uint8_t *out, size_t out_len, size_t *place, size_t *length);

/* As cv_build, but for the work memory: this one keeps its own. */
uint8_t plain_build(const uint8_t *net, size_t net_len, uint8_t *out, size_t out_len, size_t *length,
                    size_t *situations, size_t *registers);

/* As cv_load and cv_run. */
uint8_t plain_load(const uint8_t *table, size_t len);
uint8_t plain_run(const uint8_t *table, size_t len, const uint8_t *line, size_t line_len, uint8_t *answer,
                  int16_t places[8]);

/*
 * Judged once: an image of one word for each situation and byte. `plain_mount` answers 12 if there are fewer than
 * 257 words a situation; `plain_ride` trusts an image that `plain_mount` wrote for the same table, but for the test
 * that a row is one of the table's.
 */
uint8_t plain_mount(const uint8_t *table, size_t len, uint32_t *image, size_t image_len);
uint8_t plain_ride(const uint8_t *table, size_t len, const uint32_t *image, size_t image_len, const uint8_t *line,
                   size_t line_len, uint8_t *answer, int16_t places[8]);

/* Two lines in step: each told as `plain_ride` tells it. */
void plain_ride_two(const uint8_t *table, size_t len, const uint32_t *image, size_t image_len, const uint8_t *line,
                    size_t line_len, const uint8_t *other, size_t other_len, uint8_t codes[2], uint8_t answers[2],
                    int16_t first[8], int16_t second[8]);

#ifdef __cplusplus
}
#endif

#endif
