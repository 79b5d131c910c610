/*
 * Chorvugdan: a tagged pattern matcher for payload-scale feeds.
 *
 * Pattern text -> automaton file ("net") -> table file ("card") -> run of the card over a line.
 * Link with target/staticlib/libexport.a, which `tools/link.sh export` writes. Every call is proved
 * to keep the promise beside it for all inputs; none allocates, keeps state or looks past a length.
 *
 * The caller's part, which no proof can see: a pointer is not null (also where its length is 0),
 * points to at least the length that follows it, and what a call may write overlaps nothing else
 * that it is given. What a call writes is named `out`, `work`, or is a pointer to one value.
 */
#ifndef CHORVUGDAN_H
#define CHORVUGDAN_H

#include <stddef.h>
#include <stdint.h>

#ifdef __cplusplus
extern "C" {
#endif

/* Sizes. */
#define CV_PATTERN_MAX 255    /* bytes of a pattern text */
#define CV_NET_MAX 2148       /* bytes of the longest net file */
#define CV_WORK_MIN 65536     /* bytes of work memory that a build needs */
#define CV_TABLE_MAX 4817989  /* bytes of the longest card that has the right form */
#define CV_TABLE_ROOM 65536   /* bytes that the program `tagline` gives a card */
#define CV_LINE_MAX 32767     /* bytes of a line */
#define CV_TAGS 8             /* places that a run gives */
#define CV_REGISTERS_MAX 64   /* registers of a card */
#define CV_SITUATIONS_MAX 96  /* situations of a card */
#define CV_IMAGE_WORDS 257    /* words of an image for each situation of its card */
#define CV_IMAGE_MAX 24672    /* words that the image of any card fits in */
#define CV_NO_ANSWER 255      /* a run's answer unless CV_OK */
#define CV_ABSENT (-1)        /* a place that no tag stored */

/* What a call answers. */
enum cv_code {
    CV_OK = 0,
    CV_PATTERN_LONG = 1,  /* cv_pattern: more than 255 bytes */
    CV_PATTERN_FORM = 2,  /* cv_pattern: no legal pattern begins like this; `place` says where */
    CV_PATTERN_DEEP = 3,  /* cv_pattern: a 17th parenthesis open at once; `place` says where */
    CV_PATTERN_BIG = 4,   /* cv_pattern: more than 64 records */
    CV_NET_KIND = 5,      /* cv_build, cv_count: an item of a kind not allowed there */
    CV_NET_SHORT = 6,     /* cv_build, cv_count: the net ends too early */
    CV_NET_FIELD = 7,     /* cv_build, cv_count: a field out of range */
    CV_NET_EXTRA = 8,     /* cv_build, cv_count: bytes after the last record */
    CV_WORK_SMALL = 9,    /* cv_build: less than 65,536 bytes of work memory */
    CV_REGISTERS = 10,    /* cv_build: a situation needs more than 64 registers */
    CV_SITUATIONS = 11,   /* cv_build: more than 96 situations */
    CV_OUT_SMALL = 12,    /* cv_pattern, cv_build, cv_mount: the output is shorter than the whole result */
    CV_TABLE_FORM = 13,   /* cv_load, cv_run, cv_mount, cv_ride, cv_ride_two: not the form of a card, or of its image */
    CV_EMPTY_READ = 14,   /* cv_load, cv_run, cv_mount: some line would read an empty register */
    CV_LINE_LONG = 15,    /* cv_run, cv_ride, cv_ride_two: the line has more than 32,767 bytes */
    CV_NO_MATCH = 16,     /* cv_run, cv_ride, cv_ride_two: the line is not of the pattern */
    CV_FIELD_ABSENT = 17, /* cv_field_code, cv_reading_code: one of the two places is absent */
    CV_FIELD_BACK = 18,   /* cv_field_code, cv_reading_code: the part would end before it starts */
    CV_FIELD_PAST = 19,   /* cv_field_code, cv_reading_code: the part would end past the line */
    CV_NOT_BYTES = 20     /* cv_count: no such record, or neither RANGE nor MASK */
};

/*
 * Makes a pattern text into a net. CV_OK, or 1..4 or 12 in that order.
 * CV_OK: the net is the first *length bytes of out, the rest of out is as it was, *place is 0.
 * Refused: out is as it was, *length is 0; *place is the fault's for 2 and 3, else 0.
 */
uint8_t cv_pattern(const uint8_t *text, size_t text_len, uint8_t *out, size_t out_len,
                   size_t *place, size_t *length);

/*
 * Builds the card of a net. CV_OK, or 9, then 5..8, then 10 or 11, then 12.
 * CV_OK: the card is the first *length bytes of out, the rest of out is as it was.
 * Refused: out is as it was; *length, *situations and *registers are 0.
 * The work memory is all zero afterwards, refused or not.
 */
uint8_t cv_build(const uint8_t *net, size_t net_len, uint8_t *work, size_t work_len, uint8_t *out,
                 size_t out_len, size_t *length, size_t *situations, size_t *registers);

/*
 * How many of the 256 bytes record `index` of a net takes, 0 to 256, into *count.
 * CV_OK, or 5..8, then 20; refused, *count is 0.
 */
uint8_t cv_count(const uint8_t *net, size_t net_len, size_t index, uint32_t *count);

/* Judges any bytes: CV_OK for a card that no line can get stuck in, else 13 or 14. */
uint8_t cv_load(const uint8_t *table, size_t table_len);

/*
 * Runs a card over a line, judging the card first. CV_OK, or 13, 14, 15, 16 in that order.
 * CV_OK: *answer (0..254) and the eight places, each -1 or at most line_len.
 * Refused: *answer is 255 and all eight places are -1.
 */
uint8_t cv_run(const uint8_t *table, size_t table_len, const uint8_t *line, size_t line_len,
               uint8_t *answer, int16_t places[CV_TAGS]);

/*
 * Judges a card once and writes its image, 257 words a situation. CV_OK, or 13, 14, 12 in that order.
 * Refused: the image is as it was. Words past the image's own keep what they hold.
 */
uint8_t cv_mount(const uint8_t *table, size_t table_len, uint32_t *image, size_t image_len);

/*
 * Runs over a line by an image. With the image that cv_mount wrote for this card it answers as cv_run does, without
 * judging again. Any other bytes and words are safe too: what points outside is answered 13.
 */
uint8_t cv_ride(const uint8_t *table, size_t table_len, const uint32_t *image, size_t image_len,
                const uint8_t *line, size_t line_len, uint8_t *answer, int16_t places[CV_TAGS]);

/*
 * Runs over two lines by an image, in step. codes[0], answers[0] and first are what cv_ride gives of `line`; codes[1],
 * answers[1] and second what it gives of `other`. Neither line has a say in what is told of the other.
 */
void cv_ride_two(const uint8_t *table, size_t table_len, const uint32_t *image, size_t image_len,
                 const uint8_t *line, size_t line_len, const uint8_t *other, size_t other_len,
                 uint8_t codes[2], uint8_t answers[2], int16_t first[CV_TAGS], int16_t second[CV_TAGS]);

/*
 * The part of a line from one place to another: CV_OK, or 17 if a place is negative, 18 if
 * `from` is above `to`, 19 if `to` is above line_len.
 */
uint8_t cv_field_code(const uint8_t *line, size_t line_len, int16_t from, int16_t to);

/*
 * That part's length, 0 if refused. The part is copied to the front of out if it fits; else out
 * is as it was. Room for line_len bytes always fits.
 */
size_t cv_field(const uint8_t *line, size_t line_len, int16_t from, int16_t to, uint8_t *out,
                size_t out_len);

/* As cv_field_code, between the places of tags a and b; a tag above 7 counts as absent. */
uint8_t cv_reading_code(const uint8_t *line, size_t line_len, const int16_t places[CV_TAGS],
                        uint8_t a, uint8_t b);

/* As cv_field, between the places of tags a and b. */
size_t cv_reading(const uint8_t *line, size_t line_len, const int16_t places[CV_TAGS], uint8_t a,
                  uint8_t b, uint8_t *out, size_t out_len);

#ifdef __cplusplus
}
#endif

#endif
