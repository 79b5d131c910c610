/*
 * weigh CARD: loads a card and prints weight, unit and truck number of each line of standard input.
 * The card's pattern stores the truck number between tags 0 and 1, the weight between 2 and 3, the
 * unit between 4 and 5 (examples/feed.txt). No memory is allocated: what firmware has is enough.
 */
#include "chorvugdan.h"

#include <stdio.h>

static uint8_t card[CV_TABLE_ROOM];
static uint8_t line[CV_LINE_MAX + 1]; /* one more than a line may have: a longer one is seen as such */
static uint8_t part[CV_LINE_MAX];
static uint32_t image[CV_IMAGE_MAX]; /* of the card: judged once, not once a line */

/* The next line without its byte 10, cut at the buffer's end; 0 when there is none. */
static int next_line(FILE *feed, size_t *len) {
    int byte = getc(feed);
    if (byte == EOF) return 0;
    for (*len = 0; byte != EOF && byte != '\n'; byte = getc(feed)) {
        if (*len < sizeof line) line[(*len)++] = (uint8_t)byte;
    }
    return 1;
}

/* Prints the part of the line between two tags. */
static void print_part(const char *name, size_t len, const int16_t places[CV_TAGS], uint8_t a, uint8_t b) {
    size_t n = cv_reading(line, len, places, a, b, part, sizeof part);
    printf("%s %.*s", name, (int)n, (const char *)part);
}

int main(int argc, char **argv) {
    if (argc != 2) {
        fprintf(stderr, "usage: weigh CARD < FEED\n");
        return 2;
    }
    FILE *file = fopen(argv[1], "rb");
    if (file == NULL) {
        perror(argv[1]);
        return 2;
    }
    size_t card_len = fread(card, 1, sizeof card, file);
    int whole = getc(file) == EOF;
    fclose(file);
    if (!whole) {
        fprintf(stderr, "%s: longer than %d bytes\n", argv[1], CV_TABLE_ROOM);
        return 1;
    }
    uint8_t code = cv_mount(card, card_len, image, CV_IMAGE_MAX);
    if (code != CV_OK) {
        fprintf(stderr, "%s: not a card (%d)\n", argv[1], code);
        return 1;
    }
    for (size_t len; next_line(stdin, &len);) {
        uint8_t answer;
        int16_t places[CV_TAGS];
        code = cv_ride(card, card_len, image, CV_IMAGE_MAX, line, len, &answer, places);
        if (code != CV_OK) {
            printf("no reading (%d)\n", code);
            continue;
        }
        print_part("weight", len, places, 2, 3);
        print_part(" unit", len, places, 4, 5);
        print_part(" truck", len, places, 0, 1);
        printf("\n");
    }
    return 0;
}
