/* card: makes the pattern on standard input (its first line) into a card on standard output. */
#include "chorvugdan.h"

#include <stdio.h>

static uint8_t net[CV_NET_MAX];
static uint8_t work[CV_WORK_MIN];
static uint8_t card[CV_TABLE_ROOM];

int main(void) {
    uint8_t text[CV_PATTERN_MAX + 1]; /* one more than a pattern may have: a longer one is refused */
    size_t text_len = 0, place, net_len, card_len, situations, registers;
    for (int byte = getchar(); byte != EOF && byte != '\n'; byte = getchar()) {
        if (text_len < sizeof text) text[text_len++] = (uint8_t)byte;
    }
    uint8_t code = cv_pattern(text, text_len, net, sizeof net, &place, &net_len);
    if (code != CV_OK) {
        fprintf(stderr, "pattern refused (%d) at %zu\n", code, place);
        return 1;
    }
    code = cv_build(net, net_len, work, sizeof work, card, sizeof card, &card_len, &situations, &registers);
    if (code != CV_OK) {
        fprintf(stderr, "build refused (%d)\n", code);
        return 1;
    }
    fprintf(stderr, "card of %zu bytes, %zu situations, %zu registers\n", card_len, situations, registers);
    return fwrite(card, 1, card_len, stdout) == card_len ? 0 : 1;
}
