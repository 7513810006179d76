/* A ride north, round, and home over its own breadcrumb: every 20 s the way home and the arrow. */
#include "cittumay.h"
#include <stdio.h>

enum { CRUMBS = 3 * 512, LINE = 3 };

int main(void) {
    static uint64_t words[CITTUMAY_WORDS];
    static float numbers[CITTUMAY_NUMBERS], crumbs[CRUMBS], line[LINE];
    uint32_t guide[CITTUMAY_GUIDE];
    uint8_t event = 0, shown = 0;
    uint16_t arrow = 0;
    if (cittumay_new(words, CITTUMAY_WORDS, numbers, CITTUMAY_NUMBERS, crumbs, CRUMBS) != 0) return 1;
    for (int s = 0; s <= 200; s++) { /* 10 m a second: 1 km out, and back */
        int32_t lat = 900 * (s < 100 ? s : 200 - s);
        if (cittumay_observe(words, CITTUMAY_WORDS, numbers, CITTUMAY_NUMBERS, crumbs, CRUMBS, line, LINE, lat, 0,
                             1000 * (uint64_t)s, &event) != 0 ||
            cittumay_guide(words, CITTUMAY_WORDS, numbers, CITTUMAY_NUMBERS, &shown, guide, CITTUMAY_GUIDE) != 0)
            return 1;
        if (event == CITTUMAY_FOLLOWING) printf("%d s: following home\n", s);
        if (event == CITTUMAY_ARRIVED) printf("%d s: home\n", s);
        if (s % 20 == 0 && shown && cittumay_arrow(guide, CITTUMAY_GUIDE, &arrow) == 0)
            printf("%d s: %u m home, arrow %u\n", s, (unsigned)guide[CITTUMAY_GUIDE_TRACK_M], (unsigned)arrow);
    }
    return 0;
}
