/* unit_mark through the C boundary: the marks of 01's "Proved table", the cap flags of 02, 2026-01, and the edges of kind,
   lengths and lines. Each expected mark is worked out from the paper. A failed check prints a line. */
#include "unit_mark.h"

#include <stdio.h>
#include <string.h>

enum { OFF = 0, BLANK = 1, CLEAR = 2, DOUBT = 3, SMALL = 4, LARGE = 5, REFUSED = 6 };
enum { GENERATING = 1, LOAD = 2, BIDIRECTIONAL = 3, SEMI_SCHEDULED = 4 };
enum { LENGTH = 40 };

struct line {
    uint8_t quality;
    uint8_t mode;
    uint8_t cap; /* byte 2 */
    uint8_t spare; /* byte 3 */
    int32_t target;
    uint32_t availability;
    uint32_t raise;
    uint32_t lower;
    uint32_t bid_up;
    uint32_t bid_down;
    uint32_t power; /* the three readings as bits */
    uint32_t ramp_up;
    uint32_t ramp_down;
};

/* Floats as bits. */
static const uint32_t mw_3 = 0x40400000;
static const uint32_t mw_5 = 0x40A00000;
static const uint32_t mw_100 = 0x42C80000;
static const uint32_t mw_111 = 0x42DE0000;
static const uint32_t mw_111_001 = 0x42DE0083;
static const uint32_t mw_89 = 0x42B20000;
static const uint32_t mw_88_999 = 0x42B1FF7D;
static const uint32_t mw_110 = 0x42DC0000;
static const uint32_t mw_110_001 = 0x42DC0083;
static const uint32_t mw_120 = 0x42F00000;
static const uint32_t mw_120_001 = 0x42F00083;
static const uint32_t mw_90 = 0x42B40000;
static const uint32_t mw_89_999 = 0x42B3FF7D;
static const uint32_t mw_80 = 0x42A00000;
static const uint32_t mw_79_999 = 0x429FFF7D;
static const uint32_t mw_minus_100 = 0xC2C80000;
static const uint32_t not_a_number = 0x7FC00000;

static int passed;
static int failed;

static void put_word(uint8_t *bytes, uint32_t word)
{
    for (int i = 0; i < 4; i++) {
        bytes[i] = (uint8_t)(word >> (8 * i));
    }
}

static void pack(const struct line *l, uint8_t bytes[LENGTH])
{
    bytes[0] = l->quality;
    bytes[1] = l->mode;
    bytes[2] = l->cap;
    bytes[3] = l->spare;
    put_word(bytes + 4, (uint32_t)l->target);
    put_word(bytes + 8, l->availability);
    put_word(bytes + 12, l->raise);
    put_word(bytes + 16, l->lower);
    put_word(bytes + 20, l->bid_up);
    put_word(bytes + 24, l->bid_down);
    put_word(bytes + 28, l->power);
    put_word(bytes + 32, l->ramp_up);
    put_word(bytes + 36, l->ramp_down);
}

/* On a target of 100,000, MWO 100,000 and all rates 3 MW per minute: both triggers are 600,000. */
static struct line plain(void)
{
    struct line l = {
        .target = 100000,
        .availability = 100000,
        .bid_up = 3000,
        .bid_down = 3000,
        .power = mw_100,
        .ramp_up = mw_3,
        .ramp_down = mw_3,
    };
    return l;
}

/* MWO 500,000 and all rates 5 MW per minute: the triggers are 1,000,000 and 2,000,000, so 10,000 and 20,000 kW. */
static struct line apart(uint32_t power)
{
    struct line l = plain();
    l.availability = 500000;
    l.bid_up = 5000;
    l.bid_down = 5000;
    l.ramp_up = mw_5;
    l.ramp_down = mw_5;
    l.power = power;
    return l;
}

static void check(const char *words, uint32_t expected, uint32_t found)
{
    if (found == expected) {
        passed++;
    } else {
        failed++;
        printf("%s: expected %lu, found %lu\n", words, (unsigned long)expected, (unsigned long)found);
    }
}

static void lines(const char *words, uint32_t expected, uint32_t kind, struct line earlier, struct line later)
{
    uint8_t first[LENGTH], second[LENGTH], first_before[LENGTH], second_before[LENGTH];
    pack(&earlier, first);
    pack(&later, second);
    memcpy(first_before, first, LENGTH);
    memcpy(second_before, second, LENGTH);
    check(words, expected, unit_mark(kind, first, LENGTH, second, LENGTH));
    check("lines stay as they were", 0, memcmp(first, first_before, LENGTH) != 0 || memcmp(second, second_before, LENGTH) != 0);
}

/* Kept MWB 100,000 and FCR 5,000, FCL 0. */
static void table(void)
{
    struct line kept = plain(), now = plain();
    kept.raise = 5000;
    now.power = mw_111; /* 111,000 - (100,000 + 5,000) = 6,000 */
    lines("kind 1, MW 111,000", CLEAR, GENERATING, kept, now);
    now.power = mw_111_001;
    lines("kind 1, MW 111,001", LARGE, GENERATING, kept, now);
    now.power = mw_89; /* a load: (100,000 - 5,000) - 89,000 = 6,000 */
    lines("load, MW 89,000", CLEAR, LOAD, kept, now);
    now.power = mw_88_999;
    lines("load, MW 88,999", LARGE, LOAD, kept, now);
}

static void marks(void)
{
    struct line kept = plain(), now = plain();
    lines("on target", CLEAR, GENERATING, kept, now);
    lines("a bidirectional unit on target", CLEAR, BIDIRECTIONAL, kept, now);
    lines("at the small trigger", CLEAR, GENERATING, kept, apart(mw_110));
    lines("past the small trigger", SMALL, GENERATING, kept, apart(mw_110_001));
    lines("at the large trigger", SMALL, GENERATING, kept, apart(mw_120));
    lines("past the large trigger", LARGE, GENERATING, kept, apart(mw_120_001));

    /* the kept target and this one: 111,000 against 100,000 */
    now.power = mw_111;
    now.target = 111000;
    lines("this target is not compared with", LARGE, GENERATING, kept, now);

    /* a target below zero is readable for kind 3 alone */
    now.power = mw_minus_100;
    now.target = -100000;
    kept.target = -100000;
    lines("a bidirectional unit below zero", CLEAR, BIDIRECTIONAL, kept, now);
    lines("a generating unit with a target below zero", BLANK, GENERATING, kept, now);
    lines("a load with a target below zero", BLANK, LOAD, kept, now);
}

static void readings(void)
{
    struct line kept = plain(), now = plain();
    now.power = mw_111_001; /* past both triggers */
    lines("good", LARGE, GENERATING, kept, now);
    now.quality = 1;
    lines("substituted past the triggers", DOUBT, GENERATING, kept, now);
    now.power = mw_100;
    lines("substituted on target", CLEAR, GENERATING, kept, now);
    now.quality = 2;
    lines("bad quality", BLANK, GENERATING, kept, now);
    now.power = not_a_number;
    lines("bad quality, not a number", BLANK, GENERATING, kept, now);

    now = plain();
    now.power = mw_111_001;
    kept.quality = 2;
    kept.power = not_a_number;
    lines("a first line of bad quality is kept", LARGE, GENERATING, kept, now);
    kept.quality = 1;
    lines("a first line that is unreadable", BLANK, GENERATING, kept, now);
    kept = plain();
    kept.mode = 1;
    lines("a first line with mode 1", BLANK, GENERATING, kept, now);
    kept.mode = 0;
    now.mode = 1;
    lines("mode 1", BLANK, GENERATING, kept, now);
    now.mode = 2;
    lines("mode 2", BLANK, GENERATING, kept, now);
    now.mode = 0;
    now.quality = 3;
    lines("quality 3", BLANK, GENERATING, kept, now);
    now.quality = 0;
    now.power = not_a_number;
    lines("not a number", BLANK, GENERATING, kept, now);
}

static struct line with_quality(struct line l, uint8_t quality)
{
    l.quality = quality;
    return l;
}

static struct line with_cap(struct line l, uint8_t cap)
{
    l.cap = cap;
    return l;
}

/* A semi-scheduled unit, kept MWB 100,000. The first line's flag counts; the second's, `now`, does not, if it is 0 or 1. */
static void cap_flags(void)
{
    static const uint8_t others[] = {2, 3, 128, 254, 255};
    struct line free_of = with_cap(plain(), 0), capped = with_cap(plain(), 1), kept, l;
    for (uint8_t now = 0; now <= 1; now++) {
        struct line high = with_cap(apart(mw_120_001), now), low = with_cap(apart(mw_79_999), now);

        /* only an error above the target counts */
        lines("capped, on target", CLEAR, SEMI_SCHEDULED, capped, with_cap(plain(), now));
        lines("capped, at the small trigger", CLEAR, SEMI_SCHEDULED, capped, with_cap(apart(mw_110), now));
        lines("capped, past the small trigger", SMALL, SEMI_SCHEDULED, capped, with_cap(apart(mw_110_001), now));
        lines("capped, at the large trigger", SMALL, SEMI_SCHEDULED, capped, with_cap(apart(mw_120), now));
        lines("capped, past the large trigger", LARGE, SEMI_SCHEDULED, capped, high);
        lines("capped, below at the small trigger", CLEAR, SEMI_SCHEDULED, capped, with_cap(apart(mw_90), now));
        lines("capped, below past the small trigger", CLEAR, SEMI_SCHEDULED, capped, with_cap(apart(mw_89_999), now));
        lines("capped, below at the large trigger", CLEAR, SEMI_SCHEDULED, capped, with_cap(apart(mw_80), now));
        lines("capped, below past the large trigger", CLEAR, SEMI_SCHEDULED, capped, low);
        lines("capped, far below", CLEAR, SEMI_SCHEDULED, capped, with_cap(apart(mw_minus_100), now));

        /* substituted and bad */
        l = with_cap(with_quality(apart(mw_110), 1), now);
        lines("capped, substituted at the small trigger", CLEAR, SEMI_SCHEDULED, capped, l);
        l.power = mw_110_001;
        lines("capped, substituted past the small trigger", DOUBT, SEMI_SCHEDULED, capped, l);
        lines("capped, substituted past the large trigger", DOUBT, SEMI_SCHEDULED, capped, with_quality(high, 1));
        l.power = mw_89_999;
        lines("capped, substituted below past the small trigger", CLEAR, SEMI_SCHEDULED, capped, l);
        lines("capped, substituted below past the large trigger", CLEAR, SEMI_SCHEDULED, capped, with_quality(low, 1));
        lines("capped, bad above", BLANK, SEMI_SCHEDULED, capped, with_quality(high, 2));
        lines("capped, bad below", BLANK, SEMI_SCHEDULED, capped, with_quality(low, 2));

        /* a kept flag of 0 comes after quality 2 and before the error */
        lines("free, on target", OFF, SEMI_SCHEDULED, free_of, with_cap(plain(), now));
        lines("free, above", OFF, SEMI_SCHEDULED, free_of, high);
        lines("free, below", OFF, SEMI_SCHEDULED, free_of, low);
        lines("free, substituted above", OFF, SEMI_SCHEDULED, free_of, with_quality(high, 1));
        lines("free, substituted below", OFF, SEMI_SCHEDULED, free_of, with_quality(low, 1));
        lines("free, bad", BLANK, SEMI_SCHEDULED, free_of, with_quality(high, 2));

        /* a flag of 0 or 1 in a line that is unreadable for another reason */
        for (uint8_t was = 0; was <= 1; was++) {
            kept = with_cap(plain(), was);
            l = high;
            l.power = not_a_number;
            lines("kind 4, not a number", BLANK, SEMI_SCHEDULED, kept, l);
            l = high;
            l.mode = 1;
            lines("kind 4, mode 1", BLANK, SEMI_SCHEDULED, kept, l);
            l = high;
            l.target = -1;
            lines("kind 4, target -1", BLANK, SEMI_SCHEDULED, kept, l);
            l = high;
            l.spare = 1;
            lines("kind 4, byte 3", BLANK, SEMI_SCHEDULED, kept, l);
            kept.power = not_a_number;
            lines("kind 4, a first line that is not a number", BLANK, SEMI_SCHEDULED, kept, high);
            kept = with_cap(plain(), was);
            kept.mode = 1;
            lines("kind 4, a first line with mode 1", BLANK, SEMI_SCHEDULED, kept, high);
            kept = with_cap(plain(), was);
            kept.target = -1;
            lines("kind 4, a first line with target -1", BLANK, SEMI_SCHEDULED, kept, high);
            kept = with_cap(plain(), was);
            kept.spare = 1;
            lines("kind 4, byte 3 of a first line", BLANK, SEMI_SCHEDULED, kept, high);
        }

        /* any other flag is unreadable */
        for (size_t i = 0; i < sizeof others / sizeof others[0]; i++) {
            lines("another flag in the first line", BLANK, SEMI_SCHEDULED, with_cap(plain(), others[i]), high);
            lines("another flag in the first line, below", BLANK, SEMI_SCHEDULED, with_cap(plain(), others[i]), low);
        }
    }
    for (size_t i = 0; i < sizeof others / sizeof others[0]; i++) {
        l = with_cap(apart(mw_120_001), others[i]);
        lines("another flag in the second line, capped", BLANK, SEMI_SCHEDULED, capped, l);
        lines("another flag in the second line, free", BLANK, SEMI_SCHEDULED, free_of, l);
        lines("another flag in the second line, capped and bad", BLANK, SEMI_SCHEDULED, capped, with_quality(l, 2));
        lines("another flag in both lines", BLANK, SEMI_SCHEDULED, l, l);
    }

    /* a first line of bad quality is kept with its flag */
    kept = with_quality(plain(), 2);
    kept.power = not_a_number;
    lines("free, a first line of bad quality", OFF, SEMI_SCHEDULED, with_cap(kept, 0), apart(mw_120_001));
    lines("capped, a first line of bad quality", LARGE, SEMI_SCHEDULED, with_cap(kept, 1), apart(mw_120_001));
    lines("another flag in a first line of bad quality", BLANK, SEMI_SCHEDULED, with_cap(kept, 2), apart(mw_120_001));

    /* up is FCR: 111,000 - (100,000 + 5,000) = 6,000, at both of `plain`'s triggers; with FCL it would be 11,000 */
    kept = capped;
    kept.raise = 5000;
    l = plain();
    l.power = mw_111;
    lines("capped with FCR, MW 111,000", CLEAR, SEMI_SCHEDULED, kept, l);
    l.power = mw_111_001;
    lines("capped with FCR, MW 111,001", LARGE, SEMI_SCHEDULED, kept, l);
    kept.raise = 0;
    kept.lower = 5000;
    l.power = mw_111;
    lines("capped with FCL, MW 111,000", LARGE, SEMI_SCHEDULED, kept, l);

    /* for the other kinds byte 2 is a spare */
    for (uint32_t kind = GENERATING; kind <= BIDIRECTIONAL; kind++) {
        lines("byte 2 of the first line", BLANK, kind, capped, plain());
        lines("byte 2 of the second line", BLANK, kind, plain(), capped);
        lines("no flag, no OFF", LARGE, kind, plain(), apart(mw_120_001));
    }
}

static void edges(void)
{
    static const uint32_t kinds[] = {0, 5, 6, 255, 256, 257, 258, 259, 260, 65537, 65540, 2147483649, 2147483652, 4294967295};
    static const size_t lengths[] = {0, 1, 39, 41, 80};
    struct line l = plain();
    uint8_t first[2 * LENGTH] = {0}, second[2 * LENGTH] = {0};
    pack(&l, first);
    pack(&l, second);
    for (size_t i = 0; i < sizeof kinds / sizeof kinds[0]; i++) {
        check("unknown kind", REFUSED, unit_mark(kinds[i], first, LENGTH, second, LENGTH));
    }
    for (size_t i = 0; i < sizeof lengths / sizeof lengths[0]; i++) {
        check("length of the first line", REFUSED, unit_mark(GENERATING, first, lengths[i], second, LENGTH));
        check("length of the second line", REFUSED, unit_mark(GENERATING, first, LENGTH, second, lengths[i]));
        check("length of both lines", REFUSED, unit_mark(GENERATING, first, lengths[i], second, lengths[i]));
        check("length of the first line, kind 4", REFUSED, unit_mark(SEMI_SCHEDULED, first, lengths[i], second, LENGTH));
        check("length of the second line, kind 4", REFUSED, unit_mark(SEMI_SCHEDULED, first, LENGTH, second, lengths[i]));
    }
    check("no first line", REFUSED, unit_mark(GENERATING, NULL, 0, second, LENGTH));
    check("no second line", REFUSED, unit_mark(GENERATING, first, LENGTH, NULL, 0));
    check("no line", REFUSED, unit_mark(GENERATING, NULL, 0, NULL, 0));
    check("unknown kind and no line", REFUSED, unit_mark(0, NULL, 0, NULL, 0));
    check("no line, kind 4", REFUSED, unit_mark(SEMI_SCHEDULED, NULL, 0, NULL, 0));
    check("one line given as both", CLEAR, unit_mark(GENERATING, first, LENGTH, first, LENGTH));
    check("one line given as both, kind 4 and flag 0", OFF, unit_mark(SEMI_SCHEDULED, first, LENGTH, first, LENGTH));
    l.cap = 1;
    pack(&l, second);
    check("one line given as both, kind 4 and flag 1", CLEAR, unit_mark(SEMI_SCHEDULED, second, LENGTH, second, LENGTH));

    /* 6 goes before what the lines say */
    memset(first, 0xFF, LENGTH);
    memset(second, 0xFF, LENGTH);
    check("unreadable lines", BLANK, unit_mark(GENERATING, first, LENGTH, second, LENGTH));
    check("unreadable lines of kind 4", BLANK, unit_mark(SEMI_SCHEDULED, first, LENGTH, second, LENGTH));
    check("unreadable lines of an unknown kind", REFUSED, unit_mark(5, first, LENGTH, second, LENGTH));
    check("unreadable lines of another length", REFUSED, unit_mark(GENERATING, first, LENGTH, second, 2 * LENGTH));
}

int main(void)
{
    table();
    marks();
    readings();
    cap_flags();
    edges();
    printf("unit_mark: %d checks passed, %d failed\n", passed, failed);
    return failed != 0;
}
