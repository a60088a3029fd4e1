/* Judges the practice table through libpamuklid.a: judge IMAGE prints one answer to a line.
 * It is C11 and C++17 at once. */
#include <inttypes.h>
#include <stdio.h>
#include <string.h>

#include "pamuklid.h"

#define POWER_UNKNOWN (-1.0)

/* A byte more than the longest image. */
static uint8_t image[PAMUKLID_IMAGE_MOST + 1];
static size_t image_len;

/* Every part of the record is set. */
static pamuklid_station station_at(double dial, uint8_t control, double power)
{
    pamuklid_station s = pamuklid_fresh();
    s.policy = PAMUKLID_POLICY_RULES;
    s.control = control;
    s.license = PAMUKLID_LICENSE_GENERAL;
    s.sideband = PAMUKLID_SIDEBAND_UPPER;
    s.itu_region = 2;
    s.margin_lower_hz = 50;
    s.margin_upper_hz = 50;
    s.band_plan = 0;
    s.dial_hz = dial;
    s.dial_known = 1;
    s.power_w = power;
    s.power_known = power >= 0;
    return s;
}

/* The same edges under both readings. */
static pamuklid_edges both(double low, double high)
{
    pamuklid_edges e = {low, high, low, high};
    return e;
}

static const char *verdict_text(uint8_t verdict)
{
    switch (verdict) {
    case PAMUKLID_LEGAL:
        return "legal";
    case PAMUKLID_WARNING:
        return "warning";
    default:
        return "blocked";
    }
}

static const char *edge_text(uint8_t edge)
{
    return edge == PAMUKLID_EDGE_UPPER ? "upper" : "lower";
}

static void print_decision(const pamuklid_decision *d)
{
    if (d->refusal != PAMUKLID_ACCEPTED) {
        printf("refusal %d\n", d->refusal);
        return;
    }
    printf("%s, code %d", verdict_text(d->verdict), d->code);
    if (d->overshoot == PAMUKLID_OVERSHOOT_BEYOND)
        printf(", beyond the %s edge by %.12g Hz", edge_text(d->edge), d->beyond_hz);
    if (d->overshoot == PAMUKLID_OVERSHOOT_TOO_CLOSE)
        printf(", too close to the %s edge", edge_text(d->edge));
    printf("\n");
}

/* Where to move the dial, where data is blocked. */
static void print_nearest(pamuklid_station s, uint8_t direction, pamuklid_edges e, size_t n)
{
    pamuklid_nearest t = pamuklid_nearest_dial(s, direction, e, image, n);
    switch (t.answer) {
    case PAMUKLID_NEAREST_DIAL:
        printf("  move the dial to %.12g\n", t.dial_hz);
        break;
    case PAMUKLID_NEAREST_NONE:
        printf("  no dial outside the channel band allows it\n");
        break;
    case PAMUKLID_NEAREST_NOT_JUDGED:
        printf("  where to move the dial: not judged\n");
        break;
    default:
        printf("  where to move the dial: refusal %d\n", t.refusal);
        break;
    }
}

/* The check, the tidy question, and where the table is wrong. */
static void print_image(const char *title, const uint8_t *bytes, size_t n)
{
    pamuklid_tidiness t = pamuklid_tidy(bytes, n);
    pamuklid_fault f = pamuklid_fault_of(bytes, n);
    printf("%s: refusal %d, tidy %d", title, pamuklid_check(bytes, n), t.tidy);
    if (t.refusal != f.refusal)
        printf(", tidy's refusal %d, fault's %d", t.refusal, f.refusal);
    if (f.place == PAMUKLID_PLACE_GENERAL)
        printf(", in the general block");
    if (f.place == PAMUKLID_PLACE_RECORD)
        printf(", in record %d of table %d", f.record, f.table);
    printf("\n");
}

/* A place of the image, and the bytes that are put there. */
struct spoilt {
    const char *title;
    size_t at, len;
    uint8_t bytes[8];
};

/* Where the practice table's records begin, see tools/reference/practice.txt. */
enum { BAND_60 = 96, SEGMENT_20 = 128, SEGMENT_60 = 160, PRIVILEGE_60 = 256, TRAILER = 352 };

static const struct spoilt spoilt[] = {
    {"other letters", TRAILER + 24, 1, {'F'}},
    {"reading 3", 41, 1, {3}},
    {"class 5 in the second privilege", PRIVILEGE_60 + 25, 1, {5}},
    {"infinity as the second band's low end", BAND_60, 8, {0, 0, 0, 0, 0, 0, 0xf0, 0x7f}},
    {"second segment from 8000000 Hz", SEGMENT_60, 8, {0, 0, 0, 0, 0x80, 0x84, 0x5e, 0x41}},
    {"second segment up to 8000000 Hz", SEGMENT_60 + 8, 8, {0, 0, 0, 0, 0x80, 0x84, 0x5e, 0x41}},
    {"second segment with an own limit of 0", SEGMENT_60 + 27, 1, {1}},
    {"general limit 0", 0, 8, {0, 0, 0, 0, 0, 0, 0, 0}},
    {"second band up to 16000000 Hz", BAND_60 + 8, 8, {0, 0, 0, 0, 0x80, 0x84, 0x6e, 0x41}},
};

static void images(void)
{
    static uint8_t copy[sizeof image];
    print_image("image", image, image_len);
    print_image("no bytes", image, 0);
    for (size_t i = 0; i < sizeof spoilt / sizeof spoilt[0]; i++) {
        const struct spoilt *t = &spoilt[i];
        if (t->at + t->len > image_len)
            continue;
        memcpy(copy, image, image_len);
        memcpy(copy + t->at, t->bytes, t->len);
        print_image(t->title, copy, image_len);
    }
}

/* Rows are little-endian whatever the machine is. */
static double row_figure(const uint8_t *at)
{
    uint64_t bits = 0;
    double x;
    for (int i = 7; i >= 0; i--)
        bits = bits << 8 | at[i];
    memcpy(&x, &bits, sizeof x);
    return x;
}

static int row_index(const uint8_t *at)
{
    return at[0] | at[1] << 8;
}

static void print_row(const uint8_t *row)
{
    double low = row_figure(row + PAMUKLID_REPORT_ROW_LOW);
    double high = row_figure(row + PAMUKLID_REPORT_ROW_HIGH);
    int first = row_index(row + PAMUKLID_REPORT_ROW_FIRST);
    int second = row_index(row + PAMUKLID_REPORT_ROW_SECOND);
    const char *records = "privileges";
    switch (row[PAMUKLID_REPORT_ROW_KIND]) {
    case PAMUKLID_REPORT_GAP:
        printf("  no privilege for %.12g to %.12g of segment %d\n", low, high, first);
        return;
    case PAMUKLID_REPORT_BANDS:
        records = "bands";
        break;
    case PAMUKLID_REPORT_SEGMENTS:
        records = "segments";
        break;
    default:
        break;
    }
    printf("  %s %d and %d share %.12g to %.12g\n", records, first, second, low, high);
}

/* A table's slips. */
static void report(const char *title, const uint8_t *bytes, size_t n, uint8_t license, size_t row_count)
{
    static uint8_t rows[16 * PAMUKLID_REPORT_ROW];
    pamuklid_report r = pamuklid_report_of(bytes, n, license, rows, row_count * PAMUKLID_REPORT_ROW);
    printf("%s, report for class %d with room for %zu: ", title, license, row_count);
    if (r.refusal != PAMUKLID_ACCEPTED) {
        printf("refusal %d\n", r.refusal);
        return;
    }
    printf("count %" PRIu32 "\n", r.count);
    for (size_t i = 0; i < r.count; i++)
        print_row(rows + PAMUKLID_REPORT_ROW * i);
}

static void reports(void)
{
    static uint8_t copy[sizeof image];
    static const uint8_t high[] = {0, 0, 0, 0, 0x80, 0x84, 0x6e, 0x41}; /* 16000000 Hz */
    report("image", image, image_len, PAMUKLID_LICENSE_GENERAL, 16);
    report("image", image, image_len, PAMUKLID_LICENSE_EXTRA, 16);
    report("image", image, image_len, PAMUKLID_LICENSE_EXTRA, 1);
    report("image", image, image_len, PAMUKLID_LICENSE_EXTRA + 1, 16);
    report("no bytes", image, 0, PAMUKLID_LICENSE_EXTRA, 16);
    if (image_len < BAND_60 + 16)
        return;
    memcpy(copy, image, image_len);
    memcpy(copy + BAND_60 + 8, high, sizeof high);
    report("second band up to 16000000 Hz", copy, image_len, PAMUKLID_LICENSE_GENERAL, 16);
}

/* The practice table as it would be typed in, a record to a line. Which table uses what: docs/IMAGE.md. */
static const double figures[] = {
    14000000, 14350000, 0, /* bands: low, high */
    5330000,  5407000,  0,
    14000000, 14150000, 0, /* data segments: low, high, and here no limit of their own */
    5351500,  5366500,  0,
    5332000,  0,        0, /* channel: its centre */
    14025000, 14150000, 0, /* privileges: low, high */
    5330000,  5407000,  0,
    14095000, 14099500, 0, /* automatic segments: low, high */
    14100500, 14112000, 0,
};
static const uint8_t codes[] = {
    20, 0, 0, 0, /* bands: their numbers */
    60, 0, 0, 0,
    20, 0, 0, 0, /* data segments: those of their bands */
    60, 0, 0, 0,
    0,  0, 0, 0, /* channel */
    0,  PAMUKLID_LICENSE_GENERAL, 0, 0, /* privileges: the class; every emission */
    0,  PAMUKLID_LICENSE_GENERAL, 0, 0,
    0,  0, 0, 0, /* automatic segments */
    0,  0, 0, 0,
};
static const uint16_t rules[] = {
    0,  0, /* bands */
    0,  0,
    13, 0, /* data segments: their rules, of the trustee's own list */
    14, 0,
    0,  0, /* channel */
    0,  0, /* privileges */
    0,  0,
    0,  0, /* automatic segments */
    0,  0,
};

static pamuklid_fields practice_fields(void)
{
    pamuklid_fields f;
    memset(&f, 0, sizeof f);
    f.edition = 1;
    f.data_limit = 2800;
    f.region = 2;
    f.reading = PAMUKLID_READING_WIDER;
    f.flags = PAMUKLID_PART_ELSEWHERE | PAMUKLID_PART_RESPONSE | PAMUKLID_PART_CHANNELS |
              PAMUKLID_PART_EMISSIONS;
    f.elsewhere_limit = 500;
    f.channel_band = 60;
    f.channel_width = 2800;
    f.carrier_offset = 1500;
    f.carrier_tolerance = 50;
    f.sideband = PAMUKLID_SIDEBAND_UPPER;
    f.emissions = PAMUKLID_EMISSION_DATA | PAMUKLID_EMISSION_CW;
    f.data_rule = 7;
    f.elsewhere_rule = 8;
    f.automatic_rule = 9;
    f.channels_rule = 10;
    f.emissions_rule = 11;
    f.privileges_rule = 12;
    f.counts[PAMUKLID_TABLE_BANDS] = 2;
    f.counts[PAMUKLID_TABLE_SEGMENTS] = 2;
    f.counts[PAMUKLID_TABLE_CHANNELS] = 1;
    f.counts[PAMUKLID_TABLE_PRIVILEGES] = 2;
    f.counts[PAMUKLID_TABLE_AUTOMATIC] = 2;
    return f;
}

static pamuklid_image written(pamuklid_fields f, uint8_t *out, size_t room)
{
    return pamuklid_write(f, figures, sizeof figures / sizeof figures[0], codes, sizeof codes, rules,
                          sizeof rules / sizeof rules[0], out, room);
}

/* An image that was written, raised or lowered, and whether it is the practice image. */
static void print_made(const char *title, size_t room, pamuklid_image made, const uint8_t *bytes)
{
    printf("%s with room for %zu: ", title, room);
    if (made.refusal != PAMUKLID_ACCEPTED) {
        printf("refusal %d\n", made.refusal);
        return;
    }
    printf("%" PRIu32 " bytes%s\n", made.length,
           made.length == image_len && memcmp(bytes, image, image_len) == 0 ? ", the image's" : "");
}

/* Data on the channel of 60 m. */
static void channel(const char *title, double power, const uint8_t *bytes, size_t n)
{
    pamuklid_decision d = pamuklid_evaluate(station_at(5330550, PAMUKLID_CONTROL_LOCAL, power),
                                            PAMUKLID_KIND_DATA, PAMUKLID_DIRECTION_ORIGINATE,
                                            both(1250, 1750), bytes, n);
    printf("%s, data at %.12g W, dial 5330550: ", title, power);
    print_decision(&d);
}

/* The practice table written in edition 1, raised to edition 2 and lowered again; then in edition 2 with other
 * watts, which edition 1 cannot hold. */
static void editions(void)
{
    static uint8_t first[PAMUKLID_IMAGE_MOST], second[PAMUKLID_IMAGE_MOST], lowered[PAMUKLID_IMAGE_MOST];
    pamuklid_fields f = practice_fields();
    print_made("edition 1 written", 379, written(f, first, 379), first);
    pamuklid_image one = written(f, first, sizeof first);
    print_made("edition 1 written", sizeof first, one, first);
    pamuklid_image two = pamuklid_raise(first, one.length, second, sizeof second);
    print_made("edition 1 raised", sizeof second, two, second);
    channel("edition 1", 100.125, first, one.length);
    channel("edition 2", 100.125, second, two.length);
    print_made("edition 2 raised", sizeof lowered,
               pamuklid_raise(second, two.length, lowered, sizeof lowered), lowered);
    print_made("edition 2 lowered", sizeof lowered,
               pamuklid_lower(second, two.length, lowered, sizeof lowered), lowered);
    f.edition = 2;
    f.channel_watts = 50;
    f.segment_watts = 9.15;
    two = written(f, second, sizeof second);
    print_made("edition 2 of 50 and 9.15 W written", sizeof second, two, second);
    channel("edition 2 of 50 and 9.15 W", 100, second, two.length);
    print_made("edition 2 of 50 and 9.15 W lowered", sizeof lowered,
               pamuklid_lower(second, two.length, lowered, sizeof lowered), lowered);
}

/* Little-endian, in so many bytes. */
static void put(uint8_t *at, uint64_t number, size_t bytes)
{
    for (size_t i = 0; i < bytes; i++)
        at[i] = number >> 8 * i & 0xff;
}

/* The first data segment with another upper end, from a day on. */
static void amendment(uint8_t *at, uint32_t day, double high)
{
    uint8_t *record = at + PAMUKLID_AMENDMENT_RECORD;
    uint64_t bits;
    put(at + PAMUKLID_AMENDMENT_TABLE, PAMUKLID_TABLE_SEGMENTS, 2);
    put(at + PAMUKLID_AMENDMENT_INDEX, 0, 2);
    put(at + PAMUKLID_AMENDMENT_DAY, day, 4);
    memcpy(record, image + SEGMENT_20, PAMUKLID_IMAGE_RECORD);
    memcpy(&bits, &high, sizeof bits);
    put(record + 8, bits, 8); /* where a record has its upper end */
}

/* The table of a day, and data judged by it that reaches from 14099550 to 14100050. */
static void amended(const uint8_t *list, size_t n, uint32_t day, size_t room)
{
    static uint8_t out[PAMUKLID_IMAGE_MOST];
    char title[64];
    pamuklid_image made = pamuklid_amend(image, image_len, list, n, day, out, room);
    snprintf(title, sizeof title, "%zu bytes of amendments, day %" PRIu32 ",", n, day);
    print_made(title, room, made, out);
    if (made.refusal != PAMUKLID_ACCEPTED)
        return;
    pamuklid_decision d =
        pamuklid_evaluate(station_at(14098300, PAMUKLID_CONTROL_LOCAL, POWER_UNKNOWN), PAMUKLID_KIND_DATA,
                          PAMUKLID_DIRECTION_ORIGINATE, both(1250, 1750), out, made.length);
    printf("day %" PRIu32 ", data, dial 14098300: ", day);
    print_decision(&d);
}

/* Data up to 14100000 Hz from day 20774 on, and up to 14120000 from day 20819 on. */
static void amendments(void)
{
    uint8_t list[2 * PAMUKLID_AMENDMENT];
    amendment(list, 20774, 14100000);
    amendment(list + PAMUKLID_AMENDMENT, 20819, 14120000);
    amended(list, sizeof list, 20773, 380);
    amended(list, sizeof list, 20774, 380);
    amended(list, sizeof list, 20819, 380);
    amended(list, sizeof list, 20819, 379);
    amended(list, sizeof list - 1, 20819, 380);
    amendment(list, 20774, 14000000); /* a segment of no length: in force on one day, superseded on the other */
    amended(list, sizeof list, 20774, 380);
    amended(list, sizeof list, 20819, 380);
}

/* The seconds on the air of the ten minutes up to each record of a log. */
static void times(const char *title, const uint64_t *starts, size_t n, size_t lent)
{
    static const uint8_t bands[] = {20, 20, 40, 20, 20};
    static const uint16_t seconds[] = {60, 30, 45, 15, 100};
    uint64_t totals[5];
    pamuklid_airtime a = pamuklid_airtime_of(starts, n, bands, n, seconds, n, totals, lent);
    printf("%s, totals of %zu records with room for %zu:", title, n, lent);
    if (a.refusal != PAMUKLID_ACCEPTED) {
        printf(" refusal %d\n", a.refusal);
        return;
    }
    for (size_t i = 0; i < a.count; i++)
        printf(" %" PRIu64, totals[i]);
    printf("\n");
}

static void logs(void)
{
    static const uint64_t starts[] = {1000, 1599, 1599, 1600, 2199};
    static const uint64_t falling[] = {1000, 1599, 1598, 1600, 2199};
    times("log", starts, 5, 5);
    times("log", starts, 0, 0);
    times("log", starts, 5, 4);
    times("third start one second early", falling, 5, 5);
    times("third start one second early", falling, 5, 4);
}

/* How many dials of a stretch get each code: the signal with its margin lies 1,200 to 1,800 Hz above a dial. */
static void census(int64_t first, int64_t last)
{
    pamuklid_census c =
        pamuklid_census_of(station_at(14100000, PAMUKLID_CONTROL_LOCAL, POWER_UNKNOWN), PAMUKLID_KIND_DATA,
                           PAMUKLID_DIRECTION_ORIGINATE, both(1250, 1750), image, image_len, first, last);
    printf("census from %" PRId64 " to %" PRId64 ":", first, last);
    if (c.refusal != PAMUKLID_ACCEPTED)
        printf(" refusal %d", c.refusal);
    for (int code = 1; code <= PAMUKLID_CODES; code++)
        if (c.counts[code - 1] != 0)
            printf(" code %d %" PRIu32, code, c.counts[code - 1]);
    printf("\n");
}

struct item {
    const char *title;
    double dial, low, high, power;
    uint8_t control, direction, kind;
};

#define LOCAL PAMUKLID_CONTROL_LOCAL
#define AUTOMATIC PAMUKLID_CONTROL_AUTOMATIC
#define ORIGINATE PAMUKLID_DIRECTION_ORIGINATE
#define RESPOND PAMUKLID_DIRECTION_RESPOND
#define TO_AUTOMATIC PAMUKLID_DIRECTION_RESPOND_TO_AUTOMATIC
#define DATA PAMUKLID_KIND_DATA
#define TEST PAMUKLID_KIND_TEST

static const struct item items[] = {
    {"data", 14023800, 1250, 1750, POWER_UNKNOWN, LOCAL, ORIGINATE, DATA},
    {"data", 14023799.875, 1250, 1750, POWER_UNKNOWN, LOCAL, ORIGINATE, DATA},
    {"data", 14148200, 1250, 1750, POWER_UNKNOWN, LOCAL, ORIGINATE, DATA},
    {"data", 14148200.125, 1250, 1750, POWER_UNKNOWN, LOCAL, ORIGINATE, DATA},
    {"data", 14148200.1, 1250, 1750, POWER_UNKNOWN, LOCAL, ORIGINATE, DATA}, /* a dial not in eighths */
    {"data", 14148500, 1250, 1750, POWER_UNKNOWN, LOCAL, ORIGINATE, DATA},
    {"data", 14149000, 1250, 1750, POWER_UNKNOWN, LOCAL, ORIGINATE, DATA},
    {"data", 14100000, 100, 2900, POWER_UNKNOWN, LOCAL, ORIGINATE, DATA},
    {"data", 14100000, 100, 2900.125, POWER_UNKNOWN, LOCAL, ORIGINATE, DATA},
    {"automatic, originating", 14097700, 1250, 1750, POWER_UNKNOWN, AUTOMATIC, ORIGINATE, DATA},
    {"automatic, originating", 14098000, 1250, 1750, POWER_UNKNOWN, AUTOMATIC, ORIGINATE, DATA},
    {"automatic, originating", 14098500, 1250, 1750, POWER_UNKNOWN, AUTOMATIC, ORIGINATE, DATA},
    {"automatic, originating", 14098500.125, 1250, 1750, POWER_UNKNOWN, AUTOMATIC, ORIGINATE, DATA},
    {"automatic, responding", 14098000, 1250, 1750, POWER_UNKNOWN, AUTOMATIC, RESPOND, DATA},
    {"automatic, responding to automatic", 14098000, 1250, 1750, POWER_UNKNOWN, AUTOMATIC,
     TO_AUTOMATIC, DATA},
    {"data", 5330550, 1250, 1750, POWER_UNKNOWN, LOCAL, ORIGINATE, DATA},
    {"data", 5330550.125, 1250, 1750, POWER_UNKNOWN, LOCAL, ORIGINATE, DATA},
    {"test", 5330550, 1250, 1750, POWER_UNKNOWN, LOCAL, ORIGINATE, TEST},
    {"data at 100 W", 5330550, 1250, 1750, 100, LOCAL, ORIGINATE, DATA},
    {"data at 100.125 W", 5330550, 1250, 1750, 100.125, LOCAL, ORIGINATE, DATA},
};

static void verdicts(void)
{
    for (size_t i = 0; i < sizeof items / sizeof items[0]; i++) {
        const struct item *t = &items[i];
        pamuklid_station s = station_at(t->dial, t->control, t->power);
        pamuklid_edges e = both(t->low, t->high);
        pamuklid_decision d = pamuklid_evaluate(s, t->kind, t->direction, e, image, image_len);
        printf("%s, dial %.12g, edges %.12g to %.12g: ", t->title, t->dial, t->low, t->high);
        print_decision(&d);
        if (t->kind == DATA && d.verdict == PAMUKLID_BLOCKED)
            print_nearest(s, t->direction, e, image_len);
    }
}

/* Two margins: 14023775 + 1250 - 25 is the lower end of General's privilege; on the lower sideband
 * 14150800 - 1250 + 450 is the upper end of the segment. */
static void margins(void)
{
    static const struct {
        uint8_t sideband;
        double dial;
    } asked[] = {
        {PAMUKLID_SIDEBAND_UPPER, 14023775},
        {PAMUKLID_SIDEBAND_UPPER, 14023774.875},
        {PAMUKLID_SIDEBAND_LOWER, 14150800},
        {PAMUKLID_SIDEBAND_LOWER, 14150800.125},
    };
    for (size_t i = 0; i < sizeof asked / sizeof asked[0]; i++) {
        pamuklid_station s = station_at(asked[i].dial, LOCAL, POWER_UNKNOWN);
        s.sideband = asked[i].sideband;
        s.margin_lower_hz = 25;
        s.margin_upper_hz = 450;
        pamuklid_decision d = pamuklid_evaluate(s, DATA, ORIGINATE, both(1250, 1750), image, image_len);
        printf("margins 25 and 450, %s sideband, dial %.12g: ",
               s.sideband == PAMUKLID_SIDEBAND_UPPER ? "upper" : "lower", asked[i].dial);
        print_decision(&d);
        if (d.verdict == PAMUKLID_BLOCKED)
            print_nearest(s, ORIGINATE, both(1250, 1750), image_len);
    }
}

static void print_ceiling(const pamuklid_ceiling *c)
{
    if (c->refusal != PAMUKLID_ACCEPTED) {
        printf("refusal %d\n", c->refusal);
        return;
    }
    if (c->rung == PAMUKLID_RUNG_NONE)
        printf("no rung, ");
    else
        printf("rung %" PRId32 ", ", c->rung);
    if (c->limit_known) {
        printf("limit ");
        print_decision(&c->limit);
    } else {
        printf("no limit\n");
    }
}

/* Rungs of 500, 1000 and 2900 Hz, all with the ordinary control frame. */
static const double rungs[] = {
    1250, 1750, 1250, 1750,
    1000, 2000, 1000, 2000,
    0,    2900, 0,    2900,
};
static const uint8_t floors[] = {0, 0, 0};
enum { RUNGS = sizeof floors };

static void ceilings(size_t rung_count)
{
    pamuklid_station s = station_at(14100000, LOCAL, POWER_UNKNOWN);
    pamuklid_edges control = both(1250, 1750);
    pamuklid_ceiling c =
        pamuklid_ceiling_of(s, ORIGINATE, control, control, image, image_len, rungs,
                            PAMUKLID_RUNG_FIGURES * rung_count, floors, rung_count);
    printf("ceiling of %zu rungs, dial 14100000: ", rung_count);
    print_ceiling(&c);
}

/* A table that is loaded while the modem climbs: the practice table with a general width limit of 600 Hz. */
static uint8_t loaded[sizeof image];

static pamuklid_step step(pamuklid_walk w)
{
    pamuklid_edges control = both(1250, 1750);
    return pamuklid_walk_step(w, station_at(14100000, LOCAL, POWER_UNKNOWN), ORIGINATE, control, control, image,
                              image_len, loaded, image_len, rungs, PAMUKLID_RUNG_FIGURES * RUNGS, floors,
                              RUNGS);
}

/* To the other table. A refusal leaves the state as it was. */
static pamuklid_walk swapped(pamuklid_walk w)
{
    pamuklid_walk_answer a = pamuklid_walk_swap(w);
    if (a.refusal != PAMUKLID_ACCEPTED)
        printf("swap: refusal %d\n", a.refusal);
    else
        printf("swap: %simage %d in force\n", a.state.waiting ? "waits, " : "", a.state.image);
    return a.state;
}

/* A modem's loop: opens a walk, and steps until it is over. A table comes after so many steps, if not 0. */
static pamuklid_walk walk(pamuklid_walk w, int comes)
{
    pamuklid_walk_answer opened = pamuklid_walk_open(w);
    if (opened.refusal != PAMUKLID_ACCEPTED) {
        printf("walk: refusal %d\n", opened.refusal);
        return w;
    }
    w = opened.state;
    for (int steps = 1;; steps++) {
        pamuklid_step t = step(w);
        printf("walk under image %d, step %d%s: ", w.image, steps, t.over ? ", over" : "");
        print_ceiling(&t.ceiling);
        w = t.state;
        if (t.over || t.ceiling.refusal != PAMUKLID_ACCEPTED)
            return w;
        if (steps == comes)
            w = swapped(swapped(w)); /* the second meets one that waits */
    }
}

/* The first walk finishes under the table that it began with, the next begins under the new one. */
static void walks(void)
{
    static const uint8_t limit[] = {0, 0, 0, 0, 0, 0xc0, 0x82, 0x40}; /* 600 Hz */
    memcpy(loaded, image, image_len);
    memcpy(loaded, limit, sizeof limit);
    pamuklid_walk w = pamuklid_walk_first();
    pamuklid_step t = step(w);
    printf("no walk, step: ");
    print_ceiling(&t.ceiling);
    w = walk(w, 1);
    w = walk(w, 0);
    swapped(w);
}

static void list(size_t row_count)
{
    static uint8_t rows[16 * PAMUKLID_ROW];
    pamuklid_station s = station_at(14100000, AUTOMATIC, POWER_UNKNOWN);
    pamuklid_dials d = pamuklid_safe_dials(s, ORIGINATE, both(1250, 1750), image, image_len, rows,
                                           row_count * PAMUKLID_ROW);
    printf("automatic, originating, list with room for %zu: ", row_count);
    if (d.refusal != PAMUKLID_ACCEPTED) {
        printf("refusal %d\n", d.refusal);
        return;
    }
    printf("%" PRIu32 " rows\n", d.count);
    for (size_t i = 0; i < d.count; i++) {
        const uint8_t *row = rows + PAMUKLID_ROW * i;
        printf("  dials %.12g to %.12g, ", row_figure(row + PAMUKLID_ROW_DIAL_LOW),
               row_figure(row + PAMUKLID_ROW_DIAL_HIGH));
        printf("segment %.12g to %.12g, ", row_figure(row + PAMUKLID_ROW_SEGMENT_LOW),
               row_figure(row + PAMUKLID_ROW_SEGMENT_HIGH));
        printf("band %d\n", row[PAMUKLID_ROW_BAND]);
    }
}

/* The list is made once, and every dial is asked of it. */
static void distances(const char *title, uint8_t sideband, const double *dials, size_t dial_count)
{
    static uint8_t rows[16 * PAMUKLID_ROW];
    pamuklid_station s = station_at(14100000, AUTOMATIC, POWER_UNKNOWN);
    s.sideband = sideband;
    pamuklid_dials made = pamuklid_safe_dials(s, ORIGINATE, both(1250, 1750), image, image_len, rows,
                                              sizeof rows);
    if (made.refusal != PAMUKLID_ACCEPTED) {
        printf("%s: refusal %d\n", title, made.refusal);
        return;
    }
    /* A list under rules was made, so the image has these two bytes. */
    uint8_t flags = image[PAMUKLID_IMAGE_FLAGS];
    uint8_t channel_band = image[PAMUKLID_IMAGE_CHANNEL_BAND];
    for (size_t i = 0; i < dial_count; i++) {
        pamuklid_distance d = pamuklid_distance_of(dials[i], flags, channel_band, made.count, rows,
                                                   sizeof rows);
        printf("%s, distance of dial %.13g: ", title, dials[i]);
        if (d.refusal != PAMUKLID_ACCEPTED)
            printf("refusal %d\n", d.refusal);
        else if (d.listed)
            printf("%.12g Hz\n", d.distance_hz);
        else
            printf("none listed\n");
    }
}

typedef pamuklid_text (*text_call)(double hz, uint8_t *text, size_t room);

/* A figure as a panel shows it. A text has no unit, and no byte 0 ends it. */
static void panel(const char *title, double hz, text_call call, size_t room, const char *unit)
{
    uint8_t text[PAMUKLID_MOST_TEXT];
    pamuklid_text t = call(hz, text, room);
    printf("panel, %s %.14g in %zu bytes: ", title, hz, room);
    if (t.refusal != PAMUKLID_ACCEPTED) {
        printf("refusal %d\n", t.refusal);
        return;
    }
    fwrite(text, 1, t.length, stdout);
    printf(" %s\n", unit);
}

static void panels(void)
{
    panel("dial", 14097700, pamuklid_text_at, PAMUKLID_MOST_TEXT, "kHz");
    panel("dial", 14097700, pamuklid_text_at, 8, "kHz");
    panel("dial", 1e13, pamuklid_text_at, PAMUKLID_MOST_TEXT, "kHz");
    panel("end of a segment", 14099500, pamuklid_text_khz, PAMUKLID_MOST_TEXT, "kHz");
    panel("width", 500, pamuklid_text_hertz, PAMUKLID_MOST_TEXT, "Hz");
}

int main(int argc, char **argv)
{
    if (pamuklid_version() != PAMUKLID_VERSION) {
        fprintf(stderr, "judge: library %" PRIu32 ", header %d\n", pamuklid_version(), PAMUKLID_VERSION);
        return 2;
    }
    FILE *file = argc == 2 ? fopen(argv[1], "rb") : NULL;
    if (file == NULL) {
        fprintf(stderr, "usage: judge IMAGE\n");
        return 2;
    }
    image_len = fread(image, 1, sizeof image, file);
    fclose(file);
    printf("version %" PRIu32 "\n", pamuklid_version());
    images();
    reports();
    editions();
    amendments();
    verdicts();
    margins();
    ceilings(RUNGS);
    ceilings(0);
    walks();
    list(16);
    list(1);
    static const double dials[] = {14097700, 14098000, 14093799, 2e12};
    distances("automatic, originating", PAMUKLID_SIDEBAND_UPPER, dials, 4);
    distances("sideband absent", PAMUKLID_ABSENT, dials, 1);
    panels();
    logs();
    census(14095000, 14151000);
    census(2, 1);
    pamuklid_decision d = pamuklid_unmeasured(station_at(14100000, LOCAL, POWER_UNKNOWN), image,
                                              image_len);
    printf("spectrum not known: ");
    print_decision(&d);
    d = pamuklid_evaluate(station_at(14100000, LOCAL, POWER_UNKNOWN), DATA, ORIGINATE,
                          both(1250, 1750), image, 0);
    printf("no image: ");
    print_decision(&d);
    print_nearest(station_at(14100000, LOCAL, POWER_UNKNOWN), ORIGINATE, both(1250, 1750), 0);
    return 0;
}
