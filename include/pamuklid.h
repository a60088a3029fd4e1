/* Pamuklid, a transmit gate: the calls of libpamuklid.a.
 *
 * Before each keying ask pamuklid_evaluate, and send nothing where its verdict is PAMUKLID_BLOCKED.
 *
 * Every call accepts every byte, every number and every figure, NaN and infinities too; what is
 * outside its values is refused by a number. No call keeps a pointer, allocates, or has a state of
 * its own: equal arguments give equal answers, and calls may run at once on several threads.
 *
 * An image, rungs and floor bytes are lent as a pointer and a count of elements. They are only read,
 * during the call, and no byte of them changes; so are the starts, bands and seconds of a log, the figures,
 * codes and rules of records that are to be an image, and a list of amendments. Dial rows, the rows of a
 * report, texts, totals and the bytes for an image that is written, raised, lowered or amended are lent to be
 * written: see pamuklid_safe_dials, pamuklid_report_of, pamuklid_text_at, pamuklid_airtime_of, pamuklid_write,
 * pamuklid_raise and pamuklid_amend. With a count of 0 a pointer is not followed, but pass one that is not
 * null. What is lent to be written may not overlap what else is lent to the same call.
 *
 * A walk (pamuklid_walk_step) goes on from one call to the next. Its state is a struct that the caller keeps:
 * each call takes it by value and gives the next one back.
 *
 * Structs go by value. Their sizes and offsets are checked below when this header is compiled (C11 or
 * C++11 on); whether the library is of the header's version is asked once, as the program starts:
 *
 *     if (pamuklid_version() != PAMUKLID_VERSION) ... stop
 *
 * Frequencies are in hertz, power in watts.
 */
#ifndef PAMUKLID_H
#define PAMUKLID_H

#include <stddef.h>
#include <stdint.h>

#ifdef __cplusplus
extern "C" {
#endif

/* The version of this header, 0.14.0: major * 10000 + minor * 100 + patch. */
#define PAMUKLID_VERSION 1400

/* Refusals, by number. A call that is refused has answered nothing: send nothing. */
#define PAMUKLID_ACCEPTED 0                 /* none: the image is accepted, the call was answered */
#define PAMUKLID_REFUSAL_IMAGE_LENGTH 1     /* an image under 92 or over 65,552 bytes; by pamuklid_write
                                               more records than PAMUKLID_IMAGE_MOST_RECORDS */
#define PAMUKLID_REFUSAL_LETTERS 2          /* an image that does not end with the letters EDGE */
#define PAMUKLID_REFUSAL_EDITION 3          /* an image of another edition than 1 and 2, or one to be
                                               written; by pamuklid_raise of another than 1, by
                                               pamuklid_lower of another than 2 */
#define PAMUKLID_REFUSAL_COUNTS 4           /* a count over 256, or a length or distance that disagrees;
                                               by pamuklid_write a run that has not its elements for
                                               each record */
#define PAMUKLID_REFUSAL_CODED_BYTE 5       /* a coded byte of the image outside its values, an unused one
                                               that is not zero, or a table of an absent part not empty */
#define PAMUKLID_REFUSAL_IMAGE_FIGURE 6     /* a figure of the image not finite, above 2^40 in size, or
                                               negative zero */
#define PAMUKLID_REFUSAL_BAND_RANGE 7       /* a band whose low end is not below its high end */
#define PAMUKLID_REFUSAL_SEGMENT_RANGE 8    /* such a data segment */
#define PAMUKLID_REFUSAL_AUTOMATIC_RANGE 9  /* such an automatic segment */
#define PAMUKLID_REFUSAL_PRIVILEGE_RANGE 10 /* such a privilege */
#define PAMUKLID_REFUSAL_EMPTY_TABLE 11     /* no band or no data segment */
#define PAMUKLID_REFUSAL_SEGMENT_OUTSIDE 12 /* a data segment in no band */
#define PAMUKLID_REFUSAL_OWN_LIMIT 13       /* a data segment's own width limit not above 0 */
#define PAMUKLID_REFUSAL_GENERAL_LIMIT 14   /* the general width limit not above 0 */
#define PAMUKLID_REFUSAL_SIGNAL_EDGE 15     /* an edge not finite or above 2^40 in size */
#define PAMUKLID_REFUSAL_RUNGS 16           /* rungs not in fours, more than 256 of them, or floor bytes
                                               that are not one for each rung, 0 or 1 */
#define PAMUKLID_REFUSAL_STATION_CODE 20    /* a station code, a presence byte, the plan mark, the kind, the
                                               direction or the license of a report outside its values; a
                                               walk's state that no call gives */
#define PAMUKLID_REFUSAL_STATION_FIGURE 21  /* a station figure, or a dial asked, not finite or above 2^40
                                               in size (only where it is known); a figure to be written,
                                               not finite or above 2^43 in size */
#define PAMUKLID_REFUSAL_NO_IMAGE 22        /* PAMUKLID_POLICY_RULES and an image of no bytes */
#define PAMUKLID_REFUSAL_ROWS 23            /* a dial list longer than the whole rows lent; an image
                                               to be written, raised or lowered, longer than the bytes
                                               lent for it */
#define PAMUKLID_REFUSAL_TEXT 24            /* a text longer than the bytes lent */
#define PAMUKLID_REFUSAL_REPORT 25          /* a report longer than the whole rows lent */
#define PAMUKLID_REFUSAL_WATTS 26           /* an image that is to be lowered, with other watts than 100 and
                                               9.15, which edition 1 cannot hold */
#define PAMUKLID_REFUSAL_AMENDMENTS 27      /* a list of amendments not in forties, or with a table above 8 or
                                               an index beyond its table, in force or not */
#define PAMUKLID_REFUSAL_AMENDED_ROOM 28    /* an image to be amended, longer than the bytes lent for it */
#define PAMUKLID_REFUSAL_SECOND_SWAP 29     /* a swap while one waits */
#define PAMUKLID_REFUSAL_WALK 30            /* a step with no walk open, or an opening while one is open */
#define PAMUKLID_REFUSAL_STARTS 31          /* a start of a log below the one before */
#define PAMUKLID_REFUSAL_RUNS 32            /* starts, bands, seconds and totals not one for each record, or
                                               over 65,536 records */
#define PAMUKLID_REFUSAL_STRETCH 33         /* a first dial above the last, or more dials than
                                               PAMUKLID_MOST_DIALS */
#define PAMUKLID_REFUSAL_FAR_DIAL 34        /* a first or last dial above 2^40 in size */
/* They are looked for in the order 29, 30, 20, 21, 22, 1 to 14, 26, 27, 28, 15, 33, 34, 16, 23, 24, 25, 31, 32,
 * each over the whole input before the next; 22 and 1 to 14 with PAMUKLID_POLICY_RULES only, except by the
 * calls that are about the image alone (pamuklid_check, pamuklid_tidy, pamuklid_report_of, pamuklid_fault_of,
 * pamuklid_write, pamuklid_raise, pamuklid_lower, pamuklid_amend), which have 1 to 14 always; pamuklid_write,
 * which puts the letters there itself, never 2. pamuklid_amend has 1 to 14 of the base image, 27, 28, and then
 * 5 to 10, 12 and 13 of the effective one. */

/* pamuklid_station: policy */
#define PAMUKLID_POLICY_UNSET 0    /* none was chosen: everything is blocked */
#define PAMUKLID_POLICY_NO_RULES 1 /* no rules apply: everything is legal */
#define PAMUKLID_POLICY_RULES 2    /* the rules of the image */
#define PAMUKLID_POLICY_BROKEN 3   /* the rules could not be loaded: everything is blocked */

/* pamuklid_station: control, license, sideband where they are not known */
#define PAMUKLID_ABSENT 255

/* pamuklid_station: control (97.109) */
#define PAMUKLID_CONTROL_LOCAL 0
#define PAMUKLID_CONTROL_REMOTE 1
#define PAMUKLID_CONTROL_AUTOMATIC 2

/* pamuklid_station: license, the operator's class */
#define PAMUKLID_LICENSE_NOVICE 0
#define PAMUKLID_LICENSE_TECHNICIAN 1
#define PAMUKLID_LICENSE_GENERAL 2
#define PAMUKLID_LICENSE_ADVANCED 3
#define PAMUKLID_LICENSE_EXTRA 4

/* pamuklid_station: sideband */
#define PAMUKLID_SIDEBAND_UPPER 0
#define PAMUKLID_SIDEBAND_LOWER 1

/* kind: what is sent */
#define PAMUKLID_KIND_DATA 0
#define PAMUKLID_KIND_CW 1
#define PAMUKLID_KIND_TEST 2
#define PAMUKLID_KIND_NOTHING 3

/* direction: who begins, and who is answered. A station under automatic control is judged by 97.221 in
 * every direction but the operator's. Outside the automatic segments 97.221(c) lets it answer a station
 * under local or remote control; it does not cover an answer to one that is itself under automatic control.
 * Which of the two is answered is taken on the caller's word: PAMUKLID_DIRECTION_RESPOND only where it is
 * known that an operator controls the other station. */
#define PAMUKLID_DIRECTION_ORIGINATE 0            /* this station calls */
#define PAMUKLID_DIRECTION_RESPOND 1              /* it answers a station under local or remote control */
#define PAMUKLID_DIRECTION_OPERATOR 2             /* an operator acts */
#define PAMUKLID_DIRECTION_RESPOND_TO_AUTOMATIC 3 /* it answers a station under automatic control; judged
                                                     as PAMUKLID_DIRECTION_ORIGINATE is */

/* The station. Negative zero in a figure reads as zero. */
typedef struct {
    double margin_lower_hz; /* kept free below the signal on the air, on either sideband; may be negative */
    double margin_upper_hz; /* kept free above it; may be negative */
    double dial_hz;       /* the radio's dial; not looked at where dial_known is 0 */
    double power_w;       /* the transmit power; not looked at where power_known is 0 */
    uint8_t policy;       /* PAMUKLID_POLICY_... */
    uint8_t control;      /* PAMUKLID_CONTROL_..., or PAMUKLID_ABSENT */
    uint8_t license;      /* PAMUKLID_LICENSE_..., or PAMUKLID_ABSENT */
    uint8_t sideband;     /* PAMUKLID_SIDEBAND_..., or PAMUKLID_ABSENT */
    uint8_t itu_region;   /* any number; compared with the image's */
    uint8_t band_plan;    /* 1 to hear the voluntary band plan, 0 not */
    uint8_t dial_known;   /* 1 or 0 */
    uint8_t power_known;  /* 1 or 0 */
} pamuklid_station;

/* The audio edges of a signal under both readings of 97.3(a)(8). Low above high is accepted. Negative
 * zero reads as zero. */
typedef struct {
    double power_low;
    double power_high;
    double spectral_low;
    double spectral_high;
} pamuklid_edges;

/* verdict */
#define PAMUKLID_LEGAL 0   /* may be sent */
#define PAMUKLID_WARNING 1 /* may be sent; the operator should know of the notes or the band plan */
#define PAMUKLID_BLOCKED 2 /* may not be sent: send nothing */

/* code: the reason of a verdict, and the verdicts that it can have */
#define PAMUKLID_CODE_NONE 0                  /* no code: a refusal, or an absent limit */
#define PAMUKLID_CODE_NO_PROFILE 1            /* blocked: no policy was chosen */
#define PAMUKLID_CODE_PROFILE_BROKEN 2        /* blocked: the policy could not be loaded */
#define PAMUKLID_CODE_NO_RULES 3              /* legal: no rules apply */
#define PAMUKLID_CODE_UNMEASURED 4            /* blocked: the spectrum is not known */
#define PAMUKLID_CODE_REGION 5                /* blocked: another ITU region than the table's */
#define PAMUKLID_CODE_NO_CONTROL 6            /* blocked: control is not known */
#define PAMUKLID_CODE_NO_LICENSE 7            /* blocked: the license is not known */
#define PAMUKLID_CODE_NO_SIDEBAND 8           /* blocked: the sideband is not known */
#define PAMUKLID_CODE_NO_DIAL 9               /* blocked: the dial is not known */
#define PAMUKLID_CODE_OUT_OF_BAND 10          /* blocked: no band holds the signal with its margin */
#define PAMUKLID_CODE_AUTOMATIC_EXCLUDED 11   /* blocked: no automatic control on this band */
#define PAMUKLID_CODE_TOO_WIDE 12             /* blocked: wider than the limit here */
#define PAMUKLID_CODE_OUTSIDE_DATA_SEGMENT 13 /* blocked: see overshoot */
#define PAMUKLID_CODE_NO_DATA_HERE 14         /* blocked: no data segment is near */
#define PAMUKLID_CODE_PRIVILEGE 15            /* blocked: the license does not allow it here */
#define PAMUKLID_CODE_PERMITTED 16            /* legal or a warning */
#define PAMUKLID_CODE_AUTOMATIC_SEGMENT 17    /* legal or a warning: inside an automatic segment */
#define PAMUKLID_CODE_AUTOMATIC_OUTSIDE 18    /* blocked: outside them, and no rule for elsewhere */
#define PAMUKLID_CODE_AUTOMATIC_BANDWIDTH 19  /* blocked: outside them, too wide for elsewhere */
#define PAMUKLID_CODE_AUTOMATIC_ORIGINATE 20  /* blocked: outside them, and not in answer to a station
                                                 under local or remote control */
#define PAMUKLID_CODE_AUTOMATIC_RESPONSE 21   /* legal or a warning: outside them, by the rule for elsewhere */
#define PAMUKLID_CODE_SIXTY_EMISSION 22       /* blocked: not an emission for 60 m */
#define PAMUKLID_CODE_SIXTY_OFF_CHANNEL 23    /* blocked: on no channel of 60 m, and not in its segment */
#define PAMUKLID_CODE_SIXTY_CHANNEL 24        /* legal or a warning on a channel of 60 m; blocked where the
                                                 signal touches one and does not fit it. By the first that
                                                 it touches, unless that one does not hold it and the
                                                 segment does */
#define PAMUKLID_CODE_SIXTY_SEGMENT 25        /* legal or a warning: in the segment of 60 m, and not held by
                                                 the first channel that it touches, if any */

/* rule, segment_rule: numbers that mean the same in every table */
#define PAMUKLID_RULE_EMPTY 0        /* no rule is named */
#define PAMUKLID_RULE_97_301 1       /* bands and privileges */
#define PAMUKLID_RULE_97_109 2       /* control */
#define PAMUKLID_RULE_97_305_A 3     /* CW */
#define PAMUKLID_RULE_97_305_B 4     /* test emissions */
#define PAMUKLID_RULE_97_305_C 5     /* data segments */
#define PAMUKLID_RULE_97_307_F_9 6   /* emissions of a license */
#define PAMUKLID_RULE_FIRST_OWN 7    /* from here on: numbers of the trustee's text list */

/* overshoot: how a signal lies outside a data segment */
#define PAMUKLID_OVERSHOOT_NONE 0
#define PAMUKLID_OVERSHOOT_BEYOND 1    /* beyond an edge, by beyond_hz */
#define PAMUKLID_OVERSHOOT_TOO_CLOSE 2 /* inside, but closer to an edge than the margin */

/* edge: of a segment. Where overshoot is PAMUKLID_OVERSHOOT_TOO_CLOSE it is always the upper, whichever
 * of the two is too close. */
#define PAMUKLID_EDGE_LOWER 0
#define PAMUKLID_EDGE_UPPER 1

/* guidance: what the voluntary band plan says, where the station asks for it */
#define PAMUKLID_GUIDANCE_NONE 0
#define PAMUKLID_GUIDANCE_AVOID 1   /* keep clear of the area guidance_index of PAMUKLID_TABLE_PLAN_AVOID */
#define PAMUKLID_GUIDANCE_INSIDE 2  /* inside the area guidance_index of PAMUKLID_TABLE_PLAN_DATA */
#define PAMUKLID_GUIDANCE_OUTSIDE 3 /* the plan puts data elsewhere */

/* The marks in notes: one for each power record that a table can have at most. */
#define PAMUKLID_MOST_NOTES 256

/* An answer. A part that is absent is all zero. A refusal has refusal, verdict PAMUKLID_BLOCKED and all
 * else zero.
 *
 * Send nothing where verdict is PAMUKLID_BLOCKED. A struct of zero bytes has verdict PAMUKLID_LEGAL: fill
 * it from a call; an answer that was never asked for is not an answer. (Its code is PAMUKLID_CODE_NONE,
 * which no call answers beside PAMUKLID_LEGAL or PAMUKLID_WARNING.) */
typedef struct {
    double segment_low;      /* the segment, or the channel, that the signal was judged against */
    double segment_high;
    double automatic_low;    /* the automatic segment (97.221) it was judged against */
    double automatic_high;
    double audio_low;        /* the audio edges that were judged */
    double audio_high;
    double width;            /* audio_high - audio_low; may be negative */
    double air_low;          /* the edges on the air, where dial and sideband are known */
    double air_high;
    double beyond_hz;        /* how far outside the segment; PAMUKLID_OVERSHOOT_BEYOND only */
    uint16_t rule;           /* the rule of the reason: PAMUKLID_RULE_..., others the image's own numbers */
    uint16_t segment_rule;   /* the segment's rule, as rule */
    uint16_t guidance_index; /* the plan record, 0 to 255; PAMUKLID_GUIDANCE_AVOID and _INSIDE only */
    uint8_t refusal;         /* PAMUKLID_ACCEPTED: judged; else PAMUKLID_REFUSAL_... */
    uint8_t verdict;         /* PAMUKLID_LEGAL, PAMUKLID_WARNING or PAMUKLID_BLOCKED: send nothing */
    uint8_t code;            /* the reason: PAMUKLID_CODE_...; PAMUKLID_CODE_NONE on a refusal */
    uint8_t rule_known;      /* 1, or 0 on a refusal: PAMUKLID_RULE_EMPTY is not "absent" */
    uint8_t band_known;      /* 1 where band is known, else 0 */
    uint8_t band;            /* the number of the band, as in the image; with PAMUKLID_CODE_OUT_OF_BAND
                                that of one which the signal touches */
    uint8_t segment_known;   /* 1 where segment_low, segment_high and segment_rule are known, else 0 */
    uint8_t automatic_known; /* 1 where automatic_low and automatic_high are known, else 0 */
    uint8_t audio_known;     /* 1 where audio_low, audio_high and width are known, 0 on a refusal */
    uint8_t air_known;       /* 1 where air_low and air_high are known, else 0 */
    uint8_t overshoot;       /* PAMUKLID_OVERSHOOT_...; PAMUKLID_CODE_OUTSIDE_DATA_SEGMENT only, else 0 */
    uint8_t edge;            /* PAMUKLID_EDGE_... of the overshoot; else 0 */
    uint8_t guidance;        /* PAMUKLID_GUIDANCE_... */
    uint8_t note_channel_power;  /* 1: above the watts of a 60 m channel; else 0 */
    uint8_t note_shared;         /* 1: shared with government stations; else 0 */
    uint8_t note_segment_power;  /* 1: above the watts of the 60 m segment; else 0 */
    uint8_t notes[PAMUKLID_MOST_NOTES]; /* 1 for each power record of the image that is exceeded, by its index;
                                      else 0 */
} pamuklid_decision;

/* The most rungs that a climb can have, the figures of each, and "no rung". */
#define PAMUKLID_MOST_RUNGS 256
#define PAMUKLID_RUNG_FIGURES 4
#define PAMUKLID_RUNG_NONE (-1)

/* How fast a rung may be sent. */
typedef struct {
    pamuklid_decision limit; /* limit_known 1: the whole answer on the first rung that is blocked, for a data
                                signal of the edges of that rung, of every slower one and of their control
                                frames (verdict PAMUKLID_BLOCKED, refusal PAMUKLID_ACCEPTED). limit_known 0:
                                verdict PAMUKLID_BLOCKED, refusal as below, all else zero */
    int32_t rung;            /* the fastest rung that may be sent, 0 to 255, every slower one too; or
                                PAMUKLID_RUNG_NONE where not even rung 0 may be sent, there are no rungs, or
                                on a refusal */
    uint8_t limit_known;     /* 1 where a rung is blocked; 0 where none is, there is none, or on a refusal */
    uint8_t refusal;         /* PAMUKLID_ACCEPTED: judged; else PAMUKLID_REFUSAL_... */
} pamuklid_ceiling;

/* The state of a walk, the caller's to keep: pamuklid_walk_first, _swap, _open and _step give it. It need not
 * be kept secret, but it must not be made up or changed. What no call gives meets 20: an image, waiting or
 * walking above 1, a place above 255, with no walk open a swap that waits or a place above 0, and edges of
 * rungs judged that 15 would refuse. */
typedef struct {
    pamuklid_edges occupied; /* what the rungs judged so far occupy; not looked at where place is 0 */
    uint32_t place;          /* how many rungs of the walk were judged, 0 to 255, and the index of the next; 0
                                with no walk open */
    uint8_t image;           /* the image in force, 0 or 1; while a walk is open the one that it goes by */
    uint8_t waiting;         /* 1 where a swap waits for the end of the walk, else 0 */
    uint8_t walking;         /* 1 where a walk is open, else 0 */
} pamuklid_walk;

/* The answer of a swap and of an opening. */
typedef struct {
    pamuklid_walk state;     /* the next state; on a refusal the one that was given, unchanged */
    uint8_t refusal;         /* PAMUKLID_ACCEPTED; PAMUKLID_REFUSAL_SECOND_SWAP (a swap),
                                PAMUKLID_REFUSAL_WALK (an opening) or PAMUKLID_REFUSAL_STATION_CODE */
} pamuklid_walk_answer;

/* The answer of a step. */
typedef struct {
    pamuklid_ceiling ceiling; /* of the rungs judged so far, this one among them; its refusal is the step's */
    pamuklid_walk state;      /* the next state; on a refusal the one that was given, unchanged */
    uint8_t over;             /* 1 where the walk is over: its first blocked rung or its last was judged, or no
                                 rung was lent at its place; else 0, also on a refusal */
} pamuklid_step;

/* The most rows that a list can have. */
#define PAMUKLID_MOST_ROWS 16777472

/* A dial list's answer. */
typedef struct {
    uint32_t count;          /* the rows that were written, at most PAMUKLID_MOST_ROWS; 0 on a refusal */
    uint8_t refusal;         /* PAMUKLID_ACCEPTED: listed; else PAMUKLID_REFUSAL_... */
} pamuklid_dials;

/* A dial row is PAMUKLID_ROW bytes, little-endian; an f64 is its 64 bits. By offset: */
#define PAMUKLID_ROW 36
#define PAMUKLID_ROW_SEGMENT_LOW 0  /* f64, the segment, or the part of it, that the row keeps the signal in */
#define PAMUKLID_ROW_SEGMENT_HIGH 8 /* f64 */
#define PAMUKLID_ROW_DIAL_LOW 16    /* f64, the dials of the row: from here to the next, both included */
#define PAMUKLID_ROW_DIAL_HIGH 24   /* f64 */
#define PAMUKLID_ROW_BAND 32        /* u8, the number of the band, as in the image */
#define PAMUKLID_ROW_ZERO 33        /* u8, 0 */
#define PAMUKLID_ROW_RULE 34        /* u16, the rule that the row goes by, as in pamuklid_decision */

/* The distance of a dial from a list. */
typedef struct {
    double distance_hz;   /* 0 on a row or between its dials, never negative; +infinity where listed is 0 */
    uint8_t listed;       /* 1 where a row outside the channel band is listed; 0 where none is ("none
                             listed") and on a refusal */
    uint8_t refusal;      /* PAMUKLID_ACCEPTED; PAMUKLID_REFUSAL_STATION_FIGURE (the dial) or
                             PAMUKLID_REFUSAL_ROWS */
} pamuklid_distance;

/* answer: where to move the dial */
#define PAMUKLID_NEAREST_REFUSED 0    /* a refusal: see refusal */
#define PAMUKLID_NEAREST_DIAL 1       /* to dial_hz */
#define PAMUKLID_NEAREST_NONE 2       /* nowhere: no dial outside the channel band (60 m) allows data */
#define PAMUKLID_NEAREST_NOT_JUDGED 3 /* not judged: something that pamuklid_nearest_dial needs is not met */

/* The nearest dial at which data is allowed. */
typedef struct {
    double dial_hz;       /* PAMUKLID_NEAREST_DIAL: the dial, a whole number of eighths; else +infinity */
    uint8_t answer;       /* PAMUKLID_NEAREST_... */
    uint8_t refusal;      /* PAMUKLID_NEAREST_REFUSED: PAMUKLID_REFUSAL_...; else PAMUKLID_ACCEPTED */
} pamuklid_nearest;

/* Whether a table is tidy. */
typedef struct {
    uint8_t tidy;         /* 1 where the image is accepted and its table tidy; else 0 */
    uint8_t refusal;      /* PAMUKLID_ACCEPTED; else the image's refusal, 1 to 14 */
} pamuklid_tidiness;

/* The most rows that a report can have: 2 * 32640 pairs of bands and of data segments, and 256 segments with
 * 257 gaps each. */
#define PAMUKLID_MOST_REPORT 131072

/* A report's answer. */
typedef struct {
    uint32_t count;          /* the rows that were written, at most PAMUKLID_MOST_REPORT; 0 on a refusal */
    uint8_t refusal;         /* PAMUKLID_ACCEPTED: reported; else PAMUKLID_REFUSAL_... */
} pamuklid_report;

/* A row of a report is PAMUKLID_REPORT_ROW bytes, little-endian; an f64 is its 64 bits. By offset: */
#define PAMUKLID_REPORT_ROW 24
#define PAMUKLID_REPORT_ROW_LOW 0      /* f64, the stretch: from here to the next. Both are ends of records,
                                          the lower below the higher */
#define PAMUKLID_REPORT_ROW_HIGH 8     /* f64 */
#define PAMUKLID_REPORT_ROW_KIND 16    /* u8, PAMUKLID_REPORT_... */
#define PAMUKLID_REPORT_ROW_LICENSE 17 /* u8, PAMUKLID_LICENSE_... of two privileges, or of the gap: the one
                                          asked for; of bands and segments 0 */
#define PAMUKLID_REPORT_ROW_FIRST 18   /* u16, the index of the first record in its table, the smaller */
#define PAMUKLID_REPORT_ROW_SECOND 20  /* u16, the index of the second; a gap has its segment's in both */
#define PAMUKLID_REPORT_ROW_ZERO 22    /* two bytes, 0 */

/* The kind of a row: two records that share a stretch, by the number of their table; or a gap */
#define PAMUKLID_REPORT_BANDS 0      /* two bands */
#define PAMUKLID_REPORT_SEGMENTS 1   /* two data segments */
#define PAMUKLID_REPORT_PRIVILEGES 3 /* two privileges of one class */
#define PAMUKLID_REPORT_GAP 255      /* a stretch of a data segment that no privilege of the class covers */

/* The answer of a call that writes an image. */
typedef struct {
    uint32_t length;         /* the bytes that were written, those of the image; 0 on a refusal */
    uint8_t refusal;         /* PAMUKLID_ACCEPTED; else PAMUKLID_REFUSAL_... */
} pamuklid_image;

/* An amendment is PAMUKLID_AMENDMENT bytes, little-endian. By offset: */
#define PAMUKLID_AMENDMENT 40
#define PAMUKLID_AMENDMENT_TABLE 0  /* u16, PAMUKLID_TABLE_..., 0 to 8 */
#define PAMUKLID_AMENDMENT_INDEX 2  /* u16, the index of the record in its table, from 0 */
#define PAMUKLID_AMENDMENT_DAY 4    /* u32, the day from which on it is in force: a number, counted from
                                       whichever day trustee and caller agree on */
#define PAMUKLID_AMENDMENT_RECORD 8 /* PAMUKLID_IMAGE_RECORD bytes, the record that replaces it, as it stands in
                                       an image (docs/IMAGE.md) */

/* The bytes of the longest text, "-8796093022.208". */
#define PAMUKLID_MOST_TEXT 15

/* A text's answer. */
typedef struct {
    uint32_t length;         /* the bytes that were written, 1 to PAMUKLID_MOST_TEXT; 0 on a refusal */
    uint8_t refusal;         /* PAMUKLID_ACCEPTED; PAMUKLID_REFUSAL_STATION_FIGURE or
                                PAMUKLID_REFUSAL_TEXT */
} pamuklid_text;

/* The most records of a log. */
#define PAMUKLID_MOST_LOG 65536

/* The answer on a log's time on the air. */
typedef struct {
    uint32_t count;          /* the totals that were written, one for each record, at most
                                PAMUKLID_MOST_LOG; 0 on a refusal */
    uint8_t refusal;         /* PAMUKLID_ACCEPTED; PAMUKLID_REFUSAL_STARTS or PAMUKLID_REFUSAL_RUNS */
} pamuklid_airtime;

/* The most dials of a census. */
#define PAMUKLID_MOST_DIALS 1000000

/* The codes, and the counts of a census. */
#define PAMUKLID_CODES 25

/* A census. */
typedef struct {
    uint32_t counts[PAMUKLID_CODES]; /* counts[code - 1] is how many dials get PAMUKLID_CODE_...; all 0 on a
                                        refusal */
    uint8_t refusal;                 /* PAMUKLID_ACCEPTED: counted; else PAMUKLID_REFUSAL_... */
} pamuklid_census;

/* An image: its least and its most bytes, of either edition; those of its general block, and how many more
 * edition 2 has there, of each record and of its trailer; the most records of a table, and of all nine; and the
 * offsets of the two bytes that pamuklid_distance_of asks for. */
#define PAMUKLID_IMAGE_LEAST 92
#define PAMUKLID_IMAGE_MOST 65552
#define PAMUKLID_IMAGE_GENERAL 64
#define PAMUKLID_IMAGE_WATTS 16
#define PAMUKLID_IMAGE_RECORD 32
#define PAMUKLID_IMAGE_TRAILER 28
#define PAMUKLID_MOST_RECORDS 256
#define PAMUKLID_IMAGE_MOST_RECORDS 2045
#define PAMUKLID_IMAGE_FLAGS 42
#define PAMUKLID_IMAGE_CHANNEL_BAND 43

/* The tables of an image: how many there are, and their numbers, in its order */
#define PAMUKLID_TABLES 9
#define PAMUKLID_TABLE_BANDS 0
#define PAMUKLID_TABLE_SEGMENTS 1   /* data segments */
#define PAMUKLID_TABLE_CHANNELS 2   /* of 60 m */
#define PAMUKLID_TABLE_PRIVILEGES 3
#define PAMUKLID_TABLE_AUTOMATIC 4  /* automatic segments */
#define PAMUKLID_TABLE_EXCLUDED 5   /* bands without automatic control */
#define PAMUKLID_TABLE_POWER 6      /* power limits */
#define PAMUKLID_TABLE_PLAN_DATA 7  /* the band plan's areas for data */
#define PAMUKLID_TABLE_PLAN_AVOID 8 /* the band plan's areas to avoid */
#define PAMUKLID_TABLE_NONE 255     /* no table is named */

/* reading: which edges of a signal count, 97.3(a)(8) */
#define PAMUKLID_READING_POWER 0    /* those by power */
#define PAMUKLID_READING_SPECTRAL 1 /* those by spectrum */
#define PAMUKLID_READING_WIDER 2    /* the lower low and the higher high of both */

/* flags of an image: the optional parts that it has, added up. Of a part that is not there the fields are 0 and
 * the tables empty. */
#define PAMUKLID_PART_ELSEWHERE 1 /* automatic control outside the automatic segments, 97.221(c) */
#define PAMUKLID_PART_RESPONSE 2  /* it is only in answer to a station under local or remote control; not
                                     without PAMUKLID_PART_ELSEWHERE */
#define PAMUKLID_PART_CHANNELS 4  /* the channels of 60 m */
#define PAMUKLID_PART_EMISSIONS 8 /* the emissions of 60 m */
#define PAMUKLID_PART_PLAN 16     /* the voluntary band plan */

/* emissions of an image, added up */
#define PAMUKLID_EMISSION_DATA 1
#define PAMUKLID_EMISSION_CW 2
#define PAMUKLID_EMISSION_TEST 4
#define PAMUKLID_EMISSION_NOTHING 8

/* What an image is written from, beside its records: its edition, its general block, and how many records each
 * table has. Where a comment names a part, the field is 0 in an image without it. */
typedef struct {
    double data_limit;        /* the general width limit; above 0 */
    double elsewhere_limit;   /* PAMUKLID_PART_ELSEWHERE: the width limit outside the automatic segments */
    double channel_width;     /* PAMUKLID_PART_CHANNELS: a channel has half of it to each side of its centre */
    double carrier_offset;    /* PAMUKLID_PART_CHANNELS: the dial for data is the centre less this */
    double carrier_tolerance; /* PAMUKLID_PART_CHANNELS: how far the dial, or the middle of a CW signal, may
                                 be off */
    double channel_watts;     /* the watts of a 60 m channel; not looked at in edition 1, which goes by 100 */
    double segment_watts;     /* those of the 60 m segment; not looked at in edition 1, which goes by 9.15 */
    uint16_t edition;         /* 1 or 2 */
    uint16_t data_rule;       /* as every rule here: PAMUKLID_RULE_..., others the trustee's own numbers */
    uint16_t elsewhere_rule;  /* PAMUKLID_PART_ELSEWHERE */
    uint16_t automatic_rule;  /* of the automatic segments */
    uint16_t channels_rule;   /* PAMUKLID_PART_CHANNELS */
    uint16_t emissions_rule;  /* PAMUKLID_PART_EMISSIONS */
    uint16_t privileges_rule;
    uint16_t counts[PAMUKLID_TABLES]; /* counts[t] is how many records the table PAMUKLID_TABLE_... has, at
                                         most PAMUKLID_MOST_RECORDS */
    uint8_t region;           /* the ITU region, any number; compared with the station's */
    uint8_t reading;          /* PAMUKLID_READING_... */
    uint8_t flags;            /* PAMUKLID_PART_..., added up */
    uint8_t channel_band;     /* PAMUKLID_PART_CHANNELS: the number of the 60 m band */
    uint8_t sideband;         /* PAMUKLID_PART_CHANNELS: PAMUKLID_SIDEBAND_... of the channels */
    uint8_t emissions;        /* PAMUKLID_PART_EMISSIONS: PAMUKLID_EMISSION_... on 60 m, added up */
} pamuklid_fields;

/* How many figures, codes and rules a record has. */
#define PAMUKLID_RECORD_FIGURES 3 /* low, high, figure */
#define PAMUKLID_RECORD_CODES 4   /* band, class, emissions, flags of the record */
#define PAMUKLID_RECORD_RULES 2   /* rule, second rule */

/* place: where a table is wrong */
#define PAMUKLID_PLACE_NONE 0    /* no place is named */
#define PAMUKLID_PLACE_GENERAL 1 /* the general block */
#define PAMUKLID_PLACE_RECORD 2  /* a record of a table */

/* record where none is named */
#define PAMUKLID_RECORD_NONE 65535

/* Where a table is wrong. */
typedef struct {
    uint16_t record;      /* the record's index in its table, from 0; PAMUKLID_RECORD_NONE where place is not
                             PAMUKLID_PLACE_RECORD */
    uint8_t table;        /* PAMUKLID_TABLE_...; PAMUKLID_TABLE_NONE where place is not PAMUKLID_PLACE_RECORD */
    uint8_t place;        /* PAMUKLID_PLACE_... */
    uint8_t refusal;      /* as pamuklid_check: PAMUKLID_ACCEPTED, or the image's refusal, 1 to 14 */
} pamuklid_fault;

/* The version of the library that is linked. It belongs to this header where it is PAMUKLID_VERSION; of
 * another version no other call may be made. */
uint32_t pamuklid_version(void);

/* Whether an image is accepted: PAMUKLID_ACCEPTED (0), or its first refusal, 1 to 14. Reads image[0] to
 * image[n - 1]. */
uint8_t pamuklid_check(const uint8_t *image, size_t n);

/* Where a table is wrong. Of an image that is refused with 5 to 10, 12 or 13, place names the first part that
 * the number's own test meets: the general block, or else a record, by its table and its index, tables in the
 * image's order. Each record of a table whose part is absent meets 5. The numbers 1 to 4 are about the
 * image's form, 11 is about records that are missing, 14 about the general limit: they name no place, nor
 * does an accepted image. Reads image[0] to image[n - 1]. */
pamuklid_fault pamuklid_fault_of(const uint8_t *image, size_t n);

/* Whether an image's table is tidy: each data segment lies in a band of its number, and no two bands, no two
 * data segments and no two privileges of one class share a stretch. A table that is not tidy is judged all
 * the same; list and verdict may then differ. Reads image[0] to image[n - 1]. */
pamuklid_tidiness pamuklid_tidy(const uint8_t *image, size_t n);

/* A table's report, for a trustee who edits it: where records overlap, and where a class has no privilege for
 * data, as rows in the bytes lent. license: PAMUKLID_LICENSE_..., the class whose gaps are asked for.
 * First come the pairs of bands, then of data segments, then of privileges of one class (every class) that
 * share a stretch of positive length, by the first and the second index, the first the smaller; ranges that
 * only touch share none. Then the gaps, by segment, the lowest first: stretches of positive length, as long
 * as they can be, of which no privilege of the class covers a part, whatever emissions it lists. Touching
 * privileges leave no gap between them.
 * A table is tidy exactly if it has no overlap and each data segment lies in a band of its number.
 * rows[0] to rows[PAMUKLID_REPORT_ROW * count - 1] are written, every byte of them; bytes past them stay as
 * lent. On a refusal no byte of rows changes. rows_len / PAMUKLID_REPORT_ROW whole rows have room; a longer
 * report meets 25 (the rows are counted first), and PAMUKLID_MOST_REPORT rows have room for every one.
 * Reads image[0] to image[n - 1]. Refusals 20 (license), 1 to 14, 25. */
pamuklid_report pamuklid_report_of(const uint8_t *image, size_t n, uint8_t license, uint8_t *rows,
                                   size_t rows_len);

/* Writes an image of either edition from its fields and its records. The records of the nine tables come one
 * after the other, f.counts[t] of table t: the figures of all in figures, PAMUKLID_RECORD_FIGURES each, their
 * codes in codes, PAMUKLID_RECORD_CODES each, and their rules in rules, PAMUKLID_RECORD_RULES each. Which of
 * these a table uses, and with which values, stands in docs/IMAGE.md under "Records"; the others are 0.
 * figure_count, code_count and rule_count count elements. What is written is accepted by pamuklid_check, and
 * holds the fields and records as given. out[0] to out[length - 1] are written, the image; bytes past it stay
 * as lent. On a refusal no byte of out changes. out_len of PAMUKLID_IMAGE_MOST has room for every image.
 * Refusals 1 (more records than PAMUKLID_IMAGE_MOST_RECORDS), 3 (f.edition neither 1 nor 2), 4 (a count over
 * PAMUKLID_MOST_RECORDS, or a run that has not three figures, four codes or two rules for each record), 5 to
 * 14 as pamuklid_check has them for the image, 23. */
pamuklid_image pamuklid_write(pamuklid_fields f, const double *figures, size_t figure_count,
                              const uint8_t *codes, size_t code_count, const uint16_t *rules,
                              size_t rule_count, uint8_t *out, size_t out_len);

/* Edition 2 of an image of edition 1, with 100 and 9.15 as its watts. Every call answers the same for it, and
 * pamuklid_lower gives the same bytes back. out[0] to out[length - 1] are written, the image, 16 bytes longer
 * than the first; bytes past it stay as lent. On a refusal no byte of out changes. out_len of
 * PAMUKLID_IMAGE_MOST has room for every image. Reads image[0] to image[n - 1]. Refusals 1, 2, 3 (an image of
 * edition 2 too), 4 to 14, 23. */
pamuklid_image pamuklid_raise(const uint8_t *image, size_t n, uint8_t *out, size_t out_len);

/* Edition 1 of an image of edition 2, 16 bytes shorter. It holds no watts, so those of the image must be 100
 * and 9.15; others meet 26. Bytes as pamuklid_raise. Refusals 1, 2, 3 (an image of edition 1 too), 4 to 14,
 * 26, 23. */
pamuklid_image pamuklid_lower(const uint8_t *image, size_t n, uint8_t *out, size_t out_len);

/* The effective image of a day: image, the base, with each record replaced by the amendment in the list that is
 * in force for it. That is the one of the latest day not after the day asked, and of equal days the later in the
 * list. Where none is in force, the record is the base's; with none at all, the effective image is the base. No
 * count and no field of the general block changes. list holds list_len / PAMUKLID_AMENDMENT amendments, in any
 * order and as many as there are; of those that are not in force the record is not looked at.
 * out[0] to out[length - 1] are written, the effective image, as long as the base; bytes past it stay as lent.
 * On a refusal no byte of out changes. The image, the list and out are runs of bytes of their own: an image is
 * not amended in place. Reads image[0] to image[n - 1] and list[0] to list[list_len - 1]; the time is that of
 * the image and of the list, not of their product.
 * Refusals 1 to 14 of the base; 27 (list_len is no multiple of PAMUKLID_AMENDMENT, or anywhere in the list, in
 * force or not, a table above 8 or an index beyond its table); 28 (out_len below n); then 5 to 10, 12 and 13 of
 * the effective image, as pamuklid_check would have them. */
pamuklid_image pamuklid_amend(const uint8_t *image, size_t n, const uint8_t *list, size_t list_len,
                              uint32_t day, uint8_t *out, size_t out_len);

/* The calls that take or give a station have other symbols in the library since the station has two margins
 * (0.10.0), so that what was compiled with an older header, for a station of 32 bytes, does not link: it is
 * to be compiled again. In a program they have the names that are used below. */
#define pamuklid_fresh pamuklid_fresh_2
#define pamuklid_evaluate pamuklid_evaluate_2
#define pamuklid_unmeasured pamuklid_unmeasured_2
#define pamuklid_ceiling_of pamuklid_ceiling_of_2
#define pamuklid_safe_dials pamuklid_safe_dials_2

/* A fresh station: PAMUKLID_POLICY_UNSET, region 2, margins 50 and 50, plan off, all else absent. It permits
 * nothing. A station of zero bytes is not fresh: control, license and sideband 0 are local, Novice and
 * upper. */
pamuklid_station pamuklid_fresh(void);

/* Judge a transmission. kind: PAMUKLID_KIND_... direction: PAMUKLID_DIRECTION_... Reads the image with
 * PAMUKLID_POLICY_RULES only. Refusals 20 to 22, 1 to 14, 15. */
pamuklid_decision pamuklid_evaluate(pamuklid_station s, uint8_t kind, uint8_t direction,
                                    pamuklid_edges e, const uint8_t *image, size_t n);

/* The answer for a transmission whose spectrum is not known: PAMUKLID_BLOCKED, PAMUKLID_CODE_UNMEASURED,
 * audio 0 to 0; or the refusal of the station or the image. Reads the image with PAMUKLID_POLICY_RULES only.
 * Refusals 20 to 22, 1 to 14. */
pamuklid_decision pamuklid_unmeasured(pamuklid_station s, const uint8_t *image, size_t n);

/* The fastest rung that may be sent, and the answer on the first that may not.
 * direction: PAMUKLID_DIRECTION_... ordinary, floor: the edges of the two control frames.
 * rungs: figures in fours, power_low, power_high, spectral_low, spectral_high of each rung, the slowest
 * first; figures counts the doubles, PAMUKLID_RUNG_FIGURES times the rungs (0 to 1024). floors: a byte for
 * each rung, 1 where it goes with the floor control frame, 0 with the ordinary one; floor_count counts them.
 * Rungs are climbed from the slowest on; each is judged with what the slower ones occupy, and the climb
 * ends at the first that is blocked. No rungs: neither rung nor limit, under every policy.
 * Reads every figure and every floor byte, the image with PAMUKLID_POLICY_RULES only. Refusals 20 to 22,
 * 1 to 14, 15 (any figure of the rungs or of the two control frames), 16. */
pamuklid_ceiling pamuklid_ceiling_of(pamuklid_station s, uint8_t direction, pamuklid_edges ordinary,
                                     pamuklid_edges floor, const uint8_t *image, size_t n,
                                     const double *rungs, size_t figures, const uint8_t *floors,
                                     size_t floor_count);

/* A walk is the climb of pamuklid_ceiling_of a rung at a time, under one of two images, so that a table can be
 * loaded while a modem climbs: the walk finishes under the table it began with, the next begins under the new.
 *
 *     pamuklid_walk w = pamuklid_walk_first();      once; image 0 is in force
 *     w = pamuklid_walk_open(w).state;              a walk begins, under the image in force
 *     pamuklid_step t = pamuklid_walk_step(w, ...); judges one rung; w = t.state; again until t.over
 *     w = pamuklid_walk_swap(w).state;              at any time: the other image is to be in force
 *
 * Look at the refusal of each; the state goes on unchanged after one. */

/* The first state: image 0 in force, no walk open, no swap waiting. */
pamuklid_walk pamuklid_walk_first(void);

/* Changes to the other image: at once with no walk open, else in the step that ends the walk. Refusals 29 (a
 * swap waits already), 20 (a state that no call gives). */
pamuklid_walk_answer pamuklid_walk_swap(pamuklid_walk w);

/* Opens a walk, under the image in force. Refusals 30 (one is open already), 20 (a state that no call gives). */
pamuklid_walk_answer pamuklid_walk_open(pamuklid_walk w);

/* Judges the rung at the walk's place, with what the rungs before it occupy, and none of these again. The
 * ceiling is that of the rungs judged so far. The walk is over with its first blocked rung or its last rung;
 * where no rung is lent at its place it is over too, and nothing is judged. A swap that waits takes force then.
 * image_0 and image_1 are the two images; the walk's alone is read, the other may be anything. All else as
 * pamuklid_ceiling_of has it; lend all rungs to every step.
 * If every step of a walk is lent the same images, rungs, control frames, direction and station, the last one's
 * ceiling is that of one pamuklid_ceiling_of on the image in force as the walk was opened, whatever swaps came
 * between. Lent others, a step goes by what it is lent, and by what was judged and occupied before.
 * On a refusal the state comes back as it came, over is 0, and the ceiling is that of a refusal. A walk whose
 * image is refused stays open until the image is lent whole again.
 * Refusals 30 (no walk is open), 20 (a state that no call gives), then those of pamuklid_ceiling_of in their
 * order, over all that is lent: 20 to 22, 1 to 14 (of the walk's image), 15, 16. */
pamuklid_step pamuklid_walk_step(pamuklid_walk w, pamuklid_station s, uint8_t direction,
                                 pamuklid_edges ordinary, pamuklid_edges floor, const uint8_t *image_0,
                                 size_t n_0, const uint8_t *image_1, size_t n_1, const double *rungs,
                                 size_t figures, const uint8_t *floors, size_t floor_count);

/* The dials at which a data signal of these edges stays inside the rules, with the margins to spare, as
 * rows in the bytes lent, by their lower dial (rows of equal lower dial as the image has them).
 * The station's dial is not asked for. With another policy than PAMUKLID_POLICY_RULES, or where control,
 * license or sideband is absent, the list is empty (count 0, PAMUKLID_ACCEPTED).
 * rows[0] to rows[PAMUKLID_ROW * count - 1] are written, every byte of them; rows past them stay as lent. On
 * a refusal no byte of rows changes. rows_len / PAMUKLID_ROW whole rows have room; a longer list meets 23
 * (the rows are counted first). Reads the image with PAMUKLID_POLICY_RULES only. Refusals 20 to 22, 1 to 14,
 * 15, 23. */
pamuklid_dials pamuklid_safe_dials(pamuklid_station s, uint8_t direction, pamuklid_edges e,
                                   const uint8_t *image, size_t n, uint8_t *rows, size_t rows_len);

/* A census of a band, for a trustee who compares tables: how many of the whole-hertz dials from first to last, both
 * included, get each code. Each dial is judged as pamuklid_evaluate would with it as the station's dial; the
 * station's own dial is not looked at (dial_known is 0 or 1 all the same). The counts' total is
 * last - first + 1, and those of a stretch in two parts add up to those of the whole: split a stretch of more
 * than PAMUKLID_MOST_DIALS. The image is checked once. Reads it with PAMUKLID_POLICY_RULES only.
 * Refusals 20 to 22, 1 to 14, 15, 33 (first above last, or more dials than PAMUKLID_MOST_DIALS), 34. */
pamuklid_census pamuklid_census_of(pamuklid_station s, uint8_t kind, uint8_t direction, pamuklid_edges e,
                                   const uint8_t *image, size_t n, int64_t first, int64_t last);

/* How far a dial stands from the nearest of the first count rows of a finished list: below the row's
 * lower dial, above its upper, 0 on or between them. Rows of the channel band (60 m) do not count.
 * flags and channel_band are image[PAMUKLID_IMAGE_FLAGS] and image[PAMUKLID_IMAGE_CHANNEL_BAND] of the list's
 * image; count is the list's. A dial of negative zero reads as zero. Where no row counts, listed is 0 and
 * distance_hz +infinity.
 * For a tidy table whose figures, like edges, margins and dial, are whole eighths of a hertz, distance 0
 * says that pamuklid_evaluate allows data at that dial, and anything else that it does not (see README,
 * demand 3, for all that this asks). Rows that no list call wrote: one whose lower dial is not at most its
 * upper, or is no number, does not count.
 * Reads rows[0] to rows[PAMUKLID_ROW * count - 1] and changes no byte. Refusals: 21 the dial, 23 fewer than
 * count whole rows in rows_len bytes. */
pamuklid_distance pamuklid_distance_of(double dial_hz, uint8_t flags, uint8_t channel_band, uint32_t count,
                                       const uint8_t *rows, size_t rows_len);

/* Where to move the dial. Of the dials in whole eighths of a hertz whose signal with its margins the channel band
 * (60 m) does not hold: the one at which pamuklid_evaluate allows data and no such dial is closer to the
 * station's; of two equally close the lower. It is the station's dial itself where that is one of them. There
 * is none (PAMUKLID_NEAREST_NONE) exactly if pamuklid_safe_dials would list no row outside the channel band.
 * The station's dial may lie in the channel band; what is allowed there does not count.
 * The answer is PAMUKLID_NEAREST_NOT_JUDGED where nothing is refused and one of these fails, and only there:
 *   - the policy is PAMUKLID_POLICY_RULES, and the table is tidy (pamuklid_tidy);
 *   - the station is in the table's region, and its control, license, sideband and dial are known;
 *   - the width of the edges that the table reads, plus both margins, is above 0;
 *   - every figure in hertz is a whole number of eighths and at most 2^38 (274877906944) in size: those of the
 *     image (with the plan off too; watts are none), of both pairs of edges, of the margins and of the dial.
 * The dial given may be up to 3 * 2^38 in size; from one above 2^38 the next question is not judged.
 * Reads the image with PAMUKLID_POLICY_RULES only. Refusals 20 to 22, 1 to 14, 15. */
pamuklid_nearest pamuklid_nearest_dial(pamuklid_station s, uint8_t direction, pamuklid_edges e,
                                       const uint8_t *image, size_t n);

/* The text of a frequency in kilohertz with three decimals, for a panel or a log: 14097700 is "14097.700".
 * The digits are those of hz / 1000, a double, by its exact value, to the nearest thousandth, a half to the
 * even one; a sign "-" is written wherever hz has one, of a zero too.
 * text[0] to text[length - 1] are written, ASCII, with no unit and no byte 0 after them; bytes past them
 * stay as lent, and on a refusal all do. PAMUKLID_MOST_TEXT bytes have room for every text. Refusals: 21
 * (hz not finite or above 2^43, 8796093022208, in size), 24 (room too small). */
pamuklid_text pamuklid_text_at(double hz, uint8_t *text, size_t room);

/* The same with as many decimals as it needs: none where hz / 1000 is within a millionth of a whole
 * number, one where ten times it is, else three. 14100000 is "14100", 14097700 "14097.7", 14097750
 * "14097.750". */
pamuklid_text pamuklid_text_khz(double hz, uint8_t *text, size_t room);

/* The text of a figure in whole hertz: 2300.5 is "2300", -0.5 "-0". Bytes and refusals as
 * pamuklid_text_at. */
pamuklid_text pamuklid_text_hertz(double hz, uint8_t *text, size_t room);

/* Time on the air, for a limit on how long a station holds a shared channel. Record i of a log began at
 * starts[i], a second on any clock, on bands[i], any number, and lasted seconds[i]. totals[i] is then the
 * seconds of its band over itself and the earlier records that start at most 599 seconds before it: of records
 * that start in the same second those before it in the log. A total stays below 2^32.
 * Each of totals[0] to totals[count - 1] is written, and there are no others. On a refusal none changes. The
 * time is that of one pass, whatever the starts.
 * Refusals: 31 (a start below the one before, anywhere in the log; equal ones are in order), then 32 (the four
 * counts of elements are not equal, or above PAMUKLID_MOST_LOG). */
pamuklid_airtime pamuklid_airtime_of(const uint64_t *starts, size_t start_count, const uint8_t *bands,
                                     size_t band_count, const uint16_t *seconds, size_t second_count,
                                     uint64_t *totals, size_t total_count);

#ifdef __cplusplus
}
#endif

/* Where a compiler lays the structs out otherwise than the library, it stops here. */
#if defined(__cplusplus)
#if __cplusplus >= 201103L
#define PAMUKLID_ASSERT(test, text) static_assert(test, text)
#endif
#elif defined(__STDC_VERSION__)
#if __STDC_VERSION__ >= 201112L
#define PAMUKLID_ASSERT(test, text) _Static_assert(test, text)
#endif
#endif

#ifdef PAMUKLID_ASSERT
#define PAMUKLID_SIZE(type, bytes) PAMUKLID_ASSERT(sizeof(type) == (bytes), "size of " #type)
#define PAMUKLID_AT(type, field, at) PAMUKLID_ASSERT(offsetof(type, field) == (at), "offset of " #type "." #field)

PAMUKLID_SIZE(pamuklid_station, 40);
PAMUKLID_AT(pamuklid_station, margin_lower_hz, 0);
PAMUKLID_AT(pamuklid_station, margin_upper_hz, 8);
PAMUKLID_AT(pamuklid_station, dial_hz, 16);
PAMUKLID_AT(pamuklid_station, power_w, 24);
PAMUKLID_AT(pamuklid_station, policy, 32);
PAMUKLID_AT(pamuklid_station, control, 33);
PAMUKLID_AT(pamuklid_station, license, 34);
PAMUKLID_AT(pamuklid_station, sideband, 35);
PAMUKLID_AT(pamuklid_station, itu_region, 36);
PAMUKLID_AT(pamuklid_station, band_plan, 37);
PAMUKLID_AT(pamuklid_station, dial_known, 38);
PAMUKLID_AT(pamuklid_station, power_known, 39);

PAMUKLID_SIZE(pamuklid_edges, 32);
PAMUKLID_AT(pamuklid_edges, power_low, 0);
PAMUKLID_AT(pamuklid_edges, power_high, 8);
PAMUKLID_AT(pamuklid_edges, spectral_low, 16);
PAMUKLID_AT(pamuklid_edges, spectral_high, 24);

PAMUKLID_SIZE(pamuklid_decision, 360);
PAMUKLID_AT(pamuklid_decision, segment_low, 0);
PAMUKLID_AT(pamuklid_decision, segment_high, 8);
PAMUKLID_AT(pamuklid_decision, automatic_low, 16);
PAMUKLID_AT(pamuklid_decision, automatic_high, 24);
PAMUKLID_AT(pamuklid_decision, audio_low, 32);
PAMUKLID_AT(pamuklid_decision, audio_high, 40);
PAMUKLID_AT(pamuklid_decision, width, 48);
PAMUKLID_AT(pamuklid_decision, air_low, 56);
PAMUKLID_AT(pamuklid_decision, air_high, 64);
PAMUKLID_AT(pamuklid_decision, beyond_hz, 72);
PAMUKLID_AT(pamuklid_decision, rule, 80);
PAMUKLID_AT(pamuklid_decision, segment_rule, 82);
PAMUKLID_AT(pamuklid_decision, guidance_index, 84);
PAMUKLID_AT(pamuklid_decision, refusal, 86);
PAMUKLID_AT(pamuklid_decision, verdict, 87);
PAMUKLID_AT(pamuklid_decision, code, 88);
PAMUKLID_AT(pamuklid_decision, rule_known, 89);
PAMUKLID_AT(pamuklid_decision, band_known, 90);
PAMUKLID_AT(pamuklid_decision, band, 91);
PAMUKLID_AT(pamuklid_decision, segment_known, 92);
PAMUKLID_AT(pamuklid_decision, automatic_known, 93);
PAMUKLID_AT(pamuklid_decision, audio_known, 94);
PAMUKLID_AT(pamuklid_decision, air_known, 95);
PAMUKLID_AT(pamuklid_decision, overshoot, 96);
PAMUKLID_AT(pamuklid_decision, edge, 97);
PAMUKLID_AT(pamuklid_decision, guidance, 98);
PAMUKLID_AT(pamuklid_decision, note_channel_power, 99);
PAMUKLID_AT(pamuklid_decision, note_shared, 100);
PAMUKLID_AT(pamuklid_decision, note_segment_power, 101);
PAMUKLID_AT(pamuklid_decision, notes, 102);

PAMUKLID_SIZE(pamuklid_ceiling, 368);
PAMUKLID_AT(pamuklid_ceiling, limit, 0);
PAMUKLID_AT(pamuklid_ceiling, rung, 360);
PAMUKLID_AT(pamuklid_ceiling, limit_known, 364);
PAMUKLID_AT(pamuklid_ceiling, refusal, 365);

PAMUKLID_SIZE(pamuklid_walk, 40);
PAMUKLID_AT(pamuklid_walk, occupied, 0);
PAMUKLID_AT(pamuklid_walk, place, 32);
PAMUKLID_AT(pamuklid_walk, image, 36);
PAMUKLID_AT(pamuklid_walk, waiting, 37);
PAMUKLID_AT(pamuklid_walk, walking, 38);

PAMUKLID_SIZE(pamuklid_walk_answer, 48);
PAMUKLID_AT(pamuklid_walk_answer, state, 0);
PAMUKLID_AT(pamuklid_walk_answer, refusal, 40);

PAMUKLID_SIZE(pamuklid_step, 416);
PAMUKLID_AT(pamuklid_step, ceiling, 0);
PAMUKLID_AT(pamuklid_step, state, 368);
PAMUKLID_AT(pamuklid_step, over, 408);

PAMUKLID_SIZE(pamuklid_dials, 8);
PAMUKLID_AT(pamuklid_dials, count, 0);
PAMUKLID_AT(pamuklid_dials, refusal, 4);

PAMUKLID_SIZE(pamuklid_distance, 16);
PAMUKLID_AT(pamuklid_distance, distance_hz, 0);
PAMUKLID_AT(pamuklid_distance, listed, 8);
PAMUKLID_AT(pamuklid_distance, refusal, 9);

PAMUKLID_SIZE(pamuklid_nearest, 16);
PAMUKLID_AT(pamuklid_nearest, dial_hz, 0);
PAMUKLID_AT(pamuklid_nearest, answer, 8);
PAMUKLID_AT(pamuklid_nearest, refusal, 9);

PAMUKLID_SIZE(pamuklid_report, 8);
PAMUKLID_AT(pamuklid_report, count, 0);
PAMUKLID_AT(pamuklid_report, refusal, 4);

PAMUKLID_SIZE(pamuklid_fields, 96);
PAMUKLID_AT(pamuklid_fields, data_limit, 0);
PAMUKLID_AT(pamuklid_fields, elsewhere_limit, 8);
PAMUKLID_AT(pamuklid_fields, channel_width, 16);
PAMUKLID_AT(pamuklid_fields, carrier_offset, 24);
PAMUKLID_AT(pamuklid_fields, carrier_tolerance, 32);
PAMUKLID_AT(pamuklid_fields, channel_watts, 40);
PAMUKLID_AT(pamuklid_fields, segment_watts, 48);
PAMUKLID_AT(pamuklid_fields, edition, 56);
PAMUKLID_AT(pamuklid_fields, data_rule, 58);
PAMUKLID_AT(pamuklid_fields, elsewhere_rule, 60);
PAMUKLID_AT(pamuklid_fields, automatic_rule, 62);
PAMUKLID_AT(pamuklid_fields, channels_rule, 64);
PAMUKLID_AT(pamuklid_fields, emissions_rule, 66);
PAMUKLID_AT(pamuklid_fields, privileges_rule, 68);
PAMUKLID_AT(pamuklid_fields, counts, 70);
PAMUKLID_AT(pamuklid_fields, region, 88);
PAMUKLID_AT(pamuklid_fields, reading, 89);
PAMUKLID_AT(pamuklid_fields, flags, 90);
PAMUKLID_AT(pamuklid_fields, channel_band, 91);
PAMUKLID_AT(pamuklid_fields, sideband, 92);
PAMUKLID_AT(pamuklid_fields, emissions, 93);

PAMUKLID_SIZE(pamuklid_image, 8);
PAMUKLID_AT(pamuklid_image, length, 0);
PAMUKLID_AT(pamuklid_image, refusal, 4);

PAMUKLID_SIZE(pamuklid_text, 8);
PAMUKLID_AT(pamuklid_text, length, 0);
PAMUKLID_AT(pamuklid_text, refusal, 4);

PAMUKLID_SIZE(pamuklid_airtime, 8);
PAMUKLID_AT(pamuklid_airtime, count, 0);
PAMUKLID_AT(pamuklid_airtime, refusal, 4);

PAMUKLID_SIZE(pamuklid_census, 104);
PAMUKLID_AT(pamuklid_census, counts, 0);
PAMUKLID_AT(pamuklid_census, refusal, 100);

PAMUKLID_SIZE(pamuklid_tidiness, 2);
PAMUKLID_AT(pamuklid_tidiness, tidy, 0);
PAMUKLID_AT(pamuklid_tidiness, refusal, 1);

PAMUKLID_SIZE(pamuklid_fault, 6);
PAMUKLID_AT(pamuklid_fault, record, 0);
PAMUKLID_AT(pamuklid_fault, table, 2);
PAMUKLID_AT(pamuklid_fault, place, 3);
PAMUKLID_AT(pamuklid_fault, refusal, 4);

#undef PAMUKLID_AT
#undef PAMUKLID_SIZE
#undef PAMUKLID_ASSERT
#endif

#endif
