/*
 * loadline.h: load-line marks that are proved.
 *
 * From a ship record of at most 123 bytes, of version 1 to 4: the six marks of the load-line Convention's Annex I with the
 * 2003 amendments, and the six timber marks where they are asked for, or one numbered refusal; the shortest poop for a wished
 * summer mark; a reader and a writer of the record.
 *
 * For x86-64 Linux. Link libloadline.a, or libloadline.so; ./library makes both. They need memcpy and memset, and nothing else.
 * No call allocates, keeps state, prints or fails in any way but a numbered refusal. Any number of threads may call at
 * once. Every byte string and every number is a permissible argument: nothing has to be checked before a call.
 *
 * What is proved (in Rattle; docs/PROMISES.md has the list): for every byte string and every number, the marks, ship,
 * length or refusal that come back, and each byte of the buffer afterwards.
 * What is not proved:
 *   - that pointer and length describe memory which the caller owns, and which no other thread writes during the call;
 *   - that this header describes the library, which examples/run tries; nor the machine code that the compiler makes;
 *   - the machine's stack: no contract says how much of it a call needs;
 *   - 57 of the 684 rows of tables 28.1 and 28.2: they have not been held against paper, and for twelve of them the source
 *     does not show the number (docs/TABLES.md lists all);
 *   - that the definitions say what the Convention means (docs/DECISIONS.md has the readings). One is known to give less
 *     freeboard than its text: excess sheer counts in full where the house amidships is low, and 38(16) would reduce it.
 * A proved archive is known by what ./library prints beside it: the kit that proved it (rt version), the commit and the
 * archive's SHA-256.
 *
 * Refusals. The order of the lines is the order of the checks: the first that applies is given. The place is 0 where none is
 * named. The overlap is 0 beside every refusal but 11.
 * Calls: M loadline_marks, P loadline_shortest_poop, R loadline_read, W loadline_write.
 *
 *   No.  When                                                              Place                         Calls
 *    1   under 27 bytes                                                                                  M P R
 *    2   version 0 or above 4                                                                            M P R
 *    3   type above 4; above 1 in a record of version 1                                                  M P R W
 *   24   timber flag on a type A ship                                                                    M P R W
 *    4   n above 8                                                                                       M P R W
 *    5   length is not 27 + 8n; 27 + 12n in a record of version 3 or 4                                   M P R
 *    6   a spare bit set                                                                                 M P R
 *    7   a field 1 to 13 outside its range or bits                         lowest such field             M P R W
 *   22   type B-60 or B-100 of 100 m or less, or portable covers
 *        beyond 200 m                                                                                    M P R W
 *    8   one of fields 12, 13 zero and not the other                                                     M P R W
 *    9   house: fore end not above aft end, fore end at or below 0,
 *        aft end at or above L, aft end below -20000, fore end
 *        above L + 20000, height outside 1 to 8191                         first such house, from 0      M P R W
 *   23   house: one breadth alone zero, the house's above the ship's, more
 *        than 4 per cent of the ship's inside on a side (23 beam >
 *        25 breadth), or, in W, a breadth above 65535                      first such house, from 0      M P R W
 *   10   raised quarterdeck: not enclosed, aft end above 0,
 *        or fore end at or above L                                         first such house, from 0      M P R W
 *        11 and 18 are one check: the first house whose aft end is below
 *        the previous house's fore end decides which is given.
 *   18   out of order: its aft end is below the previous aft end too       that house, from 0            M P R W
 *   11   overlap: it is not. The overlap is the smaller of the two fore
 *        ends minus the later aft end, the mm that lie in both houses      that house, from 0            M P R W
 *   12   summer mark at or above D                                                                       M
 *   13   fresh allowance above summer draught                                                            M
 *   14   poop's height outside 1 to 8191, or wish outside 50 to 60000                                    P
 *   15   first house has its aft end at or below 0, or n is 8                                            P
 *   16   no length fits                                                                                  P
 *   17   buffer shorter than the record                                                                  W
 */
#ifndef LOADLINE_H
#define LOADLINE_H

#include <stddef.h>
#include <stdint.h>

/* Another number with every change of a struct, a call, or what a number of an answer may be. The shared library carries it
 * in its own name, libloadline.so.N, so that no program that was linked to one loads it for another.
 * 2: every answer has an overlap. 3: kinds 2 to 4, refusal 22. 4: a house has breadths, refusal 23. 5: a ship has a timber
 * flag and the marks six timber marks, refusal 24. */
#define LOADLINE_HEADER 5

#ifdef __cplusplus
extern "C" {
#endif

/* What an answer's `refusal` may be. */
enum loadline_refusal {
    LOADLINE_ACCEPTED = 0,
    LOADLINE_SHORT_RECORD = 1,
    LOADLINE_VERSION = 2,
    LOADLINE_SHIP_TYPE = 3,
    LOADLINE_HOUSE_COUNT = 4,
    LOADLINE_RECORD_LENGTH = 5,
    LOADLINE_SPARE_BIT = 6,
    LOADLINE_FIELD_RANGE = 7,
    LOADLINE_HALF_CERTIFIED = 8,
    LOADLINE_HOUSE_EXTENT = 9,
    LOADLINE_QUARTERDECK = 10,
    LOADLINE_OVERLAP = 11,
    LOADLINE_NO_DRAUGHT = 12,
    LOADLINE_FRESH_ALLOWANCE = 13,
    LOADLINE_QUESTION_RANGE = 14,
    LOADLINE_NO_ROOM_FOR_POOP = 15,
    LOADLINE_NO_LENGTH_FITS = 16,
    LOADLINE_SHORT_BUFFER = 17,
    LOADLINE_OUT_OF_ORDER = 18,
    LOADLINE_LENGTH_FOR_TYPE = 22,
    LOADLINE_BREADTHS = 23,
    LOADLINE_TIMBER_FOR_A = 24
};

/* What a ship's `kind` may be: its type, as regulation 27 has it. All but A are type B ships, whose
 * ordinary marks are worked alike, but for the line that they begin from and the least freeboard. The version is that in
 * which a ship without the timber flag is written whose houses all have full breadth; if one of them has breadths, equal ones
 * too, it is 3, and with the flag 4. Timber marks have no least freeboard, and begin from the line of the type, for B-60 and
 * B-100 from B's.
 *
 *   Type             The line                                                     Least S and T   Version
 *   A                table 28.1                                                   50 mm           1
 *   B                table 28.2                                                   50 mm           1
 *   B-60             B less 60 per cent of B - A, up to um; L above 100 m         50 mm           2
 *   B-100            B less all of B - A, which is A; L above 100 m               50 mm           2
 *   portable covers  B plus table 27.1; L to 200 m                                150 mm          2 */
enum loadline_kind {
    LOADLINE_TYPE_A = 0,
    LOADLINE_TYPE_B = 1,
    LOADLINE_TYPE_B_60 = 2,
    LOADLINE_TYPE_B_100 = 3,
    LOADLINE_TYPE_B_PORTABLE_COVERS = 4
};

/* A record has 27 + 8n bytes for n houses, and 27 + 12n in versions 3 and 4. To take one from a file, read up to
 * LOADLINE_MOST_BYTES + 1 bytes: the one more tells a longer file, which is refused, from a record. */
enum { LOADLINE_LEAST_BYTES = 27, LOADLINE_MOST_BYTES = 123, LOADLINE_MOST_HOUSES = 8 };

/* A house on the freeboard deck. Its ends are stations, in mm forward of the after perpendicular; abaft it they are
 * negative. A flag reads as 0 or 1; for writing, 0 is no and any other number is yes. */
typedef struct {
    uint64_t enclosed;      /* flag; only an enclosed house counts for the marks */
    uint64_t quarterdeck;   /* flag: a raised quarterdeck */
    int64_t aft;            /* aft end, mm, -20000 to below L */
    int64_t fore;           /* fore end, mm, above 0 and to L + 20000 */
    uint64_t height;        /* mm, 1 to 8191 */
    uint64_t breadth;       /* of set-in sides: the house's breadth, mm, to 65535; 0 and 0 is full breadth */
    uint64_t beam;          /* and the ship's, both at the middle of the house */
} loadline_house;

/* A ship. The numbers are those of refusal 7's fields. Its flag is as a house's: it reads as 0 or 1, and for writing any
 * number but 0 is yes. */
typedef struct {
    uint64_t kind;          /* type, one of loadline_kind: 0 to 4 */
    uint64_t n;             /* houses, 0 to 8 */
    uint64_t timber;        /* flag: timber freeboards are asked for, with a deck cargo and a ship as regulations 43 and 44
                               want them, which is not tested */
    uint64_t length;        /*  1 L, mm, 24000 to 365000 */
    uint64_t depth;         /*  2 D, depth for freeboard, mm, 1000 to 60000 */
    uint64_t moulded;       /*  3 M, least moulded depth, mm, 1000 to 60000 */
    uint64_t block;         /*  4 Cb, block coefficient, 1/10000, 1 to 12000 */
    uint64_t waterplane;    /*  5 Cwf, coefficient of the waterplane forward, 1/10000, 1 to 10000 */
    int64_t sheer[6];       /*  6 to 11, mm, -8192 to 8191: AP, L/6, L/3 from AP, then L/3, L/6 from FP, FP */
    uint64_t displacement;  /* 12 t, to 1048575; 0 is not certified */
    uint64_t immersion;     /* 13 1/100 t per cm, to 65535; 0 is not certified */
    loadline_house houses[LOADLINE_MOST_HOUSES];     /* the first n, in order from aft; they may touch, not overlap */
} loadline_ship;

/* Every answer begins with the refusal's number, 0 for none, its place, and the overlap in mm, which is at least 1 for
 * LOADLINE_OVERLAP and 0 otherwise. Beside a refusal all else is 0. */
typedef struct {
    uint64_t refusal, place, overlap;
    int64_t s, t, w, wna, f, tf;    /* freeboards, mm: summer, tropical, winter, winter North Atlantic, fresh,
                                       tropical fresh. s and t are at least 50, with portable covers 150;
                                       f and tf may be negative */
    int64_t ls, lt, lw, lwna, lf, ltf;  /* timber freeboards, mm: summer, tropical, winter, winter North Atlantic, fresh,
                                       tropical fresh; all but lwna may be negative. All six are 0 without the flag, and
                                       where LS would be at or above D, which only B-60 and B-100 can have. Otherwise
                                       lwna is above 0 */
} loadline_marks_answer;

typedef struct {
    uint64_t refusal, place, overlap;
    uint64_t decimetres;            /* the poop's length, dm; 0: none is needed */
} loadline_poop_answer;

typedef struct {
    uint64_t refusal, place, overlap;
    loadline_ship ship;             /* places beyond n are 0 */
} loadline_read_answer;

typedef struct {
    uint64_t refusal, place, overlap;
    uint64_t bytes;                 /* the record's length */
} loadline_write_answer;

/* In all calls the pointer is to `length` bytes; with length 0 it may be NULL. A record is never changed. */

/* The six marks of a record, and its six timber marks if it has the flag. S is never below the value worked without
 * rounding, and less than 1.1 mm above it; and so is LS, where it is given. LT is at most LS, and LS at most LW, but where a
 * B-60 or B-100 ship's LW is level with its W. Of types B and B with portable covers LS is at most S. The flag changes no
 * ordinary mark. Refuses 1 to 13, 18 and 22 to 24. */
loadline_marks_answer loadline_marks(const uint8_t *record, size_t length);

/* The shortest poop for which the record's ship would have marks with S at most `wish` mm: an enclosed house of `height` mm
 * from the after perpendicular, set before the others, in whole decimetres up to L. Every shorter one has been ruled out.
 * It asks by the ship's own type: with portable covers S is never below 150 mm, so that a wish of 50 to 149 has no length (16).
 * The poop has full breadth. The wish is for S, with the timber flag too.
 * Refuses 1 to 11, 18 and 22 to 24, then 14 to 16. The record's own marks need not exist: 12 and 13 are no refusals here. */
loadline_poop_answer loadline_shortest_poop(const uint8_t *record, size_t length, uint64_t height, uint64_t wish);

/* The ship of a record of any version. Writing it gives the same bytes back where the record is in the lowest version that
 * holds the ship: 4 with the timber flag, else 3 for a ship of whose houses one has breadths, else 1 for types A and B and 2
 * for the others. Otherwise it gives a record of that version, which is no longer and reads as the same ship.
 * Refuses 1 to 11, 18 and 22 to 24. */
loadline_read_answer loadline_read(const uint8_t *record, size_t length);

/* Writes the ship's record at the buffer's start, in the lowest version that holds the ship. Reading it gives the ship back.
 * Places beyond n are ignored. An accepted write changes the first `bytes` bytes only, a refused one none. A number too big
 * for the record is refused as any other outside its range. Refuses 3, 24, 4, 7 to 11, 18, 22, 23 and 17; 17 comes last, so
 * that a short buffer hides no fault of the ship. */
loadline_write_answer loadline_write(uint8_t *buffer, size_t length, loadline_ship ship);

#ifdef __cplusplus
}
#endif

#endif
