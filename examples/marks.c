/* Prints the marks of a ship record, then what the other three calls say of it.
 * Build: cc -Iinclude examples/marks.c target/lib/libloadline.a -o marks */
#include <errno.h>
#include <inttypes.h>
#include <stdbool.h>
#include <stdio.h>
#include <stdlib.h>
#include <string.h>

#include "loadline.h"

/* The types of loadline_kind, as an office writes them. */
static const char *const types[] = {
    [LOADLINE_TYPE_A] = "A",
    [LOADLINE_TYPE_B] = "B",
    [LOADLINE_TYPE_B_60] = "B-60",
    [LOADLINE_TYPE_B_100] = "B-100",
    [LOADLINE_TYPE_B_PORTABLE_COVERS] = "B with portable covers",
};

/* Reads up to `room` bytes of a file; false, with errno set, if it cannot be read. */
static bool load(const char *path, uint8_t *bytes, size_t room, size_t *length)
{
    FILE *file = fopen(path, "rb");
    if (file == NULL)
        return false;
    *length = fread(bytes, 1, room, file);
    bool good = !ferror(file);
    int why = errno;    /* fclose may change it */
    fclose(file);
    errno = why;
    return good;
}

/* A refusal with its place; houses that overlap, with the mm by which they do. */
static void refused(uint64_t number, uint64_t place, uint64_t overlap)
{
    printf("refused %" PRIu64 " %" PRIu64, number, place);
    if (number == LOADLINE_OVERLAP)
        printf(" %" PRIu64, overlap);
    printf("\n");
}

/* The six marks, and the six timber marks if they are asked for: zeros where there are none. */
static void show(loadline_marks_answer m, bool timber)
{
    printf("S %" PRId64 " T %" PRId64 " W %" PRId64 " WNA %" PRId64 " F %" PRId64 " TF %" PRId64,
           m.s, m.t, m.w, m.wna, m.f, m.tf);
    if (timber)
        printf(" LS %" PRId64 " LT %" PRId64 " LW %" PRId64 " LWNA %" PRId64 " LF %" PRId64 " LTF %" PRId64,
               m.ls, m.lt, m.lw, m.lwna, m.lf, m.ltf);
    printf("\n");
}

int main(int argc, char **argv)
{
    if (argc != 2) {
        fprintf(stderr, "usage: marks RECORD\n");
        return EXIT_FAILURE;
    }
    /* One byte more than a record can have: a longer file is refused, not cut to a record. */
    uint8_t record[LOADLINE_MOST_BYTES + 1];
    size_t length;
    if (!load(argv[1], record, sizeof record, &length)) {
        fprintf(stderr, "marks: %s: %s\n", argv[1], strerror(errno));
        return EXIT_FAILURE;
    }

    loadline_read_answer read = loadline_read(record, length);
    loadline_marks_answer m = loadline_marks(record, length);
    if (m.refusal != LOADLINE_ACCEPTED)
        refused(m.refusal, m.place, m.overlap);
    else
        show(m, read.ship.timber);

    if (read.refusal != LOADLINE_ACCEPTED) {
        printf("no ship: ");
        refused(read.refusal, read.place, read.overlap);
        return EXIT_SUCCESS;    /* a refusal is an answer */
    }
    loadline_ship ship = read.ship;
    printf("L %" PRIu64 " type %s%s houses %" PRIu64, ship.length, types[ship.kind], ship.timber ? " timber" : "", ship.n);
    for (size_t i = 0; i < ship.n; i++) {
        loadline_house house = ship.houses[i];
        printf(" %" PRId64 "..%" PRId64, house.aft, house.fore);
        if (house.beam > 0)
            printf(" %" PRIu64 "/%" PRIu64, house.breadth, house.beam);    /* set-in sides */
    }
    printf("\n");

    printf("poop of 1950 mm for S 1000: ");
    loadline_poop_answer poop = loadline_shortest_poop(record, length, 1950, 1000);
    if (poop.refusal != LOADLINE_ACCEPTED)
        refused(poop.refusal, poop.place, poop.overlap);
    else
        printf("%" PRIu64 " dm\n", poop.decimetres);

    uint8_t copy[LOADLINE_MOST_BYTES];
    loadline_write_answer written = loadline_write(copy, sizeof copy, ship);
    if (written.refusal == LOADLINE_ACCEPTED && written.bytes == length && memcmp(copy, record, length) == 0)
        printf("written back: the same %" PRIu64 " bytes\n", written.bytes);
    else
        printf("written back: not the same\n");
    return EXIT_SUCCESS;
}
