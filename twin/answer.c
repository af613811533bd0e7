/* Answers requests on standard input with the archive's calls; src/bin/compare sends them.
   A batch is a count and that many requests; it is answered by as many answers. All numbers are little-endian. */

#include <string.h>
#include <unistd.h>

#include "loadline.h"

enum { ROOM = 160, GUARD = 16, BATCH = 256 };

/* The part that is lent begins after the guard; all the rest must stay as it was. */
typedef struct {
    uint8_t guard[GUARD], lent[ROOM], after[GUARD];
} memory;

typedef struct {
    uint64_t record_length;
    uint8_t record[ROOM];
    uint64_t asked, height, wish; /* a question if asked is not 0 */
    uint64_t buffer_length;
    memory buffer;
    loadline_ship ship;
} request;

typedef struct {
    loadline_marks_answer marks;
    loadline_read_answer read;
    loadline_write_answer back; /* the ship that was read, written into all the room; zeros if there is none */
    memory back_buffer;
    loadline_write_answer write;
    memory buffer;
    loadline_poop_answer poop;
    uint8_t record[ROOM]; /* as the calls left it */
} answer;

_Static_assert(sizeof(request) == 968 && sizeof(answer) == 1360, "no padding");

static request requests[BATCH];
static answer answers[BATCH];

/* An empty slice has no pointer. */
static uint8_t *lent(uint8_t *start, uint64_t length)
{
    return length == 0 ? NULL : start;
}

static void work(request *q, answer *a)
{
    const uint8_t *record = lent(q->record, q->record_length);
    memset(a, 0, sizeof *a);
    a->marks = loadline_marks(record, q->record_length);
    a->read = loadline_read(record, q->record_length);
    a->back_buffer = q->buffer;
    if (a->read.refusal == 0)
        a->back = loadline_write(a->back_buffer.lent, ROOM, a->read.ship);
    a->buffer = q->buffer;
    a->write = loadline_write(lent(a->buffer.lent, q->buffer_length), q->buffer_length, q->ship);
    if (q->asked != 0)
        a->poop = loadline_shortest_poop(record, q->record_length, q->height, q->wish);
    memcpy(a->record, q->record, ROOM);
}

static int take(void *to, size_t size)
{
    for (uint8_t *at = to; size > 0;) {
        ssize_t got = read(STDIN_FILENO, at, size);
        if (got <= 0)
            return 0;
        at += got;
        size -= (size_t)got;
    }
    return 1;
}

static int give(const void *from, size_t size)
{
    for (const uint8_t *at = from; size > 0;) {
        ssize_t put = write(STDOUT_FILENO, at, size);
        if (put <= 0)
            return 0;
        at += put;
        size -= (size_t)put;
    }
    return 1;
}

int main(void)
{
    uint64_t count;
    while (take(&count, sizeof count)) {
        if (count > BATCH || !take(requests, count * sizeof *requests))
            return 1;
        for (uint64_t i = 0; i < count; i++)
            work(&requests[i], &answers[i]);
        if (!give(answers, count * sizeof *answers))
            return 1;
    }
    return 0;
}
