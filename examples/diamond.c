/*
 * The diamond in C: tasks 1 and 2 wait for task 0, task 3 waits for both. It is read from a text, begun for two
 * workers, and run as the desk program runs it; printed are N and the steps accepted, then task and worker of each
 * entry of the record.
 *
 * From the repository's root, after `make archives`:
 *
 *     cc -Iinclude examples/diamond.c -Ltarget/staticlib -lstg_export -lengine_export -o diamond && ./diamond
 */
#include "yolluvek.h"

#include <inttypes.h>
#include <stdio.h>

enum { P = 2, K = 4 };

static const char text[] =
    "2\n"
    "0 0 0\n"
    "1 5 1 0\n"
    "2 3 1 0\n"
    "3 0 2 1 2\n";

/* Room for any graph; the calls are told how much of it this one needs. */
static size_t n, e;
static uint32_t weights[YOLLUVEK_MAX_TASKS];
static uint32_t pred_starts[YOLLUVEK_MAX_TASKS + 1], preds[YOLLUVEK_MAX_EDGES];
static uint32_t succ_starts[YOLLUVEK_MAX_TASKS + 1], succs[YOLLUVEK_MAX_EDGES];
static uint32_t degrees[YOLLUVEK_MAX_TASKS];
static uint32_t rings[P * P * K], ends[3 * P * P];
static int32_t counters[P * P];
static uint32_t buffers[P * YOLLUVEK_MAX_TASKS];
static uint32_t executed[2 * YOLLUVEK_MAX_TASKS], run[2];
static yolluvek_row rows[P];

/* The lists of the run, each with its exact length, then P and K. */
#define RUN                                                                                                \
    weights, n, pred_starts, n + 1, preds, e, succ_starts, n + 1, succs, e, degrees, n,                    \
    rings, P * P * K, ends, 3 * P * P, counters, P * P, buffers, P * n, executed, 2 * n, run, 2, rows, P, \
    P, K

static int refused(uint32_t number, uint32_t detail)
{
    if (number == YOLLUVEK_ACCEPTED) {
        return 0;
    }
    printf("refused %" PRIu32 " %" PRIu32 "\n", number, detail);
    return 1;
}

static int accepted(yolluvek_step_reply reply)
{
    return reply.number == YOLLUVEK_ACCEPTED;
}

/* A turn of a worker: the first accepted of Release, Fetch, Start, Complete, or nothing. */
static void turn(uint32_t worker)
{
    (void)(accepted(yolluvek_release(RUN, worker)) || accepted(yolluvek_fetch(RUN, worker)) ||
           accepted(yolluvek_start(RUN, worker)) || accepted(yolluvek_complete(RUN, worker)));
}

int main(void)
{
    yolluvek_read_reply read = yolluvek_read_text(
        (const uint8_t *)text, sizeof text - 1,
        weights, YOLLUVEK_MAX_TASKS, pred_starts, YOLLUVEK_MAX_TASKS + 1, preds, YOLLUVEK_MAX_EDGES);
    if (refused(read.number, read.detail)) {
        return 1;
    }
    n = read.tasks;
    e = read.edges;

    yolluvek_reply begun = yolluvek_begin(RUN);
    if (refused(begun.number, begun.detail)) {
        return 1;
    }

    /* the run is finished when every task is recorded */
    for (uint32_t worker = 0; run[0] < n; worker = (worker + 1) % P) {
        turn(worker);
    }

    printf("%zu %" PRIu32 "\n", n, run[1]);
    for (size_t entry = 0; entry < n; entry++) {
        printf("%" PRIu32 " %" PRIu32 "\n", executed[2 * entry], executed[2 * entry + 1]);
    }
    return 0;
}
