/*
 * The preview's calls tried on the lists of jobs in a block: the diamond, by the preview and by both callers in turn,
 * and each limit beside the engine's answer, with the whole block compared before and after a refused call.
 */
#include "check.h"
#include "yolluvek_job.h"

#include <stdlib.h>

/* The lists of a job, then P and K; the degrees are lent with a length of their own. */
#define LENT(job, degrees_len)                                                                  \
    (job)->weights, (job)->n, (job)->pred_starts, (job)->n + 1, (job)->preds, (job)->e,         \
    (job)->succ_starts, (job)->n + 1, (job)->succs, (job)->e, (job)->degrees, (degrees_len),    \
    (job)->rings, (job)->p * (job)->p * (job)->k, (job)->ends, 3 * (job)->p * (job)->p,         \
    (job)->counters, (job)->p * (job)->p, (job)->buffers, (job)->p * (job)->n,                  \
    (job)->executed, 2 * (job)->n, (job)->run, 2, (job)->rows, (job)->p, (job)->p, (job)->k

static yolluvek_reply preview_begin(yolluvek_job *job)
{
    return yolluvek_preview_begin(LENT(job, job->n));
}

static yolluvek_step_reply preview_fetch(yolluvek_job *job, uint32_t worker)
{
    return yolluvek_preview_fetch(LENT(job, job->n), worker);
}

static yolluvek_step_reply preview_start(yolluvek_job *job, uint32_t worker)
{
    return yolluvek_preview_start(LENT(job, job->n), worker);
}

static yolluvek_step_reply preview_complete(yolluvek_job *job, uint32_t worker)
{
    return yolluvek_preview_complete(LENT(job, job->n), worker);
}

static yolluvek_step_reply preview_release(yolluvek_job *job, uint32_t worker)
{
    return yolluvek_preview_release(LENT(job, job->n), worker);
}

typedef yolluvek_reply (*begin_call)(yolluvek_job *);
typedef yolluvek_step_reply (*step_call)(yolluvek_job *, uint32_t);

/* The engine's calls and the preview's. */
static const begin_call begins[2] = {yolluvek_job_begin, preview_begin};
static const step_call turn[2][4] = {
    {yolluvek_job_release, yolluvek_job_fetch, yolluvek_job_start, yolluvek_job_complete},
    {preview_release, preview_fetch, preview_start, preview_complete}};

enum { ENGINE = 0, PREVIEW = 1 };

/* A job whose edges lead from near tasks to later ones, spread over all tasks; every weight is 1. */
static yolluvek_job made(size_t n, size_t e, size_t p, size_t k)
{
    yolluvek_job job;
    size_t task, back, edges = 0, words = yolluvek_words(n, e, p, k);
    CHECK(yolluvek_job_make(&job, words_for(words), words, n, e, p, k).number == YOLLUVEK_ACCEPTED);
    for (task = 0; task < n; task++) {
        /* of the edges that are left, this task's share */
        size_t left = n - task, share = (e - edges + left - 1) / left;
        job.weights[task] = 1;
        for (back = 1; back <= task && back <= share; back++) {
            job.preds[edges++] = (uint32_t)(task - back);
        }
        job.pred_starts[task + 1] = (uint32_t)edges;
    }
    CHECK(edges == e);
    return job;
}

/* The preview refuses begin and every step of the job with this number and detail, and leaves the block. */
static void refused(yolluvek_job *job, uint32_t worker, uint32_t number, uint32_t detail)
{
    size_t step, bytes = job->words * sizeof(uint32_t);
    uint32_t *before = words_for(job->words);
    yolluvek_reply begun;
    memcpy(before, job->block, bytes);
    begun = preview_begin(job);
    CHECK(begun.number == YOLLUVEK_BEYOND_LIMIT && begun.detail == 0);
    for (step = 0; step < 4; step++) {
        yolluvek_step_reply reply = turn[PREVIEW][step](job, worker);
        CHECK(reply.number == number && reply.detail == detail);
        CHECK(reply.kind == YOLLUVEK_MOVED && reply.first == 0 && reply.second == 0);
    }
    CHECK(memcmp(before, job->block, bytes) == 0);
    free(before);
}

/* The diamond by these callers: who begins, and who takes every second turn. */
static void the_diamond(int who_begins, int one, int other)
{
    static const uint32_t weights[] = {0, 5, 3, 0}, starts[] = {0, 0, 1, 2, 4}, preds[] = {0, 0, 1, 2};
    static const uint32_t record[] = {0, 0, 2, 1, 1, 0, 3, 0};
    static uint32_t block[YOLLUVEK_WORDS(4, 4, 2, 4)];
    yolluvek_job job;
    size_t turns;
    CHECK(yolluvek_job_make(&job, block, sizeof block / sizeof *block, 4, 4, 2, 4).number == YOLLUVEK_ACCEPTED);
    memcpy(job.weights, weights, sizeof weights);
    memcpy(job.pred_starts, starts, sizeof starts);
    memcpy(job.preds, preds, sizeof preds);
    CHECK(begins[who_begins](&job).number == YOLLUVEK_ACCEPTED);
    for (turns = 0; turns < 40; turns++) {
        const step_call *steps = turn[turns % 3 == 0 ? other : one];
        size_t step = 0;
        while (step < 4 && steps[step](&job, (uint32_t)(turns % 2)).number != YOLLUVEK_ACCEPTED) {
            step++;
        }
    }
    /* document 01's lines: "4 16", "0 0", "2 1", "1 0", "3 0" */
    CHECK(job.run[0] == 4 && job.run[1] == 16);
    CHECK(memcmp(job.executed, record, sizeof record) == 0);
}

/* Both callers begin the job, and leave the same words. */
static void same(size_t n, size_t e, size_t p, size_t k)
{
    yolluvek_job job = made(n, e, p, k), other = made(n, e, p, k);
    yolluvek_step_reply first, second;
    CHECK(yolluvek_job_begin(&job).number == YOLLUVEK_ACCEPTED);
    CHECK(preview_begin(&other).number == YOLLUVEK_ACCEPTED);
    CHECK(memcmp(job.block, other.block, job.words * sizeof(uint32_t)) == 0);
    first = yolluvek_job_fetch(&job, 0);
    second = preview_fetch(&other, 0);
    CHECK(memcmp(&first, &second, sizeof first) == 0);
    CHECK(memcmp(job.block, other.block, job.words * sizeof(uint32_t)) == 0);
    free(job.block);
    free(other.block);
}

/* The engine begins the job, and the preview refuses each call with 2, of a worker that isn't there too. */
static void beyond(size_t n, size_t e, size_t p, size_t k)
{
    yolluvek_job job = made(n, e, p, k);
    yolluvek_reply reply;
    CHECK(yolluvek_job_begin(&job).number == YOLLUVEK_ACCEPTED);
    refused(&job, 0, YOLLUVEK_BEYOND_LIMIT, 0);
    refused(&job, (uint32_t)p, YOLLUVEK_BEYOND_LIMIT, 0);
    refused(&job, UINT32_MAX, YOLLUVEK_BEYOND_LIMIT, 0);
    CHECK(strstr(yolluvek_preview_advice(&job, YOLLUVEK_BEYOND_LIMIT, 0), "by the engine, whose limits it keeps") != NULL);
    /* before a wrong length, which the engine answers */
    reply = yolluvek_preview_begin(LENT(&job, job.n - 1));
    CHECK(reply.number == YOLLUVEK_BEYOND_LIMIT && reply.detail == 0);
    reply = yolluvek_begin(LENT(&job, job.n - 1));
    CHECK(reply.number == YOLLUVEK_WRONG_LENGTH && reply.detail == 0);
    CHECK(yolluvek_preview_fetch(LENT(&job, job.n - 1), 0).number == YOLLUVEK_BEYOND_LIMIT);
    CHECK(yolluvek_fetch(LENT(&job, job.n - 1), 0).number == YOLLUVEK_WRONG_LENGTH);
    free(job.block);
}

static void limits(void)
{
    enum {
        N = YOLLUVEK_PREVIEW_MAX_TASKS,
        E = YOLLUVEK_PREVIEW_MAX_EDGES,
        P = YOLLUVEK_PREVIEW_MAX_WORKERS,
        K = YOLLUVEK_PREVIEW_MAX_SLOTS
    };
    yolluvek_job job;
    yolluvek_reply reply;
    same(N, E, P, K);
    same(4, 4, 1, YOLLUVEK_MIN_SLOTS);
    beyond(N + 1, E, P, K);
    beyond(N, E + 1, P, K);
    beyond(N, E, P + 1, K);
    beyond(N, E, P, K + 1);
    beyond(YOLLUVEK_MAX_TASKS, YOLLUVEK_MAX_EDGES, YOLLUVEK_MAX_WORKERS, YOLLUVEK_MAX_SLOTS);

    /* 128 roots are too many for the rings, 129 tasks are too many */
    job = made(N, 0, P, K);
    reply = preview_begin(&job);
    CHECK(reply.number == YOLLUVEK_TOO_MANY_ROOTS && reply.detail == N);
    free(job.block);
    job = made(N + 1, 0, P, K);
    reply = preview_begin(&job);
    CHECK(reply.number == YOLLUVEK_BEYOND_LIMIT && reply.detail == 0);
    reply = yolluvek_job_begin(&job);
    CHECK(reply.number == YOLLUVEK_TOO_MANY_ROOTS && reply.detail == N + 1);
    free(job.block);

    /* P from 1, K from 2 */
    job = made(4, 4, 2, 4);
    job.p = 0;
    refused(&job, 0, YOLLUVEK_BEYOND_LIMIT, 0);
    CHECK(strstr(yolluvek_preview_advice(&job, YOLLUVEK_BEYOND_LIMIT, 0), "the engine doesn't take") != NULL);
    job.p = 2;
    job.k = 1;
    refused(&job, 0, YOLLUVEK_BEYOND_LIMIT, 0);
    CHECK(strstr(yolluvek_preview_advice(&job, YOLLUVEK_BEYOND_LIMIT, 0), "the engine doesn't take") != NULL);
    job.k = 4;
    /* weights to 65,535 */
    job.weights[3] = 65536;
    CHECK(preview_begin(&job).number == YOLLUVEK_BEYOND_LIMIT);
    CHECK(strncmp(yolluvek_preview_advice(&job, YOLLUVEK_BEYOND_LIMIT, 0), "weigh all tasks", 15) == 0);
    CHECK(strncmp(yolluvek_job_advice(&job, YOLLUVEK_BEYOND_LIMIT, 0), "weigh all tasks", 15) == 0);
    job.weights[3] = 65535;
    CHECK(preview_begin(&job).number == YOLLUVEK_ACCEPTED);
    /* within the limits the others are the engine's */
    CHECK(preview_fetch(&job, 2).number == YOLLUVEK_NO_SUCH_WORKER);
    CHECK(preview_start(&job, 0).number == YOLLUVEK_WRONG_PHASE);
    CHECK(preview_fetch(&job, 1).number == YOLLUVEK_NOTHING_THERE);
    free(job.block);
}

/* The check takes the preview's limits on N and E. */
static void checked(void)
{
    yolluvek_job job = made(YOLLUVEK_PREVIEW_MAX_TASKS + 1, 0, 4, 8);
    size_t n;
    for (n = YOLLUVEK_PREVIEW_MAX_TASKS; n <= YOLLUVEK_PREVIEW_MAX_TASKS + 1; n++) {
        yolluvek_reply reply = yolluvek_check_graph(
            YOLLUVEK_PREVIEW_MAX_TASKS, YOLLUVEK_PREVIEW_MAX_EDGES,
            job.weights, n, job.pred_starts, n + 1, job.preds, 0);
        CHECK((reply.number == YOLLUVEK_ACCEPTED) == (n == YOLLUVEK_PREVIEW_MAX_TASKS));
    }
    free(job.block);
}

int main(void)
{
    the_diamond(PREVIEW, PREVIEW, PREVIEW);
    the_diamond(PREVIEW, ENGINE, ENGINE);
    the_diamond(ENGINE, PREVIEW, PREVIEW);
    the_diamond(PREVIEW, ENGINE, PREVIEW);
    limits();
    checked();
    return failures == 0 ? EXIT_SUCCESS : EXIT_FAILURE;
}
