/*
 * include/yolluvek_job.h tried: sizes and places, document 01's examples of refusals with the whole block compared
 * before and after, jobs without tasks or edges, whole runs, saving and going on, jobs saved as texts, load windows.
 */
#include "check.h"
#include "yolluvek.h"

#include <stdlib.h>

/* The reader as the helpers call it: they lend no NULL, also where the host's text is empty. */
static yolluvek_read_reply read_text_checked(
    const uint8_t *text, size_t text_len, uint32_t *weights, size_t weights_len,
    uint32_t *starts, size_t starts_len, uint32_t *preds, size_t preds_len)
{
    CHECK(text != NULL);
    return yolluvek_read_text(text, text_len, weights, weights_len, starts, starts_len, preds, preds_len);
}

/* The writer likewise: also where the host's buffer has no bytes. */
static yolluvek_write_reply write_text_checked(
    const uint32_t *weights, size_t weights_len, const uint32_t *starts, size_t starts_len,
    const uint32_t *preds, size_t preds_len, uint8_t *text, size_t text_len)
{
    CHECK(weights != NULL && starts != NULL && preds != NULL && text != NULL);
    return yolluvek_write_text(weights, weights_len, starts, starts_len, preds, preds_len, text, text_len);
}

/* Load windows likewise: also where the host's results have no words. */
static yolluvek_reply windows_checked(
    const uint32_t *weights, size_t weights_len, const uint32_t *executed, size_t executed_len,
    const uint32_t *run, size_t run_len, uint32_t *results, size_t results_len, size_t p, size_t m)
{
    CHECK(weights != NULL && executed != NULL && run != NULL && results != NULL);
    return yolluvek_windows(weights, weights_len, executed, executed_len, run, run_len, results, results_len, p, m);
}

#define yolluvek_read_text read_text_checked
#define yolluvek_write_text write_text_checked
#define yolluvek_windows windows_checked
#include "yolluvek_job.h"

typedef yolluvek_step_reply (*step_call)(yolluvek_job *, uint32_t);

static const step_call turn[4] = {
    yolluvek_job_release, yolluvek_job_fetch, yolluvek_job_start, yolluvek_job_complete};

static const char diamond[] =
    "2\n"
    "0 0 0\n"
    "1 5 1 0\n"
    "2 3 1 0\n"
    "3 0 2 1 2\n";

static yolluvek_tables tables;

/* ---- helpers ---- */

static uint32_t *copied(const yolluvek_job *job)
{
    uint32_t *copy = words_for(job->words);
    memcpy(copy, job->block, job->words * sizeof *copy);
    return copy;
}

static int unchanged(const yolluvek_job *job, const uint32_t *before)
{
    return memcmp(job->block, before, job->words * sizeof *before) == 0;
}

/* A job of its own block; the predecessors of task t stand in `preds` from starts[t] on. */
static yolluvek_job made(size_t n, size_t e, size_t p, size_t k, const uint32_t *starts, const uint32_t *preds)
{
    yolluvek_job job;
    size_t task, words = yolluvek_words(n, e, p, k);
    CHECK(yolluvek_job_make(&job, words_for(words), words, n, e, p, k).number == YOLLUVEK_ACCEPTED);
    for (task = 0; task < n; task++) {
        job.weights[task] = 1;
        job.pred_starts[task + 1] = starts[task + 1];
    }
    if (e > 0) {
        memcpy(job.preds, preds, e * sizeof *preds);
    }
    return job;
}

static yolluvek_job read_job(const char *text, size_t p, size_t k)
{
    yolluvek_job job;
    size_t words;
    CHECK(yolluvek_tables_read(&tables, text, strlen(text)).number == YOLLUVEK_ACCEPTED);
    words = yolluvek_words(tables.tasks, tables.edges, p, k);
    CHECK(yolluvek_job_from_tables(&job, words_for(words), words, &tables, p, k).number == YOLLUVEK_ACCEPTED);
    return job;
}

static void begins(yolluvek_job *job)
{
    yolluvek_reply reply = yolluvek_job_begin(job);
    CHECK(reply.number == YOLLUVEK_ACCEPTED && reply.detail == 0);
}

static void begin_refused(yolluvek_job *job, uint32_t number, uint32_t detail)
{
    uint32_t *before = copied(job);
    yolluvek_reply reply = yolluvek_job_begin(job);
    CHECK(reply.number == number);
    CHECK(reply.detail == detail);
    CHECK(unchanged(job, before));
    free(before);
}

static void refused(yolluvek_job *job, step_call step, uint32_t worker, uint32_t number, uint32_t detail)
{
    uint32_t *before = copied(job);
    yolluvek_step_reply reply = step(job, worker);
    CHECK(reply.number == number);
    CHECK(reply.detail == detail);
    CHECK(reply.kind == YOLLUVEK_MOVED && reply.first == 0 && reply.second == 0);
    CHECK(unchanged(job, before));
    free(before);
}

static void accepted(
    yolluvek_job *job, step_call step, uint32_t worker, uint32_t kind, uint32_t first, uint32_t second)
{
    uint32_t before = job->run[1];
    yolluvek_step_reply reply = step(job, worker);
    CHECK(reply.number == YOLLUVEK_ACCEPTED && reply.detail == 0);
    CHECK(reply.kind == kind && reply.first == first && reply.second == second);
    CHECK(job->run[1] == before + 1);
}

/* Fetch, which answers this task, Start and Complete. */
static void runs(yolluvek_job *job, uint32_t worker, uint32_t task)
{
    accepted(job, yolluvek_job_fetch, worker, YOLLUVEK_FETCHED, task, 0);
    accepted(job, yolluvek_job_start, worker, YOLLUVEK_MOVED, 0, 0);
    accepted(job, yolluvek_job_complete, worker, YOLLUVEK_MOVED, 0, 0);
}

/* The desk's turn: the first accepted of Release, Fetch, Start, Complete, or nothing. */
static void take_turn(yolluvek_job *job, uint32_t worker)
{
    size_t step = 0;
    while (step < 4 && turn[step](job, worker).number != YOLLUVEK_ACCEPTED) {
        step++;
    }
}

/* The desk's turns from this worker on, until the run is finished. */
static void finish(yolluvek_job *job, uint32_t worker)
{
    size_t turns = 0;
    while (!yolluvek_job_finished(job) && turns++ < 1000000) {
        take_turn(job, worker);
        worker = (worker + 1) % (uint32_t)job->p;
    }
    CHECK(yolluvek_job_finished(job));
}

/* A finished run: 3N + E steps, every task recorded once, after all its predecessors. */
static void came_out(const yolluvek_job *job)
{
    static size_t entry_of[YOLLUVEK_MAX_TASKS];
    size_t entry, task, place;
    CHECK(job->run[0] == job->n && job->run[1] == 3 * job->n + job->e);
    for (task = 0; task < job->n; task++) {
        entry_of[task] = SIZE_MAX;
    }
    for (entry = 0; entry < job->n; entry++) {
        task = job->executed[2 * entry];
        CHECK(task < job->n && entry_of[task] == SIZE_MAX);
        CHECK(job->executed[2 * entry + 1] < job->p);
        entry_of[task] = entry;
    }
    for (task = 0; task < job->n; task++) {
        for (place = job->pred_starts[task]; place < job->pred_starts[task + 1]; place++) {
            CHECK(entry_of[job->preds[place]] < entry_of[task]);
        }
    }
}

/* ---- sizes and places ---- */

static void sizes(void)
{
    static uint32_t fixed[YOLLUVEK_WORDS(4, 4, 2, 4)];
    /* added up by hand from document 01's list of the lent memory, and 6 for the head */
    CHECK(yolluvek_words(4, 4, 2, 4) == 6 + 88);
    CHECK(sizeof fixed / sizeof *fixed == 6 + 88);
    CHECK(yolluvek_words(0, 0, 1, 2) == 6 + 16);
    CHECK(yolluvek_words(1024, 8192, 16, 64) == 6 + 56420);

    CHECK(yolluvek_words(1025, 0, 1, 2) == 0);
    CHECK(yolluvek_words(0, 8193, 1, 2) == 0);
    CHECK(yolluvek_words(0, 0, 0, 2) == 0);
    CHECK(yolluvek_words(0, 0, 17, 2) == 0);
    CHECK(yolluvek_words(0, 0, 1, 1) == 0);
    CHECK(yolluvek_words(0, 0, 1, 65) == 0);
    CHECK(yolluvek_words(SIZE_MAX, SIZE_MAX, SIZE_MAX, SIZE_MAX) == 0);
}

/* Each list begins where the one before it ends; the first behind the head, and the last ends with the block. */
static void places_of(size_t n, size_t e, size_t p, size_t k)
{
    yolluvek_job job;
    size_t words = yolluvek_words(n, e, p, k);
    uint32_t *block = words_for(words);
    CHECK(yolluvek_job_make(&job, block, words, n, e, p, k).number == YOLLUVEK_ACCEPTED);
    CHECK(job.block == block && job.words == words);
    CHECK(block[2] == n && block[3] == e && block[4] == p && block[5] == k);
    CHECK(yolluvek_words_of(block) == words);
    CHECK(job.n == n && job.e == e && job.p == p && job.k == k);
    CHECK(job.weights == block + 6);
    CHECK(job.pred_starts == job.weights + n);
    CHECK(job.preds == job.pred_starts + n + 1);
    CHECK(job.succ_starts == job.preds + e);
    CHECK(job.succs == job.succ_starts + n + 1);
    CHECK(job.degrees == job.succs + e);
    CHECK(job.rings == job.degrees + n);
    CHECK(job.ends == job.rings + p * p * k);
    CHECK((uint32_t *)job.counters == job.ends + 3 * p * p);
    CHECK(job.buffers == (uint32_t *)job.counters + p * p);
    CHECK(job.executed == job.buffers + p * n);
    CHECK(job.run == job.executed + 2 * n);
    CHECK((void *)job.rows == (void *)(job.run + 2));
    CHECK((void *)(job.rows + p) == (void *)(block + words));
    free(block);
}

static void places(void)
{
    places_of(0, 0, 1, 2);
    places_of(4, 4, 2, 4);
    places_of(5, 0, 3, 7);
    places_of(1024, 8192, 16, 64);
}

/* Make refuses 2 before 1; refused, it leaves block and job. */
static void make_refused(uint32_t *block, size_t words, size_t n, size_t e, size_t p, size_t k, uint32_t number)
{
    static uint32_t before[YOLLUVEK_WORDS(4, 4, 2, 4)];
    yolluvek_job job, untouched;
    yolluvek_reply reply;
    memset(&job, 0x5A, sizeof job);
    memcpy(&untouched, &job, sizeof job);
    if (block != NULL) {
        memcpy(before, block, sizeof before);
    }
    reply = yolluvek_job_make(&job, block, words, n, e, p, k);
    CHECK(reply.number == number && reply.detail == 0);
    CHECK(memcmp(&job, &untouched, sizeof job) == 0);
    CHECK(block == NULL || memcmp(before, block, sizeof before) == 0);
}

static void makes_refused(void)
{
    static uint32_t block[YOLLUVEK_WORDS(4, 4, 2, 4)];
    size_t words = sizeof block / sizeof *block;
    memset(block, 0xA5, sizeof block);
    make_refused(block, words, 4, 4, 2, 1, YOLLUVEK_BEYOND_LIMIT);
    make_refused(block, words, 4, 4, 0, 4, YOLLUVEK_BEYOND_LIMIT);
    make_refused(block, words, 1025, 4, 2, 4, YOLLUVEK_BEYOND_LIMIT);
    make_refused(block, words, 4, 8193, 2, 4, YOLLUVEK_BEYOND_LIMIT);
    make_refused(block, 0, 4, 4, 2, 4, YOLLUVEK_WRONG_LENGTH);
    make_refused(block, words - 1, 4, 4, 2, 4, YOLLUVEK_WRONG_LENGTH);
    make_refused(block, words + 1, 4, 4, 2, 4, YOLLUVEK_WRONG_LENGTH);
    make_refused(NULL, words, 4, 4, 2, 4, YOLLUVEK_WRONG_LENGTH);
    make_refused(NULL, 0, 4, 4, 2, 65, YOLLUVEK_BEYOND_LIMIT);
}

/* ---- the diamond ---- */

/* Document 01's lines: "4 16", "0 0", "2 1", "1 0", "3 0". */
static void desk_lines(const yolluvek_job *job)
{
    static const uint32_t record[8] = {0, 0, 2, 1, 1, 0, 3, 0};
    CHECK(job->n == 4 && job->run[0] == 4 && job->run[1] == 16);
    CHECK(memcmp(job->executed, record, sizeof record) == 0);
    came_out(job);
}

static void the_diamond(void)
{
    yolluvek_job job = read_job(diamond, 2, 4);
    uint32_t worker;
    CHECK(job.n == 4 && job.e == 4);
    CHECK(!yolluvek_job_finished(&job));
    /* no accepted begin yet: 7 before 8, and 8 whatever the step */
    refused(&job, yolluvek_job_fetch, 2, YOLLUVEK_NO_SUCH_WORKER, 2);
    for (worker = 0; worker < 2; worker++) {
        size_t step;
        for (step = 0; step < 4; step++) {
            refused(&job, turn[step], worker, YOLLUVEK_DAMAGED_WORD, 0);
        }
    }
    begins(&job);
    CHECK(!yolluvek_job_finished(&job));
    finish(&job, 0);
    desk_lines(&job);
    /* "once a run is finished, every Fetch and every Release meets 10" */
    for (worker = 0; worker < 2; worker++) {
        refused(&job, yolluvek_job_fetch, worker, YOLLUVEK_NOTHING_THERE, 0);
        refused(&job, yolluvek_job_release, worker, YOLLUVEK_NOTHING_THERE, 0);
    }
    /* another run of the same job */
    begins(&job);
    CHECK(job.run[0] == 0 && job.run[1] == 0 && !yolluvek_job_finished(&job));
    finish(&job, 0);
    desk_lines(&job);
    free(job.block);
}

/* ---- refusals, document 01's examples ---- */

static void begins_refused(void)
{
    static const uint32_t none[] = {0, 0, 0, 0, 0, 0}, one_edge[] = {0, 0, 1}, two[] = {2};
    static const uint32_t twice[] = {1, 1}, twice_starts[] = {0, 0, 0, 0, 2};
    static const uint32_t cycle[] = {2, 1}, cycle_starts[] = {0, 0, 1, 2};
    yolluvek_job job = made(2, 1, 2, 2, one_edge, two);
    begin_refused(&job, YOLLUVEK_BAD_TABLE, 1); /* N 2, predecessor 2 */
    job.preds[0] = 0;
    job.weights[1] = 65536;
    begin_refused(&job, YOLLUVEK_BEYOND_LIMIT, 0);
    job.weights[1] = 65535;
    job.pred_starts[2] = 0;
    begin_refused(&job, YOLLUVEK_BAD_TABLE, 2); /* the last start alone: N */
    job.pred_starts[2] = 1;
    begins(&job);
    free(job.block);

    job = made(4, 2, 2, 2, twice_starts, twice);
    begin_refused(&job, YOLLUVEK_PREDECESSOR_TWICE, 3); /* task 3: 1, 1 */
    free(job.block);
    job = made(3, 2, 2, 2, cycle_starts, cycle);
    begin_refused(&job, YOLLUVEK_CYCLE, 1); /* 1 after 2, 2 after 1 */
    free(job.block);
    job = made(5, 0, 2, 2, none, NULL);
    begin_refused(&job, YOLLUVEK_TOO_MANY_ROOTS, 5); /* P 2, K 2, five roots */
    free(job.block);
    job = made(4, 0, 2, 2, none, NULL);
    begins(&job); /* P 2, K 2, four roots: the rings 0 and 3 are full */
    CHECK(job.ends[0] == 0 && job.ends[1] == 0 && job.ends[2] == 2);
    CHECK(job.ends[9] == 0 && job.ends[10] == 0 && job.ends[11] == 2);
    accepted(&job, yolluvek_job_fetch, 1, YOLLUVEK_FETCHED, 1, 0);
    CHECK(job.ends[9] == 1 && job.ends[10] == 0 && job.ends[11] == 1);
    free(job.block);
}

/* Made, but not filled: begin doesn't take it for a graph. */
static void not_filled(void)
{
    yolluvek_job job;
    size_t words = yolluvek_words(3, 2, 2, 4);
    CHECK(yolluvek_job_make(&job, words_for(words), words, 3, 2, 2, 4).number == YOLLUVEK_ACCEPTED);
    begin_refused(&job, YOLLUVEK_BEYOND_LIMIT, 0);
    free(job.block);
}

static void steps_refused(void)
{
    yolluvek_job job = read_job(diamond, 2, 4);
    begins(&job);
    refused(&job, yolluvek_job_fetch, 2, YOLLUVEK_NO_SUCH_WORKER, 2);
    refused(&job, yolluvek_job_release, UINT32_MAX, YOLLUVEK_NO_SUCH_WORKER, UINT32_MAX);
    refused(&job, yolluvek_job_start, 0, YOLLUVEK_WRONG_PHASE, 0);
    refused(&job, yolluvek_job_complete, 0, YOLLUVEK_WRONG_PHASE, 0);
    refused(&job, yolluvek_job_fetch, 1, YOLLUVEK_NOTHING_THERE, 0); /* one root, worker 1 fetches first */
    refused(&job, yolluvek_job_release, 0, YOLLUVEK_NOTHING_THERE, 0);
    job.ends[0] = 4; /* a head of K */
    refused(&job, yolluvek_job_fetch, 0, YOLLUVEK_DAMAGED_WORD, 0);
    job.ends[0] = 0;
    job.ends[2] = 5; /* a count over K, which leads from head 0 to tail 1 modulo K */
    refused(&job, yolluvek_job_fetch, 0, YOLLUVEK_DAMAGED_WORD, 0);
    job.ends[2] = 0; /* a count that doesn't */
    refused(&job, yolluvek_job_fetch, 0, YOLLUVEK_DAMAGED_WORD, 0);
    job.ends[2] = 1;
    accepted(&job, yolluvek_job_fetch, 0, YOLLUVEK_FETCHED, 0, 0);
    refused(&job, yolluvek_job_fetch, 0, YOLLUVEK_WRONG_PHASE, 1);
    refused(&job, yolluvek_job_release, 0, YOLLUVEK_WRONG_PHASE, 1);
    refused(&job, yolluvek_job_complete, 0, YOLLUVEK_WRONG_PHASE, 1);
    accepted(&job, yolluvek_job_start, 0, YOLLUVEK_MOVED, 0, 0);
    refused(&job, yolluvek_job_start, 0, YOLLUVEK_WRONG_PHASE, 2);
    job.run[0] = 4; /* the entries word N, phase 2 */
    refused(&job, yolluvek_job_complete, 0, YOLLUVEK_RECORD_FULL, 0);
    job.run[0] = 0;
    accepted(&job, yolluvek_job_complete, 0, YOLLUVEK_MOVED, 0, 0);
    /* docs/RULE.md's rows of the diamond: 1 to worker 0 by a tie, 2 to worker 1 */
    accepted(&job, yolluvek_job_release, 0, YOLLUVEK_PLACED, 1, 0);
    accepted(&job, yolluvek_job_release, 0, YOLLUVEK_PLACED, 2, 1);
    runs(&job, 1, 2);
    accepted(&job, yolluvek_job_release, 1, YOLLUVEK_DEGREE_LEFT, 1, 0);
    free(job.block);
}

/* P 1, K 2, edges 0 -> 1, 0 -> 2, 0 -> 3: the third Release; the task isn't lost. */
static void no_room(void)
{
    static const uint32_t starts[] = {0, 0, 1, 2, 3}, preds[] = {0, 0, 0};
    yolluvek_job job = made(4, 3, 1, 2, starts, preds);
    begins(&job);
    runs(&job, 0, 0);
    accepted(&job, yolluvek_job_release, 0, YOLLUVEK_PLACED, 1, 0);
    accepted(&job, yolluvek_job_release, 0, YOLLUVEK_PLACED, 2, 0);
    refused(&job, yolluvek_job_release, 0, YOLLUVEK_NO_ROOM, 3);
    refused(&job, yolluvek_job_release, 0, YOLLUVEK_NO_ROOM, 3);
    runs(&job, 0, 1);
    accepted(&job, yolluvek_job_release, 0, YOLLUVEK_PLACED, 3, 0);
    finish(&job, 0);
    came_out(&job);
    free(job.block);
}

/*
 * Lane twelve: P 13, K 2, thirteen roots, of which 12 has 27 successors. Worker 12 runs it and releases: its own ring
 * is the only one without load, then the lanes 0 to 11 are the least loaded in turn, then the same once more, and nothing
 * is left for the last.
 */
static void lane_twelve(void)
{
    enum { P = 13, ROOTS = 13, AFTER = 27, N = ROOTS + AFTER };
    uint32_t starts[N + 1], preds[AFTER], task;
    yolluvek_job job;
    for (task = 0; task <= N; task++) {
        starts[task] = task < ROOTS ? 0 : task - ROOTS;
    }
    for (task = 0; task < AFTER; task++) {
        preds[task] = 12;
    }
    job = made(N, AFTER, P, 2, starts, preds);
    begins(&job);
    runs(&job, 12, 12);
    for (task = 13; task < 39; task++) {
        /* 13 to 12, 14 to 0, .. 25 to 11, 26 to 12, 27 to 0, .. 38 to 11 */
        accepted(&job, yolluvek_job_release, 12, YOLLUVEK_PLACED, task, (task - 1) % P);
    }
    refused(&job, yolluvek_job_release, 12, YOLLUVEK_NO_ROOM, 39);
    finish(&job, 12);
    came_out(&job);
    free(job.block);
}

/*
 * docs/RULE.md's lane with a long tile: P 2, weights 60, 1, 1, edge 1 -> 2. Worker 0 has the 60 in its hand, so task 2
 * goes to worker 1. A heavy weight and a bad counter are met when the task is completed, and not when it is fetched.
 */
static void long_tile(void)
{
    static const uint32_t starts[] = {0, 0, 0, 1}, preds[] = {1};
    yolluvek_job job = made(3, 1, 2, 4, starts, preds);
    job.weights[0] = 60;
    begins(&job);
    job.weights[0] = 65536;
    job.counters[0] = INT32_MIN;
    accepted(&job, yolluvek_job_fetch, 0, YOLLUVEK_FETCHED, 0, 0);
    accepted(&job, yolluvek_job_start, 0, YOLLUVEK_MOVED, 0, 0);
    refused(&job, yolluvek_job_complete, 0, YOLLUVEK_DAMAGED_WORD, 0);
    job.weights[0] = 60;
    refused(&job, yolluvek_job_complete, 0, YOLLUVEK_DAMAGED_WORD, 0);
    job.counters[0] = 60;
    runs(&job, 1, 1);
    CHECK(job.counters[0] == 60 && job.counters[3] == 0);
    accepted(&job, yolluvek_job_release, 1, YOLLUVEK_PLACED, 2, 1);
    accepted(&job, yolluvek_job_complete, 0, YOLLUVEK_MOVED, 0, 0);
    CHECK(job.counters[0] == 0 && job.counters[3] == 1);
    finish(&job, 0);
    came_out(&job);
    free(job.block);
}

static void text_refused(const char *text, size_t length, uint32_t number, uint32_t detail)
{
    static yolluvek_tables before;
    yolluvek_read_reply reply;
    memset(&tables, 0x5A, sizeof tables);
    memcpy(&before, &tables, sizeof tables);
    reply = yolluvek_tables_read(&tables, text, length);
    CHECK(reply.number == number && reply.detail == detail);
    CHECK(reply.tasks == 0 && reply.edges == 0);
    CHECK(memcmp(&before, &tables, sizeof tables) == 0);
}

static void texts_refused(void)
{
    static const char short_line[] = "2\n0 0 0\n1 5 2 0\n2 3 1 0\n3 0 2 1 2\n";
    static char long_text[65537];
    memset(long_text, ' ', sizeof long_text);
    text_refused(short_line, strlen(short_line), YOLLUVEK_BAD_LAYOUT, 3); /* line "1 5 2 0" */
    text_refused(long_text, sizeof long_text, YOLLUVEK_BEYOND_LIMIT, 0);
    text_refused("1023\n", 5, YOLLUVEK_BEYOND_LIMIT, 0);
    /* ends at once: its count of lines plus 1 */
    text_refused("", 0, YOLLUVEK_BAD_LAYOUT, 1);
    text_refused(NULL, 0, YOLLUVEK_BAD_LAYOUT, 1);
}

/* ---- nothing there: N 0, E 0 ---- */

static void empty_jobs(void)
{
    static const uint32_t none[] = {0, 0, 0, 0};
    yolluvek_job job;
    size_t p;
    for (p = 1; p <= 16; p++) {
        uint32_t worker = (uint32_t)p - 1;
        job = made(0, 0, p, 2, none, NULL);
        CHECK(job.weights != NULL && job.preds != NULL && job.succs != NULL && job.degrees != NULL);
        CHECK(job.buffers != NULL && job.executed != NULL);
        CHECK(!yolluvek_job_finished(&job));
        begins(&job);
        /* "N 0 (0 steps, begun is finished)" */
        CHECK(yolluvek_job_finished(&job) && job.run[1] == 0);
        refused(&job, yolluvek_job_fetch, worker, YOLLUVEK_NOTHING_THERE, 0);
        refused(&job, yolluvek_job_release, worker, YOLLUVEK_NOTHING_THERE, 0);
        refused(&job, yolluvek_job_start, worker, YOLLUVEK_WRONG_PHASE, 0);
        refused(&job, yolluvek_job_complete, worker, YOLLUVEK_WRONG_PHASE, 0);
        came_out(&job);
        free(job.block);
    }
    job = made(3, 0, 2, 4, none, NULL);
    begins(&job);
    finish(&job, 1);
    CHECK(job.run[1] == 9);
    came_out(&job);
    refused(&job, yolluvek_job_release, 0, YOLLUVEK_NOTHING_THERE, 0);
    free(job.block);
}

/* ---- whole runs ---- */

static uint32_t drawn_state = 1;

static uint32_t drawn(uint32_t below)
{
    drawn_state = drawn_state * 1664525u + 1013904223u;
    return (drawn_state >> 8) % below;
}

/* Each task but the first comes after up to `each` tasks of the first half of those before it: one root, then wide. */
static yolluvek_job widening(size_t n, size_t each, size_t p, size_t k)
{
    static uint32_t starts[YOLLUVEK_MAX_TASKS + 1], preds[YOLLUVEK_MAX_EDGES];
    uint32_t task, e = 0;
    for (task = 0; task < n; task++) {
        uint32_t half = (task + 1) / 2, count = half < each ? half : (uint32_t)each, one;
        starts[task] = e;
        for (one = 1; one <= count; one++) {
            preds[e++] = half - one;
        }
    }
    starts[n] = e;
    return made(n, e, p, k, starts, preds);
}

/* How often the drawn calls were answered with each number. */
static size_t answered[14];

/* Any steps by any worker, or by one that isn't there: a refused one leaves the block, an accepted one counts one. */
static void drawn_run(size_t n, size_t each, size_t p, size_t k)
{
    yolluvek_job job = widening(n, each, p, k);
    size_t calls = 0;
    uint32_t *before = words_for(job.words);
    begins(&job);
    while (!yolluvek_job_finished(&job) && calls++ < 1000000) {
        uint32_t worker = drawn((uint32_t)p + 1), steps = job.run[1];
        size_t step = drawn(4);
        uint32_t number;
        memcpy(before, job.block, job.words * sizeof *before);
        number = turn[step](&job, worker).number;
        CHECK(number == YOLLUVEK_ACCEPTED ? job.run[1] == steps + 1 : unchanged(&job, before));
        CHECK(number < 14);
        answered[number % 14]++;
    }
    came_out(&job);
    free(before);
    free(job.block);
}

/* Of a run's steps, an operator meets 7, 9, 10 and 11, and the engine no other. */
static void drawn_runs(void)
{
    uint32_t number;
    drawn_run(1, 0, 1, 2);
    drawn_run(40, 3, 2, 2);
    drawn_run(200, 6, 16, 2);
    drawn_run(60, 8, 5, 64);
    for (number = 1; number < 14; number++) {
        int met = number == YOLLUVEK_NO_SUCH_WORKER || number == YOLLUVEK_WRONG_PHASE ||
                  number == YOLLUVEK_NOTHING_THERE || number == YOLLUVEK_NO_ROOM;
        CHECK((answered[number] > 0) == met);
    }
}

/* The largest job, with words around its block that stay. */
static void the_largest(void)
{
    enum { GUARD = 64, WORDS = YOLLUVEK_WORDS(1024, 8192, 16, 64) };
    static uint32_t room[GUARD + WORDS + GUARD];
    yolluvek_job job, small = widening(1024, 8, 1, 2);
    size_t place, n = small.n, e = small.e, words = yolluvek_words(n, e, 16, 64);
    memset(room, 0xC3, sizeof room);
    CHECK(yolluvek_job_make(&job, room + GUARD, words, n, e, 16, 64).number == YOLLUVEK_ACCEPTED);
    memcpy(job.weights, small.weights, n * sizeof *room);
    memcpy(job.pred_starts, small.pred_starts, (n + 1) * sizeof *room);
    memcpy(job.preds, small.preds, e * sizeof *room);
    free(small.block);
    begins(&job);
    finish(&job, 0);
    came_out(&job);
    for (place = 0; place < GUARD; place++) {
        CHECK(room[place] == 0xC3C3C3C3u);
    }
    for (place = GUARD + words; place < GUARD + WORDS + GUARD; place++) {
        CHECK(room[place] == 0xC3C3C3C3u);
    }
}

/* ---- saving ---- */

/* Written to a file and read back, in a block of its own, as a host without the sizes does it. */
static yolluvek_job reopened(const yolluvek_job *job)
{
    yolluvek_job other;
    uint32_t head[YOLLUVEK_HEAD], *block;
    size_t words;
    FILE *file = tmpfile();
    CHECK(file != NULL);
    if (file == NULL) {
        exit(EXIT_FAILURE);
    }
    CHECK(fwrite(job->block, sizeof *job->block, job->words, file) == job->words);
    rewind(file);
    CHECK(fread(head, sizeof *head, YOLLUVEK_HEAD, file) == YOLLUVEK_HEAD);
    words = yolluvek_words_of(head);
    CHECK(words == job->words);
    block = words_for(words);
    rewind(file);
    CHECK(fread(block, sizeof *block, words, file) == words);
    fclose(file);
    CHECK(yolluvek_job_open(&other, block, words).number == YOLLUVEK_ACCEPTED);
    return other;
}

/* After every turn of the diamond, and before begin: what is saved goes on as what wasn't. */
static void save_and_go_on(void)
{
    yolluvek_job job = read_job(diamond, 2, 4), other = reopened(&job);
    uint32_t worker = 0;
    CHECK(unchanged(&other, job.block));
    begins(&other);
    finish(&other, 0);
    desk_lines(&other);
    free(other.block);
    begins(&job);
    while (!yolluvek_job_finished(&job)) {
        other = reopened(&job);
        CHECK(unchanged(&other, job.block));
        finish(&other, worker);
        desk_lines(&other);
        free(other.block);
        take_turn(&job, worker);
        worker = 1 - worker;
    }
    free(job.block);
}

static void open_refused(uint32_t *block, size_t words, uint32_t number)
{
    static uint32_t before[YOLLUVEK_WORDS(4, 4, 2, 4)];
    yolluvek_job job, untouched;
    yolluvek_reply reply;
    memset(&job, 0x5A, sizeof job);
    memcpy(&untouched, &job, sizeof job);
    if (block != NULL) {
        memcpy(before, block, sizeof before);
    }
    reply = yolluvek_job_open(&job, block, words);
    CHECK(reply.number == number && reply.detail == 0);
    CHECK(memcmp(&job, &untouched, sizeof job) == 0);
    CHECK(block == NULL || memcmp(before, block, sizeof before) == 0);
}

/* A word of the head changed, and put back. */
static void head_refused(yolluvek_job *job, size_t place, uint32_t word, uint32_t number)
{
    uint32_t right = job->block[place];
    job->block[place] = word;
    open_refused(job->block, job->words, number);
    if (number != YOLLUVEK_WRONG_LENGTH) {
        CHECK(yolluvek_words_of(job->block) == 0);
    }
    job->block[place] = right;
}

static void opens_refused(void)
{
    yolluvek_job job = read_job(diamond, 2, 4);
    size_t words = job.words;
    open_refused(NULL, words, YOLLUVEK_WRONG_LENGTH);
    open_refused(job.block, 0, YOLLUVEK_WRONG_LENGTH);
    open_refused(job.block, 5, YOLLUVEK_WRONG_LENGTH);
    open_refused(job.block, 6, YOLLUVEK_WRONG_LENGTH);
    open_refused(job.block, words - 1, YOLLUVEK_WRONG_LENGTH);
    open_refused(job.block, words + 1, YOLLUVEK_WRONG_LENGTH);
    head_refused(&job, 0, 0x594C564Bu, YOLLUVEK_DAMAGED_WORD); /* the bytes in the other order */
    head_refused(&job, 1, 1, YOLLUVEK_DAMAGED_WORD); /* a layout whose rings have no count */
    head_refused(&job, 1, 3, YOLLUVEK_DAMAGED_WORD);
    head_refused(&job, 2, 1025, YOLLUVEK_BEYOND_LIMIT);
    head_refused(&job, 3, 8193, YOLLUVEK_BEYOND_LIMIT);
    head_refused(&job, 4, 0, YOLLUVEK_BEYOND_LIMIT);
    head_refused(&job, 5, UINT32_MAX, YOLLUVEK_BEYOND_LIMIT);
    head_refused(&job, 2, 5, YOLLUVEK_WRONG_LENGTH);
    head_refused(&job, 5, 5, YOLLUVEK_WRONG_LENGTH);
    CHECK(memcmp(job.block, "YLVK", 4) == 0);
    free(job.block);
}

/* ---- saving as a text ---- */

static char saved[70000];

/* Refused by the job's helper with a buffer of this length: every byte of it and of the block stays. */
static void save_refused(const yolluvek_job *job, size_t length, uint32_t number, uint32_t detail)
{
    uint32_t *before = copied(job);
    yolluvek_write_reply reply;
    size_t place;
    memset(saved, 0x5A, sizeof saved);
    reply = yolluvek_job_to_text(job, length == 0 ? NULL : saved, length);
    CHECK(reply.number == number && reply.detail == detail && reply.used == 0);
    for (place = 0; place < sizeof saved; place++) {
        CHECK(saved[place] == 0x5A);
    }
    CHECK(unchanged(job, before));
    free(before);
}

/* Saved as this text with a buffer of this length; the bytes beyond stay, and the block does. */
static void saves(const yolluvek_job *job, size_t length, const char *text)
{
    uint32_t *before = copied(job);
    size_t used = strlen(text), place;
    yolluvek_write_reply reply;
    memset(saved, 0x5A, sizeof saved);
    reply = yolluvek_job_to_text(job, saved, length);
    CHECK(reply.number == YOLLUVEK_ACCEPTED && reply.detail == 0 && reply.used == used);
    CHECK(memcmp(saved, text, used) == 0);
    for (place = used; place < sizeof saved; place++) {
        CHECK(saved[place] == 0x5A);
    }
    CHECK(unchanged(job, before));
    free(before);
}

/* The diamond's five lines, 34 bytes, before begin, after every turn and at the end. */
static void the_diamond_saved(void)
{
    yolluvek_job job = read_job(diamond, 2, 4);
    uint32_t worker = 0;
    CHECK(strlen(diamond) == 34);
    saves(&job, 34, diamond);
    saves(&job, 35, diamond);
    saves(&job, YOLLUVEK_MAX_WRITTEN, diamond);
    saves(&job, sizeof saved, diamond); /* over 65,536 bytes */
    save_refused(&job, 33, YOLLUVEK_WRONG_LENGTH, 0);
    save_refused(&job, 0, YOLLUVEK_WRONG_LENGTH, 0);
    begins(&job);
    while (!yolluvek_job_finished(&job)) {
        saves(&job, 34, diamond);
        take_turn(&job, worker);
        worker = 1 - worker;
    }
    saves(&job, 34, diamond);
    desk_lines(&job);
    free(job.block);
}

/* 14 five ways, and begin's check before it; whatever the buffer. */
static void saves_refused(void)
{
    static const uint32_t none[] = {0, 0, 0, 0}, one_edge[] = {0, 0, 1}, two[] = {2};
    static const uint32_t first[] = {0, 1, 1, 1}, last[] = {2};
    static const uint32_t twice[] = {1, 1}, twice_starts[] = {0, 0, 0, 0, 2};
    static const uint32_t cycle[] = {2, 1}, cycle_starts[] = {0, 0, 1, 2};
    static const size_t lengths[] = {0, 10, YOLLUVEK_MAX_WRITTEN};
    size_t place;
    for (place = 0; place < 3; place++) {
        size_t length = lengths[place];
        yolluvek_job job = made(0, 0, 2, 4, none, NULL);
        save_refused(&job, length, YOLLUVEK_NO_DUMMIES, 0); /* N 0 */
        free(job.block);
        job = made(1, 0, 2, 4, none, NULL);
        job.weights[0] = 0;
        save_refused(&job, length, YOLLUVEK_NO_DUMMIES, 0); /* N 1 */
        free(job.block);
        job = made(3, 1, 2, 4, first, last);
        job.weights[0] = 0;
        job.weights[2] = 0;
        save_refused(&job, length, YOLLUVEK_NO_DUMMIES, 0); /* task 0 waits for task 2 */
        job.pred_starts[1] = 0;
        job.weights[0] = 1;
        save_refused(&job, length, YOLLUVEK_NO_DUMMIES, 0); /* task 0 has weight */
        job.weights[0] = 0;
        job.weights[2] = 1;
        save_refused(&job, length, YOLLUVEK_NO_DUMMIES, 0); /* the last task has weight */
        job.weights[2] = 65536;
        save_refused(&job, length, YOLLUVEK_BEYOND_LIMIT, 0);
        job.weights[2] = 0;
        job.pred_starts[3] = 0;
        save_refused(&job, length, YOLLUVEK_BAD_TABLE, 2); /* the starts of task 2 fall */
        job.pred_starts[3] = 1;
        if (length > 10) {
            saves(&job, length, "1\n0 0 0\n1 1 1 2\n2 0 0\n");
        } else {
            save_refused(&job, length, YOLLUVEK_WRONG_LENGTH, 0);
        }
        free(job.block);
        job = made(2, 1, 2, 2, one_edge, two);
        save_refused(&job, length, YOLLUVEK_BAD_TABLE, 1); /* N 2, predecessor 2 */
        free(job.block);
        job = made(4, 2, 2, 2, twice_starts, twice);
        save_refused(&job, length, YOLLUVEK_PREDECESSOR_TWICE, 3); /* task 3: 1, 1 */
        free(job.block);
        job = made(3, 2, 2, 2, cycle_starts, cycle);
        save_refused(&job, length, YOLLUVEK_CYCLE, 1); /* 1 after 2, 2 after 1 */
        free(job.block);
    }
}

/* Of the tables: what is saved is read to the same words again, and saved again it is the same text. */
static void tables_saved(const char *text, size_t length)
{
    static yolluvek_tables before;
    static char again[YOLLUVEK_MAX_WRITTEN];
    yolluvek_write_reply reply;
    size_t used;
    memset(&tables, 0x5A, sizeof tables);
    CHECK(yolluvek_tables_read(&tables, text, length).number == YOLLUVEK_ACCEPTED);
    memcpy(&before, &tables, sizeof tables);
    reply = yolluvek_tables_to_text(&tables, saved, sizeof saved);
    CHECK(reply.number == YOLLUVEK_ACCEPTED && reply.detail == 0);
    CHECK(reply.used > 0 && reply.used <= YOLLUVEK_MAX_WRITTEN);
    used = reply.used;
    CHECK(memcmp(&before, &tables, sizeof tables) == 0);
    memset(&tables, 0x5A, sizeof tables);
    CHECK(yolluvek_tables_read(&tables, saved, used).number == YOLLUVEK_ACCEPTED);
    CHECK(memcmp(&before, &tables, sizeof tables) == 0);
    reply = yolluvek_tables_to_text(&tables, again, used);
    CHECK(reply.number == YOLLUVEK_ACCEPTED && reply.used == used);
    CHECK(memcmp(saved, again, used) == 0);
    reply = yolluvek_tables_to_text(&tables, again, used - 1);
    CHECK(reply.number == YOLLUVEK_WRONG_LENGTH && reply.detail == 0 && reply.used == 0);
    reply = yolluvek_tables_to_text(&tables, NULL, 0);
    CHECK(reply.number == YOLLUVEK_WRONG_LENGTH && reply.detail == 0 && reply.used == 0);
}

/* Weights of five digits between the dummies; tasks 1 to 819 wait for tasks 1000 to 1009, the first for two more. */
static void the_longest_saved(void)
{
    static char text[YOLLUVEK_MAX_WRITTEN + 1];
    size_t end = (size_t)sprintf(text, "1022\n0 0 0\n");
    int task, pred;
    for (task = 1; task <= 1022; task++) {
        int count = task == 1 ? 12 : task <= 819 ? 10 : 0;
        end += (size_t)sprintf(text + end, "%d 65535 %d", task, count);
        for (pred = 1000; pred < 1000 + count; pred++) {
            end += (size_t)sprintf(text + end, " %d", pred);
        }
        text[end++] = '\n';
    }
    end += (size_t)sprintf(text + end, "1023 0 0\n");
    CHECK(end == 53978);
    tables_saved(text, end);
    CHECK(memcmp(saved, text, end) == 0);
}

static void saved_texts(void)
{
    static const char spaced[] = "# a chain\r\n\r\n 1\t\r\n00 0 000\r\n\n01  007 1\t0\r\n#\n2 0 2 1 0";
    static const char plain[] = "1\n0 0 0\n1 7 1 0\n2 0 2 1 0\n";
    tables_saved(diamond, strlen(diamond));
    CHECK(memcmp(saved, diamond, strlen(diamond)) == 0);
    tables_saved(spaced, strlen(spaced));
    CHECK(memcmp(saved, plain, strlen(plain)) == 0);
    the_longest_saved();
    /* sizes that the tables have no room for are refused before they are read */
    tables.tasks = YOLLUVEK_MAX_TASKS + 1;
    CHECK(yolluvek_tables_to_text(&tables, saved, sizeof saved).number == YOLLUVEK_BEYOND_LIMIT);
    tables.tasks = UINT32_MAX;
    CHECK(yolluvek_tables_to_text(&tables, NULL, 0).number == YOLLUVEK_BEYOND_LIMIT);
    tables.tasks = 2;
    tables.edges = YOLLUVEK_MAX_EDGES + 1;
    CHECK(yolluvek_tables_to_text(&tables, saved, sizeof saved).number == YOLLUVEK_BEYOND_LIMIT);
}

static void version(void)
{
    char joined[32];
    snprintf(joined, sizeof joined, "%d.%d.%d",
             YOLLUVEK_VERSION_MAJOR, YOLLUVEK_VERSION_MINOR, YOLLUVEK_VERSION_PATCH);
    CHECK(strcmp(joined, YOLLUVEK_VERSION) == 0);
}

/* Room for some results, and a word beyond. */
static uint32_t loads[32];

/* Refused with results of this length: every word of them and of the block stays. */
static void windows_refused(const yolluvek_job *job, size_t length, size_t m, uint32_t number)
{
    uint32_t *before = copied(job);
    yolluvek_reply reply;
    size_t place;
    memset(loads, 0x5A, sizeof loads);
    reply = yolluvek_job_windows(job, length == 0 ? NULL : loads, length, m);
    CHECK(reply.number == number && reply.detail == 0);
    for (place = 0; place < 32; place++) {
        CHECK(loads[place] == 0x5A5A5A5Au);
    }
    CHECK(unchanged(job, before));
    free(before);
}

/* These are the results; the words beyond stay, and the block does. One word more or less is 1. */
static void has_windows(const yolluvek_job *job, size_t m, const uint32_t *words, size_t length)
{
    uint32_t *before = copied(job);
    yolluvek_reply reply;
    CHECK(yolluvek_job_windows_words(job, m) == length);
    memset(loads, 0x5A, sizeof loads);
    reply = yolluvek_job_windows(job, loads, length, m);
    CHECK(reply.number == YOLLUVEK_ACCEPTED && reply.detail == 0);
    CHECK(memcmp(loads, words, length * sizeof *words) == 0);
    CHECK(loads[length] == 0x5A5A5A5Au);
    CHECK(unchanged(job, before));
    free(before);
    windows_refused(job, length + 1, m, YOLLUVEK_WRONG_LENGTH);
    windows_refused(job, length - 1, m, YOLLUVEK_WRONG_LENGTH);
    windows_refused(job, 0, m, YOLLUVEK_WRONG_LENGTH);
}

/* The diamond's record (0, 0) (2, 1) (1, 0) (3, 0), its weights 0 5 3 0. */
static void the_diamond_windows(void)
{
    static const uint32_t ones[] = {0, 0, 0, 0, 3, 3, 5, 0, 5, 0, 0, 0}, twos[] = {0, 3, 3, 5, 3, 2, 5, 0, 5};
    static const uint32_t all[] = {5, 3, 2}, heavy[] = {65535, 3, 65532};
    yolluvek_job job = read_job(diamond, 2, 4);
    size_t length;
    CHECK(yolluvek_job_windows_words(&job, 1) == 0);
    windows_refused(&job, 0, 1, YOLLUVEK_DAMAGED_WORD); /* no accepted begin yet */
    begins(&job);
    for (length = 0; length < 13; length += 3) {
        windows_refused(&job, length, 1, YOLLUVEK_BAD_WINDOW);
    }
    finish(&job, 0);
    has_windows(&job, 1, ones, 12);
    has_windows(&job, 2, twos, 9);
    has_windows(&job, 4, all, 3);
    CHECK(yolluvek_job_windows_words(&job, 0) == 0 && yolluvek_job_windows_words(&job, 5) == 0);
    for (length = 0; length < 13; length += 3) {
        windows_refused(&job, length, 0, YOLLUVEK_BAD_WINDOW);
        windows_refused(&job, length, 5, YOLLUVEK_BAD_WINDOW);
        windows_refused(&job, length, SIZE_MAX, YOLLUVEK_BAD_WINDOW);
    }
    job.weights[1] = 65535;
    has_windows(&job, 4, heavy, 3);
    job.weights[1] = 65536;
    windows_refused(&job, 10, 2, YOLLUVEK_WRONG_LENGTH);
    windows_refused(&job, 9, 2, YOLLUVEK_DAMAGED_WORD);
    job.weights[1] = 5;
    job.executed[6] = 4; /* behind three entries it isn't read */
    windows_refused(&job, 9, 2, YOLLUVEK_DAMAGED_WORD);
    job.run[0] = 3;
    has_windows(&job, 2, twos, 6);
    job.run[0] = 5;
    windows_refused(&job, 9, 0, YOLLUVEK_DAMAGED_WORD);
    free(job.block);
}

int main(void)
{
    sizes();
    places();
    makes_refused();
    the_diamond();
    begins_refused();
    not_filled();
    steps_refused();
    no_room();
    lane_twelve();
    long_tile();
    texts_refused();
    empty_jobs();
    drawn_runs();
    the_largest();
    save_and_go_on();
    opens_refused();
    the_diamond_saved();
    saves_refused();
    saved_texts();
    the_diamond_windows();
    version();
    return failures == 0 ? EXIT_SUCCESS : EXIT_FAILURE;
}
