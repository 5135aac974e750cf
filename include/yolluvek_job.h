/*
 * Yolluvek: a job in one block of memory. Helpers above the calls of yolluvek.h, all of them in this header.
 *
 * The lists of a run stand in one block of 32-bit words that the host allocates, yolluvek_words(n, e, p, k) of them.
 * So a job is saved by one fwrite, copied by one memcpy, and "a refused call leaves every word" is one memcmp. The
 * block's first words, its head, say the sizes; the lists follow in the order of yolluvek_begin.
 *
 *     // 2 tasks, 1 edge, 2 workers, 4 slots in a ring
 *     static uint32_t block[YOLLUVEK_WORDS(2, 1, 2, 4)];
 *     yolluvek_job job;
 *     yolluvek_job_make(&job, block, sizeof block / sizeof *block, 2, 1, 2, 4);
 *
 *     // the weights; task 0 has no predecessors, and task 1 comes after task 0
 *     job.weights[0] = 5;
 *     job.weights[1] = 3;
 *     job.pred_starts[1] = 0;
 *     job.preds[0] = 0;
 *     job.pred_starts[2] = 1;
 *
 *     yolluvek_job_begin(&job);
 *     yolluvek_step_reply fetched = yolluvek_job_fetch(&job, 0);
 *
 * Every call answers a number, 0 where it is accepted, and a refused one leaves the block, and the yolluvek_job, as
 * they were. yolluvek_means says what a number means, yolluvek_advice what to do about it, and the calls behind it say
 * more where more is at hand: the job and the detail, the text, a weak job's fixed word. An empty list is no trap: its pointer is into
 * the block, and never NULL.
 *
 * A job isn't locked: threads that share one make their calls one after the other (examples/threads.c). A saved block
 * goes on in any process (examples/resume.c). What a host owes the memory is what yolluvek.h says: between the calls of
 * a run nobody else writes the block, and it comes back from a file as it went there.
 */
#ifndef YOLLUVEK_JOB_H
#define YOLLUVEK_JOB_H

#include "yolluvek.h"

#include <string.h>

#define YOLLUVEK_VERSION_MAJOR 0
#define YOLLUVEK_VERSION_MINOR 1
#define YOLLUVEK_VERSION_PATCH 0
#define YOLLUVEK_VERSION "0.1.0"

/* The head of a block: the mark, the layout's number, N, E, P, K. */
#define YOLLUVEK_HEAD 6
#define YOLLUVEK_MARK 0x4B564C59u /* "YLVK" in a file; other bytes where their order is another */
#define YOLLUVEK_LAYOUT 2u

/* The words of a block whose sizes are within their limits, as a constant expression. */
#define YOLLUVEK_WORDS(n, e, p, k)                                             \
    (YOLLUVEK_HEAD + (n) + 2 * ((n) + 1) + 2 * (e) + (n)                       \
     + (p) * (p) * (k) + 4 * (p) * (p) + (p) * (n) + 2 * (n) + 2 + 6 * (p))

/* A job: its sizes, and where its lists stand in the block. A host reads the lists, and before begin writes the
   weights and the predecessor table. */
typedef struct {
    uint32_t *block;
    size_t words;
    size_t n, e, p, k;
    uint32_t *weights;     /* N */
    uint32_t *pred_starts; /* N + 1 */
    uint32_t *preds;       /* E */
    uint32_t *succ_starts; /* N + 1 */
    uint32_t *succs;       /* E */
    uint32_t *degrees;     /* N */
    uint32_t *rings;       /* P * P * K */
    uint32_t *ends;        /* 3 * P * P */
    int32_t *counters;     /* P * P */
    uint32_t *buffers;     /* P * N */
    uint32_t *executed;    /* 2 * N */
    uint32_t *run;         /* 2 */
    yolluvek_row *rows;    /* P */
} yolluvek_job;

/* Room for the tables that any text spells, about 41 KB. */
typedef struct {
    uint32_t tasks;
    uint32_t edges;
    uint32_t weights[YOLLUVEK_MAX_TASKS];
    uint32_t pred_starts[YOLLUVEK_MAX_TASKS + 1];
    uint32_t preds[YOLLUVEK_MAX_EDGES];
} yolluvek_tables;

/* The words of a block for n tasks, e edges, p workers and k slots; 0 where one of them is beyond its limit. */
static inline size_t yolluvek_words(size_t n, size_t e, size_t p, size_t k)
{
    if (n > YOLLUVEK_MAX_TASKS || e > YOLLUVEK_MAX_EDGES || p < 1 || p > YOLLUVEK_MAX_WORKERS ||
        k < YOLLUVEK_MIN_SLOTS || k > YOLLUVEK_MAX_SLOTS) {
        return 0;
    }
    return YOLLUVEK_WORDS(n, e, p, k);
}

/* The words of the block that begins with these YOLLUVEK_HEAD words; 0 where no block does. */
static inline size_t yolluvek_words_of(const uint32_t *head)
{
    if (head[0] != YOLLUVEK_MARK || head[1] != YOLLUVEK_LAYOUT) {
        return 0;
    }
    return yolluvek_words(head[2], head[3], head[4], head[5]);
}

/* A reply without a detail. */
static inline yolluvek_reply yolluvek_replied(uint32_t number)
{
    yolluvek_reply reply;
    reply.number = number;
    reply.detail = 0;
    return reply;
}

/* The next `words` words from `*place` on, which moves behind them. */
static inline uint32_t *yolluvek_next(uint32_t **place, size_t words)
{
    uint32_t *list = *place;
    *place += words;
    return list;
}

/* Finds the lists in a block of the right size. */
static inline void yolluvek_job_find(yolluvek_job *job, uint32_t *block, size_t n, size_t e, size_t p, size_t k)
{
    uint32_t *place = block + YOLLUVEK_HEAD;
    job->block = block;
    job->words = YOLLUVEK_WORDS(n, e, p, k);
    job->n = n;
    job->e = e;
    job->p = p;
    job->k = k;
    job->weights = yolluvek_next(&place, n);
    job->pred_starts = yolluvek_next(&place, n + 1);
    job->preds = yolluvek_next(&place, e);
    job->succ_starts = yolluvek_next(&place, n + 1);
    job->succs = yolluvek_next(&place, e);
    job->degrees = yolluvek_next(&place, n);
    job->rings = yolluvek_next(&place, p * p * k);
    job->ends = yolluvek_next(&place, 3 * p * p);
    job->counters = (int32_t *)yolluvek_next(&place, p * p);
    job->buffers = yolluvek_next(&place, p * n);
    job->executed = yolluvek_next(&place, 2 * n);
    job->run = yolluvek_next(&place, 2);
    job->rows = (yolluvek_row *)(void *)place;
}

/*
 * Makes a job in a block of `words` words, whatever they hold. Fill the weights, the starts but the first, which is 0,
 * and the predecessors, then begin. Before that every other word is one that no run has: a step is refused with 8.
 *
 * Refused: 2 where a size is beyond its limit, 1 where `words` isn't yolluvek_words(n, e, p, k) or `block` is NULL.
 */
static inline yolluvek_reply yolluvek_job_make(
    yolluvek_job *job, uint32_t *block, size_t words, size_t n, size_t e, size_t p, size_t k)
{
    size_t needed = yolluvek_words(n, e, p, k);
    if (needed == 0) {
        return yolluvek_replied(YOLLUVEK_BEYOND_LIMIT);
    }
    if (block == NULL || words != needed) {
        return yolluvek_replied(YOLLUVEK_WRONG_LENGTH);
    }
    memset(block, 0xFF, words * sizeof *block);
    block[0] = YOLLUVEK_MARK;
    block[1] = YOLLUVEK_LAYOUT;
    block[2] = (uint32_t)n;
    block[3] = (uint32_t)e;
    block[4] = (uint32_t)p;
    block[5] = (uint32_t)k;
    yolluvek_job_find(job, block, n, e, p, k);
    job->pred_starts[0] = 0;
    return yolluvek_replied(YOLLUVEK_ACCEPTED);
}

/* Reads a text; refused as by yolluvek_read_text, it leaves the tables as they were. An empty text may be NULL. */
static inline yolluvek_read_reply yolluvek_tables_read(yolluvek_tables *tables, const void *text, size_t length)
{
    const void *bytes = length == 0 ? "" : text;
    yolluvek_read_reply reply = yolluvek_read_text(
        (const uint8_t *)bytes, length,
        tables->weights, YOLLUVEK_MAX_TASKS, tables->pred_starts, YOLLUVEK_MAX_TASKS + 1,
        tables->preds, YOLLUVEK_MAX_EDGES);
    if (reply.number == YOLLUVEK_ACCEPTED) {
        tables->tasks = reply.tasks;
        tables->edges = reply.edges;
    }
    return reply;
}

/* A refused save, without a detail. */
static inline yolluvek_write_reply yolluvek_not_written(uint32_t number)
{
    yolluvek_write_reply reply;
    reply.number = number;
    reply.detail = 0;
    reply.used = 0;
    return reply;
}

/*
 * Saves the tables as a text into `length` bytes, of which YOLLUVEK_MAX_WRITTEN always suffice; refused as by
 * yolluvek_write_text, it leaves every byte. A buffer of no bytes may be NULL.
 */
static inline yolluvek_write_reply yolluvek_tables_to_text(const yolluvek_tables *tables, void *text, size_t length)
{
    uint8_t none;
    size_t n = tables->tasks, e = tables->edges;
    if (n > YOLLUVEK_MAX_TASKS || e > YOLLUVEK_MAX_EDGES) {
        return yolluvek_not_written(YOLLUVEK_BEYOND_LIMIT);
    }
    return yolluvek_write_text(
        tables->weights, n, tables->pred_starts, n + 1, tables->preds, e,
        length == 0 ? &none : (uint8_t *)text, length);
}

/* Makes a job, and fills its weights and predecessor table. Refused as yolluvek_job_make is. */
static inline yolluvek_reply yolluvek_job_from_tables(
    yolluvek_job *job, uint32_t *block, size_t words, const yolluvek_tables *tables, size_t p, size_t k)
{
    size_t n = tables->tasks, e = tables->edges;
    yolluvek_reply reply = yolluvek_job_make(job, block, words, n, e, p, k);
    if (reply.number == YOLLUVEK_ACCEPTED) {
        memcpy(job->weights, tables->weights, n * sizeof *block);
        memcpy(job->pred_starts, tables->pred_starts, (n + 1) * sizeof *block);
        memcpy(job->preds, tables->preds, e * sizeof *block);
    }
    return reply;
}

/*
 * Opens a block that was made by yolluvek_job_make and then saved or copied, at any address; the run goes on where it
 * was. The head is judged; of the other words, each step judges those that it reads.
 *
 * Refused: 1 where the block is NULL or too short for a head, 8 for another mark or layout, 2 where a size is beyond
 * its limit, 1 where `words` isn't what the head says.
 */
static inline yolluvek_reply yolluvek_job_open(yolluvek_job *job, uint32_t *block, size_t words)
{
    size_t needed;
    if (block == NULL || words < YOLLUVEK_HEAD) {
        return yolluvek_replied(YOLLUVEK_WRONG_LENGTH);
    }
    if (block[0] != YOLLUVEK_MARK || block[1] != YOLLUVEK_LAYOUT) {
        return yolluvek_replied(YOLLUVEK_DAMAGED_WORD);
    }
    needed = yolluvek_words_of(block);
    if (needed == 0) {
        return yolluvek_replied(YOLLUVEK_BEYOND_LIMIT);
    }
    if (words != needed) {
        return yolluvek_replied(YOLLUVEK_WRONG_LENGTH);
    }
    yolluvek_job_find(job, block, block[2], block[3], block[4], block[5]);
    return yolluvek_replied(YOLLUVEK_ACCEPTED);
}

/* The lists of a run, each with its length, then P and K. */
#define YOLLUVEK_LENT(job)                                                                     \
    (job)->weights, (job)->n, (job)->pred_starts, (job)->n + 1, (job)->preds, (job)->e,        \
    (job)->succ_starts, (job)->n + 1, (job)->succs, (job)->e, (job)->degrees, (job)->n,        \
    (job)->rings, (job)->p * (job)->p * (job)->k, (job)->ends, 3 * (job)->p * (job)->p,        \
    (job)->counters, (job)->p * (job)->p, (job)->buffers, (job)->p * (job)->n,                 \
    (job)->executed, 2 * (job)->n, (job)->run, 2, (job)->rows, (job)->p, (job)->p, (job)->k

/* The calls of yolluvek.h with the same names, on the lists of a job. */
static inline yolluvek_reply yolluvek_job_begin(yolluvek_job *job)
{
    return yolluvek_begin(YOLLUVEK_LENT(job));
}

static inline yolluvek_step_reply yolluvek_job_fetch(yolluvek_job *job, uint32_t worker)
{
    return yolluvek_fetch(YOLLUVEK_LENT(job), worker);
}

static inline yolluvek_step_reply yolluvek_job_start(yolluvek_job *job, uint32_t worker)
{
    return yolluvek_start(YOLLUVEK_LENT(job), worker);
}

static inline yolluvek_step_reply yolluvek_job_complete(yolluvek_job *job, uint32_t worker)
{
    return yolluvek_complete(YOLLUVEK_LENT(job), worker);
}

static inline yolluvek_step_reply yolluvek_job_release(yolluvek_job *job, uint32_t worker)
{
    return yolluvek_release(YOLLUVEK_LENT(job), worker);
}

#undef YOLLUVEK_LENT

/*
 * Saves the job's graph as a text, as yolluvek_tables_to_text does, before begin, in a run or after it. The text has
 * the graph alone: a run is saved by its block.
 */
static inline yolluvek_write_reply yolluvek_job_to_text(const yolluvek_job *job, void *text, size_t length)
{
    uint8_t none;
    return yolluvek_write_text(
        job->weights, job->n, job->pred_starts, job->n + 1, job->preds, job->e,
        length == 0 ? &none : (uint8_t *)text, length);
}

/* The words of the results of windows of m entries, as the record stands: P + 1 for each; 0 where 15 is answered. */
static inline size_t yolluvek_job_windows_words(const yolluvek_job *job, size_t m)
{
    size_t entries = job->run[0];
    return m == 0 || m > entries || entries > job->n ? 0 : (entries - m + 1) * (job->p + 1);
}

/*
 * The load windows of m entries into `length` words, which have to be yolluvek_job_windows_words(job, m); refused as by
 * yolluvek_windows, it leaves every one. Results of no words may be NULL.
 */
static inline yolluvek_reply yolluvek_job_windows(const yolluvek_job *job, uint32_t *results, size_t length, size_t m)
{
    uint32_t none;
    return yolluvek_windows(
        job->weights, job->n, job->executed, 2 * job->n, job->run, 2, length == 0 ? &none : results, length, job->p, m);
}

/* 1 where the job is begun and every task is recorded, else 0. */
static inline int yolluvek_job_finished(const yolluvek_job *job)
{
    return job->run[0] == job->n;
}

/* What a reply's number means, in the words of docs/REFUSALS.md. */
static inline const char *yolluvek_means(uint32_t number)
{
    switch (number) {
    case YOLLUVEK_ACCEPTED: return "accepted";
    case YOLLUVEK_WRONG_LENGTH: return "a lent list has the wrong length, or the writer's buffer is too small";
    case YOLLUVEK_BEYOND_LIMIT: return "a size, a weight or the text is beyond its limit";
    case YOLLUVEK_BAD_TABLE: return "a bad start or task number in a table";
    case YOLLUVEK_PREDECESSOR_TWICE: return "a predecessor stands twice in one task";
    case YOLLUVEK_CYCLE: return "the tasks form a cycle";
    case YOLLUVEK_TOO_MANY_ROOTS: return "too many roots for the rings";
    case YOLLUVEK_NO_SUCH_WORKER: return "no such worker";
    case YOLLUVEK_DAMAGED_WORD: return "a damaged word in the lent memory";
    case YOLLUVEK_WRONG_PHASE: return "the step doesn't suit the worker's phase";
    case YOLLUVEK_NOTHING_THERE: return "nothing there to fetch or to release";
    case YOLLUVEK_NO_ROOM: return "no room for the released task";
    case YOLLUVEK_RECORD_FULL: return "the record is full";
    case YOLLUVEK_BAD_LAYOUT: return "the text breaks the layout";
    case YOLLUVEK_NO_DUMMIES: return "the tables lack a text's dummies";
    case YOLLUVEK_BAD_WINDOW: return "a load window has no entries, or more than are recorded";
    default: return "a number that this header doesn't know";
    }
}

/*
 * What an operator does about it, in the words of docs/REFUSALS.md; "" of an accepted call. It knows the number alone,
 * and holds of every call of yolluvek.h, of plain jobs, previews and weak jobs.
 */
static inline const char *yolluvek_advice(uint32_t number)
{
    switch (number) {
    case YOLLUVEK_ACCEPTED:
        return "";
    case YOLLUVEK_BEYOND_LIMIT:
        return "by what is beyond, choose another number of workers or slots, weigh all tasks in a larger unit, or "
               "shorten the text; a job of too many tasks or edges has to be split. What is too large for a preview may "
               "be begun by the engine.";
    case YOLLUVEK_BAD_TABLE:
        return "look at the predecessors of the task in the detail. The reader takes any number there; begin judges it. "
               "If there is no such task, report it. After a lookup, choose another task, or begin first.";
    case YOLLUVEK_PREDECESSOR_TWICE:
        return "remove one of the two from that task; in a text, lower the count before them too.";
    case YOLLUVEK_CYCLE:
        return "find the way from that task through predecessors back to it. One of these edges is wrong.";
    case YOLLUVEK_TOO_MANY_ROOTS:
        return "use more workers or more slots, or give some of the roots a common predecessor. A preview has room for "
               "32 roots at most, with 4 workers and 8 slots; the engine for all, with 16 workers and 64 slots.";
    case YOLLUVEK_NO_SUCH_WORKER:
        return "choose another worker.";
    case YOLLUVEK_WRONG_PHASE:
        return "take a step that suits, or choose another worker.";
    case YOLLUVEK_NOTHING_THERE:
        return "after a refused Fetch try Release, after a refused Release try Fetch; if both are refused, go on "
               "with another worker.";
    case YOLLUVEK_NO_ROOM:
        return "let a worker fetch, then release again; if the task is fixed, in a weak job, the worker that it is fixed "
               "to. A worker that has fetched starts and completes its task before it fetches or releases again. If it "
               "happens often, use a larger K.";
    case YOLLUVEK_BAD_LAYOUT:
        return "look in that line for a wrong number of fields, a task number out of turn, a number of more than five "
               "digits or over 65,535, a mark other than digits, spaces and tabs, a time at the first or last task, "
               "a predecessor at task 0, or a line after the last task. Which task is the last one, the line with n says. "
               "If there is no such line, add what is missing, a line with n or task lines, or correct the line with n if "
               "there is one.";
    case YOLLUVEK_NO_DUMMIES:
        return "put a task without weight and predecessors first, and one without weight last, each where it is missing. "
               "With the first, every other task's number rises by one, among the predecessors too. A text has at most "
               "1,022 tasks besides the dummies: a larger job has to be split.";
    case YOLLUVEK_BAD_WINDOW:
        return "choose a window of at least one entry and of no more than are recorded; complete a task first if none "
               "is.";
    /* 1, 8 and 12 are faults of the host, as are numbers that the page doesn't have */
    default:
        return "report it.";
    }
}

/* What the first limit is that these go beyond. */
enum {
    YOLLUVEK_WITHIN = 0,
    YOLLUVEK_BEYOND_SIZE = 1,
    YOLLUVEK_BEYOND_WORKERS = 2,
    YOLLUVEK_BEYOND_SLOTS = 3,
    YOLLUVEK_BEYOND_WEIGHT = 4
};

/* In the order of N, E, P, K and the weights, of which none is looked at where they are NULL. */
static inline int yolluvek_beyond(size_t n, size_t e, size_t p, size_t k, const uint32_t *weights)
{
    size_t task;
    if (n > YOLLUVEK_MAX_TASKS || e > YOLLUVEK_MAX_EDGES) {
        return YOLLUVEK_BEYOND_SIZE;
    }
    if (p < 1 || p > YOLLUVEK_MAX_WORKERS) {
        return YOLLUVEK_BEYOND_WORKERS;
    }
    if (k < YOLLUVEK_MIN_SLOTS || k > YOLLUVEK_MAX_SLOTS) {
        return YOLLUVEK_BEYOND_SLOTS;
    }
    for (task = 0; weights != NULL && task < n; task++) {
        if (weights[task] > YOLLUVEK_MAX_WEIGHT) {
            return YOLLUVEK_BEYOND_WEIGHT;
        }
    }
    return YOLLUVEK_WITHIN;
}

/*
 * What to do about a 2 of a plain or a weak job with these sizes: by the check, the making of a job, begin or a step. The
 * weights may be NULL where they aren't filled yet.
 */
static inline const char *yolluvek_limits_advice(size_t n, size_t e, size_t p, size_t k, const uint32_t *weights)
{
    switch (yolluvek_beyond(n, e, p, k, weights)) {
    case YOLLUVEK_BEYOND_SIZE: return "the job is too large, and has to be split.";
    case YOLLUVEK_BEYOND_WORKERS: return "choose from 1 to 16 workers.";
    case YOLLUVEK_BEYOND_SLOTS: return "choose from 2 to 64 slots.";
    case YOLLUVEK_BEYOND_WEIGHT: return "weigh all tasks in a larger unit, or split that task.";
    default: return yolluvek_advice(YOLLUVEK_BEYOND_LIMIT);
    }
}

/* The same of a preview, which says whether the engine takes the job. */
static inline const char *yolluvek_preview_limits_advice(
    size_t n, size_t e, size_t p, size_t k, const uint32_t *weights)
{
    int taken = yolluvek_beyond(n, e, p, k, weights) == YOLLUVEK_WITHIN;
    if (n > YOLLUVEK_PREVIEW_MAX_TASKS || e > YOLLUVEK_PREVIEW_MAX_EDGES) {
        return taken ? "begin the job by the engine, whose limits it keeps, or split it."
                     : "split the job, or keep the engine's limits and begin it there. As it is, the engine doesn't take it "
                       "either.";
    }
    if (p < 1 || p > YOLLUVEK_PREVIEW_MAX_WORKERS) {
        return taken ? "choose from 1 to 4 workers, or begin the job by the engine, whose limits it keeps."
                     : "choose from 1 to 4 workers. As it is, the engine doesn't take the job either.";
    }
    if (k < YOLLUVEK_MIN_SLOTS || k > YOLLUVEK_PREVIEW_MAX_SLOTS) {
        return taken ? "choose from 2 to 8 slots, or begin the job by the engine, whose limits it keeps."
                     : "choose from 2 to 8 slots. As it is, the engine doesn't take the job either.";
    }
    return yolluvek_limits_advice(n, e, p, k, weights);
}

/*
 * Where tables are refused with 3 and a task as the detail: the word of its first predecessor that is no task, whose
 * number stands there. NULL where there is no such word: the starts are bad, or the detail is N.
 */
static inline const uint32_t *yolluvek_bad_predecessor(
    size_t n, const uint32_t *pred_starts, const uint32_t *preds, size_t e, uint32_t detail)
{
    uint32_t place;
    if (detail >= n || pred_starts[detail + 1] > e) {
        return NULL;
    }
    for (place = pred_starts[detail]; place < pred_starts[detail + 1]; place++) {
        if (preds[place] >= n) {
            return preds + place;
        }
    }
    return NULL;
}

/* What to do about tables that the check, the writer or a begin, plain, of a preview or weak, refuses with 3. */
static inline const char *yolluvek_table_advice(
    size_t n, const uint32_t *pred_starts, const uint32_t *preds, size_t e, uint32_t detail)
{
    const uint32_t *bad = yolluvek_bad_predecessor(n, pred_starts, preds, e, detail);
    if (bad != NULL) {
        return *bad >= YOLLUVEK_MAX_TASKS
                   ? "correct that predecessor. The reader takes any number there; begin judges it."
                   : "correct that predecessor, or add all tasks up to it; in a text, raise n too. The reader takes any "
                     "number there; begin judges it.";
    }
    if (detail == n && pred_starts[0] == 0 && pred_starts[n] < e) {
        return "look for an edge that leads to a task that isn't there, or for a start that was filled wrongly.";
    }
    return "report it.";
}

/* What to do about tables that the writer refuses with 14, by the dummies that are missing. */
static inline const char *yolluvek_dummies_advice(const uint32_t *weights, size_t n, const uint32_t *pred_starts)
{
    size_t first = n == 0 || weights[0] > 0 || pred_starts[1] > 0;
    /* one task can't be both */
    size_t last = n < 2 || weights[n - 1] > 0;
    if (first + last > 0 && n + first + last > YOLLUVEK_MAX_TASKS) {
        return "split the job: a text has at most 1,022 tasks besides the dummies.";
    }
    if (first && last) {
        return "put a task without weight and predecessors first, and one without weight last. Every other task's number "
               "rises by one then, among the predecessors too.";
    }
    if (first) {
        return "put a task without weight and predecessors first. Every other task's number rises by one then, among the "
               "predecessors too.";
    }
    return last ? "put a task without weight last." : yolluvek_advice(YOLLUVEK_NO_DUMMIES);
}

/* 1 where there was an accepted begin, else 0: before it the accepted steps are the word that yolluvek_job_make left. */
static inline int yolluvek_job_begun(const yolluvek_job *job)
{
    return job->run[1] != UINT32_MAX;
}

/*
 * What to do about a refused begin or step of a job, which is a plain one, or about one that isn't saved, with this number
 * and detail.
 */
static inline const char *yolluvek_job_advice(const yolluvek_job *job, uint32_t number, uint32_t detail)
{
    if (number == YOLLUVEK_BEYOND_LIMIT) {
        return yolluvek_limits_advice(job->n, job->e, job->p, job->k, job->weights);
    }
    if (number == YOLLUVEK_NO_ROOM) {
        return "let a worker fetch, then release again. The refused worker can fetch itself, since a ring that it owns "
               "is full; it then starts and completes that task before it fetches or releases again. After at most P "
               "accepted Fetches of any one worker there is room. If it happens often, use a larger K.";
    }
    if (number == YOLLUVEK_BAD_TABLE) {
        return yolluvek_table_advice(job->n, job->pred_starts, job->preds, job->e, detail);
    }
    if (number == YOLLUVEK_DAMAGED_WORD && !yolluvek_job_begun(job)) {
        return "begin first.";
    }
    if (number == YOLLUVEK_NO_DUMMIES) {
        return yolluvek_dummies_advice(job->weights, job->n, job->pred_starts);
    }
    return yolluvek_advice(number);
}

/* The same where the preview's begin or step was lent the job's lists. */
static inline const char *yolluvek_preview_advice(const yolluvek_job *job, uint32_t number, uint32_t detail)
{
    if (number == YOLLUVEK_BEYOND_LIMIT) {
        return yolluvek_preview_limits_advice(job->n, job->e, job->p, job->k, job->weights);
    }
    return yolluvek_job_advice(job, number, detail);
}

/*
 * What to do about a refused begin or step of a weak job. `fixed` is the fixed word of the task in the detail, where the
 * number is 11; else it isn't looked at. A 2 has yolluvek_limits_advice, a 3 yolluvek_table_advice.
 */
static inline const char *yolluvek_weak_advice(uint32_t number, uint32_t fixed)
{
    if (number != YOLLUVEK_NO_ROOM) {
        return yolluvek_advice(number);
    }
    if (fixed == YOLLUVEK_UNFIXED) {
        return "let a worker fetch, then release again. The refused worker can fetch itself, since a ring that it owns "
               "is full; it then starts and completes that task before it fetches or releases again. After at most P "
               "accepted Fetches of any one worker there is room; but once another worker's Release has fixed the task, "
               "only of the worker that it is fixed to. If it happens often, use a larger K.";
    }
    return "let the worker that the task is fixed to fetch, then release again. If that is the refused worker itself, it "
           "starts and completes what it has fetched before it fetches or releases again. After at most P accepted Fetches "
           "of that worker there is room. If it happens often, use a larger K.";
}

/* yolluvek_bad_predecessor on the job's lists. */
static inline const uint32_t *yolluvek_job_bad_predecessor(const yolluvek_job *job, uint32_t detail)
{
    return yolluvek_bad_predecessor(job->n, job->pred_starts, job->preds, job->e, detail);
}

/* What to do about a lookup on the job's lists that the judging call refuses, on this side, with this number and detail. */
static inline const char *yolluvek_lookup_advice(
    const yolluvek_job *job, uint32_t side, uint32_t number, uint32_t detail)
{
    if (number == YOLLUVEK_BEYOND_LIMIT) {
        /* neither P nor K nor a weight is judged here */
        return yolluvek_limits_advice(job->n, job->e, 1, YOLLUVEK_MIN_SLOTS, NULL);
    }
    if (number != YOLLUVEK_BAD_TABLE) {
        return yolluvek_advice(number);
    }
    if (detail >= job->n) {
        return "choose another task.";
    }
    if (side != YOLLUVEK_PREDECESSORS) {
        return yolluvek_job_begun(job) ? "report it." : "begin first.";
    }
    return yolluvek_table_advice(job->n, job->pred_starts, job->preds, job->e, detail);
}

/* Where the line that begins here ends: at its LF, or at the end of the text. */
static inline const char *yolluvek_line_end(const char *line, const char *end)
{
    const char *mark = line == end ? NULL : (const char *)memchr(line, '\n', (size_t)(end - line));
    return mark == NULL ? end : mark;
}

/* The first mark of a field of a line, counted from 0; `end` where it has no such field. */
static inline const char *yolluvek_field(const char *line, const char *end, size_t field)
{
    for (;;) {
        while (line < end && (*line == ' ' || *line == '\t' || *line == '\r')) {
            line++;
        }
        if (line == end || field == 0) {
            return line;
        }
        while (line < end && *line != ' ' && *line != '\t' && *line != '\r') {
            line++;
        }
        field--;
    }
}

/* The number that begins here, of the five digits that a field has at most; 0 where none does. */
static inline size_t yolluvek_digits(const char *mark, const char *end)
{
    size_t number = 0, digits;
    for (digits = 0; digits < 5 && mark < end && *mark >= '0' && *mark <= '9'; digits++) {
        number = 10 * number + (size_t)(*mark++ - '0');
    }
    return number;
}

/*
 * The next line from `*line` on that is neither blank nor a comment: its first mark, NULL where there is none. `*stop` is its end, `*line` the
 * line after it, and `*lines` has counted all lines up to it.
 */
static inline const char *yolluvek_next_line(const char **line, const char *end, const char **stop, uint32_t *lines)
{
    while (*line < end) {
        const char *first;
        *stop = yolluvek_line_end(*line, end);
        first = yolluvek_field(*line, *stop, 0);
        *line = *stop < end ? *stop + 1 : end;
        ++*lines;
        if (first < *stop && *first != '#') {
            return first;
        }
    }
    return NULL;
}

/* The first line of a text that is neither blank nor a comment; both 0 where there is none. */
typedef struct {
    uint32_t line; /* counted from 1 */
    size_t n;      /* the number that it begins with */
} yolluvek_text_head;

static inline yolluvek_text_head yolluvek_text_begins(const void *text, size_t length)
{
    yolluvek_text_head head = {0, 0};
    const char *line = length == 0 ? "" : (const char *)text, *end = line + length, *stop;
    uint32_t lines = 0;
    const char *first = yolluvek_next_line(&line, end, &stop, &lines);
    if (first != NULL) {
        head.line = lines;
        head.n = yolluvek_digits(first, stop);
    }
    return head;
}

/* Of a text that is refused with 13, whether it ends too early; then how many task lines there have to be and are. */
typedef struct {
    int early;       /* 1 where it does, else 0, as all that follows */
    size_t expected; /* n + 2; 0 where there is no n */
    size_t found;    /* the task lines that are there */
    int other;       /* 1 where with another n, 2 less than are there, the text would be whole */
} yolluvek_text_end;

static inline yolluvek_text_end yolluvek_text_ends(const void *text, size_t length, uint32_t detail)
{
    yolluvek_text_end ends = {0, 0, 0, 0};
    const char *line = length == 0 ? "" : (const char *)text, *end = line + length, *stop, *first;
    uint32_t lines = 0;
    while ((first = yolluvek_next_line(&line, end, &stop, &lines)) != NULL) {
        if (ends.expected == 0) {
            ends.expected = yolluvek_digits(first, stop) + 2;
        } else {
            const char *time = yolluvek_field(first, stop, 1);
            ends.found++;
            ends.other = ends.found >= 2 && time < stop && yolluvek_digits(time, stop) == 0;
        }
    }
    ends.early = detail > lines;
    if (!ends.early) {
        ends.expected = ends.found = 0;
        ends.other = 0;
    }
    return ends;
}

/* What to do about a text that the reader refuses with this number and detail. An empty text may be NULL. */
static inline const char *yolluvek_text_advice(const void *text, size_t length, uint32_t number, uint32_t detail)
{
    if (number == YOLLUVEK_BEYOND_LIMIT) {
        if (length > YOLLUVEK_MAX_TEXT) {
            return "leave out comments, blank lines, spare spaces and zeros. If it is a job's text, and too long without "
                   "them, the job is too large, and has to be split.";
        }
        return yolluvek_text_begins(text, length).n + 2 > YOLLUVEK_MAX_TASKS
                   ? "correct the line with n if it is wrong; else the job is too large, and has to be split."
                   : "the job is too large, and has to be split.";
    }
    if (number == YOLLUVEK_BAD_LAYOUT) {
        yolluvek_text_end ends = yolluvek_text_ends(text, length, detail);
        if (ends.early && ends.expected == 0) {
            return "put n first, then a line for each of n + 2 tasks.";
        }
        if (ends.early) {
            return ends.other ? "correct the line with n, or add the task lines that are missing."
                              : "add the task lines that are missing. If n is wrong, correct it first.";
        }
        if (yolluvek_text_begins(text, length).line == detail) {
            return "this line has to be n alone, the number of tasks besides the dummies.";
        }
    }
    return yolluvek_advice(number);
}

#endif
