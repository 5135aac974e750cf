/*
 * Yolluvek: the scheduling core of a job console, proved. The calls for C and C++.
 *
 * A host lends lists of 32-bit words, each as a pointer and a length, and the calls read and write them; nothing is
 * allocated or kept between calls. A call uses at most about 41 KB of stack.
 *
 * A run: fill the weights and the predecessor table, by yolluvek_read_text or otherwise; call yolluvek_begin; let each
 * worker take steps, by yolluvek_fetch, _start, _complete and _release, until run[0] is the number of tasks. Then
 * `executed` is the record: task and worker, in the order of completion. examples/diamond.c is a whole program. At any
 * time yolluvek_write_text saves the graph as a text, and yolluvek_windows says which weight each worker finished in
 * every run of neighbouring entries.
 * docs/RULE.md says which worker a released task goes to, docs/REFUSALS.md what to do about each refusal.
 * yolluvek_job.h has the same calls on a job in one block of memory, with a few arguments instead of all the lists.
 *
 * A preview, for a planning window with less memory, makes the same runs by yolluvek_preview_begin and so on, within
 * smaller limits.
 *
 * A weak job, begun by yolluvek_weak_begin, has a copy of a task for each of its predecessors: what waits, is fetched
 * and is recorded is a copy, so that a seam is corrected with each finished neighbour alone.
 *
 * Link libyolluvek.a, which `make install` installs (x86-64 Linux), or the archives that it is merged from:
 * libgraph_export.a, libstg_export.a, libengine_export.a, libpreview_export.a, libwindows_export.a and libweak_export.a,
 * which `make archives` writes to target/staticlib. Of these the last has the calls of weak jobs, the fifth the load
 * windows, the fourth the preview's calls, the third begin and the steps, the second the reader and the writer, the first
 * the other calls.
 *
 * What is assumed of the pointers:
 *   - each is aligned and good for as many elements as the length after it says; an empty list may have any pointer
 *     but NULL;
 *   - no list that a call writes overlaps another list of that call;
 *   - nobody else writes a list during a call, nor between the calls of a run.
 * Nothing is assumed of the words, lengths and numbers: any are taken, and the wrong ones are refused.
 *
 * N is the number of tasks and E that of edges: the lengths of `weights` and of `preds`. Tasks are numbered 0 to N - 1.
 * P is the number of workers, numbered 0 to P - 1, and K that of the slots of a ring, which holds K tasks; they are
 * handed over as `p` and `k`.
 */
#ifndef YOLLUVEK_H
#define YOLLUVEK_H

#include <stddef.h>
#include <stdint.h>

#ifdef __cplusplus
extern "C" {
#endif

/* Limits: beyond them a call is refused with 2. */
#define YOLLUVEK_MAX_TASKS 1024   /* N at most; in a text n is 2 less, for its two dummies */
#define YOLLUVEK_MAX_EDGES 8192   /* E at most */
#define YOLLUVEK_MAX_WEIGHT 65535 /* a weight at most, judged by the check, the writer and begin */
#define YOLLUVEK_MAX_WORKERS 16   /* P at most, at least 1 */
#define YOLLUVEK_MIN_SLOTS 2      /* K at least */
#define YOLLUVEK_MAX_SLOTS 64     /* K at most */
#define YOLLUVEK_MAX_TEXT 65536   /* bytes of a text at most */

/* Limits of the preview's five calls, in the same places: P at least 1, K at least 2 and weights to 65,535 stay. */
#define YOLLUVEK_PREVIEW_MAX_TASKS 128 /* N at most */
#define YOLLUVEK_PREVIEW_MAX_EDGES 512 /* E at most */
#define YOLLUVEK_PREVIEW_MAX_WORKERS 4 /* P at most, at least 1 */
#define YOLLUVEK_PREVIEW_MAX_SLOTS 8   /* K at most, at least 2 */

/* Bytes of a buffer that always suffice for the writer's text: no text that it writes is longer. */
#define YOLLUVEK_MAX_WRITTEN 57349

/* Words of results that suffice for any load windows: a window for each of 1,024 entries, and 17 words for each. */
#define YOLLUVEK_MAX_RESULTS 17408

/* The held task of a worker whose hand is empty; in a weak job both words of it, and the predecessor of a root's copy. */
#define YOLLUVEK_NIL 65535

/* The fixed word of a weak job's task that has no worker yet. */
#define YOLLUVEK_UNFIXED 65535

/*
 * The number that a call answers, 0 where it is accepted. A refused call leaves every word of every list as it was. The
 * detail is 0 where none is named.
 */
enum {
    YOLLUVEK_ACCEPTED = 0,

    /* a lent list has the wrong length, or the writer's buffer is too small */
    YOLLUVEK_WRONG_LENGTH = 1,

    /* a size, a weight or the text is beyond its limit */
    YOLLUVEK_BEYOND_LIMIT = 2,

    /* a bad start or task number in a table; detail: the smallest bad task, or N if only the first start isn't 0 or the
       last one isn't E; of a lookup: the task */
    YOLLUVEK_BAD_TABLE = 3,

    /* a predecessor stands twice in one task; detail: the smallest such task */
    YOLLUVEK_PREDECESSOR_TWICE = 4,

    /* the tasks form a cycle; detail: the smallest task on a cycle */
    YOLLUVEK_CYCLE = 5,

    /* more than P * K tasks without predecessors; detail: their number */
    YOLLUVEK_TOO_MANY_ROOTS = 6,

    /* the worker is P or more; detail: the number handed in */
    YOLLUVEK_NO_SUCH_WORKER = 7,

    /* a word that the step or the load windows read is outside its range: something else has written it, or there was
       no accepted begin */
    YOLLUVEK_DAMAGED_WORD = 8,

    /* the step doesn't suit the worker's phase; detail: the phase */
    YOLLUVEK_WRONG_PHASE = 9,

    /* Fetch: no task waits in the worker's rings; Release: no completed task of the worker has a successor left */
    YOLLUVEK_NOTHING_THERE = 10,

    /* Release: all rings that the worker fills are full, or, of a later copy of a weak job, the one ring that it can go
       to; detail: the task to be placed, which isn't lost */
    YOLLUVEK_NO_ROOM = 11,

    /* Complete with N entries recorded, in a weak job E + R: something else has written the lists */
    YOLLUVEK_RECORD_FULL = 12,

    /* the text breaks the layout; detail: the line, from 1 */
    YOLLUVEK_BAD_LAYOUT = 13,

    /* the tables lack a text's dummies: N is under 2, task 0 has weight or predecessors, or the last task has weight */
    YOLLUVEK_NO_DUMMIES = 14,

    /* a load window has no entries, or more than are recorded */
    YOLLUVEK_BAD_WINDOW = 15
};

/* What the check, begin, the judging call and the load windows answer. */
typedef struct {
    uint32_t number;
    uint32_t detail;
} yolluvek_reply;

/* What the reader answers. */
typedef struct {
    uint32_t number;
    uint32_t detail;
    uint32_t tasks; /* N; 0 of a refused text */
    uint32_t edges; /* E; 0 of a refused text */
} yolluvek_read_reply;

/* What the writer answers. */
typedef struct {
    uint32_t number;
    uint32_t detail;
    uint32_t used; /* the bytes of the text; 0 where it is refused */
} yolluvek_write_reply;

/* What a step answers. */
typedef struct {
    uint32_t number;
    uint32_t detail;
    uint32_t kind;   /* one of the four below */
    uint32_t first;  /* the task fetched, the degree left, or the task placed; else 0 */
    uint32_t second; /* the worker that owns the ring of the task placed; else 0 */
} yolluvek_step_reply;

/* The kinds of a step's answer. */
enum {
    YOLLUVEK_MOVED = 0,       /* a refused step, an accepted Start or Complete */
    YOLLUVEK_FETCHED = 1,     /* an accepted Fetch: `first` is the task */
    YOLLUVEK_DEGREE_LEFT = 2, /* an accepted Release: the successor still waits for `first` predecessors */
    YOLLUVEK_PLACED = 3       /* an accepted Release: the task `first` was placed into a ring of worker `second` */
};

/* A part of a table: its first place, and how many words it has. */
typedef struct {
    uint32_t place;
    uint32_t count;
} yolluvek_part;

/* A worker's row. A host reads it, and doesn't write it during a run. */
typedef struct {
    uint32_t phase;   /* 0 idle, 1 fetched, 2 running */
    uint32_t held;    /* the task in its hand, or YOLLUVEK_NIL */
    uint32_t pointer; /* the ring at which its next Fetch starts to look */
    uint32_t read;    /* the place of the oldest task in its buffer */
    uint32_t write;   /* the place behind the newest one */
    uint32_t cursor;  /* which successor of the oldest task its next Release looks at */
} yolluvek_row;

/* A copy of a task in a weak job: the task that is to be worked on, and the finished predecessor it is worked on with. */
typedef struct {
    uint32_t task;
    uint32_t predecessor; /* YOLLUVEK_NIL in the one copy of a root */
} yolluvek_copy;

/* A worker's row in a weak job. A host reads it, and doesn't write it during a run. */
typedef struct {
    uint32_t phase;     /* 0 idle, 1 fetched, 2 running */
    yolluvek_copy held; /* the copy in its hand, or YOLLUVEK_NIL twice */
    uint32_t pointer;   /* the ring at which its next Fetch starts to look */
    uint32_t read;      /* the place of the oldest task in its buffer */
    uint32_t write;     /* the place behind the newest one */
    uint32_t cursor;    /* which successor of the oldest task its next Release looks at */
} yolluvek_weak_row;

/* What a step of a weak job answers. */
typedef struct {
    uint32_t number;
    uint32_t detail;
    uint32_t kind;   /* one of the three below */
    uint32_t first;  /* the task of the copy fetched or placed; else 0 */
    uint32_t second; /* the predecessor of that copy; else 0 */
    uint32_t third;  /* the worker that owns the ring of the copy placed; else 0 */
} yolluvek_weak_step_reply;

/* The kinds of the answer of a weak job's step. */
enum {
    YOLLUVEK_WEAK_MOVED = 0,   /* a refused step, an accepted Start or Complete */
    YOLLUVEK_WEAK_FETCHED = 1, /* an accepted Fetch: the copy (`first`, `second`) */
    YOLLUVEK_WEAK_PLACED = 2   /* an accepted Release: the copy (`first`, `second`) in a ring of worker `third` */
};

/* Sides of a lookup. */
enum {
    YOLLUVEK_PREDECESSORS = 0,
    YOLLUVEK_SUCCESSORS = 1 /* as any other number */
};

/*
 * Reads a text of the Standard Task Graph Set, without communication costs, into the tables of a graph. Accepted, the
 * first N weights, N + 1 starts and E predecessors are written, and no other word.
 *
 * Lengths: weights 1,024, starts 1,025, preds 8,192.
 * Refused: 1; 2 for a text of more than 65,536 bytes; then line by line 13, and after it in the same line 2, where n is
 * over 1,022 or the predecessors pass 8,192. Predecessor numbers aren't judged; begin does that.
 */
yolluvek_read_reply yolluvek_read_text(
    const uint8_t *text, size_t text_len,
    uint32_t *weights, size_t weights_len,
    uint32_t *starts, size_t starts_len,
    uint32_t *preds, size_t preds_len);

/*
 * Saves a graph as a text of the Standard Task Graph Set, for other schedulers; yolluvek_read_text reads it to the same
 * tables again. It has single spaces between fields, LF after every line, no leading zeros, no comments, predecessors
 * in the table's order, and no 0 byte behind it. Accepted, the first `used` bytes of `text` are written, and no other.
 * The three lists are only read, so a run may go on with them.
 *
 * Lengths: weights N, starts N + 1, preds E. That of `text` is the one length that isn't exact: at least the text's. A
 * shorter one is refused with 1, which doesn't tell the size; YOLLUVEK_MAX_WRITTEN bytes always suffice.
 * Refused: 2, 1 for the starts, 3, 4, 5, 14, and last 1 for `text`, the first in this order.
 */
yolluvek_write_reply yolluvek_write_text(
    const uint32_t *weights, size_t weights_len,
    const uint32_t *starts, size_t starts_len,
    const uint32_t *preds, size_t preds_len,
    uint8_t *text, size_t text_len);

/*
 * Checks a graph, as begin does. `most_tasks` and `most_edges` are the caller's limits on N and E, not N and E, which
 * are the lengths here too; a limit above the engine's counts as the engine's.
 *
 * Task t's predecessors stand in `preds` from place starts[t] up to but not including starts[t + 1].
 * Lengths: weights N, starts N + 1, preds E.
 * Refused: 2, 1, 3, 4, 5, the first in this order.
 */
yolluvek_reply yolluvek_check_graph(
    size_t most_tasks, size_t most_edges,
    const uint32_t *weights, size_t weights_len,
    const uint32_t *starts, size_t starts_len,
    const uint32_t *preds, size_t preds_len);

/*
 * The same check with the same limits; where it accepts, the successor table is written, each task's successors
 * rising, and the degrees, which are the numbers of predecessors.
 *
 * Lengths: weights N, starts N + 1, preds E, succ_starts N + 1, succs E, degrees N.
 * Refused: 2, 1, 3, 4, 5, the first in this order.
 */
yolluvek_reply yolluvek_link_graph(
    size_t most_tasks, size_t most_edges,
    const uint32_t *weights, size_t weights_len,
    const uint32_t *starts, size_t starts_len,
    const uint32_t *preds, size_t preds_len,
    uint32_t *succ_starts, size_t succ_starts_len,
    uint32_t *succs, size_t succs_len,
    uint32_t *degrees, size_t degrees_len);

/*
 * Judges a lookup of a task's neighbours on one side: 0 and 0 exactly if it is accepted.
 *
 * Lengths: weights N, pred_starts N + 1, preds E, succ_starts N + 1, succs E.
 * Refused: 2, 1, 3, the first in this order; 3 if there is no such task, or its part of the table on that side is bad.
 */
yolluvek_reply yolluvek_judge_lookup(
    const uint32_t *weights, size_t weights_len,
    const uint32_t *pred_starts, size_t pred_starts_len,
    const uint32_t *preds, size_t preds_len,
    const uint32_t *succ_starts, size_t succ_starts_len,
    const uint32_t *succs, size_t succs_len,
    uint32_t side, uint32_t task);

/*
 * Where the task's neighbours stand in `preds` or in `succs`, by the side. Where the lookup is refused, place and count
 * are 0; since a task may have no neighbours, ask the judging call which it is.
 */
yolluvek_part yolluvek_lookup(
    const uint32_t *weights, size_t weights_len,
    const uint32_t *pred_starts, size_t pred_starts_len,
    const uint32_t *preds, size_t preds_len,
    const uint32_t *succ_starts, size_t succ_starts_len,
    const uint32_t *succs, size_t succs_len,
    uint32_t side, uint32_t task);

/*
 * Begins a run, whatever the lists held besides the weights and the predecessor table; these stay, and everything else
 * is written. The tasks without predecessors are dealt to the workers 0, 1, .., P - 1, 0, .. in the order of their
 * numbers. In the middle of a run or after it, that starts another one.
 *
 * The lists of a run, each of exactly this length; begin and all steps of the run are lent the same ones, with the same
 * P and K:
 *
 *   weights      N          the weight of each task
 *   pred_starts  N + 1      where each task's predecessors begin, and E
 *   preds        E          the predecessors of each task in turn
 *   succ_starts  N + 1      where each task's successors begin, and E
 *   succs        E          the successors of each task in turn, rising
 *   degrees      N          how many predecessors each task still waits for
 *   rings        P * P * K  the slots of the ring of owner i, filled by worker j, begin at (i * P + j) * K
 *   ends         3 * P * P  at 3 * (i * P + j) that ring's head, the next slot to take, its tail, the slot that the next
 *                           task goes to, and its count of tasks: 0 of an empty ring, K of a full one
 *   counters     P * P      at i * P + j that ring's counter; the load of worker i is the sum of its P counters: the
 *                           weight of the tasks that wait in its rings and of the one in its hand
 *   buffers      P * N      the completed tasks of worker i with successors to release begin at i * N
 *   executed     2 * N      the record: task and worker of each completed task, in order
 *   run          2          how many entries the record has, how many steps were accepted
 *   rows         P          a row for each worker
 *
 * Refused: 2, 1, 3, 4, 5, 6, the first in this order.
 */
yolluvek_reply yolluvek_begin(
    const uint32_t *weights, size_t weights_len,
    const uint32_t *pred_starts, size_t pred_starts_len,
    const uint32_t *preds, size_t preds_len,
    uint32_t *succ_starts, size_t succ_starts_len,
    uint32_t *succs, size_t succs_len,
    uint32_t *degrees, size_t degrees_len,
    uint32_t *rings, size_t rings_len,
    uint32_t *ends, size_t ends_len,
    int32_t *counters, size_t counters_len,
    uint32_t *buffers, size_t buffers_len,
    uint32_t *executed, size_t executed_len,
    uint32_t *run, size_t run_len,
    yolluvek_row *rows, size_t rows_len,
    size_t p, size_t k);

/*
 * The four steps of a worker. The lists that a step is lent as `const` are those that it never writes.
 *
 * The run is finished when the record has N entries; it has 3N + E accepted steps then. Until then some worker has a
 * step that is accepted.
 *
 * Refused: 2, 1, 7, 8 for the phase, 9, the first in this order; then 8, 10, 11 or 12, whichever the step's rule meets
 * first.
 */

/*
 * Fetch: an idle worker takes a task that waits in its rings. Answers the task, whose weight stays in the worker's load
 * until it is completed.
 */
yolluvek_step_reply yolluvek_fetch(
    const uint32_t *weights, size_t weights_len,
    const uint32_t *pred_starts, size_t pred_starts_len,
    const uint32_t *preds, size_t preds_len,
    const uint32_t *succ_starts, size_t succ_starts_len,
    const uint32_t *succs, size_t succs_len,
    const uint32_t *degrees, size_t degrees_len,
    const uint32_t *rings, size_t rings_len,
    uint32_t *ends, size_t ends_len,
    const int32_t *counters, size_t counters_len,
    const uint32_t *buffers, size_t buffers_len,
    const uint32_t *executed, size_t executed_len,
    uint32_t *run, size_t run_len,
    yolluvek_row *rows, size_t rows_len,
    size_t p, size_t k, uint32_t worker);

/* Start: a worker starts the task that it has fetched. */
yolluvek_step_reply yolluvek_start(
    const uint32_t *weights, size_t weights_len,
    const uint32_t *pred_starts, size_t pred_starts_len,
    const uint32_t *preds, size_t preds_len,
    const uint32_t *succ_starts, size_t succ_starts_len,
    const uint32_t *succs, size_t succs_len,
    const uint32_t *degrees, size_t degrees_len,
    const uint32_t *rings, size_t rings_len,
    const uint32_t *ends, size_t ends_len,
    const int32_t *counters, size_t counters_len,
    const uint32_t *buffers, size_t buffers_len,
    const uint32_t *executed, size_t executed_len,
    uint32_t *run, size_t run_len,
    yolluvek_row *rows, size_t rows_len,
    size_t p, size_t k, uint32_t worker);

/*
 * Complete: the task that a worker is running joins the record, and the worker's buffer if it has successors. Its
 * weight leaves the worker's load.
 */
yolluvek_step_reply yolluvek_complete(
    const uint32_t *weights, size_t weights_len,
    const uint32_t *pred_starts, size_t pred_starts_len,
    const uint32_t *preds, size_t preds_len,
    const uint32_t *succ_starts, size_t succ_starts_len,
    const uint32_t *succs, size_t succs_len,
    const uint32_t *degrees, size_t degrees_len,
    const uint32_t *rings, size_t rings_len,
    const uint32_t *ends, size_t ends_len,
    int32_t *counters, size_t counters_len,
    uint32_t *buffers, size_t buffers_len,
    uint32_t *executed, size_t executed_len,
    uint32_t *run, size_t run_len,
    yolluvek_row *rows, size_t rows_len,
    size_t p, size_t k, uint32_t worker);

/*
 * Release: the next successor of the oldest task in an idle worker's buffer waits for one task less. Answers how many
 * are left; if none is, the successor is placed into a ring that the worker fills, of the worker with the least load or
 * of one after it, and the answer is the task and its new owner.
 */
yolluvek_step_reply yolluvek_release(
    const uint32_t *weights, size_t weights_len,
    const uint32_t *pred_starts, size_t pred_starts_len,
    const uint32_t *preds, size_t preds_len,
    const uint32_t *succ_starts, size_t succ_starts_len,
    const uint32_t *succs, size_t succs_len,
    uint32_t *degrees, size_t degrees_len,
    uint32_t *rings, size_t rings_len,
    uint32_t *ends, size_t ends_len,
    int32_t *counters, size_t counters_len,
    const uint32_t *buffers, size_t buffers_len,
    const uint32_t *executed, size_t executed_len,
    uint32_t *run, size_t run_len,
    yolluvek_row *rows, size_t rows_len,
    size_t p, size_t k, uint32_t worker);

/*
 * Load windows: for every run of `m` neighbouring entries of the record, in order, the weight that each worker finished,
 * and the spread from the smallest to the largest of these. Window w is the entries w to w + m - 1, and its words begin
 * at w * (P + 1) of `results`: P sums, then the spread. A worker without an entry in the window has the sum 0. The three
 * other lists are only read, so a run may go on with them; the cost of a window doesn't depend on m.
 *
 * Lengths: weights N, executed 2 * N, run 2, results (run[0] - m + 1) * (P + 1), at most YOLLUVEK_MAX_RESULTS.
 * Refused: 2, 1 for record and run words, 8 where run[0] is over N, 15, 1 for the results, and last 8 for a recorded
 * task, worker or weight, the first in this order. Entries from run[0] on and other tasks' weights aren't looked at.
 */
yolluvek_reply yolluvek_windows(
    const uint32_t *weights, size_t weights_len,
    const uint32_t *executed, size_t executed_len,
    const uint32_t *run, size_t run_len,
    uint32_t *results, size_t results_len,
    size_t p, size_t m);

/*
 * The preview: begin and the four steps with smaller limits, for a planning window that lends less memory. It takes N
 * to 128, E to 512, P to 4 and K to 8 (YOLLUVEK_PREVIEW_MAX_TASKS and so on). The lists, their lengths and the replies
 * are those of yolluvek_begin and of the steps; so the lists are as short as N, E, P and K make them.
 *
 * Beyond these limits each of the five calls is refused with 2, detail 0, before anything else is judged, lengths and
 * the worker too. Within them each is the engine's own call, with its answer and its words: a run may be begun by one
 * and stepped by the other, in any turn. Weights to 65,535, P from 1 and K from 2 stay. The scratch words that a call
 * has on the stack are the core's, sized by the engine's limits, and are no fewer here.
 *
 * The lookup and the writer have no preview; they take the preview's lists as any other. yolluvek_check_graph with
 * YOLLUVEK_PREVIEW_MAX_TASKS and YOLLUVEK_PREVIEW_MAX_EDGES checks a graph for it.
 */
yolluvek_reply yolluvek_preview_begin(
    const uint32_t *weights, size_t weights_len,
    const uint32_t *pred_starts, size_t pred_starts_len,
    const uint32_t *preds, size_t preds_len,
    uint32_t *succ_starts, size_t succ_starts_len,
    uint32_t *succs, size_t succs_len,
    uint32_t *degrees, size_t degrees_len,
    uint32_t *rings, size_t rings_len,
    uint32_t *ends, size_t ends_len,
    int32_t *counters, size_t counters_len,
    uint32_t *buffers, size_t buffers_len,
    uint32_t *executed, size_t executed_len,
    uint32_t *run, size_t run_len,
    yolluvek_row *rows, size_t rows_len,
    size_t p, size_t k);

yolluvek_step_reply yolluvek_preview_fetch(
    const uint32_t *weights, size_t weights_len,
    const uint32_t *pred_starts, size_t pred_starts_len,
    const uint32_t *preds, size_t preds_len,
    const uint32_t *succ_starts, size_t succ_starts_len,
    const uint32_t *succs, size_t succs_len,
    const uint32_t *degrees, size_t degrees_len,
    const uint32_t *rings, size_t rings_len,
    uint32_t *ends, size_t ends_len,
    const int32_t *counters, size_t counters_len,
    const uint32_t *buffers, size_t buffers_len,
    const uint32_t *executed, size_t executed_len,
    uint32_t *run, size_t run_len,
    yolluvek_row *rows, size_t rows_len,
    size_t p, size_t k, uint32_t worker);

yolluvek_step_reply yolluvek_preview_start(
    const uint32_t *weights, size_t weights_len,
    const uint32_t *pred_starts, size_t pred_starts_len,
    const uint32_t *preds, size_t preds_len,
    const uint32_t *succ_starts, size_t succ_starts_len,
    const uint32_t *succs, size_t succs_len,
    const uint32_t *degrees, size_t degrees_len,
    const uint32_t *rings, size_t rings_len,
    const uint32_t *ends, size_t ends_len,
    const int32_t *counters, size_t counters_len,
    const uint32_t *buffers, size_t buffers_len,
    const uint32_t *executed, size_t executed_len,
    uint32_t *run, size_t run_len,
    yolluvek_row *rows, size_t rows_len,
    size_t p, size_t k, uint32_t worker);

yolluvek_step_reply yolluvek_preview_complete(
    const uint32_t *weights, size_t weights_len,
    const uint32_t *pred_starts, size_t pred_starts_len,
    const uint32_t *preds, size_t preds_len,
    const uint32_t *succ_starts, size_t succ_starts_len,
    const uint32_t *succs, size_t succs_len,
    const uint32_t *degrees, size_t degrees_len,
    const uint32_t *rings, size_t rings_len,
    const uint32_t *ends, size_t ends_len,
    int32_t *counters, size_t counters_len,
    uint32_t *buffers, size_t buffers_len,
    uint32_t *executed, size_t executed_len,
    uint32_t *run, size_t run_len,
    yolluvek_row *rows, size_t rows_len,
    size_t p, size_t k, uint32_t worker);

yolluvek_step_reply yolluvek_preview_release(
    const uint32_t *weights, size_t weights_len,
    const uint32_t *pred_starts, size_t pred_starts_len,
    const uint32_t *preds, size_t preds_len,
    const uint32_t *succ_starts, size_t succ_starts_len,
    const uint32_t *succs, size_t succs_len,
    uint32_t *degrees, size_t degrees_len,
    uint32_t *rings, size_t rings_len,
    uint32_t *ends, size_t ends_len,
    int32_t *counters, size_t counters_len,
    const uint32_t *buffers, size_t buffers_len,
    const uint32_t *executed, size_t executed_len,
    uint32_t *run, size_t run_len,
    yolluvek_row *rows, size_t rows_len,
    size_t p, size_t k, uint32_t worker);

/*
 * Weak jobs: seams that blend neighbour by neighbour. A task isn't worked on once, when all its predecessors are
 * completed, but once with each of them: it has a copy (task, predecessor) for each predecessor, and a task without
 * predecessors, a root, has one copy, with YOLLUVEK_NIL. With R roots there are E + R copies, and they take the place of
 * tasks in rings, hands and record. The first copy of a task picks its ring as a plain job's task does, and fixes the
 * task's worker; later copies go only to that worker's ring. A task is complete when its last copy is: then it joins the
 * buffer of the worker, and its successors' copies can be released.
 *
 * A weak job has calls of its own, on lists of its own; limits, P, K and the lists not named here are those of
 * yolluvek_begin:
 *
 *   degrees      N            how many copies of each task aren't completed yet; 1 of a root at begin
 *   fixed        N            the worker that each task is fixed to, YOLLUVEK_UNFIXED before its first copy
 *   rings        P * P * K    copies: the slots of the ring of owner i, filled by worker j, begin at (i * P + j) * K
 *   counters     P * P        the load of worker i is the sum of its P counters: the weight of the tasks that are fixed to
 *                             it and aren't complete, from the first copy to the last
 *   executed     3 * (E + N)  the record: task, predecessor and worker of each completed copy, in order; E + R are used
 *   run          3            how many entries the record has, how many steps were accepted, and R
 *   rows         P            a row for each worker
 *
 * The lists come in this order, `fixed` behind `degrees`. `ends` still has words, three of each ring, and so have
 * `executed` and `run`; `rings` and `rows` have records, and their lengths count records.
 *
 * The run is finished when the record has E + R entries; it has 4E + 3R accepted steps then. Until then some worker has
 * a step that is accepted. The lookup and the writer take a weak job's lists as any other; the load windows, which read
 * records of two words, don't. A preview has no weak calls.
 */

/*
 * Begins a weak run, as yolluvek_begin begins a plain one: the weights and the predecessor table stay, and everything
 * else is written. The copies of the roots are dealt to the workers 0, 1, .., P - 1, 0, .. in the order of their
 * numbers, and each root is fixed to its worker.
 *
 * Refused: 2, 1, 3, 4, 5, 6, the first in this order.
 */
yolluvek_reply yolluvek_weak_begin(
    const uint32_t *weights, size_t weights_len,
    const uint32_t *pred_starts, size_t pred_starts_len,
    const uint32_t *preds, size_t preds_len,
    uint32_t *succ_starts, size_t succ_starts_len,
    uint32_t *succs, size_t succs_len,
    uint32_t *degrees, size_t degrees_len,
    uint32_t *fixed, size_t fixed_len,
    yolluvek_copy *rings, size_t rings_len,
    uint32_t *ends, size_t ends_len,
    int32_t *counters, size_t counters_len,
    uint32_t *buffers, size_t buffers_len,
    uint32_t *executed, size_t executed_len,
    uint32_t *run, size_t run_len,
    yolluvek_weak_row *rows, size_t rows_len,
    size_t p, size_t k);

/*
 * The four steps of a weak job. Refused in the order of the plain ones.
 *
 * Fetch: an idle worker takes a copy that waits in its rings. Answers the copy; loads stay.
 */
yolluvek_weak_step_reply yolluvek_weak_fetch(
    const uint32_t *weights, size_t weights_len,
    const uint32_t *pred_starts, size_t pred_starts_len,
    const uint32_t *preds, size_t preds_len,
    const uint32_t *succ_starts, size_t succ_starts_len,
    const uint32_t *succs, size_t succs_len,
    const uint32_t *degrees, size_t degrees_len,
    const uint32_t *fixed, size_t fixed_len,
    const yolluvek_copy *rings, size_t rings_len,
    uint32_t *ends, size_t ends_len,
    const int32_t *counters, size_t counters_len,
    const uint32_t *buffers, size_t buffers_len,
    const uint32_t *executed, size_t executed_len,
    uint32_t *run, size_t run_len,
    yolluvek_weak_row *rows, size_t rows_len,
    size_t p, size_t k, uint32_t worker);

/* Start: a worker starts the copy that it has fetched. */
yolluvek_weak_step_reply yolluvek_weak_start(
    const uint32_t *weights, size_t weights_len,
    const uint32_t *pred_starts, size_t pred_starts_len,
    const uint32_t *preds, size_t preds_len,
    const uint32_t *succ_starts, size_t succ_starts_len,
    const uint32_t *succs, size_t succs_len,
    const uint32_t *degrees, size_t degrees_len,
    const uint32_t *fixed, size_t fixed_len,
    const yolluvek_copy *rings, size_t rings_len,
    const uint32_t *ends, size_t ends_len,
    const int32_t *counters, size_t counters_len,
    const uint32_t *buffers, size_t buffers_len,
    const uint32_t *executed, size_t executed_len,
    uint32_t *run, size_t run_len,
    yolluvek_weak_row *rows, size_t rows_len,
    size_t p, size_t k, uint32_t worker);

/*
 * Complete: the copy that a worker is running joins the record, and its task waits for one copy less. With the last copy
 * the task is complete: it joins the worker's buffer if it has successors, and its weight leaves the worker's load.
 */
yolluvek_weak_step_reply yolluvek_weak_complete(
    const uint32_t *weights, size_t weights_len,
    const uint32_t *pred_starts, size_t pred_starts_len,
    const uint32_t *preds, size_t preds_len,
    const uint32_t *succ_starts, size_t succ_starts_len,
    const uint32_t *succs, size_t succs_len,
    uint32_t *degrees, size_t degrees_len,
    const uint32_t *fixed, size_t fixed_len,
    const yolluvek_copy *rings, size_t rings_len,
    const uint32_t *ends, size_t ends_len,
    int32_t *counters, size_t counters_len,
    uint32_t *buffers, size_t buffers_len,
    uint32_t *executed, size_t executed_len,
    uint32_t *run, size_t run_len,
    yolluvek_weak_row *rows, size_t rows_len,
    size_t p, size_t k, uint32_t worker);

/*
 * Release: of the oldest task in an idle worker's buffer and its next successor one copy is made, and placed into a ring
 * that the worker fills. The first copy of the successor goes to the worker with the least load or to one after it, and
 * fixes the successor to the worker that owns the ring used, whose load its weight joins. A later copy goes to the ring
 * of the worker that it is fixed to; 11 is given exactly if that ring is full, and no load changes. Answers the copy and
 * the ring's owner.
 */
yolluvek_weak_step_reply yolluvek_weak_release(
    const uint32_t *weights, size_t weights_len,
    const uint32_t *pred_starts, size_t pred_starts_len,
    const uint32_t *preds, size_t preds_len,
    const uint32_t *succ_starts, size_t succ_starts_len,
    const uint32_t *succs, size_t succs_len,
    const uint32_t *degrees, size_t degrees_len,
    uint32_t *fixed, size_t fixed_len,
    yolluvek_copy *rings, size_t rings_len,
    uint32_t *ends, size_t ends_len,
    int32_t *counters, size_t counters_len,
    const uint32_t *buffers, size_t buffers_len,
    const uint32_t *executed, size_t executed_len,
    uint32_t *run, size_t run_len,
    yolluvek_weak_row *rows, size_t rows_len,
    size_t p, size_t k, uint32_t worker);

/* The layouts that the library has: words without gaps, in the order declared. */
#if defined(__cplusplus) && __cplusplus >= 201103L
#define YOLLUVEK_ASSERT(fact) static_assert(fact, #fact)
#elif !defined(__cplusplus) && defined(__STDC_VERSION__) && __STDC_VERSION__ >= 201112L
#define YOLLUVEK_ASSERT(fact) _Static_assert(fact, #fact)
#endif
#ifdef YOLLUVEK_ASSERT
YOLLUVEK_ASSERT(sizeof(yolluvek_reply) == 8);
YOLLUVEK_ASSERT(offsetof(yolluvek_reply, detail) == 4);
YOLLUVEK_ASSERT(sizeof(yolluvek_read_reply) == 16);
YOLLUVEK_ASSERT(offsetof(yolluvek_read_reply, detail) == 4);
YOLLUVEK_ASSERT(offsetof(yolluvek_read_reply, tasks) == 8);
YOLLUVEK_ASSERT(offsetof(yolluvek_read_reply, edges) == 12);
YOLLUVEK_ASSERT(sizeof(yolluvek_write_reply) == 12);
YOLLUVEK_ASSERT(offsetof(yolluvek_write_reply, detail) == 4);
YOLLUVEK_ASSERT(offsetof(yolluvek_write_reply, used) == 8);
YOLLUVEK_ASSERT(sizeof(yolluvek_step_reply) == 20);
YOLLUVEK_ASSERT(offsetof(yolluvek_step_reply, detail) == 4);
YOLLUVEK_ASSERT(offsetof(yolluvek_step_reply, kind) == 8);
YOLLUVEK_ASSERT(offsetof(yolluvek_step_reply, first) == 12);
YOLLUVEK_ASSERT(offsetof(yolluvek_step_reply, second) == 16);
YOLLUVEK_ASSERT(sizeof(yolluvek_part) == 8);
YOLLUVEK_ASSERT(offsetof(yolluvek_part, count) == 4);
YOLLUVEK_ASSERT(sizeof(yolluvek_row) == 24);
YOLLUVEK_ASSERT(offsetof(yolluvek_row, held) == 4);
YOLLUVEK_ASSERT(offsetof(yolluvek_row, pointer) == 8);
YOLLUVEK_ASSERT(offsetof(yolluvek_row, read) == 12);
YOLLUVEK_ASSERT(offsetof(yolluvek_row, write) == 16);
YOLLUVEK_ASSERT(offsetof(yolluvek_row, cursor) == 20);
YOLLUVEK_ASSERT(sizeof(yolluvek_copy) == 8);
YOLLUVEK_ASSERT(offsetof(yolluvek_copy, predecessor) == 4);
YOLLUVEK_ASSERT(sizeof(yolluvek_weak_row) == 28);
YOLLUVEK_ASSERT(offsetof(yolluvek_weak_row, held) == 4);
YOLLUVEK_ASSERT(offsetof(yolluvek_weak_row, pointer) == 12);
YOLLUVEK_ASSERT(offsetof(yolluvek_weak_row, read) == 16);
YOLLUVEK_ASSERT(offsetof(yolluvek_weak_row, write) == 20);
YOLLUVEK_ASSERT(offsetof(yolluvek_weak_row, cursor) == 24);
YOLLUVEK_ASSERT(sizeof(yolluvek_weak_step_reply) == 24);
YOLLUVEK_ASSERT(offsetof(yolluvek_weak_step_reply, detail) == 4);
YOLLUVEK_ASSERT(offsetof(yolluvek_weak_step_reply, kind) == 8);
YOLLUVEK_ASSERT(offsetof(yolluvek_weak_step_reply, first) == 12);
YOLLUVEK_ASSERT(offsetof(yolluvek_weak_step_reply, second) == 16);
YOLLUVEK_ASSERT(offsetof(yolluvek_weak_step_reply, third) == 20);
#undef YOLLUVEK_ASSERT
#endif

#ifdef __cplusplus
}
#endif

#endif
