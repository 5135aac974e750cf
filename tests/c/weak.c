/*
 * The weak calls on lists of the program's own: the diamond in the desk program's turns, its record by hand, a later
 * copy whose ring is full, with every list compared before and after the refused call, and a refused first copy that
 * becomes a later one, with what is advised about it.
 */
#include "check.h"
#include "yolluvek_job.h"

enum { N = 7, E = 6, P = 2, K = 4, TURNS = 200 };

/* The lists of a job with at most N tasks, E edges, P workers and K slots. */
typedef struct {
    uint32_t weights[N], pred_starts[N + 1], preds[E], succ_starts[N + 1], succs[E], degrees[N], fixed[N];
    yolluvek_copy rings[P * P * K];
    uint32_t ends[3 * P * P];
    int32_t counters[P * P];
    uint32_t buffers[P * N], executed[3 * (E + N)], run[3];
    yolluvek_weak_row rows[P];
    size_t n, e, p, k;
} weak_job;

#define LENT(job)                                                                                        \
    (job)->weights, (job)->n, (job)->pred_starts, (job)->n + 1, (job)->preds, (job)->e,                  \
    (job)->succ_starts, (job)->n + 1, (job)->succs, (job)->e, (job)->degrees, (job)->n,                  \
    (job)->fixed, (job)->n, (job)->rings, (job)->p * (job)->p * (job)->k,                                \
    (job)->ends, 3 * (job)->p * (job)->p, (job)->counters, (job)->p * (job)->p,                          \
    (job)->buffers, (job)->p * (job)->n, (job)->executed, 3 * ((job)->e + (job)->n), (job)->run, 3,      \
    (job)->rows, (job)->p, (job)->p, (job)->k

/* A job of that many tasks, edges, workers and slots; the other words are filled with what no run has. */
static void made(weak_job *job, size_t n, size_t e, size_t p, size_t k, const uint32_t *weights, const uint32_t *starts,
                 const uint32_t *preds)
{
    memset(job, 0xff, sizeof *job);
    job->n = n;
    job->e = e;
    job->p = p;
    job->k = k;
    memcpy(job->weights, weights, n * sizeof *weights);
    memcpy(job->pred_starts, starts, (n + 1) * sizeof *starts);
    memcpy(job->preds, preds, e * sizeof *preds);
    CHECK(yolluvek_weak_begin(LENT(job)).number == YOLLUVEK_ACCEPTED);
}

/* A turn: the first of the four steps that is accepted, or nothing. */
static int turn(weak_job *job, uint32_t worker)
{
    return yolluvek_weak_release(LENT(job), worker).number == YOLLUVEK_ACCEPTED ||
           yolluvek_weak_fetch(LENT(job), worker).number == YOLLUVEK_ACCEPTED ||
           yolluvek_weak_start(LENT(job), worker).number == YOLLUVEK_ACCEPTED ||
           yolluvek_weak_complete(LENT(job), worker).number == YOLLUVEK_ACCEPTED;
}

/* Task 3 is worked on with 2 and with 1, both by worker 0. */
static void the_diamond(void)
{
    static const uint32_t weights[] = {0, 5, 3, 0}, starts[] = {0, 0, 1, 2, 4}, preds[] = {0, 0, 1, 2};
    static const uint32_t record[] = {0, YOLLUVEK_NIL, 0, 2, 0, 1, 1, 0, 0, 3, 2, 0, 3, 1, 0};
    static const uint32_t fixed[] = {0, 0, 1, 0};
    weak_job job;
    int turns;
    made(&job, 4, 4, 2, 4, weights, starts, preds);
    CHECK(job.run[2] == 1);
    CHECK(job.fixed[0] == 0 && job.fixed[1] == YOLLUVEK_UNFIXED);
    CHECK(job.rows[0].held.task == YOLLUVEK_NIL && job.rows[0].held.predecessor == YOLLUVEK_NIL);
    for (turns = 0; turns < TURNS && job.run[0] < 5; turns++) {
        turn(&job, (uint32_t)turns % 2);
    }
    CHECK(job.run[0] == 5 && job.run[1] == 19);
    CHECK(memcmp(job.executed, record, sizeof record) == 0);
    CHECK(memcmp(job.fixed, fixed, sizeof fixed) == 0);
}

static yolluvek_copy worked_by(weak_job *job, uint32_t worker)
{
    yolluvek_weak_step_reply fetched = yolluvek_weak_fetch(LENT(job), worker);
    yolluvek_copy copy;
    copy.task = fetched.first;
    copy.predecessor = fetched.second;
    CHECK(fetched.number == YOLLUVEK_ACCEPTED && fetched.kind == YOLLUVEK_WEAK_FETCHED);
    CHECK(job->rows[worker].held.task == copy.task && job->rows[worker].held.predecessor == copy.predecessor);
    CHECK(yolluvek_weak_start(LENT(job), worker).number == YOLLUVEK_ACCEPTED);
    CHECK(yolluvek_weak_complete(LENT(job), worker).kind == YOLLUVEK_WEAK_MOVED);
    return copy;
}

static yolluvek_copy worked(weak_job *job)
{
    return worked_by(job, 0);
}

/* One worker, two slots: of the three copies of task 4 the third finds the ring full until one is fetched. */
static void a_full_ring(void)
{
    static const uint32_t weights[] = {0, 1, 1, 1, 7}, starts[] = {0, 0, 1, 2, 3, 6}, preds[] = {0, 0, 0, 1, 2, 3};
    weak_job job, before;
    yolluvek_weak_step_reply reply;
    uint32_t task;
    made(&job, 5, 6, 1, 2, weights, starts, preds);
    worked(&job);
    for (task = 1; task <= 3; task++) {
        reply = yolluvek_weak_release(LENT(&job), 0);
        CHECK(reply.kind == YOLLUVEK_WEAK_PLACED && reply.first == task && reply.second == 0 && reply.third == 0);
        CHECK(worked(&job).task == task);
    }
    for (task = 1; task <= 2; task++) {
        reply = yolluvek_weak_release(LENT(&job), 0);
        CHECK(reply.kind == YOLLUVEK_WEAK_PLACED && reply.first == 4 && reply.second == task && reply.third == 0);
    }
    memcpy(&before, &job, sizeof job);
    reply = yolluvek_weak_release(LENT(&job), 0);
    CHECK(reply.number == YOLLUVEK_NO_ROOM && reply.detail == 4 && reply.kind == YOLLUVEK_WEAK_MOVED);
    CHECK(memcmp(&before, &job, sizeof job) == 0);
    CHECK(worked(&job).predecessor == 1);
    CHECK(job.counters[0] == 7);
    CHECK(yolluvek_weak_release(LENT(&job), 0).second == 3);
    worked(&job);
    CHECK(worked(&job).predecessor == 3);
    CHECK(job.counters[0] == 0 && job.run[0] == 7 && job.run[1] == 4 * 6 + 3);
    CHECK(yolluvek_weak_fetch(LENT(&job), 0).number == YOLLUVEK_NOTHING_THERE);
}

/* Worker 0's Release is refused with 11 and task 6, and the advice is of a task that is fixed, or isn't yet. */
static const char *refused(weak_job *job)
{
    yolluvek_weak_step_reply reply = yolluvek_weak_release(LENT(job), 0);
    CHECK(reply.number == YOLLUVEK_NO_ROOM && reply.detail == 6);
    return yolluvek_weak_advice(reply.number, job->fixed[reply.detail]);
}

/* No room for the first copy of task 6; P Fetches of worker 1 later it is fixed to worker 0, who alone makes room. */
static void a_first_copy_becomes_a_later_one(void)
{
    static const uint32_t weights[7] = {0}, starts[] = {0, 0, 0, 1, 2, 3, 4, 6}, preds[] = {0, 0, 0, 0, 0, 1};
    static const char fixed[] = "only of the worker that it is fixed to";
    weak_job job;
    uint32_t task;
    made(&job, 7, 6, 2, 2, weights, starts, preds);
    worked(&job);
    for (task = 2; task < 6; task++) {
        CHECK(yolluvek_weak_release(LENT(&job), 0).first == task);
    }
    CHECK(strstr(refused(&job), fixed) != NULL);
    CHECK(worked_by(&job, 1).task == 4 && worked_by(&job, 1).task == 1);
    CHECK(yolluvek_weak_release(LENT(&job), 1).third == 0);
    CHECK(job.fixed[6] == 0);
    CHECK(strstr(refused(&job), "any one worker") == NULL);
    CHECK(worked(&job).task == 6 && worked(&job).task == 2);
    CHECK(yolluvek_weak_release(LENT(&job), 0).third == 0);
    /* the number alone doesn't know, and promises nothing of any one worker */
    CHECK(strstr(yolluvek_advice(YOLLUVEK_NO_ROOM), "any one worker") == NULL);
}

int main(void)
{
    the_diamond();
    a_full_ring();
    a_first_copy_becomes_a_later_one();
    return failures == 0 ? EXIT_SUCCESS : EXIT_FAILURE;
}
