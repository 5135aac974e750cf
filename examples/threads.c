/*
 * One job, four threads, one for each worker: 300 image tiles are corrected, and the seam between two neighbours is
 * blended after both of them.
 *
 * The calls are made one after the other, behind one lock; the tasks themselves run outside it, side by side. Who is
 * woken when: a thread sleeps only if its worker has nothing to release and nothing to fetch. What ends that is a task
 * placed into one of its rings, and the Release that places it answers the owner; so that one is woken, and no other.
 * A Release that finds no room is nothing to sleep for: the worker itself owns one of the full rings, and can fetch.
 * At the end the first thread to see that all is done wakes the others.
 *
 * After `make install PREFIX=/opt/yolluvek`:
 *
 *     cc threads.c -I/opt/yolluvek/include -L/opt/yolluvek/lib -lyolluvek -pthread -o threads && ./threads
 */
#include "yolluvek_job.h"

#include <inttypes.h>
#include <pthread.h>
#include <stdio.h>

enum {
    COLUMNS = 20,
    ROWS = 15,
    TILES = COLUMNS * ROWS,
    SEAMS = (COLUMNS - 1) * ROWS + COLUMNS * (ROWS - 1),
    TASKS = 1 + TILES + SEAMS, /* the flight, the tiles, the seams */
    EDGES = TILES + 2 * SEAMS,
    WORKERS = 4,
    SLOTS = 64,
    WAKES = 8 /* how many wakes are printed */
};

static pthread_mutex_t lock = PTHREAD_MUTEX_INITIALIZER;

/* behind the lock */
static uint32_t block[YOLLUVEK_WORDS(TASKS, EDGES, WORKERS, SLOTS)];
static yolluvek_job job;
static pthread_cond_t bells[WORKERS];
static int asleep[WORKERS];
static uint32_t woken[WORKERS];
static struct { uint32_t accepted, by, task, woken; } wakes[WAKES];
static uint32_t waked, no_room;
static int failed, over;

/* What each task makes. Not behind the lock: a task alone writes its own, and reads those of its predecessors, which
   are completed before it can be fetched. */
static uint64_t image[TASKS];

/* ---- the graph ---- */

/* Appends a predecessor to the task whose predecessors are being listed. */
static void after(uint32_t *edge, uint32_t before)
{
    job.preds[(*edge)++] = before;
}

static void seam(uint32_t *task, uint32_t *edge, uint32_t first, uint32_t second)
{
    after(edge, first);
    after(edge, second);
    job.weights[*task] = 4;
    job.pred_starts[++*task] = *edge;
}

/* The flight comes before every tile. Without it 300 tasks would have no predecessor, and begin has room for 4 * 64. */
static void fill(void)
{
    uint32_t task = 0, edge = 0, tile;
    job.weights[task] = 0;
    job.pred_starts[++task] = edge;
    for (tile = 1; tile <= TILES; tile++) {
        after(&edge, 0);
        job.weights[task] = 9;
        job.pred_starts[++task] = edge;
    }
    for (tile = 1; tile <= TILES; tile++) {
        if (tile % COLUMNS != 0) {
            seam(&task, &edge, tile, tile + 1);
        }
        if (tile + COLUMNS <= TILES) {
            seam(&task, &edge, tile, tile + COLUMNS);
        }
    }
}

/* ---- the tasks ---- */

/* Makes an image of those before it, slowly: a stand-in for the work of a machine. */
static uint64_t made_of(uint32_t task)
{
    uint64_t made = task + 1;
    uint32_t place, round;
    for (place = job.pred_starts[task]; place < job.pred_starts[task + 1]; place++) {
        made = made * 31 + image[job.preds[place]];
    }
    for (round = 0; round < 20000; round++) {
        made = made * UINT64_C(6364136223846793005) + 1442695040888963407;
    }
    return made;
}

/* ---- the workers; all but `work` are called with the lock held ---- */

static void wake_all(void)
{
    uint32_t worker;
    over = 1;
    for (worker = 0; worker < WORKERS; worker++) {
        asleep[worker] = 0;
        pthread_cond_signal(&bells[worker]);
    }
}

/* A refusal that a right program doesn't meet: all stop. */
static void fail(const char *step, uint32_t worker, uint32_t number, uint32_t detail)
{
    printf("%s by worker %" PRIu32 " refused, %" PRIu32 " %" PRIu32 ": %s; %s\n",
           step, worker, number, detail, yolluvek_means(number), yolluvek_advice(number));
    failed = 1;
    wake_all();
}

static void wake(uint32_t by, uint32_t task, uint32_t owner)
{
    if (!asleep[owner]) {
        return;
    }
    asleep[owner] = 0;
    woken[owner]++;
    if (waked < WAKES) {
        wakes[waked].accepted = job.run[1];
        wakes[waked].by = by;
        wakes[waked].task = task;
        wakes[waked].woken = owner;
        waked++;
    }
    pthread_cond_signal(&bells[owner]);
}

/* Releases what the worker can; the owner of each task placed is woken. */
static void release_all(uint32_t worker)
{
    yolluvek_step_reply reply = yolluvek_job_release(&job, worker);
    while (reply.number == YOLLUVEK_ACCEPTED) {
        if (reply.kind == YOLLUVEK_PLACED) {
            wake(worker, reply.first, reply.second);
        }
        reply = yolluvek_job_release(&job, worker);
    }
    if (reply.number == YOLLUVEK_NO_ROOM) {
        no_room++;
    } else if (reply.number != YOLLUVEK_NOTHING_THERE) {
        fail("Release", worker, reply.number, reply.detail);
    }
}

static void sleep_until_woken(uint32_t worker)
{
    asleep[worker] = 1;
    while (asleep[worker]) {
        pthread_cond_wait(&bells[worker], &lock);
    }
}

/* The worker's next task, started, when there is one; 0 if all is done. */
static int next_task(uint32_t worker, uint32_t *task)
{
    while (!over) {
        yolluvek_step_reply reply;
        release_all(worker);
        if (over) {
            break;
        }
        reply = yolluvek_job_fetch(&job, worker);
        if (reply.number == YOLLUVEK_ACCEPTED) {
            *task = reply.first;
            reply = yolluvek_job_start(&job, worker);
            if (reply.number == YOLLUVEK_ACCEPTED) {
                return 1;
            }
        }
        if (reply.number != YOLLUVEK_NOTHING_THERE) {
            fail("Fetch or Start", worker, reply.number, reply.detail);
        } else {
            sleep_until_woken(worker);
        }
    }
    return 0;
}

static void complete(uint32_t worker)
{
    yolluvek_step_reply reply = yolluvek_job_complete(&job, worker);
    if (reply.number != YOLLUVEK_ACCEPTED) {
        fail("Complete", worker, reply.number, reply.detail);
    } else if (yolluvek_job_finished(&job)) {
        wake_all();
    }
}

static void *work(void *number)
{
    uint32_t worker = *(const uint32_t *)number, task;
    pthread_mutex_lock(&lock);
    while (next_task(worker, &task)) {
        /* nobody waits for the lock while a task runs */
        pthread_mutex_unlock(&lock);
        image[task] = made_of(task);
        pthread_mutex_lock(&lock);
        complete(worker);
    }
    pthread_mutex_unlock(&lock);
    return NULL;
}

/* ---- the whole ---- */

static int run_threads(void)
{
    pthread_t threads[WORKERS];
    uint32_t numbers[WORKERS], worker, started = 0;
    for (worker = 0; worker < WORKERS; worker++) {
        pthread_cond_init(&bells[worker], NULL);
    }
    while (started < WORKERS) {
        numbers[started] = started;
        if (pthread_create(&threads[started], NULL, work, &numbers[started]) != 0) {
            pthread_mutex_lock(&lock);
            printf("no thread for worker %" PRIu32 "\n", started);
            failed = 1;
            wake_all();
            pthread_mutex_unlock(&lock);
            break;
        }
        started++;
    }
    while (started > 0) {
        pthread_join(threads[--started], NULL);
    }
    return !failed;
}

/* The images once more, one after the other in the order of the numbers, which the graph allows: they are the same. */
static int came_out(void)
{
    uint32_t task;
    for (task = 0; task < TASKS; task++) {
        if (image[task] != made_of(task)) {
            printf("task %" PRIu32 " ran before one of its predecessors\n", task);
            return 0;
        }
    }
    return 1;
}

static void print_run(void)
{
    uint32_t worker, entry, wake_number;
    printf("%d tasks, %d edges: %" PRIu32 " accepted steps\n", TASKS, EDGES, job.run[1]);
    printf("%" PRIu32 " Releases found no room; the worker fetched instead\n", no_room);
    for (worker = 0; worker < WORKERS; worker++) {
        uint32_t completed = 0;
        for (entry = 0; entry < job.run[0]; entry++) {
            completed += job.executed[2 * entry + 1] == worker;
        }
        printf("worker %" PRIu32 ": tasks %" PRIu32 ", woken %" PRIu32 "\n", worker, completed, woken[worker]);
    }
    for (wake_number = 0; wake_number < waked; wake_number++) {
        printf("at step %" PRIu32 " worker %" PRIu32 " places task %" PRIu32 ": worker %" PRIu32 " is woken\n",
               wakes[wake_number].accepted, wakes[wake_number].by, wakes[wake_number].task, wakes[wake_number].woken);
    }
}

int main(void)
{
    yolluvek_reply reply = yolluvek_job_make(
        &job, block, sizeof block / sizeof *block, TASKS, EDGES, WORKERS, SLOTS);
    if (reply.number == YOLLUVEK_ACCEPTED) {
        fill();
        reply = yolluvek_job_begin(&job);
    }
    if (reply.number != YOLLUVEK_ACCEPTED) {
        printf("refused %" PRIu32 " %" PRIu32 ": %s; %s\n", reply.number, reply.detail,
               yolluvek_means(reply.number), yolluvek_advice(reply.number));
        return 1;
    }
    if (!run_threads() || !came_out()) {
        return 1;
    }
    print_run();
    return 0;
}
