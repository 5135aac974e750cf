/*
 * What is advised beside what the library answers: a 2 by what is beyond, a 3 by what is wrong in the tables, an 8 before
 * begin, an 11 that the refused worker ends itself, a 14 by the dummies that are missing, lookups, and texts that end too
 * early, with the task lines that there have to be and are.
 */
#include "check.h"
#include "yolluvek_job.h"

static yolluvek_tables tables;

static int says(const char *advice, const char *words)
{
    return strncmp(advice, words, strlen(words)) == 0;
}

/* A job of these sizes isn't made, or isn't begun for its weights; the advice speaks of what is beyond. */
static void beyond(size_t n, size_t e, size_t p, size_t k, const char *words)
{
    yolluvek_job job;
    CHECK(yolluvek_job_make(&job, NULL, 0, n, e, p, k).number == YOLLUVEK_BEYOND_LIMIT);
    CHECK(says(yolluvek_limits_advice(n, e, p, k, NULL), words));
}

static void limits(void)
{
    static uint32_t block[YOLLUVEK_WORDS(1, 0, 2, 4)];
    yolluvek_job job;
    beyond(1025, 0, 2, 4, "the job is too large");
    beyond(2, 8193, 2, 4, "the job is too large");
    beyond(1025, 0, 17, 65, "the job is too large");
    beyond(2, 1, 0, 4, "choose from 1 to 16 workers.");
    beyond(2, 1, 17, 1, "choose from 1 to 16 workers.");
    beyond(2, 1, 2, 1, "choose from 2 to 64 slots.");
    beyond(2, 1, 2, 65, "choose from 2 to 64 slots.");
    CHECK(yolluvek_job_make(&job, block, sizeof block / sizeof *block, 1, 0, 2, 4).number == YOLLUVEK_ACCEPTED);
    job.pred_starts[1] = 0;
    job.weights[0] = 65536;
    CHECK(yolluvek_job_begin(&job).number == YOLLUVEK_BEYOND_LIMIT);
    CHECK(says(yolluvek_job_advice(&job, YOLLUVEK_BEYOND_LIMIT, 0), "weigh all tasks in a larger unit"));
    job.weights[0] = 65535;
    CHECK(yolluvek_job_begin(&job).number == YOLLUVEK_ACCEPTED);
}

/* Before an accepted begin an 8 isn't reported; in a run it is. */
static void not_begun(void)
{
    static uint32_t block[YOLLUVEK_WORDS(1, 0, 2, 4)];
    yolluvek_job job;
    yolluvek_step_reply reply;
    CHECK(yolluvek_job_make(&job, block, sizeof block / sizeof *block, 1, 0, 2, 4).number == YOLLUVEK_ACCEPTED);
    reply = yolluvek_job_fetch(&job, 0);
    CHECK(reply.number == YOLLUVEK_DAMAGED_WORD && !yolluvek_job_begun(&job));
    CHECK(strcmp(yolluvek_job_advice(&job, reply.number, reply.detail), "begin first.") == 0);
    CHECK(strcmp(yolluvek_preview_advice(&job, reply.number, reply.detail), "begin first.") == 0);
    job.weights[0] = 1;
    job.pred_starts[1] = 0;
    CHECK(yolluvek_job_begin(&job).number == YOLLUVEK_ACCEPTED && yolluvek_job_begun(&job));
    job.rows[0].phase = 3;
    reply = yolluvek_job_fetch(&job, 0);
    CHECK(reply.number == YOLLUVEK_DAMAGED_WORD);
    CHECK(strcmp(yolluvek_job_advice(&job, reply.number, reply.detail), "report it.") == 0);
}

/* Begin is refused with 3 and this detail. */
static void bad_table(yolluvek_job *job, uint32_t detail, const char *words)
{
    yolluvek_reply reply = yolluvek_job_begin(job);
    CHECK(reply.number == YOLLUVEK_BAD_TABLE && reply.detail == detail);
    CHECK(says(yolluvek_job_advice(job, reply.number, reply.detail), words));
    CHECK(says(yolluvek_preview_advice(job, reply.number, reply.detail), words));
}

/* By what is wrong, without a word on lookups: a predecessor, starts that fall or pass E, the last start, the first. */
static void bad_tables(void)
{
    static uint32_t block[YOLLUVEK_WORDS(2, 2, 1, 4)];
    static const uint32_t zeros[3] = {0, 0, 0};
    yolluvek_job job;
    CHECK(yolluvek_job_make(&job, block, sizeof block / sizeof *block, 2, 2, 1, 4).number == YOLLUVEK_ACCEPTED);
    memcpy(job.weights, zeros, 2 * sizeof *zeros);
    memcpy(job.pred_starts, zeros, sizeof zeros);
    memcpy(job.preds, zeros, 2 * sizeof *zeros);
    bad_table(&job, 2, "look for an edge that leads to a task that isn't there");
    job.pred_starts[2] = 1;
    bad_table(&job, 2, "look for an edge that leads to a task that isn't there");
    job.pred_starts[2] = 2;
    job.preds[1] = 2;
    bad_table(&job, 1, "correct that predecessor");
    job.pred_starts[1] = 2;
    bad_table(&job, 0, "correct that predecessor");
    job.pred_starts[1] = 3;
    bad_table(&job, 0, "report it.");
    job.pred_starts[1] = 1;
    job.pred_starts[2] = 0;
    bad_table(&job, 1, "report it.");
    job.preds[1] = 0;
    job.pred_starts[0] = 1;
    job.pred_starts[2] = 2;
    bad_table(&job, 2, "report it.");
}

/* The refused worker does as it is told: it fetches, starts and completes, and then its Release has room. */
static void room_made(void)
{
    static uint32_t block[YOLLUVEK_WORDS(4, 3, 1, 2)];
    static const uint32_t weights[] = {1, 1, 1, 1}, starts[] = {0, 0, 1, 2, 3}, preds[] = {0, 0, 0};
    yolluvek_job job;
    yolluvek_step_reply reply;
    CHECK(yolluvek_job_make(&job, block, sizeof block / sizeof *block, 4, 3, 1, 2).number == YOLLUVEK_ACCEPTED);
    memcpy(job.weights, weights, sizeof weights);
    memcpy(job.pred_starts, starts, sizeof starts);
    memcpy(job.preds, preds, sizeof preds);
    CHECK(yolluvek_job_begin(&job).number == YOLLUVEK_ACCEPTED);
    yolluvek_job_fetch(&job, 0);
    yolluvek_job_start(&job, 0);
    yolluvek_job_complete(&job, 0);
    yolluvek_job_release(&job, 0);
    yolluvek_job_release(&job, 0);
    reply = yolluvek_job_release(&job, 0);
    CHECK(reply.number == YOLLUVEK_NO_ROOM && reply.detail == 3);
    CHECK(strstr(yolluvek_job_advice(&job, reply.number, reply.detail),
                 "; it then starts and completes that task before it fetches or releases again. ") != NULL);
    CHECK(yolluvek_job_fetch(&job, 0).number == YOLLUVEK_ACCEPTED);
    CHECK(yolluvek_job_release(&job, 0).number == YOLLUVEK_WRONG_PHASE);
    CHECK(yolluvek_job_start(&job, 0).number == YOLLUVEK_ACCEPTED);
    CHECK(yolluvek_job_complete(&job, 0).number == YOLLUVEK_ACCEPTED);
    CHECK(yolluvek_job_release(&job, 0).number == YOLLUVEK_ACCEPTED);
}

/* Saving n tasks without edges is refused with 14. */
static void no_dummies(uint32_t n, uint32_t first, uint32_t last, const char *words)
{
    static uint32_t block[YOLLUVEK_WORDS(YOLLUVEK_MAX_TASKS, 0, 1, 2)];
    static char text[YOLLUVEK_MAX_WRITTEN];
    yolluvek_job job;
    yolluvek_write_reply reply;
    CHECK(yolluvek_job_make(&job, block, YOLLUVEK_WORDS(n, 0, 1, 2), n, 0, 1, 2).number == YOLLUVEK_ACCEPTED);
    memset(job.weights, 0, n * sizeof *block);
    memset(job.pred_starts, 0, (n + 1) * sizeof *block);
    if (n > 0) {
        job.weights[n - 1] = last;
        job.weights[0] = first;
    }
    reply = yolluvek_job_to_text(&job, text, sizeof text);
    CHECK(reply.number == YOLLUVEK_NO_DUMMIES);
    CHECK(strcmp(yolluvek_job_advice(&job, reply.number, reply.detail), words) == 0);
}

static void dummies(void)
{
    static const char both[] = "put a task without weight and predecessors first, and one without weight last. Every other "
                               "task's number rises by one then, among the predecessors too.",
                      head[] = "put a task without weight and predecessors first. Every other task's number rises by one "
                               "then, among the predecessors too.",
                      tail[] = "put a task without weight last.",
                      split[] = "split the job: a text has at most 1,022 tasks besides the dummies.";
    no_dummies(0, 0, 0, both);
    no_dummies(1, 0, 0, tail);
    no_dummies(1, 1, 0, both);
    no_dummies(2, 1, 1, both);
    no_dummies(2, 1, 0, head);
    no_dummies(2, 0, 1, tail);
    no_dummies(1022, 1, 1, both);
    no_dummies(1023, 1, 1, split);
    no_dummies(1023, 1, 0, head);
    no_dummies(1023, 0, 1, tail);
    no_dummies(1024, 1, 1, split);
    no_dummies(1024, 1, 0, split);
    no_dummies(1024, 0, 1, split);
}

/* The first predecessor that is no task, by its number and its place; bad starts have none. */
static void bad_predecessors(void)
{
    static uint32_t block[YOLLUVEK_WORDS(2, 2, 1, 4)];
    static const uint32_t weights[] = {1, 1}, starts[] = {0, 1, 2}, preds[] = {1, 65535};
    yolluvek_job job;
    yolluvek_reply reply;
    CHECK(yolluvek_job_make(&job, block, sizeof block / sizeof *block, 2, 2, 1, 4).number == YOLLUVEK_ACCEPTED);
    memcpy(job.weights, weights, sizeof weights);
    memcpy(job.pred_starts, starts, sizeof starts);
    memcpy(job.preds, preds, sizeof preds);
    reply = yolluvek_job_begin(&job);
    CHECK(reply.number == YOLLUVEK_BAD_TABLE && reply.detail == 1);
    CHECK(yolluvek_job_bad_predecessor(&job, reply.detail) == job.preds + 1);
    CHECK(yolluvek_job_bad_predecessor(&job, 0) == NULL && yolluvek_job_bad_predecessor(&job, 2) == NULL);
    job.pred_starts[2] = 3;
    reply = yolluvek_job_begin(&job);
    CHECK(reply.number == YOLLUVEK_BAD_TABLE && reply.detail == 1);
    CHECK(yolluvek_job_bad_predecessor(&job, reply.detail) == NULL);
    job.pred_starts[2] = 0;
    CHECK(yolluvek_job_begin(&job).detail == 1 && yolluvek_job_bad_predecessor(&job, 1) == NULL);
}

/* A lookup on the job's lists is refused with 3 and the task. */
static void no_lookup(const yolluvek_job *job, uint32_t side, uint32_t task, const char *words)
{
    yolluvek_reply reply = yolluvek_judge_lookup(
        job->weights, job->n, job->pred_starts, job->n + 1, job->preds, job->e, job->succ_starts, job->n + 1, job->succs,
        job->e, side, task);
    CHECK(reply.number == YOLLUVEK_BAD_TABLE && reply.detail == task);
    CHECK(strcmp(yolluvek_lookup_advice(job, side, reply.number, reply.detail), words) == 0);
}

static void lookups(void)
{
    static uint32_t block[YOLLUVEK_WORDS(2, 1, 1, 4)];
    yolluvek_job job;
    CHECK(yolluvek_job_make(&job, block, sizeof block / sizeof *block, 2, 1, 1, 4).number == YOLLUVEK_ACCEPTED);
    job.weights[0] = job.weights[1] = 1;
    job.pred_starts[1] = 0;
    job.pred_starts[2] = 1;
    job.preds[0] = 2;
    no_lookup(&job, YOLLUVEK_PREDECESSORS, 99, "choose another task.");
    no_lookup(&job, YOLLUVEK_SUCCESSORS, 99, "choose another task.");
    no_lookup(&job, YOLLUVEK_SUCCESSORS, 1, "begin first.");
    no_lookup(&job, YOLLUVEK_PREDECESSORS, 1,
              "correct that predecessor, or add all tasks up to it; in a text, raise n too. The reader takes any number "
              "there; begin judges it.");
    job.preds[0] = 1024;
    no_lookup(&job, YOLLUVEK_PREDECESSORS, 1,
              "correct that predecessor. The reader takes any number there; begin judges it.");
    job.pred_starts[2] = 2;
    no_lookup(&job, YOLLUVEK_PREDECESSORS, 1, "report it.");
    job.pred_starts[2] = 1;
    job.preds[0] = 0;
    CHECK(yolluvek_job_begin(&job).number == YOLLUVEK_ACCEPTED);
    no_lookup(&job, YOLLUVEK_SUCCESSORS, 99, "choose another task.");
    job.succs[0] = 2;
    no_lookup(&job, YOLLUVEK_SUCCESSORS, 0, "report it.");
    CHECK(says(yolluvek_lookup_advice(&job, YOLLUVEK_SUCCESSORS, YOLLUVEK_WRONG_LENGTH, 0), "report it."));
    /* the number alone holds of lookups too */
    CHECK(strstr(yolluvek_advice(YOLLUVEK_BAD_TABLE), "After a lookup, choose another task, or begin first.") != NULL);
}

/* A text that ends too early. */
static void early(const char *text, size_t expected, size_t found, int other, const char *words)
{
    yolluvek_read_reply reply = yolluvek_tables_read(&tables, text, strlen(text));
    yolluvek_text_end ends = yolluvek_text_ends(text, strlen(text), reply.detail);
    CHECK(reply.number == YOLLUVEK_BAD_LAYOUT);
    CHECK(ends.early && ends.expected == expected && ends.found == found && ends.other == other);
    CHECK(says(yolluvek_text_advice(text, strlen(text), reply.number, reply.detail), words));
}

static void texts(void)
{
    static const char line[] = "2\n0 0 0\n1 5 2 0\n2 3 1 0\n3 0 2 1 2\n", many[] = "# images\n\n 1023\n",
                      shared[] = "# images\n2 0\n0 0 0\n1 0 0\n";
    static char blank[YOLLUVEK_MAX_TEXT + 1];
    yolluvek_read_reply reply = yolluvek_tables_read(&tables, line, strlen(line));
    early("", 0, 0, 0, "put n first");
    early("# images\n\n", 0, 0, 0, "put n first");
    early("0\n", 2, 0, 0, "add the task lines");
    early("2\n0 0 0", 4, 1, 0, "add the task lines");
    early("# images\r\n 2\r\n\r\n0 0 0\r\n\t1 5 1 0\r\n", 4, 2, 0, "add the task lines");
    early("4\n0 0 0\n1 5 1 0\n2 3 1 0\n3 0 2 1 2\n", 6, 4, 1, "correct the line with n");
    early("# images\n4\n0 0 0\n1 5 1 0\n2 3 1 0\n3 0 2 1 2\n", 6, 4, 1, "correct the line with n");
    CHECK(reply.number == YOLLUVEK_BAD_LAYOUT && reply.detail == 3);
    CHECK(!yolluvek_text_ends(line, strlen(line), reply.detail).early);
    CHECK(says(yolluvek_text_advice(line, strlen(line), reply.number, reply.detail), "look in that line"));

    reply = yolluvek_tables_read(&tables, shared, strlen(shared));
    CHECK(reply.number == YOLLUVEK_BAD_LAYOUT && reply.detail == 2);
    CHECK(says(yolluvek_text_advice(shared, strlen(shared), reply.number, reply.detail), "this line has to be n alone"));
    reply = yolluvek_tables_read(&tables, many, strlen(many));
    CHECK(reply.number == YOLLUVEK_BEYOND_LIMIT);
    CHECK(says(yolluvek_text_advice(many, strlen(many), reply.number, reply.detail), "correct the line with n if"));
    memset(blank, ' ', sizeof blank);
    reply = yolluvek_tables_read(&tables, blank, sizeof blank);
    CHECK(reply.number == YOLLUVEK_BEYOND_LIMIT);
    CHECK(says(yolluvek_text_advice(blank, sizeof blank, reply.number, reply.detail), "leave out comments"));
}

int main(void)
{
    limits();
    not_begun();
    bad_tables();
    bad_predecessors();
    room_made();
    dummies();
    lookups();
    texts();
    return failures == 0 ? EXIT_SUCCESS : EXIT_FAILURE;
}
