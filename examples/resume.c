/*
 * A job that is saved in the middle of its run and goes on in another process.
 *
 *     ./resume FILE TURNS
 *
 * goes on with the job in FILE, or begins the diamond for two workers where there is no such file. It takes that many
 * of the desk program's turns; then it saves the job, or prints what the desk program prints if the run is finished.
 * So these three lines together print the same as the desk program alone:
 *
 *     ./resume job 7 && ./resume job 7 && ./resume job 100
 *
 * After `make install PREFIX=/opt/yolluvek`:
 *
 *     cc resume.c -I/opt/yolluvek/include -L/opt/yolluvek/lib -lyolluvek -o resume
 */
#include "yolluvek_job.h"

#include <errno.h>
#include <inttypes.h>
#include <stdio.h>
#include <stdlib.h>

enum { P = 2, K = 4 };

static const char text[] =
    "2\n"
    "0 0 0\n"
    "1 5 1 0\n"
    "2 3 1 0\n"
    "3 0 2 1 2\n";

static yolluvek_tables tables;
static yolluvek_job job;

/* The host's own word, saved behind the job's: whose turn is next. */
static uint32_t next;

static int refused(const char *call, uint32_t number, uint32_t detail)
{
    if (number == YOLLUVEK_ACCEPTED) {
        return 0;
    }
    fprintf(stderr, "%s refused, %" PRIu32 " %" PRIu32 ": %s; %s\n",
            call, number, detail, yolluvek_means(number), yolluvek_advice(number));
    return 1;
}

static int begin(void)
{
    yolluvek_read_reply read = yolluvek_tables_read(&tables, text, strlen(text));
    yolluvek_reply reply;
    size_t words;
    if (refused("the text", read.number, read.detail)) {
        return 0;
    }
    words = yolluvek_words(read.tasks, read.edges, P, K);
    reply = yolluvek_job_from_tables(&job, (uint32_t *)malloc(words * sizeof *job.block), words, &tables, P, K);
    if (refused("the job", reply.number, reply.detail)) {
        return 0;
    }
    reply = yolluvek_job_begin(&job);
    return !refused("begin", reply.number, reply.detail);
}

/* The words that follow in the file, all of them. */
static int words_read(FILE *file, uint32_t *words, size_t count)
{
    return fread(words, sizeof *words, count, file) == count;
}

/* The head says how many words there are; behind them stands the host's own, and nothing else. */
static int load(FILE *file)
{
    uint32_t head[YOLLUVEK_HEAD], *block;
    yolluvek_reply reply;
    size_t words;
    if (!words_read(file, head, YOLLUVEK_HEAD) || (words = yolluvek_words_of(head)) == 0) {
        fprintf(stderr, "the file isn't a saved job\n");
        return 0;
    }
    block = (uint32_t *)malloc(words * sizeof *block);
    if (block == NULL) {
        fprintf(stderr, "no memory\n");
        return 0;
    }
    memcpy(block, head, sizeof head);
    if (!words_read(file, block + YOLLUVEK_HEAD, words - YOLLUVEK_HEAD) || !words_read(file, &next, 1) ||
        next >= head[4] || fgetc(file) != EOF) {
        fprintf(stderr, "the saved job isn't whole\n");
        free(block);
        return 0;
    }
    reply = yolluvek_job_open(&job, block, words);
    return !refused("the saved job", reply.number, reply.detail);
}

/* Under another name first, so that whatever happens on the way the old file is whole until the new one is. */
static int save(const char *name)
{
    char fresh[4096];
    FILE *file;
    int whole;
    if (snprintf(fresh, sizeof fresh, "%s.new", name) >= (int)sizeof fresh) {
        fprintf(stderr, "the name of the file is too long\n");
        return 0;
    }
    file = fopen(fresh, "wb");
    if (file == NULL) {
        perror(fresh);
        return 0;
    }
    whole = fwrite(job.block, sizeof *job.block, job.words, file) == job.words &&
            fwrite(&next, sizeof next, 1, file) == 1;
    if (fclose(file) != 0 || !whole || rename(fresh, name) != 0) {
        perror(name);
        return 0;
    }
    return 1;
}

static int accepted(yolluvek_step_reply reply)
{
    return reply.number == YOLLUVEK_ACCEPTED;
}

/* A turn of a worker: the first accepted of Release, Fetch, Start, Complete, or nothing. */
static void turn(uint32_t worker)
{
    (void)(accepted(yolluvek_job_release(&job, worker)) || accepted(yolluvek_job_fetch(&job, worker)) ||
           accepted(yolluvek_job_start(&job, worker)) || accepted(yolluvek_job_complete(&job, worker)));
}

static void print_record(void)
{
    size_t entry;
    printf("%zu %" PRIu32 "\n", job.n, job.run[1]);
    for (entry = 0; entry < job.n; entry++) {
        printf("%" PRIu32 " %" PRIu32 "\n", job.executed[2 * entry], job.executed[2 * entry + 1]);
    }
}

/* Goes on for so many turns; then the job is saved, or finished and its file gone. */
static int go_on(const char *name, unsigned long turns)
{
    for (; turns > 0 && !yolluvek_job_finished(&job); turns--) {
        turn(next);
        next = (next + 1) % (uint32_t)job.p;
    }
    if (!yolluvek_job_finished(&job)) {
        return save(name);
    }
    print_record();
    return remove(name) == 0 || errno == ENOENT;
}

int main(int count, char **arguments)
{
    FILE *file;
    int ready, done;
    if (count != 3) {
        fprintf(stderr, "usage: resume FILE TURNS\n");
        return 2;
    }
    file = fopen(arguments[1], "rb");
    if (file == NULL && errno != ENOENT) {
        perror(arguments[1]);
        return 1;
    }
    ready = file == NULL ? begin() : load(file);
    if (file != NULL) {
        fclose(file);
    }
    done = ready && go_on(arguments[1], strtoul(arguments[2], NULL, 10));
    free(job.block);
    return done ? 0 : 1;
}
