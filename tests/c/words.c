/*
 * yolluvek_means and yolluvek_advice beside docs/REFUSALS.md, the program's argument: the same numbers, each heading's
 * meaning, and the line for operators with its line breaks joined. What is advised where more is known than the number
 * is a cell of the page's tables.
 */
#include "check.h"
#include "yolluvek_job.h"

#include <stdlib.h>

enum { NUMBERS = 15, ROOM = 1 << 16 };

static char page[ROOM];

static int read_page(const char *name)
{
    FILE *file = fopen(name, "rb");
    size_t length;
    if (file == NULL) {
        return 0;
    }
    length = fread(page, 1, ROOM - 1, file);
    fclose(file);
    /* a page that fills the room may have been cut */
    return length > 0 && length < ROOM - 1;
}

/* How many headings the page has. */
static int headings(void)
{
    int count = 0;
    const char *place = page;
    while ((place = strstr(place, "\n## ")) != NULL) {
        count++;
        place++;
    }
    return count;
}

/* Where the text stops: at the next of the two marks, or at its end. */
static const char *until(const char *text, const char *mark, const char *other)
{
    const char *first = strstr(text, mark), *second = strstr(text, other);
    if (first == NULL || (second != NULL && second < first)) {
        first = second;
    }
    return first != NULL ? first : text + strlen(text);
}

/* The words from `from` to `to`, which is no place inside a word, with one space between two of them. */
static void join(char *joined, const char *from, const char *to)
{
    char *end = joined;
    while (from < to) {
        size_t blank = strspn(from, " \n"), word = strcspn(from + blank, " \n");
        if (word > 0 && end > joined) {
            *end++ = ' ';
        }
        memcpy(end, from + blank, word);
        end += word;
        from += blank + word;
    }
    *end = '\0';
}

/* The line for operators of the part that begins here; 0 where there isn't exactly one. */
static int operator_line(const char *part, const char *end, char *line)
{
    int found = 0;
    const char *item = part;
    while ((item = strstr(item, "\n- ")) != NULL && item < end) {
        const char *words = strstr(item, ": ");
        const char *whom = strstr(item, "perator");
        item += 3;
        if (words != NULL && whom != NULL && whom < words) {
            found++;
            join(line, words + 2, until(words, "\n\n", "\n- "));
        }
    }
    return found == 1;
}

static void one_number(uint32_t number)
{
    static char line[ROOM];
    char heading[16];
    const char *part, *meaning;
    size_t length;
    snprintf(heading, sizeof heading, "\n## %u: ", (unsigned)number);
    part = strstr(page, heading);
    CHECK(part != NULL);
    if (part == NULL) {
        return;
    }
    meaning = part + strlen(heading);
    length = strcspn(meaning, "\n");
    CHECK(strlen(yolluvek_means(number)) == length);
    CHECK(strncmp(yolluvek_means(number), meaning, length) == 0);
    CHECK(operator_line(meaning, until(meaning, "\n## ", "\n## "), line));
    CHECK(strcmp(yolluvek_advice(number), line) == 0);
    if (strcmp(yolluvek_advice(number), line) != 0) {
        printf("  number %u, the page: %s\n", (unsigned)number, line);
    }
}

/* The advice is a whole cell of the page, the last of its row. */
static void cell(const char *advice)
{
    static char row[ROOM];
    int there = snprintf(row, sizeof row, " | %s |\n", advice) > 0 && strstr(page, row) != NULL;
    CHECK(there);
    if (!there) {
        printf("  not on the page: %s\n", advice);
    }
}

static void cases(void)
{
    static const size_t many = YOLLUVEK_MAX_TASKS + 1;
    static const uint32_t heavy[] = {YOLLUVEK_MAX_WEIGHT + 1};
    static const uint32_t starts[] = {0, 1}, none[] = {0, 0}, preds[] = {9, 9}, far[] = {1024}, light[YOLLUVEK_MAX_TASKS] = {0};
    static const char early[] = "2\n0 0 0\n1 5 1 0\n", other[] = "2\n0 0 0\n1 0 1 0\n";
    uint32_t run[2] = {0, UINT32_MAX};
    yolluvek_job job;
    memset(&job, 0, sizeof job);
    cell(yolluvek_limits_advice(many, 0, 2, 4, NULL));
    cell(yolluvek_limits_advice(1, 0, 17, 4, NULL));
    cell(yolluvek_limits_advice(1, 0, 2, 65, NULL));
    cell(yolluvek_limits_advice(1, 0, 2, 4, heavy));
    cell(yolluvek_preview_limits_advice(129, 0, 2, 4, NULL));
    cell(yolluvek_preview_limits_advice(1, 0, 5, 4, NULL));
    cell(yolluvek_preview_limits_advice(1, 0, 2, 9, NULL));
    cell(yolluvek_preview_limits_advice(many, 0, 2, 4, NULL));
    cell(yolluvek_preview_limits_advice(1, 0, 17, 4, NULL));
    cell(yolluvek_preview_limits_advice(1, 0, 2, 65, NULL));
    cell(yolluvek_preview_limits_advice(1, 0, 2, 4, heavy));
    cell(yolluvek_text_advice("", YOLLUVEK_MAX_TEXT + 1, YOLLUVEK_BEYOND_LIMIT, 0));
    cell(yolluvek_text_advice("1023", 4, YOLLUVEK_BEYOND_LIMIT, 0));
    cell(yolluvek_text_advice(NULL, 0, YOLLUVEK_BAD_LAYOUT, 1));
    cell(yolluvek_text_advice(early, strlen(early), YOLLUVEK_BAD_LAYOUT, 4));
    cell(yolluvek_text_advice(other, strlen(other), YOLLUVEK_BAD_LAYOUT, 4));
    cell(yolluvek_text_advice("1022", 4, YOLLUVEK_BEYOND_LIMIT, 0));
    cell(yolluvek_job_advice(&job, YOLLUVEK_NO_ROOM, 0));
    cell(yolluvek_lookup_advice(&job, YOLLUVEK_PREDECESSORS, YOLLUVEK_BAD_TABLE, 0));
    job.n = 1;
    job.run = run;
    cell(yolluvek_job_advice(&job, YOLLUVEK_DAMAGED_WORD, 0));
    cell(yolluvek_lookup_advice(&job, YOLLUVEK_SUCCESSORS, YOLLUVEK_BAD_TABLE, 0));
    job.n = many;
    cell(yolluvek_lookup_advice(&job, YOLLUVEK_PREDECESSORS, YOLLUVEK_BEYOND_LIMIT, 0));
    cell(yolluvek_text_advice("2 0", 3, YOLLUVEK_BAD_LAYOUT, 1));
    cell(yolluvek_table_advice(1, starts, preds, 1, 0));
    cell(yolluvek_table_advice(1, starts, far, 1, 0));
    cell(yolluvek_table_advice(1, starts, preds, 2, 1));
    cell(yolluvek_table_advice(1, starts, preds, 0, 0));
    cell(yolluvek_dummies_advice(NULL, 0, starts));
    cell(yolluvek_dummies_advice(light, 2, starts));
    cell(yolluvek_dummies_advice(light, 1, none));
    cell(yolluvek_dummies_advice(light, YOLLUVEK_MAX_TASKS, starts));
    cell(yolluvek_weak_advice(YOLLUVEK_NO_ROOM, YOLLUVEK_UNFIXED));
    cell(yolluvek_weak_advice(YOLLUVEK_NO_ROOM, 0));
}

int main(int count, char **arguments)
{
    uint32_t number;
    if (count != 2 || !read_page(arguments[1])) {
        printf("usage: words docs/REFUSALS.md\n");
        return EXIT_FAILURE;
    }
    CHECK(headings() == NUMBERS);
    for (number = 1; number <= NUMBERS; number++) {
        one_number(number);
    }
    cases();
    CHECK(strcmp(yolluvek_means(0), "accepted") == 0);
    CHECK(strcmp(yolluvek_advice(0), "") == 0);
    /* what the page doesn't have is said to be unknown, and reported */
    CHECK(strcmp(yolluvek_means(NUMBERS + 1), "a number that this header doesn't know") == 0);
    CHECK(strcmp(yolluvek_means(UINT32_MAX), yolluvek_means(NUMBERS + 1)) == 0);
    CHECK(strcmp(yolluvek_advice(NUMBERS + 1), "report it.") == 0);
    return failures == 0 ? EXIT_SUCCESS : EXIT_FAILURE;
}
