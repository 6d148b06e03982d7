/* Asks a server what it reads from standard input, by the client for C. tests/client_faults.py has the words. */
#define _XOPEN_SOURCE 700

#include "../../clients/c/hhm_client.h"

#include <errno.h>
#include <inttypes.h>
#include <signal.h>
#include <stdio.h>
#include <stdlib.h>
#include <string.h>
#include <sys/time.h>
#include <sys/wait.h>
#include <unistd.h>

#define MOST_CELLS 20000
#define MOST_BATCHES 2000

static hhm_cell wide[MOST_CELLS];
static hhm_batch batches[MOST_BATCHES];
static hhm_accepted answers[MOST_BATCHES];

static void nothing(int number)
{
    (void)number;
}

/* Whether a process of a fork could put its batches. */
static int put_wide(hhm_client *hhm, uint64_t first, uint64_t count, size_t cells)
{
    hhm_accepted accepted;
    int is_put = 1;
    for (uint64_t number = first; number < first + count; number++)
        is_put = hhm_put(hhm, number, wide, cells, &accepted) == HHM_OK && is_put;
    return is_put;
}

static void forked(hhm_client *hhm, uint64_t first, uint64_t count, size_t cells)
{
    int status = 1;
    pid_t child = fork();
    if (child == 0)
        _exit(put_wide(hhm, first, count, cells) ? 0 : 1);
    int is_put = put_wide(hhm, first + count, count, cells);
    waitpid(child, &status, 0);
    puts(status == 0 && is_put ? "both" : "not both");
}

static hhm_result many(hhm_client *hhm, uint64_t first, size_t count, size_t depth, size_t cells)
{
    size_t answered, in_order = 0;
    for (size_t i = 0; i < count; i++) {
        hhm_batch it = {first + i, wide, cells};
        batches[i] = it;
    }
    hhm_result result = hhm_put_all(hhm, batches, count, depth, answers, &answered);
    while (in_order < answered && answers[in_order].index - in_order == answers[0].index)
        in_order++;
    if (result == HHM_OK && in_order < answered)
        puts("out of order");
    else if (result == HHM_OK)
        printf("%zu answered\n", answered);
    return result;
}

static void alarms(void)
{
    struct sigaction action;
    struct itimerval often = {{0, 20000}, {0, 20000}};
    memset(&action, 0, sizeof action);
    action.sa_handler = nothing;
    sigaction(SIGALRM, &action, NULL);
    setitimer(ITIMER_REAL, &often, NULL);
    puts("alarms");
}

/* Reads a line, also where alarms interrupt that: a line comes in one piece. */
static char *next_line(char *line, int size)
{
    for (;;) {
        errno = 0;
        if (fgets(line, size, stdin))
            return line;
        if (!ferror(stdin) || errno != EINTR)
            return NULL;
        clearerr(stdin);
    }
}

static hhm_result put(hhm_client *hhm, uint64_t number, uint64_t count)
{
    hhm_cell cell = {0, 0, count};
    hhm_accepted accepted;
    hhm_result result = hhm_put(hhm, number, &cell, 1, &accepted);
    if (result == HHM_OK)
        printf("index %" PRIu64 " total %" PRIu64 "\n", accepted.index, accepted.total_after);
    return result;
}

static hhm_result ask_cell(hhm_client *hhm, uint64_t row, uint64_t col)
{
    hhm_value value;
    hhm_result result = hhm_ask_cell(hhm, row, col, &value);
    if (result == HHM_OK && value.is_stored)
        printf("%" PRIu64 "\n", value.count);
    else if (result == HHM_OK)
        puts("none");
    return result;
}

static hhm_result ask_status(hhm_client *hhm)
{
    hhm_status status;
    hhm_result result = hhm_ask_status(hhm, &status);
    if (result == HHM_OK)
        printf("batches %" PRIu64 " total %" PRIu64 "\n", status.batches, status.total);
    return result;
}

static hhm_result save(hhm_client *hhm)
{
    uint64_t saved;
    hhm_result result = hhm_save(hhm, &saved);
    if (result == HHM_OK)
        printf("saved %" PRIu64 "\n", saved);
    return result;
}

static hhm_result fold(hhm_client *hhm)
{
    uint64_t folded;
    hhm_result result = hhm_fold(hhm, &folded);
    if (result == HHM_OK)
        printf("folded %" PRIu64 "\n", folded);
    return result;
}

/* Cells, or rows, which have the same three numbers. */
static void print_threes(const hhm_cell *cells, size_t count)
{
    for (size_t i = 0; i < count; i++)
        printf("%s%" PRIu64 ",%" PRIu64 ",%" PRIu64, i ? " " : "", cells[i].row, cells[i].col, cells[i].count);
    puts("");
}

static hhm_result page(hhm_client *hhm, const uint64_t *numbers)
{
    hhm_block block = {numbers[0], numbers[1], numbers[2], numbers[3]};
    size_t most = (size_t)numbers[6], count;
    int has_more;
    hhm_cell *cells = (hhm_cell *)calloc(most ? most : 1, sizeof *cells);
    hhm_result result = hhm_ask_page(hhm, block, numbers[4], numbers[5], cells, most, &count, &has_more);
    if (result == HHM_OK) {
        printf("more %d: ", has_more);
        print_threes(cells, count);
    }
    free(cells);
    return result;
}

static hhm_result range(hhm_client *hhm, const uint64_t *numbers)
{
    static hhm_cell cells[MOST_CELLS];
    hhm_block block = {numbers[0], numbers[1], numbers[2], numbers[3]};
    hhm_range *range = hhm_range_open(hhm, block, (size_t)numbers[4]);
    hhm_result result;
    int has_cell = 1;
    size_t count = 0;
    while ((result = hhm_range_next(range, &cells[count], &has_cell)) == HHM_OK && has_cell)
        count++;
    if (result == HHM_OK)
        print_threes(cells, count);
    hhm_range_close(range);
    return result;
}

/* A top, or with four numbers more the groups of some rows: by, most, shift, first and last. */
static hhm_result top(hhm_client *hhm, const uint64_t *numbers, int is_of_groups)
{
    static hhm_top_row rows[MOST_CELLS];
    static hhm_cell cells[MOST_CELLS];
    size_t count, most = (size_t)numbers[1];
    hhm_by by = (hhm_by)numbers[0];
    hhm_result result = is_of_groups
        ? hhm_ask_groups(hhm, by, numbers[3], numbers[4], (unsigned)numbers[2], rows, most, &count)
        : hhm_ask_top(hhm, by, rows, most, &count);
    for (size_t i = 0; result == HHM_OK && i < count; i++)
        cells[i] = (hhm_cell){rows[i].row, rows[i].entries, rows[i].total};
    if (result == HHM_OK)
        print_threes(cells, count);
    return result;
}

static hhm_result stats(hhm_client *hhm)
{
    char *text;
    size_t length;
    hhm_result result = hhm_ask_stats(hhm, &text, &length);
    if (result == HHM_OK) {
        for (size_t i = 0; i + 1 < length; i++)
            putchar(text[i] == '\n' ? ',' : text[i]);
        puts("");
        free(text);
    }
    return result;
}

/* The numbers behind some names of stats. */
static hhm_result stat_numbers(hhm_client *hhm)
{
    static const char *const names[] = {"batches", "total",           "odd_seconds", "version",
                                        "batch",   "odd{a=\"b c\"}", "none"};
    char *text;
    size_t length;
    uint64_t value;
    hhm_result result = hhm_ask_stats(hhm, &text, &length);
    for (size_t i = 0; result == HHM_OK && i < sizeof names / sizeof *names; i++) {
        if (hhm_stat_of(text, names[i], &value))
            printf("%" PRIu64 ",", value);
        else
            printf("none,");
    }
    if (result == HHM_OK) {
        puts("");
        free(text);
    }
    return result;
}

static hhm_result answer(hhm_client *hhm, const char *word, const uint64_t *numbers)
{
    if (!strcmp(word, "put"))
        return put(hhm, numbers[0], numbers[1]);
    if (!strcmp(word, "many"))
        return many(hhm, numbers[0], (size_t)numbers[1], (size_t)numbers[2], (size_t)numbers[3]);
    if (!strcmp(word, "cell"))
        return ask_cell(hhm, numbers[0], numbers[1]);
    if (!strcmp(word, "status"))
        return ask_status(hhm);
    if (!strcmp(word, "save"))
        return save(hhm);
    if (!strcmp(word, "fold"))
        return fold(hhm);
    if (!strcmp(word, "page"))
        return page(hhm, numbers);
    if (!strcmp(word, "range"))
        return range(hhm, numbers);
    if (!strcmp(word, "top"))
        return top(hhm, numbers, 0);
    if (!strcmp(word, "groups"))
        return top(hhm, numbers, 1);
    if (!strcmp(word, "stats"))
        return stats(hhm);
    if (!strcmp(word, "numbers"))
        return stat_numbers(hhm);
    if (!strcmp(word, "fork"))
        forked(hhm, numbers[0], numbers[1], (size_t)numbers[2]);
    else
        alarms();
    return HHM_OK;
}

int main(int count, char **words)
{
    char line[200], word[20];
    hhm_client *hhm = count == 4 ? hhm_open_unix(words[1], 7) : NULL;
    if (!hhm)
        return 2;
    hhm_set_timeout(hhm, (unsigned)atoi(words[2]));
    hhm_set_attempts(hhm, (unsigned)atoi(words[3]), 1);
    for (uint64_t row = 0; row < MOST_CELLS; row++) {
        hhm_cell cell = {row, 0, 1};
        wide[row] = cell;
    }
    setvbuf(stdout, NULL, _IOLBF, BUFSIZ);
    while (next_line(line, sizeof line)) {
        uint64_t numbers[7] = {0};
        sscanf(line, "%19s %" SCNu64 " %" SCNu64 " %" SCNu64 " %" SCNu64 " %" SCNu64 " %" SCNu64 " %" SCNu64, word,
               &numbers[0], &numbers[1], &numbers[2], &numbers[3], &numbers[4], &numbers[5], &numbers[6]);
        hhm_result result = answer(hhm, word, numbers);
        if (result == HHM_FAILED)
            puts(errno == ETIMEDOUT ? "timed out" : "lost");
        else if (result != HHM_OK)
            puts(hhm_message(hhm));
    }
    hhm_close(hhm);
    return 0;
}
