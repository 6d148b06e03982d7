/* Asks several servers what it reads from standard input, by the cluster of the client for C. tests/cluster.py has the
   words. */
#include "../../clients/c/hhm_cluster.h"

#include <inttypes.h>
#include <stdio.h>
#include <stdlib.h>
#include <string.h>

enum { MOST = 4096 };

static uint64_t numbers[MOST];
static hhm_cell cells[MOST];

/* Threes of numbers, as cells. */
static size_t cells_from(size_t first, size_t count)
{
    size_t made = 0;
    for (; first + 2 < count; first += 3, made++)
        cells[made] = (hhm_cell){numbers[first], numbers[first + 1], numbers[first + 2]};
    return made;
}

static hhm_result many(hhm_cluster *hhm, size_t count)
{
    static hhm_batch batches[MOST];
    size_t made = cells_from(2, count), total = (size_t)(numbers[1] - numbers[0]), answered;
    for (size_t i = 0; i < total; i++)
        batches[i] = (hhm_batch){numbers[0] + i, cells, made};
    hhm_result result = hhm_cluster_put_all(hhm, batches, total, 16, &answered);
    if (result == HHM_OK)
        printf("answered %zu\n", answered);
    return result;
}

static hhm_result export_all(hhm_cluster *hhm)
{
    char *text;
    size_t length;
    hhm_result result = hhm_cluster_export(hhm, &text, &length);
    if (result == HHM_OK) {
        for (size_t i = 0; i < length; i++)
            putchar(text[i] == '\n' ? ',' : text[i]);
        putchar('\n');
        free(text);
    }
    return result;
}

static hhm_result range(hhm_cluster *hhm)
{
    static hhm_cell found[1 << 16];
    hhm_block block = {numbers[0], numbers[1], numbers[2], numbers[3]};
    hhm_cluster_range *range = hhm_cluster_range_open(hhm, block, (size_t)numbers[4]);
    hhm_result result;
    int has_cell = 1;
    size_t count = 0;
    while ((result = hhm_cluster_range_next(range, &found[count], &has_cell)) == HHM_OK && has_cell)
        count++;
    for (size_t i = 0; result == HHM_OK && i < count; i++)
        printf("%s%" PRIu64 ",%" PRIu64 ",%" PRIu64, i ? " " : "", found[i].row, found[i].col, found[i].count);
    if (result == HHM_OK)
        puts("");
    hhm_cluster_range_close(range);
    return result;
}

static hhm_result top(hhm_cluster *hhm)
{
    static hhm_top_row rows[MOST];
    size_t count;
    hhm_result result = hhm_cluster_ask_top(hhm, (hhm_by)numbers[0], rows, (size_t)numbers[1], &count);
    for (size_t i = 0; result == HHM_OK && i < count; i++)
        printf("%s%" PRIu64 ",%" PRIu64 ",%" PRIu64, i ? " " : "", rows[i].row, rows[i].entries, rows[i].total);
    if (result == HHM_OK)
        puts("");
    return result;
}

static hhm_result ask(hhm_cluster *hhm, const char *word, size_t count)
{
    hhm_result result = HHM_OK;
    if (!strcmp(word, "put")) {
        result = hhm_cluster_put(hhm, numbers[0], cells, cells_from(1, count));
        if (result == HHM_OK)
            printf("put\n");
    } else if (!strcmp(word, "many")) {
        result = many(hhm, count);
    } else if (!strcmp(word, "cell")) {
        hhm_value value;
        result = hhm_cluster_ask_cell(hhm, numbers[0], numbers[1], &value);
        if (result == HHM_OK && value.is_stored)
            printf("%" PRIu64 "\n", value.count);
        else if (result == HHM_OK)
            printf("none\n");
    } else if (!strcmp(word, "row")) {
        hhm_row_sum sum;
        result = hhm_cluster_ask_row(hhm, numbers[0], &sum);
        if (result == HHM_OK)
            printf("entries %" PRIu64 " total %" PRIu64 "\n", sum.entries, sum.total);
    } else if (!strcmp(word, "status")) {
        hhm_status status;
        result = hhm_cluster_ask_status(hhm, &status);
        if (result == HHM_OK)
            printf("batches %" PRIu64 " total %" PRIu64 "\n", status.batches, status.total);
    } else if (!strcmp(word, "range")) {
        result = range(hhm);
    } else if (!strcmp(word, "top")) {
        result = top(hhm);
    } else if (!strcmp(word, "export")) {
        result = export_all(hhm);
    } else {
        result = hhm_cluster_save(hhm);
        if (result == HHM_OK)
            printf("saved\n");
    }
    return result;
}

static void tell(hhm_cluster *hhm, hhm_result result)
{
    size_t place = hhm_cluster_place(hhm);
    unsigned code = hhm_refused(hhm_cluster_server(hhm, place)).code;
    if (result == HHM_HALF)
        printf("Half %" PRIu64 ": %zu %u\n", hhm_cluster_number(hhm), place, code);
    else if (result == HHM_REFUSED)
        printf("Refused %zu %u\n", place, code);
    else if (result == HHM_BOOK_WENT_BACK)
        printf("WentBack [%zu]\n", place);
    else if (result == HHM_FULL)
        printf("Full %zu\n", place);
    else if (result == HHM_OUT_OF_RANGE)
        printf("OutOfRange\n");
    else if (result == HHM_BAD_SUM)
        printf("BadSum\n");
    else if (result == HHM_UNDECIDED)
        printf("Undecided\n");
    else
        printf("%s %zu\n", result == HHM_OTHER_MAP ? "OtherMap" : result == HHM_FAILED ? "Failed" : "BadReply", place);
}

int main(int count, char **words)
{
    static char line[1 << 16];
    const char *servers[16];
    size_t many = 0;
    if (count != 8)
        return 2;
    for (char *it = strtok(words[1], ","); it && many < 16; it = strtok(NULL, ","))
        servers[many++] = it;
    uint64_t given[5];
    for (int i = 0; i < 5; i++)
        given[i] = strtoull(words[3 + i], NULL, 10);
    hhm_way way = strcmp(words[2], "rows") ? HHM_BY_SOURCE : HHM_BY_ROWS;
    hhm_cluster *hhm = hhm_cluster_open(servers, many, given[0], given[1], way);
    if (!hhm)
        return 2;
    for (size_t i = 0; i < many; i++)
        hhm_set_attempts(hhm_cluster_server(hhm, i), 3, 50);
    hhm_cluster_set_size(hhm, given[2], given[2]);
    hhm_cluster_set_batches(hhm, given[3], given[4]);
    while (fgets(line, sizeof line, stdin)) {
        char *word = strtok(line, " \n");
        size_t read = 0;
        for (char *it = strtok(NULL, " \n"); it && read < MOST; it = strtok(NULL, " \n"))
            numbers[read++] = strtoull(it, NULL, 10);
        hhm_result result = ask(hhm, word, read);
        if (result)
            tell(hhm, result);
        fflush(stdout);
    }
    hhm_cluster_close(hhm);
    return 0;
}
