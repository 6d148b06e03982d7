/*
 * Asks a server everything once, and stops it. It is for a new server of three rows and three columns:
 *
 *     cc -O2 clients/c/example.c clients/c/hhm_client.c -o example_c
 *     hhm serve --unix /tmp/hhm.sock --rows 3 --cols 3 --snapshot /tmp/hhm.snap --log /tmp/hhm.log &
 *     ./example_c --unix /tmp/hhm.sock
 */
#include "hhm_client.h"

#include <inttypes.h>
#include <stdio.h>
#include <stdlib.h>
#include <string.h>

static const char text[] = "%%MatrixMarket matrix coordinate integer general\n3 3 1\n1 1 3\n";

static void show(const char *what, const hhm_accepted *accepted)
{
    printf("%s: index %" PRIu64 " total_after %" PRIu64 "\n", what, accepted->index, accepted->total_after);
}

/* Shows an answer or a refusal; anything else is the caller's. */
static hhm_result shown(hhm_client *hhm, const char *what, hhm_result result, const hhm_accepted *accepted)
{
    if (result == HHM_OK)
        show(what, accepted);
    if (result != HHM_REFUSED)
        return result;
    printf("%s: %s\n", what, hhm_message(hhm));
    return HHM_OK;
}

static hhm_result put_some(hhm_client *hhm)
{
    const hhm_cell cells[] = {{2, 1, 7}, {0, 0, 5}}, outside[] = {{0, 2, 1}, {0, 3, 1}};
    hhm_accepted accepted;
    hhm_result result;
    if ((result = shown(hhm, "put", hhm_put(hhm, 1, cells, 2, &accepted), &accepted)) ||
        (result = shown(hhm, "the same again", hhm_put(hhm, 1, cells, 2, &accepted), &accepted)) ||
        (result = shown(hhm, "a text", hhm_put_text(hhm, 2, text, strlen(text), &accepted), &accepted)))
        return result;
    hhm_cell one[5];
    hhm_batch batches[5];
    hhm_accepted answers[5];
    size_t answered;
    for (uint64_t i = 0; i < 5; i++) {
        one[i] = (hhm_cell){1, 2, 3 + i};
        batches[i] = (hhm_batch){3 + i, &one[i], 1};
    }
    result = hhm_put_all(hhm, batches, 5, 3, answers, &answered);
    for (size_t i = 0; i < answered; i++) {
        printf("batch %" PRIu64 ": index %" PRIu64 " total_after %" PRIu64 "\n", batches[i].number, answers[i].index,
               answers[i].total_after);
    }
    if (result || (result = shown(hhm, "out of range", hhm_put(hhm, 9, outside, 2, &accepted), &accepted)) ||
        (result = shown(hhm, "other cells", hhm_put(hhm, 1, cells, 1, &accepted), &accepted)))
        return result;
    if (hhm_put(hhm, 9, cells, HHM_MOST_CELLS + 1, &accepted) == HHM_TOO_LARGE)
        printf("too many: %s\n", hhm_message(hhm));
    return HHM_OK;
}

static hhm_result ask_more(hhm_client *hhm)
{
    hhm_block all = {0, 2, 0, 2}, part = {0, 2, 1, 2};
    hhm_range *range = hhm_range_open(hhm, all, 2);
    hhm_cell cell;
    hhm_top_row rows[2];
    size_t count;
    int has_more = 0;
    hhm_result result = range ? HHM_OK : HHM_MEMORY;
    while (result == HHM_OK && (result = hhm_range_next(range, &cell, &has_more)) == HHM_OK && has_more)
        printf("range: row %" PRIu64 " column %" PRIu64 " count %" PRIu64 "\n", cell.row, cell.col, cell.count);
    hhm_range_close(range);
    if (result || (result = hhm_ask_page(hhm, part, 0, 0, &cell, 1, &count, &has_more)))
        return result;
    printf("page: cells %zu more %s\n", count, has_more ? "true" : "false");
    if ((result = hhm_ask_top(hhm, HHM_BY_TOTAL, rows, 2, &count)))
        return result;
    for (size_t i = 0; i < count; i++)
        printf("top: row %" PRIu64 " entries %" PRIu64 " total %" PRIu64 "\n", rows[i].row, rows[i].entries,
               rows[i].total);
    return HHM_OK;
}

static hhm_result ask_stats(hhm_client *hhm)
{
    static const char *names[] = {"rows", "batches", "total"};
    char *text;
    size_t length;
    uint64_t value;
    hhm_result result = hhm_ask_stats(hhm, &text, &length);
    if (result)
        return result;
    for (size_t k = 0; k < 3; k++)
        if (hhm_stat_of(text, names[k], &value))
            printf("stats: %s %" PRIu64 "\n", names[k], value);
    free(text);
    return HHM_OK;
}

static hhm_result ask_some(hhm_client *hhm)
{
    hhm_value value;
    hhm_row_sum row;
    hhm_status status, stored;
    hhm_result result;
    for (uint64_t place = 0; place < 3; place += 2) {
        if ((result = hhm_ask_cell(hhm, place, place, &value)))
            return result;
        if (value.is_stored)
            printf("cell: %" PRIu64 "\n", value.count);
        else
            printf("cell: none\n");
    }
    if ((result = hhm_ask_row(hhm, 1, &row)))
        return result;
    printf("row: entries %" PRIu64 " total %" PRIu64 "\n", row.entries, row.total);
    if ((result = ask_more(hhm)) || (result = hhm_ask_status(hhm, &status)))
        return result;
    printf("status: batches %" PRIu64 " total %" PRIu64 "\n", status.batches, status.total);
    if ((result = hhm_ask_stored(hhm, &stored)))
        return result;
    printf("stored: batches %" PRIu64 " total %" PRIu64 "\n", stored.batches, stored.total);
    return ask_stats(hhm);
}

static hhm_result export_and_stop(hhm_client *hhm)
{
    char *sum;
    size_t length;
    uint64_t saved;
    hhm_result result = hhm_export(hhm, &sum, &length);
    if (result)
        return result;
    fwrite(sum, 1, length, stdout);
    free(sum);
    if ((result = hhm_save(hhm, &saved)))
        return result;
    printf("saved: %" PRIu64 "\n", saved);
    if ((result = hhm_stop(hhm)))
        return result;
    printf("stopping\n");
    return HHM_OK;
}

int main(int count, char **words)
{
    hhm_client *hhm = NULL;
    if (count == 3 && !strcmp(words[1], "--tcp"))
        hhm = hhm_open_tcp(words[2], 7);
    else if (count == 3 && !strcmp(words[1], "--unix"))
        hhm = hhm_open_unix(words[2], 7);
    if (!hhm) {
        fprintf(stderr, "usage: example --tcp HOST:PORT | --unix PATH\n");
        return 2;
    }
    hhm_result result = put_some(hhm);
    result = result ? result : ask_some(hhm);
    result = result ? result : export_and_stop(hhm);
    if (result)
        fprintf(stderr, "%s\n", hhm_message(hhm));
    hhm_close(hhm);
    return result == HHM_OK ? 0 : result == HHM_REFUSED ? 1 : 4;
}
