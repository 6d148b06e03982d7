/* The cluster of hhm_cluster.h. C11 or C++17. */
#include "hhm_cluster.h"

#include <errno.h>
#include <inttypes.h>
#include <stdio.h>
#include <stdlib.h>
#include <string.h>

struct hhm_cluster {
    hhm_client **servers;
    size_t count;
    hhm_way way;
    /* The only server that is put to by source. */
    size_t source;
    uint64_t rows, cols, most;
    int has_met, is_full;
    /* Of the last fault. */
    size_t place;
    uint64_t number;
    char message[416];
};

/* Batches that are cut: the part of batch `at` for a place stands at place * count + at, in `cells`. */
typedef struct {
    size_t count;
    hhm_batch *parts;
    hhm_cell *cells;
    hhm_accepted *accepted;
} cut_batches;

/* The map. */

size_t hhm_place_of_row(uint64_t row, size_t servers)
{
    uint64_t half = row * 0x9e3779b97f4a7c15u >> 32;
    return (size_t)(half * servers >> 32);
}

/* A number in which each bit depends on each of the given one; another for each other one. */
static uint64_t mixed(uint64_t number)
{
    number = (number ^ number >> 30) * 0xbf58476d1ce4e5b9u;
    number = (number ^ number >> 27) * 0x94d049bb133111ebu;
    return number ^ number >> 31;
}

uint64_t hhm_marker_of(uint64_t generation, hhm_way way, size_t servers, size_t place)
{
    uint64_t numbers[] = {1, generation, (uint64_t)way, servers, place}, digest = 0;
    for (size_t i = 0; i < 5; i++)
        digest = mixed(digest ^ numbers[i]);
    return digest;
}

/* A client of the server at an address of hhm_cluster_open; NULL with EINVAL for `unix:` and a number, or nothing. */
static hhm_client *opened(const char *address, uint64_t client)
{
    if (strncmp(address, "unix:", 5) == 0) {
        const char *path = address + 5;
        if (path[strspn(path, "0123456789")])
            return hhm_open_unix(path, client);
        errno = EINVAL;
        return NULL;
    }
    if (strncmp(address, "tcp:", 4) == 0)
        return hhm_open_tcp(address + 4, client);
    return strchr(address, '/') ? hhm_open_unix(address, client) : hhm_open_tcp(address, client);
}

hhm_cluster *hhm_cluster_open(const char *const *servers, size_t count, uint64_t client, uint64_t generation,
                              hhm_way way)
{
    if (count == 0 || count > UINT32_MAX || client == UINT64_MAX) {
        errno = EINVAL;
        return NULL;
    }
    hhm_cluster *hhm = (hhm_cluster *)calloc(1, sizeof *hhm);
    hhm_client **made = (hhm_client **)calloc(count, sizeof *made);
    if (!hhm || !made) {
        free(hhm);
        free(made);
        return NULL;
    }
    hhm->servers = made;
    hhm->count = count;
    hhm->way = way;
    hhm->source = (size_t)(client % count);
    hhm->rows = hhm->cols = UINT64_MAX;
    hhm->most = 990000;
    for (size_t i = 0; i < count; i++) {
        made[i] = opened(servers[i], client);
        if (!made[i]) {
            int kept = errno;
            hhm_cluster_close(hhm);
            errno = kept;
            return NULL;
        }
        hhm_set_marker(made[i], hhm_marker_of(generation, way, count, i));
    }
    return hhm;
}

void hhm_cluster_close(hhm_cluster *hhm)
{
    if (!hhm)
        return;
    for (size_t i = 0; i < hhm->count; i++)
        hhm_close(hhm->servers[i]);
    free(hhm->servers);
    free(hhm);
}

hhm_client *hhm_cluster_server(hhm_cluster *hhm, size_t place)
{
    return place < hhm->count ? hhm->servers[place] : NULL;
}

void hhm_cluster_set_size(hhm_cluster *hhm, uint64_t rows, uint64_t cols)
{
    hhm->rows = rows;
    hhm->cols = cols;
}

void hhm_cluster_set_batches(hhm_cluster *hhm, uint64_t max_batches, uint64_t reserve)
{
    hhm->most = max_batches > reserve ? max_batches - reserve : 0;
}

/* Faults. */

size_t hhm_cluster_place(const hhm_cluster *hhm)
{
    return hhm->place;
}

uint64_t hhm_cluster_number(const hhm_cluster *hhm)
{
    return hhm->number;
}

const char *hhm_cluster_message(const hhm_cluster *hhm)
{
    return hhm->message;
}

/* What a server's call gave, with its place. */
static hhm_result of_server(hhm_cluster *hhm, size_t place, hhm_result result)
{
    int kept = errno;
    hhm->place = place;
    snprintf(hhm->message, sizeof hhm->message, "server %zu: %s", place, hhm_message(hhm->servers[place]));
    errno = kept;
    return result;
}

static hhm_result told(hhm_cluster *hhm, hhm_result result, const char *words)
{
    snprintf(hhm->message, sizeof hhm->message, "%s", words);
    return result;
}

static hhm_result half(hhm_cluster *hhm, size_t place, uint64_t number)
{
    hhm->place = place;
    hhm->number = number;
    snprintf(hhm->message, sizeof hhm->message, "batch %" PRIu64 " is in the sum in part: server %zu: %s", number,
             place, hhm_message(hhm->servers[place]));
    return HHM_HALF;
}

static hhm_result full(hhm_cluster *hhm, size_t place)
{
    hhm->place = place;
    snprintf(hhm->message, sizeof hhm->message, "server %zu is full: begin a new generation", place);
    return HHM_FULL;
}

/* Puts. */

/* The first server that gets a part of each batch, which accepts it before the others are asked, and how many there
   are behind it. */
static size_t first_of(const hhm_cluster *hhm)
{
    return hhm->way == HHM_BY_ROWS ? 0 : hhm->source;
}

static size_t how_many(const hhm_cluster *hhm)
{
    return hhm->way == HHM_BY_ROWS ? hhm->count : 1;
}

/* Before the first put: a connection to each server, over which it is known whether it is one of this map. */
static hhm_result meet(hhm_cluster *hhm)
{
    hhm_status status;
    for (size_t i = 0; !hhm->has_met && i < hhm->count; i++) {
        hhm_result result = hhm_ask_status(hhm->servers[i], &status);
        if (result)
            return of_server(hhm, i, result);
        if (hhm->way == HHM_BY_SOURCE && i != hhm->source)
            hhm_disconnect(hhm->servers[i]);
    }
    hhm->has_met = 1;
    return HHM_OK;
}

static void free_cut(cut_batches *cut)
{
    free(cut->parts);
    free(cut->cells);
    free(cut->accepted);
}

/* The cells of a batch in the order of their places, and its parts. Gives where the next batch's cells begin. */
static hhm_cell *cut_one(const hhm_cluster *hhm, const hhm_batch *batch, cut_batches *cut, size_t at, hhm_cell *cells)
{
    for (size_t place = 0; place < how_many(hhm); place++) {
        hhm_batch *part = &cut->parts[place * cut->count + at];
        part->number = batch->number;
        part->cells = cells;
        for (size_t i = 0; i < batch->count; i++)
            if (how_many(hhm) == 1 || hhm_place_of_row(batch->cells[i].row, hhm->count) == place)
                *cells++ = batch->cells[i];
        part->count = (size_t)(cells - part->cells);
    }
    return cells;
}

static hhm_result cut_all(hhm_cluster *hhm, const hhm_batch *batches, size_t count, cut_batches *cut)
{
    size_t cells = 0;
    for (size_t i = 0; i < count; i++) {
        for (size_t k = 0; k < batches[i].count; k++)
            if (batches[i].cells[k].row >= hhm->rows || batches[i].cells[k].col >= hhm->cols)
                return told(hhm, HHM_OUT_OF_RANGE, "a cell is beyond the rows or columns");
        if (batches[i].count > HHM_MOST_CELLS)
            return told(hhm, HHM_TOO_LARGE, "a batch has at most 1048576 cells");
        cells += batches[i].count;
    }
    cut->count = count;
    cut->parts = (hhm_batch *)calloc(count * how_many(hhm), sizeof *cut->parts);
    cut->cells = (hhm_cell *)calloc(cells + 1, sizeof *cut->cells);
    cut->accepted = (hhm_accepted *)calloc(count, sizeof *cut->accepted);
    if (!cut->parts || !cut->cells || !cut->accepted)
        return told(hhm, HHM_MEMORY, "there is no memory for the batches on the way");
    hhm_cell *next = cut->cells;
    for (size_t i = 0; i < count; i++)
        next = cut_one(hhm, &batches[i], cut, i, next);
    return HHM_OK;
}

/* Puts the parts of the first `count` batches to one server, and looks whether its book has its reserve left. */
static hhm_result put_parts(hhm_cluster *hhm, size_t at, cut_batches *cut, size_t count, size_t *answered,
                            int *is_full)
{
    size_t place = first_of(hhm) + at;
    hhm_client *server = hhm->servers[place];
    hhm_status before;
    hhm_result result = hhm_ask_status(server, &before);
    *answered = 0;
    if (result == HHM_OK)
        result = hhm_put_all(server, &cut->parts[at * cut->count], count, count, cut->accepted, answered);
    for (size_t i = 0; i < *answered; i++)
        if (cut->accepted[i].index >= before.batches && cut->accepted[i].index + 1 >= hhm->most)
            *is_full = 1;
    return result ? of_server(hhm, place, result) : HHM_OK;
}

/* Puts batches to the first server, and to the others what that one has accepted. A refusal of another is told once the
   servers behind it have theirs; any other fault at once, so that none of a server that went back is lost. */
static hhm_result put_cut(hhm_cluster *hhm, cut_batches *cut, size_t *answered)
{
    size_t accepted, whole, half_place = 0;
    int is_full = 0;
    hhm_result result = put_parts(hhm, 0, cut, cut->count, &accepted, &is_full), first = result;
    *answered = 0;
    if (result != HHM_OK && result != HHM_REFUSED)
        return result;
    if (result == HHM_REFUSED && hhm_refused(hhm->servers[first_of(hhm)]).code == 32)
        first = full(hhm, first_of(hhm));
    whole = accepted;
    for (size_t place = 1; place < how_many(hhm) && accepted > 0; place++) {
        size_t here;
        result = put_parts(hhm, place, cut, accepted, &here, &is_full);
        if (result != HHM_OK && result != HHM_REFUSED)
            return result;
        if (here < whole) {
            whole = here;
            half_place = place;
        }
    }
    *answered = whole;
    if (half_place)
        return half(hhm, half_place, cut->parts[whole].number);
    if (first == HHM_REFUSED)
        return of_server(hhm, first_of(hhm), first);
    hhm->is_full = first == HHM_OK && is_full;
    return first == HHM_FULL ? full(hhm, first_of(hhm)) : first;
}

/* That a book is full; but that a server went back, which then gets again what it lacks, comes before it. */
static hhm_result refused(hhm_cluster *hhm)
{
    hhm_status status;
    for (size_t at = 0; at < how_many(hhm); at++) {
        hhm_result result = hhm_ask_status(hhm->servers[first_of(hhm) + at], &status);
        if (result)
            return of_server(hhm, first_of(hhm) + at, result);
    }
    return full(hhm, first_of(hhm));
}

hhm_result hhm_cluster_put_all(hhm_cluster *hhm, const hhm_batch *batches, size_t count, size_t depth,
                               size_t *answered)
{
    size_t most = depth == 0 ? 1 : depth > HHM_MOST_DEPTH ? HHM_MOST_DEPTH : depth;
    hhm_result result = HHM_OK;
    *answered = 0;
    while (result == HHM_OK && *answered < count) {
        size_t rest = count - *answered, done = 0;
        cut_batches cut = {0, NULL, NULL, NULL};
        result = cut_all(hhm, batches + *answered, rest < most ? rest : most, &cut);
        if (result == HHM_OK)
            result = meet(hhm);
        if (result == HHM_OK && hhm->is_full)
            result = refused(hhm);
        if (result == HHM_OK)
            result = put_cut(hhm, &cut, &done);
        if (result == HHM_BOOK_WENT_BACK)
            hhm->is_full = 0;
        *answered += done;
        free_cut(&cut);
    }
    return result;
}

hhm_result hhm_cluster_put(hhm_cluster *hhm, uint64_t number, const hhm_cell *cells, size_t count)
{
    hhm_batch batch = {number, cells, count};
    size_t answered;
    return hhm_cluster_put_all(hhm, &batch, 1, 1, &answered);
}

/* Questions. */

/* The first of the servers that may have cells of a row, and the place behind their last. */
static size_t begin_of(const hhm_cluster *hhm, uint64_t row, size_t *end)
{
    size_t place = hhm->way == HHM_BY_ROWS ? hhm_place_of_row(row, hhm->count) : 0;
    *end = hhm->way == HHM_BY_ROWS ? place + 1 : hhm->count;
    return place;
}

/* Adds a number, and tells whether the sum passes 64 bits. */
static int add(uint64_t *sum, uint64_t number)
{
    *sum += number;
    return *sum < number;
}

static hhm_result bad_sum(hhm_cluster *hhm)
{
    return told(hhm, HHM_BAD_SUM, "the servers' sums don't add up");
}

hhm_result hhm_cluster_ask_cell(hhm_cluster *hhm, uint64_t row, uint64_t col, hhm_value *value)
{
    hhm_value sum = {0, 0}, one;
    size_t end;
    for (size_t i = begin_of(hhm, row, &end); i < end; i++) {
        hhm_result result = hhm_ask_cell(hhm->servers[i], row, col, &one);
        if (result)
            return of_server(hhm, i, result);
        sum.is_stored |= one.is_stored;
        if (add(&sum.count, one.count))
            return bad_sum(hhm);
    }
    *value = sum;
    return HHM_OK;
}

hhm_result hhm_cluster_ask_row(hhm_cluster *hhm, uint64_t row, hhm_row_sum *sum)
{
    hhm_row_sum all = {0, 0}, one;
    size_t end;
    for (size_t i = begin_of(hhm, row, &end); i < end; i++) {
        hhm_result result = hhm_ask_row(hhm->servers[i], row, &one);
        if (result)
            return of_server(hhm, i, result);
        if (add(&all.entries, one.entries) || add(&all.total, one.total))
            return bad_sum(hhm);
    }
    *sum = all;
    return HHM_OK;
}

static hhm_result ask_counts(hhm_cluster *hhm, hhm_result (*ask)(hhm_client *, hhm_status *), hhm_status *status)
{
    hhm_status all = {0, 0}, one;
    for (size_t i = 0; i < hhm->count; i++) {
        hhm_result result = ask(hhm->servers[i], &one);
        if (result)
            return of_server(hhm, i, result);
        uint64_t batches = one.batches ? one.batches - 1 : 0;
        if (hhm->way == HHM_BY_ROWS)
            all.batches = i == 0 || batches < all.batches ? batches : all.batches;
        else
            all.batches += batches;
        if (add(&all.total, one.total))
            return bad_sum(hhm);
    }
    *status = all;
    return HHM_OK;
}

hhm_result hhm_cluster_ask_status(hhm_cluster *hhm, hhm_status *status)
{
    return ask_counts(hhm, hhm_ask_status, status);
}

hhm_result hhm_cluster_ask_stored(hhm_cluster *hhm, hhm_status *stored)
{
    return ask_counts(hhm, hhm_ask_stored, stored);
}

hhm_result hhm_cluster_save(hhm_cluster *hhm)
{
    uint64_t batches;
    for (size_t i = 0; i < hhm->count; i++) {
        hhm_result result = hhm_save(hhm->servers[i], &batches);
        if (result)
            return of_server(hhm, i, result);
    }
    return HHM_OK;
}

hhm_result hhm_cluster_stop(hhm_cluster *hhm)
{
    for (size_t i = 0; i < hhm->count; i++) {
        hhm_result result = hhm_stop(hhm->servers[i]);
        if (result)
            return of_server(hhm, i, result);
    }
    return HHM_OK;
}

/* Ranges. */

struct hhm_cluster_range {
    hhm_cluster *hhm;
    /* What each server that may have such cells has, its next cell, and whether that was read. */
    hhm_range **parts;
    hhm_cell *next;
    int *has_next;
    size_t first, count;
};

hhm_cluster_range *hhm_cluster_range_open(hhm_cluster *hhm, hhm_block block, size_t page)
{
    size_t end = hhm->count, first = 0;
    if (block.first_row == block.last_row)
        first = begin_of(hhm, block.first_row, &end);
    hhm_cluster_range *range = (hhm_cluster_range *)calloc(1, sizeof *range);
    if (!range)
        return NULL;
    range->hhm = hhm;
    range->first = first;
    range->parts = (hhm_range **)calloc(end - first, sizeof *range->parts);
    range->next = (hhm_cell *)calloc(end - first, sizeof *range->next);
    range->has_next = (int *)calloc(end - first, sizeof *range->has_next);
    int is_made = range->parts && range->next && range->has_next;
    for (size_t i = first; is_made && i < end; i++) {
        range->parts[range->count] = hhm_range_open(hhm->servers[i], block, page);
        is_made = range->parts[range->count++] != NULL;
    }
    if (is_made)
        return range;
    int kept = errno;
    hhm_cluster_range_close(range);
    errno = kept;
    return NULL;
}

void hhm_cluster_range_close(hhm_cluster_range *range)
{
    if (!range)
        return;
    for (size_t i = 0; range->parts && i < range->count; i++)
        hhm_range_close(range->parts[i]);
    free(range->parts);
    free(range->next);
    free(range->has_next);
    free(range);
}

static int is_before(const hhm_cell *one, const hhm_cell *other)
{
    return one->row < other->row || (one->row == other->row && one->col < other->col);
}

hhm_result hhm_cluster_range_next(hhm_cluster_range *range, hhm_cell *cell, int *has_cell)
{
    const hhm_cell *first = NULL;
    for (size_t i = 0; i < range->count; i++) {
        if (!range->has_next[i]) {
            hhm_result result = hhm_range_next(range->parts[i], &range->next[i], &range->has_next[i]);
            if (result)
                return of_server(range->hhm, range->first + i, result);
        }
        if (range->has_next[i] && (!first || is_before(&range->next[i], first)))
            first = &range->next[i];
    }
    hhm_cell sum = {0, 0, 0};
    if (first) {
        sum.row = first->row;
        sum.col = first->col;
    }
    for (size_t i = 0; first && i < range->count; i++)
        if (range->has_next[i] && range->next[i].row == sum.row && range->next[i].col == sum.col) {
            range->has_next[i] = 0;
            if (add(&sum.count, range->next[i].count))
                return bad_sum(range->hhm);
        }
    *has_cell = first != NULL;
    if (first)
        *cell = sum;
    return HHM_OK;
}

/* Tops. */

/* What servers have told of the rows that lead: of each `depth` rows at most, and whether it may have others. */
typedef struct {
    size_t count, depth;
    hhm_by by;
    hhm_top_row **lists;
    size_t *lengths;
    int *are_cut;
    /* The most that a row may have in a server that doesn't tell it, and the row that was told last. */
    uint64_t *ends, *last_rows;
} lead;

static uint64_t number_by(const hhm_top_row *row, hhm_by by)
{
    return by == HHM_BY_TOTAL ? row->total : row->entries;
}

/* Compares by the highest number first, and by the row. */
static int by_total(const void *one, const void *other)
{
    const hhm_top_row *a = (const hhm_top_row *)one, *b = (const hhm_top_row *)other;
    return a->total != b->total ? (a->total < b->total) - (a->total > b->total) : (a->row > b->row) - (a->row < b->row);
}

static int by_entries(const void *one, const void *other)
{
    const hhm_top_row *a = (const hhm_top_row *)one, *b = (const hhm_top_row *)other;
    return a->entries != b->entries ? (a->entries < b->entries) - (a->entries > b->entries)
                                    : (a->row > b->row) - (a->row < b->row);
}

static int by_row(const void *one, const void *other)
{
    const hhm_top_row *a = (const hhm_top_row *)one, *b = (const hhm_top_row *)other;
    return (a->row > b->row) - (a->row < b->row);
}

static int by_number(const void *one, const void *other)
{
    uint64_t a = *(const uint64_t *)one, b = *(const uint64_t *)other;
    return (a < b) - (a > b);
}

static void free_lead(lead *it)
{
    for (size_t i = 0; it->lists && i < it->count; i++)
        free(it->lists[i]);
    free(it->lists);
    free(it->lengths);
    free(it->are_cut);
    free(it->ends);
    free(it->last_rows);
}

static hhm_result no_memory(hhm_cluster *hhm)
{
    return told(hhm, HHM_MEMORY, "there is no memory for the rows");
}

/* Asks each server for its first rows, which then stand by row. */
static hhm_result ask_leads(hhm_cluster *hhm, lead *it)
{
    it->count = hhm->count;
    it->lists = (hhm_top_row **)calloc(it->count, sizeof *it->lists);
    it->lengths = (size_t *)calloc(it->count, sizeof *it->lengths);
    it->are_cut = (int *)calloc(it->count, sizeof *it->are_cut);
    it->ends = (uint64_t *)calloc(it->count, sizeof *it->ends);
    it->last_rows = (uint64_t *)calloc(it->count, sizeof *it->last_rows);
    if (!it->lists || !it->lengths || !it->are_cut || !it->ends || !it->last_rows)
        return no_memory(hhm);
    for (size_t i = 0; i < it->count; i++) {
        it->lists[i] = (hhm_top_row *)malloc((it->depth ? it->depth : 1) * sizeof **it->lists);
        if (!it->lists[i])
            return no_memory(hhm);
        hhm_result result = hhm_ask_top(hhm->servers[i], it->by, it->lists[i], it->depth, &it->lengths[i]);
        if (result)
            return of_server(hhm, i, result);
        it->are_cut[i] = it->depth > 0 && it->lengths[i] == it->depth;
        if (it->are_cut[i]) {
            it->ends[i] = number_by(&it->lists[i][it->depth - 1], it->by);
            it->last_rows[i] = it->lists[i][it->depth - 1].row;
        }
        qsort(it->lists[i], it->lengths[i], sizeof **it->lists, by_row);
    }
    return HHM_OK;
}

static int has_row(const lead *it, size_t place, const hhm_top_row *row)
{
    return bsearch(row, it->lists[place], it->lengths[place], sizeof *row, by_row) != NULL;
}

/* Adds the numbers of a row up, and tells whether a sum passes 64 bits. */
static int add_row(hhm_top_row *sum, uint64_t entries, uint64_t total)
{
    return add(&sum->entries, entries) || add(&sum->total, total);
}

/* All rows that are told, by row, each once, with the sums of what is told; -1 where one passes 64 bits. */
static int sums_of(const lead *it, hhm_top_row *sums, size_t *count)
{
    size_t all = 0, found = 0;
    for (size_t i = 0; i < it->count; i++) {
        memcpy(sums + all, it->lists[i], it->lengths[i] * sizeof *sums);
        all += it->lengths[i];
    }
    qsort(sums, all, sizeof *sums, by_row);
    for (size_t i = 0; i < all; i++) {
        if (found > 0 && sums[found - 1].row == sums[i].row) {
            if (add_row(&sums[found - 1], sums[i].entries, sums[i].total))
                return -1;
        } else {
            sums[found++] = sums[i];
        }
    }
    *count = found;
    return 0;
}

/* A sum of numbers that may pass 64 bits: then the highest number. */
static uint64_t most_of(uint64_t one, uint64_t other)
{
    return one + other < one ? UINT64_MAX : one + other;
}

/* Leaves the rows that may be among the first `most`, by what they have at least, and at most. */
static hhm_result keep_likely(hhm_cluster *hhm, const lead *it, hhm_top_row *sums, size_t *count, size_t most)
{
    uint64_t *least = (uint64_t *)malloc((*count ? *count : 1) * sizeof *least), bound = 0;
    size_t kept = 0;
    if (!least)
        return no_memory(hhm);
    for (size_t i = 0; i < *count; i++)
        least[i] = number_by(&sums[i], it->by);
    qsort(least, *count, sizeof *least, by_number);
    if (*count >= most)
        bound = least[most - 1];
    for (size_t i = 0; i < *count; i++) {
        uint64_t highest = number_by(&sums[i], it->by);
        for (size_t place = 0; place < it->count; place++)
            if (!has_row(it, place, &sums[i]))
                highest = most_of(highest, it->ends[place]);
        if (highest >= bound)
            sums[kept++] = sums[i];
    }
    free(least);
    *count = kept;
    return HHM_OK;
}

/* Asks for what isn't told of rows. */
static hhm_result ask_rest(hhm_cluster *hhm, const lead *it, hhm_top_row *sums, size_t count)
{
    for (size_t place = 0; place < it->count; place++)
        for (size_t i = 0; it->are_cut[place] && i < count; i++) {
            hhm_row_sum sum;
            if (has_row(it, place, &sums[i]))
                continue;
            hhm_result result = hhm_ask_row(hhm->servers[place], sums[i].row, &sum);
            if (result)
                return of_server(hhm, place, result);
            if (add_row(&sums[i], sum.entries, sum.total))
                return bad_sum(hhm);
        }
    return HHM_OK;
}

/* Whether no row that no server tells stands before the last of these. One with as much as all ends together stands
   behind the end of each list. */
static int is_decided(const lead *it, const hhm_top_row *rows, size_t count)
{
    uint64_t bound = 0, behind = 0;
    int is_cut = 0;
    for (size_t i = 0; i < it->count; i++)
        if (it->are_cut[i]) {
            is_cut = 1;
            bound = most_of(bound, it->ends[i]);
            behind = it->last_rows[i] > behind ? it->last_rows[i] : behind;
        }
    if (!is_cut || count == 0)
        return !is_cut;
    uint64_t number = number_by(&rows[count - 1], it->by);
    return number > bound || (number == bound && rows[count - 1].row <= behind);
}

/* The rows that lead as far as is told by the first `depth` of each server, and whether that is certain. */
static hhm_result ask_top(hhm_cluster *hhm, lead *it, hhm_top_row *rows, size_t most, size_t *count, int *is_certain)
{
    size_t all = 0, found = 0;
    hhm_result result = ask_leads(hhm, it);
    if (result)
        return result;
    for (size_t i = 0; i < it->count; i++)
        all += it->lengths[i];
    hhm_top_row *sums = (hhm_top_row *)malloc((all ? all : 1) * sizeof *sums);
    if (!sums)
        return no_memory(hhm);
    if (sums_of(it, sums, &found))
        result = bad_sum(hhm);
    if (result == HHM_OK && hhm->way == HHM_BY_SOURCE) {
        result = keep_likely(hhm, it, sums, &found, most);
        if (result == HHM_OK)
            result = ask_rest(hhm, it, sums, found);
    }
    qsort(sums, found, sizeof *sums, it->by == HHM_BY_TOTAL ? by_total : by_entries);
    found = found < most ? found : most;
    *is_certain = hhm->way == HHM_BY_ROWS || is_decided(it, sums, found);
    if (result == HHM_OK && *is_certain) {
        memcpy(rows, sums, found * sizeof *rows);
        *count = found;
    }
    free(sums);
    return result;
}

hhm_result hhm_cluster_ask_top(hhm_cluster *hhm, hhm_by by, hhm_top_row *rows, size_t most, size_t *count)
{
    size_t depth = most;
    for (;;) {
        lead it = {0, depth, by, NULL, NULL, NULL, NULL, NULL};
        int is_certain = 0;
        hhm_result result = ask_top(hhm, &it, rows, most, count, &is_certain);
        free_lead(&it);
        if (result || is_certain)
            return result;
        if (depth >= HHM_MOST_PAGE)
            return told(hhm, HHM_UNDECIDED, "which rows lead isn't told by the first of each server");
        depth = 4 * depth < HHM_MOST_PAGE ? 4 * depth : HHM_MOST_PAGE;
    }
}

/* Exports. */

/* A text that a server wrote, and the cell that is next in it. */
typedef struct {
    char *text;
    const char *rest;
    uint64_t rows, cols, row, col, count;
    int has_cell;
} source;

static uint64_t number_of(source *it)
{
    char *end;
    uint64_t number = strtoull(it->rest, &end, 10);
    it->rest = *end ? end + 1 : end;
    return number;
}

static void next_cell(source *it)
{
    it->has_cell = *it->rest != 0;
    if (it->has_cell) {
        it->row = number_of(it);
        it->col = number_of(it);
        it->count = number_of(it);
    }
}

/* At the front of a text: its size, and its first cell. */
static void rewind_source(source *it)
{
    it->rest = strchr(it->text, '\n') + 1;
    it->rows = number_of(it);
    it->cols = number_of(it);
    number_of(it);
    next_cell(it);
}

/* The sum of the next place of all texts; 0 where there is none, and -1 where it passes 64 bits. */
static int next_sum(source *sources, size_t count, source *sum)
{
    source *first = NULL;
    for (size_t i = 0; i < count; i++) {
        source *it = &sources[i];
        if (it->has_cell && (!first || it->row < first->row || (it->row == first->row && it->col < first->col)))
            first = it;
    }
    if (!first)
        return 0;
    sum->row = first->row;
    sum->col = first->col;
    sum->count = 0;
    for (size_t i = 0; i < count; i++)
        if (sources[i].has_cell && sources[i].row == sum->row && sources[i].col == sum->col) {
            if (add(&sum->count, sources[i].count))
                return -1;
            next_cell(&sources[i]);
        }
    return 1;
}

/* Writes the sum of texts into a text, or only counts its bytes and cells where there is none. */
static int merge(source *sources, size_t count, char *text, size_t *length, uint64_t *cells)
{
    source sum;
    char line[80];
    int found;
    *cells = 0;
    for (size_t i = 0; i < count; i++)
        rewind_source(&sources[i]);
    while ((found = next_sum(sources, count, &sum)) > 0) {
        int bytes = snprintf(line, sizeof line, "%" PRIu64 " %" PRIu64 " %" PRIu64 "\n", sum.row, sum.col, sum.count);
        if (text)
            memcpy(text + *length, line, (size_t)bytes);
        *length += (size_t)bytes;
        ++*cells;
    }
    return found;
}

static hhm_result merged(hhm_cluster *hhm, source *sources, char **text, size_t *length)
{
    uint64_t cells;
    size_t bytes = 0;
    char head[160];
    if (merge(sources, hhm->count, NULL, &bytes, &cells) < 0)
        return bad_sum(hhm);
    for (size_t i = 1; i < hhm->count; i++)
        if (sources[i].rows != sources[0].rows || sources[i].cols != sources[0].cols)
            return bad_sum(hhm);
    int front = snprintf(head, sizeof head,
                         "%%%%MatrixMarket matrix coordinate integer general\n%" PRIu64 " %" PRIu64 " %" PRIu64 "\n",
                         sources[0].rows, sources[0].cols, cells);
    char *made = (char *)malloc((size_t)front + bytes + 1);
    if (!made)
        return told(hhm, HHM_MEMORY, "there is no memory for the text");
    memcpy(made, head, (size_t)front);
    *length = (size_t)front;
    merge(sources, hhm->count, made, length, &cells);
    made[*length] = 0;
    *text = made;
    return HHM_OK;
}

hhm_result hhm_cluster_export(hhm_cluster *hhm, char **text, size_t *length)
{
    source *sources = (source *)calloc(hhm->count, sizeof *sources);
    hhm_result result = sources ? HHM_OK : told(hhm, HHM_MEMORY, "there is no memory for the text");
    for (size_t i = 0; result == HHM_OK && i < hhm->count; i++) {
        size_t bytes;
        result = hhm_export(hhm->servers[i], &sources[i].text, &bytes);
        if (result)
            of_server(hhm, i, result);
    }
    if (result == HHM_OK)
        result = merged(hhm, sources, text, length);
    for (size_t i = 0; sources && i < hhm->count; i++)
        free(sources[i].text);
    free(sources);
    return result;
}
