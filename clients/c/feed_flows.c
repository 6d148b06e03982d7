/*
 * Feeds a file of flows into a server of hhm: an example.
 *
 *     cc -O2 clients/c/feed_flows.c clients/c/hhm_client.c -o feed_flows_c
 *     hhm serve --unix /tmp/hhm.sock --rows 4294967296 --cols 4294967296 \
 *         --snapshot /tmp/flows.snap --log /tmp/flows.log &
 *     ./feed_flows_c --unix /tmp/hhm.sock 7 flows.csv
 *
 * The file is a CSV with the head `source,destination,packets`: two IPv4 addresses, the row and the column, and a
 * count. Batch k of client 7 is its flows 10000 k to 10000 k + 9999, so a run that was interrupted is begun again with
 * the same words, and counts each flow once. Another file has another client number.
 */
#define _POSIX_C_SOURCE 200809L

#include "hhm_client.h"

#include <arpa/inet.h>
#include <errno.h>
#include <inttypes.h>
#include <stdio.h>
#include <stdlib.h>
#include <string.h>

#define LINES 10000

static hhm_cell cells[LINES];

/* Reads a number of decimal digits that fills the word. */
static int read_number(const char *word, uint64_t *number)
{
    errno = 0;
    *number = strtoull(word, NULL, 10);
    return *word && !word[strspn(word, "0123456789")] && errno == 0;
}

static int read_address(const char *word, uint64_t *number)
{
    struct in_addr address;
    if (inet_pton(AF_INET, word, &address) != 1)
        return 0;
    *number = ntohl(address.s_addr);
    return 1;
}

/* Reads a line, which is cut at its commas. */
static int read_flow(char *line, hhm_cell *cell)
{
    char *first = strchr(line, ','), *second = first ? strchr(first + 1, ',') : NULL;
    if (!second)
        return 0;
    *first = *second = 0;
    return read_address(line, &cell->row) && read_address(first + 1, &cell->col) &&
           read_number(second + 1, &cell->count);
}

/* The next line, without its end; 0 at the end of the file. */
static int next_line(FILE *file, char **line, size_t *room)
{
    if (getline(line, room, file) < 0)
        return 0;
    (*line)[strcspn(*line, "\r\n")] = 0;
    return 1;
}

/* Reads the next cells and gives their number, or -1 with the line's number told. */
static int next_cells(FILE *file, char **line, size_t *room, unsigned long *at)
{
    int count = 0;
    for (; count < LINES && next_line(file, line, room); count++) {
        ++*at;
        if (!read_flow(*line, &cells[count])) {
            fprintf(stderr, "line %lu: no flow\n", *at);
            return -1;
        }
    }
    return count;
}

/* Gives the status of the program. */
static int feed(hhm_client *hhm, FILE *file)
{
    char *line = NULL;
    size_t room = 0;
    unsigned long at = 1;
    uint64_t sent = 0;
    hhm_result result = HHM_OK;
    int count = -1;
    if (!next_line(file, &line, &room) || strcmp(line, "source,destination,packets"))
        fprintf(stderr, "line 1: no head `source,destination,packets`\n");
    else
        count = next_cells(file, &line, &room, &at);
    while (count > 0) {
        hhm_accepted accepted;
        result = hhm_put(hhm, sent, cells, (size_t)count, &accepted);
        if (result)
            break;
        sent++;
        count = next_cells(file, &line, &room, &at);
    }
    free(line);
    if (result)
        fprintf(stderr, "batch %" PRIu64 ": %s\n", sent, hhm_message(hhm));
    else if (count == 0)
        printf("sent batches %" PRIu64 "\n", sent);
    return result == HHM_REFUSED ? 1 : result || count ? 4 : 0;
}

int main(int count, char **words)
{
    uint64_t client;
    hhm_client *hhm = NULL;
    if (count == 5 && read_number(words[3], &client)) {
        if (!strcmp(words[1], "--tcp"))
            hhm = hhm_open_tcp(words[2], client);
        else if (!strcmp(words[1], "--unix"))
            hhm = hhm_open_unix(words[2], client);
    }
    if (!hhm) {
        fprintf(stderr, "usage: feed_flows --tcp HOST:PORT | --unix PATH CLIENT FILE\n");
        return 2;
    }
    FILE *file = fopen(words[4], "r");
    if (!file)
        perror(words[4]);
    int status = file ? feed(hhm, file) : 4;
    if (file)
        fclose(file);
    hhm_close(hhm);
    return status;
}
