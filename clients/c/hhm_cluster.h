/*
 * Several servers of hhm as one, for C and C++. Compile hhm_cluster.c and hhm_client.c with your program.
 *
 *     const char *servers[] = {"a:7000", "b:7000"};
 *     hhm_cluster *hhm = hhm_cluster_open(servers, 2, 7, 1, HHM_BY_ROWS);
 *     if (hhm_cluster_put(hhm, 1, cells, 2) != HHM_OK)
 *         fprintf(stderr, "%s\n", hhm_cluster_message(hhm));
 *     hhm_cluster_close(hhm);
 *
 * What says where a batch goes is the map: the servers and their order, the way and the generation. It stays as it is;
 * another map has new servers with empty books. docs/CLUSTER.md tells the rules by which each batch counts once, and
 * docs/FORMATS.md ("Several servers by one map") what is sent. Each connection puts the map's marker first, and before
 * the first put all servers have been asked so.
 *
 * By rows a put goes to the server at place 0 first, and to the others behind it, one after another. So what the first
 * refuses is put nowhere (HHM_REFUSED); what another refuses is in the sum in part (HHM_HALF).
 */
#ifndef HHM_CLUSTER_H
#define HHM_CLUSTER_H

#include "hhm_client.h"

#ifdef __cplusplus
extern "C" {
#endif

typedef struct hhm_cluster hhm_cluster;

/* A range of all servers, which is read cell by cell. */
typedef struct hhm_cluster_range hhm_cluster_range;

/* Where the batches of a client go: each whole to one server, the one at place (client mod number of servers); or each
   cut by a hash of its rows, to all servers. */
typedef enum { HHM_BY_SOURCE = 0, HHM_BY_ROWS = 1 } hhm_way;

/*
 * Makes a cluster of servers in their order, each tcp:HOST:PORT, unix:PATH, HOST:PORT or a path with a slash. No other
 * program puts under the client's number, which is below 2^64 - 1. The generation belongs to these servers, to this
 * order and to this way for ever. Nothing is connected yet. NULL with errno as hhm_open_tcp, EINVAL also for no server,
 * and for an address that may be a path or a host, as unix:7000.
 */
hhm_cluster *hhm_cluster_open(const char *const *servers, size_t count, uint64_t client, uint64_t generation,
                              hhm_way way);

/* Closes the connections and frees the cluster; NULL is nothing. */
void hhm_cluster_close(hhm_cluster *hhm);

/* The client of the server at a place, from 0: to set its timeout and attempts, and for what it says of a fault. */
hhm_client *hhm_cluster_server(hhm_cluster *hhm, size_t place);

/* The servers' rows and columns: a cell beyond them is found out before anything is sent (HHM_OUT_OF_RANGE). By rows
   give it, since a server that refuses its part leaves a half batch. */
void hhm_cluster_set_size(hhm_cluster *hhm, uint64_t rows, uint64_t cols);

/* What the servers take (--max-batches), and how many places of it are left for batches that must be put again:
   1,000,000 and 10,000 by default. A new batch behind them is HHM_FULL. */
void hhm_cluster_set_batches(hhm_cluster *hhm, uint64_t max_batches, uint64_t reserve);

/* Puts a batch. Its number belongs to it for ever. */
hhm_result hhm_cluster_put(hhm_cluster *hhm, uint64_t number, const hhm_cell *cells, size_t count);

/* Puts batches with up to `depth` of them on the way, 128 at most. `answered` gets how many of them, the first, all
   servers have accepted, also where the result isn't HHM_OK. Those behind may have been accepted, and can be put again
   with their numbers. */
hhm_result hhm_cluster_put_all(hhm_cluster *hhm, const hhm_batch *batches, size_t count, size_t depth,
                               size_t *answered);

/* The count of a cell; the sum of a row, of which by source a cell is counted in `entries` by each server that has it.
   HHM_BAD_SUM where a sum of several servers passes 64 bits. */
hhm_result hhm_cluster_ask_cell(hhm_cluster *hhm, uint64_t row, uint64_t col, hhm_value *value);
hhm_result hhm_cluster_ask_row(hhm_cluster *hhm, uint64_t row, hhm_row_sum *sum);

/*
 * The cells of a block, as hhm_range_open: those of all servers, merged, and where several have a cell its counts added
 * up (HHM_BAD_SUM where they pass 64 bits). Each server has a page of its own in memory, of at most `page` cells. Give it
 * to hhm_cluster_range_close, before the cluster.
 */
hhm_cluster_range *hhm_cluster_range_open(hhm_cluster *hhm, hhm_block block, size_t page);
hhm_result hhm_cluster_range_next(hhm_cluster_range *range, hhm_cell *cell, int *has_cell);
void hhm_cluster_range_close(hhm_cluster_range *range);

/*
 * The first `most` rows, as hhm_ask_top. By source a row's numbers are those of hhm_cluster_ask_row: all servers' added
 * up. Each is then asked for more rows, and for single ones, until it is certain which lead, or a million of each don't
 * tell it (HHM_UNDECIDED).
 */
hhm_result hhm_cluster_ask_top(hhm_cluster *hhm, hhm_by by, hhm_top_row *rows, size_t most, size_t *count);

/* How many batches were accepted, markers aside, or are durable, and their total. By rows the number is that of the
   server that has fewest, since each batch is at all of them. */
hhm_result hhm_cluster_ask_status(hhm_cluster *hhm, hhm_status *status);
hhm_result hhm_cluster_ask_stored(hhm_cluster *hhm, hhm_status *stored);

/* The sum of all accepted batches, as hhm_export; each server's part of it has at most 64 MiB. */
hhm_result hhm_cluster_export(hhm_cluster *hhm, char **text, size_t *length);

/* Saves a snapshot at each server; tells each to stop. */
hhm_result hhm_cluster_save(hhm_cluster *hhm);
hhm_result hhm_cluster_stop(hhm_cluster *hhm);

/* Of the last call that didn't give HHM_OK: the place of the server that it is of, the number of the batch of HHM_HALF,
   and what it met, in words that live until the next call. Another server that went back, or refused too, is told by
   the next call. */
size_t hhm_cluster_place(const hhm_cluster *hhm);
uint64_t hhm_cluster_number(const hhm_cluster *hhm);
const char *hhm_cluster_message(const hhm_cluster *hhm);

/* The place of the server that has a row, by rows; the number of a place's marker. */
size_t hhm_place_of_row(uint64_t row, size_t servers);
uint64_t hhm_marker_of(uint64_t generation, hhm_way way, size_t servers, size_t place);

#ifdef __cplusplus
}
#endif

#endif
