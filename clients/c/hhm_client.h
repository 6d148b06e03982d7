/*
 * A client of `hhm serve` for C and C++, on POSIX sockets alone. Compile hhm_client.c with your program.
 *
 *     hhm_client *hhm = hhm_open_unix("/run/hhm/hhm.sock", 7);
 *     hhm_cell cells[] = {{0, 0, 5}, {2, 1, 7}};
 *     hhm_accepted accepted;
 *     if (hhm_put(hhm, 1, cells, 2, &accepted) != HHM_OK)
 *         fprintf(stderr, "%s\n", hhm_message(hhm));
 *     hhm_close(hhm);
 *
 * A batch counts once. It is known by two numbers, the client's and its own: where the reply to a put is lost, the
 * client connects again and sends the same batch with the same numbers, and the server answers what it answered first.
 * So a pair of numbers belongs to one batch for ever: another batch under a known pair, with as many cells and the same
 * total, is answered as the first one was, and isn't counted. docs/OPERATING.md tells how to choose numbers, and
 * docs/FORMATS.md describes the frames. Rows and columns count from 0.
 *
 * A client is for one thread at a time. No call raises SIGPIPE, and one that a signal interrupts goes on. After a fork
 * each process makes a connection of its own.
 */
#ifndef HHM_CLIENT_H
#define HHM_CLIENT_H

#include <stddef.h>
#include <stdint.h>

#ifdef __cplusplus
extern "C" {
#endif

/* The bytes of the longest body of a frame, and the most cells of a batch. */
#define HHM_MOST_BODY 67108864
#define HHM_MOST_CELLS 1048576

/* The most cells of a page of a range, and the most rows of a top. */
#define HHM_MOST_PAGE 1000000

/* The most batches that hhm_put_all has on the way: the replies to so many fit into any socket's buffer. */
#define HHM_MOST_DEPTH 128

/* A connection to a server, made when it is first needed, and made again where it is lost. Over each new one a client
   that has put batches asks for the book's identity and the status, and puts the last of them again, of which it keeps
   a copy for that. A server with a log (hhm serve --log) lost nothing that it answered, so there a program needn't keep
   what was accepted; without one it keeps that until a save. */
typedef struct hhm_client hhm_client;

/* A count at a place; both numbers of the place count from 0. */
typedef struct {
    uint64_t row, col, count;
} hhm_cell;

/* A batch. The cells stay the caller's. */
typedef struct {
    uint64_t number;
    const hhm_cell *cells;
    size_t count;
} hhm_batch;

/* The place of a batch in the list of accepted batches, from 0, and the accepted total with it. */
typedef struct {
    uint64_t index, total_after;
} hhm_accepted;

/* A count that is stored, or none: then is_stored is 0, and so is the count. */
typedef struct {
    int is_stored;
    uint64_t count;
} hhm_value;

/* How many cells a row has, stored zeros included, and the sum of their counts. */
typedef struct {
    uint64_t entries, total;
} hhm_row_sum;

/* How many batches were accepted, and their total. */
typedef struct {
    uint64_t batches, total;
} hhm_status;

/* The cells whose row and column are from the first to the last of these, both ends in. */
typedef struct {
    uint64_t first_row, last_row, first_col, last_col;
} hhm_block;

/* What the rows of a top lead by: the sum of their counts, or the number of their cells, stored zeros included. */
typedef enum { HHM_BY_TOTAL = 0, HHM_BY_ENTRIES = 1 } hhm_by;

/* A row, how many cells it has, and the sum of their counts. */
typedef struct {
    uint64_t row, entries, total;
} hhm_top_row;

/* A range that is read cell by cell, and asked for page by page. */
typedef struct hhm_range hhm_range;

/*
 * Why the server refused a request: the code of docs/FORMATS.md, and its detail: the line of a text's fault (codes
 * above 100), the place from 0 of the first cell of a batch that is out of range (22), the accepted total (31), else 0.
 */
typedef struct {
    uint16_t code;
    uint64_t detail;
} hhm_refusal;

/* What each call gives. What a call answers is written where it gives HHM_OK, and left alone else. */
typedef enum {
    HHM_OK = 0,
    /* The server refused the request, and nothing was changed; hhm_refused tells why. The client goes on. */
    HHM_REFUSED,
    /* A fault of the connection outlasted all attempts; errno tells which. Whether a put was accepted isn't known: put
       the batch again with its number. */
    HHM_FAILED,
    /* What came is no reply to what was asked. The connection is closed. */
    HHM_BAD_REPLY,
    /* A batch has more cells, or a text more bytes, than a server takes. Nothing was sent. */
    HHM_TOO_LARGE,
    /* There is no memory for a reply, or for what is made of it. The connection is closed. */
    HHM_MEMORY,
    /* The server lacks what it had accepted: it began again from an older snapshot, or without one; hhm_went_back tells
       more. What this client put since the last save may be missing: put it again, with its numbers, and what this call
       was given, of which nothing was sent to the server as it is now. The client goes on. */
    HHM_BOOK_WENT_BACK,
    /* The first batch of the server's book isn't the marker that this client demands (hhm_set_marker). Nothing but the
       marker was put over this connection. */
    HHM_OTHER_MAP,
    /* Of several servers (hhm_cluster.h): a batch is in the sum in part; no new batch is to be put; a cell is beyond
       the rows or columns; the servers' sums don't add up. */
    HHM_HALF,
    HHM_FULL,
    HHM_OUT_OF_RANGE,
    HHM_BAD_SUM,
    /* Of several servers by source: which rows lead isn't told by the first HHM_MOST_PAGE of each, since rows that none
       has among these may have as much in all. */
    HHM_UNDECIDED
} hhm_result;

/* What this client's replies said of the accepted batches, and what a server that went back says of them; and the
   identities of its book then and now, 32 hexadecimal digits, or no digit where it gave none. Where they differ it is
   another book. A server that begins again keeps its book's identity by its snapshot or log. */
typedef struct {
    hhm_status had, has;
    char had_id[33], has_id[33];
} hhm_books;

/*
 * Make a client of a server at HOST:PORT (the host of an IPv6 address in brackets), or at a Unix socket. No other
 * program puts under the client's number. Nothing is connected yet. NULL with errno EINVAL for a word that isn't
 * HOST:PORT, ENAMETOOLONG for a path that no socket can have, ENOMEM for want of memory. Give it to hhm_close.
 */
hhm_client *hhm_open_tcp(const char *address, uint64_t client);
hhm_client *hhm_open_unix(const char *path, uint64_t client);

/* Closes the connection and frees the client; NULL is nothing. What was accepted stays accepted. */
void hhm_close(hhm_client *hhm);

/* For how many milliseconds a reply, or the sending of a request, may stand still: 60,000 by default; 0 is for ever.
   A timeout is a fault of the connection like others. Counts from the next connection on. */
void hhm_set_timeout(hhm_client *hhm, unsigned milliseconds);

/* How often a request is sent before a fault of the connection is given up, at least once, and the pause after the
   first fault in milliseconds; it doubles, up to ten seconds. The default, 14 and 50, tries for a minute: a server that
   starts from a large snapshot listens only after some seconds. */
void hhm_set_attempts(hhm_client *hhm, unsigned attempts, unsigned pause);

/* Over each new connection, before anything else, an empty batch of client 2^64 - 1 with this number is put, which must
   be the first of the server's book (HHM_OTHER_MAP). */
void hhm_set_marker(hhm_client *hhm, uint64_t marker);

/* Lets the connection go; the next call makes a new one. What was accepted stays accepted. */
void hhm_disconnect(hhm_client *hhm);

/* Puts a batch of cells, of which one may stand in it repeatedly. Its number belongs to it for ever. */
hhm_result hhm_put(hhm_client *hhm, uint64_t number, const hhm_cell *cells, size_t count, hhm_accepted *accepted);

/* Puts a batch that is a Matrix Market text, with no more rows and no more columns than the server has. */
hhm_result hhm_put_text(hhm_client *hhm, uint64_t number, const char *text, size_t length, hhm_accepted *accepted);

/*
 * Puts batches with up to `depth` of them on the way, 128 at most, and writes the reply to each to its place of
 * `accepted`. Where the connection is lost, all that had no reply yet are sent again. `answered` gets how many were
 * accepted, also where the result isn't HHM_OK, which then is that of the batch behind them. Those after it may have
 * been accepted, and can be put again with their numbers.
 */
hhm_result hhm_put_all(hhm_client *hhm, const hhm_batch *batches, size_t count, size_t depth, hhm_accepted *accepted,
                       size_t *answered);

/* The count of a cell. */
hhm_result hhm_ask_cell(hhm_client *hhm, uint64_t row, uint64_t col, hhm_value *value);

/* The sum of a row. */
hhm_result hhm_ask_row(hhm_client *hhm, uint64_t row, hhm_row_sum *sum);

/* How many batches were accepted, and their total. Counts every put that was answered before. */
hhm_result hhm_ask_status(hhm_client *hhm, hhm_status *status);

/* How many of the accepted batches are durable, the first so many, and their total: a crash of the server's machine
   takes none of them back. A server without a log gives all that it accepted. */
hhm_result hhm_ask_stored(hhm_client *hhm, hhm_status *stored);

/*
 * The first `most` cells of a block of the sum, by row and then by column, that stand at the place `row`, `col` or
 * behind it: at most HHM_MOST_PAGE, into memory for so many. `count` gets how many there are, and `has_more` whether
 * further ones follow; the next page begins at the place behind the last cell. The memory for the cells may be written
 * where the result isn't HHM_OK, too.
 */
hhm_result hhm_ask_page(hhm_client *hhm, hhm_block block, uint64_t row, uint64_t col, hhm_cell *cells, size_t most,
                        size_t *count, int *has_more);

/*
 * Begins to read the cells of a block, by row and then by column, with a page of at most `page` cells in memory, 24 bytes
 * each (10,000 are good). Nothing is asked yet. A page has what stands there when it is asked for. NULL with errno
 * ENOMEM, or EINVAL where the page is 0 or larger than HHM_MOST_PAGE. Give it to hhm_range_close, before the client.
 */
hhm_range *hhm_range_open(hhm_client *hhm, hhm_block block, size_t page);

/* The next cell; `has_cell` is 0 where there is none. After a fault the same call asks for the same page again. */
hhm_result hhm_range_next(hhm_range *range, hhm_cell *cell, int *has_cell);

/* Frees what reads a range; NULL is nothing. The client stays as it is. */
void hhm_range_close(hhm_range *range);

/* The first `most` rows, at most HHM_MOST_PAGE, of those that have a cell, into memory for so many: the highest number
   first, and of equal ones the lowest row. `count` gets how many there are. */
hhm_result hhm_ask_top(hhm_client *hhm, hhm_by by, hhm_top_row *rows, size_t most, size_t *count);

/* The first `most` groups of the rows from `first` to `last`, both ends in, as hhm_ask_top has rows. Rows are in one
   group if their numbers are the same without their last `shift` bits, 0 to 63; the number that is left is the group's
   `row`. A server that doesn't know the question refuses it (code 51). */
hhm_result hhm_ask_groups(hhm_client *hhm, hhm_by by, uint64_t first, uint64_t last, unsigned shift, hhm_top_row *rows,
                          size_t most, size_t *count);

/* What the server tells of itself: a text of lines `name value`, which ends with a byte 0 that `length` doesn't count;
   free it with free(). A program takes the names that it knows. A server that doesn't know the question refuses it
   (code 51). */
hhm_result hhm_ask_stats(hhm_client *hhm, char **text, size_t *length);

/* The number behind a name in such a text; 0 where there is none, or where what stands there is no whole number. */
int hhm_stat_of(const char *text, const char *name, uint64_t *value);

/* The sum of all accepted batches as a Matrix Market text, whose rows and columns count from 1. It ends with a byte 0
   that `length` doesn't count; free it with free(). */
hhm_result hhm_export(hhm_client *hhm, char **text, size_t *length);

/* Saves a snapshot where the server was told to, and gives its number of batches. Where no answer comes in time the
   save may be under way, and it isn't asked for again. */
hhm_result hhm_save(hhm_client *hhm, uint64_t *batches);

/* Folds what the server has accepted, with a log once that is durable, and gives how many batches are folded then. No
   answer changes by it. Where no answer comes in time the fold may be under way, and it isn't asked for again. */
hhm_result hhm_fold(hhm_client *hhm, uint64_t *folded);

/* Tells the server to stop. It serves its open sessions to their ends, and saves, after the answer. Where the answer is
   lost and the server is gone when it is asked again, that is HHM_FAILED. */
hhm_result hhm_stop(hhm_client *hhm);

/* The refusal of the last call that gave HHM_REFUSED; zeros where there was none. */
hhm_refusal hhm_refused(const hhm_client *hhm);

/* What the last call that gave HHM_BOOK_WENT_BACK found; zeros where there was none. */
hhm_books hhm_went_back(const hhm_client *hhm);

/* The name of a code of refusal, or NULL. It lives for ever. */
const char *hhm_code_name(uint16_t code);

/* What the last call that didn't give HHM_OK met, in words. They live until the next call with this client. */
const char *hhm_message(const hhm_client *hhm);

#ifdef __cplusplus
}
#endif

#endif
