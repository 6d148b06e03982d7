/* The client of hhm_client.h. C11 or C++17, POSIX.1-2008. */
#ifndef _POSIX_C_SOURCE
#define _POSIX_C_SOURCE 200809L
#endif

#include "hhm_client.h"

#include <errno.h>
#include <fcntl.h>
#include <inttypes.h>
#include <limits.h>
#include <netdb.h>
#include <netinet/in.h>
#include <netinet/tcp.h>
#include <poll.h>
#include <stdio.h>
#include <stdlib.h>
#include <string.h>
#include <sys/socket.h>
#include <sys/time.h>
#include <sys/un.h>
#include <time.h>
#include <unistd.h>

enum { PUT = 0x01, CELL, ROW, STATUS, EXPORT, SAVE, STOP, PUT_CELLS, STORED, RANGE, TOP, STATS, FOLD, GROUPS = 0x12 };
enum { ACCEPTED = 0x81, VALUE, ROW_SUM, COUNTS, TEXT, SAVED, STOPPING, CELLS, ROWS, TOLD, REFUSED = 0xff };
/* Codes of refusals. */
enum { LOG_FULL = 34, LOG_FAILED = 35 };

/* The bytes of the longest reply but a text, the cells that are spelled at once, and the bytes of replies that are kept
   while requests are sent, more than HHM_MOST_DEPTH replies to puts have. */
#define MAX_SHORT 16
#define PIECE 1024
#define EARLY 4096

/* A request: numbers, and behind them a text or cells, which are the caller's. */
typedef struct {
    uint8_t kind;
    unsigned count;
    uint64_t numbers[2];
    const char *text;
    size_t length;
    const hhm_cell *cells;
    size_t cell_count;
} request;

struct hhm_client {
    /* Host and port, of which the port is NULL where this is the path of a Unix socket. Each has memory of its own. */
    char *host;
    char *port;
    uint64_t number;
    unsigned timeout, attempts, pause;
    /* The number of the marker that is put over each new connection, where there is one. */
    int has_marker;
    uint64_t marker;
    /* The connection's descriptor, or -1, which never blocks, and the process that made it. */
    int link;
    pid_t process;
    /* How many replies are owed over it: from before the first byte of a request until the last one of its reply. */
    size_t owed;
    /* Whether the server needn't be asked any more over it which book it has, and the identity of that, where it is
       known. */
    int knows_book;
    char book_id[33];
    /* What was read of replies while requests were sent. */
    unsigned char early[EARLY];
    size_t early_count;
    /* What the highest place of a reply to a put says of the accepted batches, and the identity of its book; zeros
       where nothing was put. */
    hhm_status seen;
    char seen_id[33];
    /* That put, with its cells or its text in memory of this size; of kind 0 where there was none for it. */
    request last;
    void *memory;
    size_t size;
    hhm_books books;
    hhm_refusal refusal;
    char message[320];
};

/* The body of a reply. One that may be of any length has memory of its own; a short one stands in `bytes`. */
typedef struct {
    unsigned char bytes[MAX_SHORT];
    char *text;
    size_t length;
} reply;

/* Spelling. */

static unsigned char *push(unsigned char *place, uint64_t number, unsigned size)
{
    for (unsigned i = 0; i < size; i++)
        place[i] = (unsigned char)(number >> 8 * (size - 1 - i));
    return place + size;
}

/* As `push` of eight bytes, in a form that compilers make one instruction of. */
static unsigned char *push_long(unsigned char *place, uint64_t number)
{
    place[0] = (unsigned char)(number >> 56);
    place[1] = (unsigned char)(number >> 48);
    place[2] = (unsigned char)(number >> 40);
    place[3] = (unsigned char)(number >> 32);
    place[4] = (unsigned char)(number >> 24);
    place[5] = (unsigned char)(number >> 16);
    place[6] = (unsigned char)(number >> 8);
    place[7] = (unsigned char)number;
    return place + 8;
}

static uint64_t number_at(const unsigned char *place, unsigned size)
{
    uint64_t number = 0;
    for (unsigned i = 0; i < size; i++)
        number = number << 8 | place[i];
    return number;
}

const char *hhm_code_name(uint16_t code)
{
    static const struct {
        uint16_t code;
        const char *name;
    } names[] = {
        {1, "Memory"}, {20, "DimensionsDiffer"}, {21, "SumTooLarge"}, {22, "IndexOutOfRange"},
        {23, "TooManyCells"}, {30, "NumberReused"}, {31, "OverTotal"}, {32, "BookFull"}, {33, "RecordsDiffer"},
        {34, "LogFull"}, {35, "LogFailed"}, {40, "ReplyTooLarge"}, {41, "OutOfRange"}, {42, "SaveFailed"},
        {43, "SaveOff"}, {44, "BadCount"}, {50, "TooLarge"}, {51, "UnknownKind"}, {52, "BadLength"}, {103, "BadBanner"},
        {104, "Unsupported"}, {105, "LineTooLong"}, {106, "BadSize"}, {107, "BadDimension"}, {108, "NotSquare"},
        {109, "TooManyEntries"}, {110, "BadEntry"}, {111, "Negative"}, {112, "NumberTooLarge"},
        {113, "IndexOutOfRange"}, {114, "TooFewEntries"}, {115, "ExtraText"}, {116, "TooLong"},
    };
    for (size_t i = 0; i < sizeof names / sizeof names[0]; i++)
        if (names[i].code == code)
            return names[i].name;
    return NULL;
}

/* Faults, with their words. */

static hhm_result failed(hhm_client *hhm)
{
    int kept = errno;
    snprintf(hhm->message, sizeof hhm->message, "failed: %s", strerror(kept));
    errno = kept;
    return HHM_FAILED;
}

static hhm_result told(hhm_client *hhm, hhm_result result, const char *words)
{
    snprintf(hhm->message, sizeof hhm->message, "%s", words);
    return result;
}

static hhm_result refused(hhm_client *hhm, uint16_t code, uint64_t detail)
{
    const char *name = hhm_code_name(code);
    char other[16], where[40] = "";
    hhm->refusal.code = code;
    hhm->refusal.detail = detail;
    snprintf(other, sizeof other, "code %u", (unsigned)code);
    if (code == 22)
        snprintf(where, sizeof where, " at cell %" PRIu64, detail);
    else if (code == 31)
        snprintf(where, sizeof where, ": %" PRIu64 " accepted", detail);
    else if (code > 100)
        snprintf(where, sizeof where, " at line %" PRIu64, detail);
    snprintf(hhm->message, sizeof hhm->message, "refused: %s%s", name ? name : other, where);
    return HHM_REFUSED;
}

/* Whether the server has another book than the one with what was put, by their identities. */
static int has_other_book(const hhm_client *hhm)
{
    return hhm->seen_id[0] && hhm->book_id[0] && strcmp(hhm->seen_id, hhm->book_id);
}

static hhm_result went_back(hhm_client *hhm, hhm_status has)
{
    hhm_status had = hhm->seen, none = {0, 0};
    char books[100] = "";
    if (has_other_book(hhm))
        snprintf(books, sizeof books, "; its book was %s, and is %s", hhm->seen_id, hhm->book_id);
    hhm->books.had = had;
    hhm->books.has = has;
    memcpy(hhm->books.had_id, hhm->seen_id, sizeof hhm->seen_id);
    memcpy(hhm->books.has_id, hhm->book_id, sizeof hhm->book_id);
    hhm->seen = none;
    snprintf(hhm->message, sizeof hhm->message,
             "the server went back: it had %" PRIu64 " batches with total %" PRIu64
             ", which aren't all there, and has %" PRIu64 " with total %" PRIu64 "%s",
             had.batches, had.total, has.batches, has.total, books);
    return HHM_BOOK_WENT_BACK;
}

hhm_refusal hhm_refused(const hhm_client *hhm)
{
    return hhm->refusal;
}

hhm_books hhm_went_back(const hhm_client *hhm)
{
    return hhm->books;
}

const char *hhm_message(const hhm_client *hhm)
{
    return hhm->message;
}

/* Clients. */

static hhm_client *made(const char *host, size_t length, const char *port, uint64_t number)
{
    hhm_client *hhm = (hhm_client *)calloc(1, sizeof *hhm);
    if (!hhm)
        return NULL;
    hhm->link = -1;
    hhm->number = number;
    hhm->timeout = 60000;
    hhm->attempts = 14;
    hhm->pause = 50;
    hhm->host = strndup(host, length);
    hhm->port = port ? strdup(port) : NULL;
    if (!hhm->host || (port && !hhm->port)) {
        hhm_close(hhm);
        errno = ENOMEM;
        return NULL;
    }
    return hhm;
}

static int is_port(const char *word)
{
    size_t length = strspn(word, "0123456789");
    unsigned long value = length > 0 && length <= 5 && !word[length] ? strtoul(word, NULL, 10) : 0;
    return value >= 1 && value <= 65535;
}

hhm_client *hhm_open_tcp(const char *address, uint64_t client)
{
    const char *colon = strrchr(address, ':');
    size_t length = colon ? (size_t)(colon - address) : 0;
    int has_brackets = length > 2 && address[0] == '[' && address[length - 1] == ']';
    if (length == 0 || !is_port(colon + 1) || (!has_brackets && memchr(address, ':', length))) {
        errno = EINVAL;
        return NULL;
    }
    return has_brackets ? made(address + 1, length - 2, colon + 1, client) : made(address, length, colon + 1, client);
}

hhm_client *hhm_open_unix(const char *path, uint64_t client)
{
    struct sockaddr_un place;
    if (strlen(path) >= sizeof place.sun_path) {
        errno = ENAMETOOLONG;
        return NULL;
    }
    return made(path, strlen(path), NULL, client);
}

static void let_go(hhm_client *hhm)
{
    if (hhm->link >= 0)
        close(hhm->link);
    hhm->link = -1;
    hhm->owed = 0;
    hhm->early_count = 0;
    hhm->knows_book = 0;
    hhm->book_id[0] = 0;
}

void hhm_close(hhm_client *hhm)
{
    if (!hhm)
        return;
    let_go(hhm);
    free(hhm->memory);
    free(hhm->host);
    free(hhm->port);
    free(hhm);
}

void hhm_set_timeout(hhm_client *hhm, unsigned milliseconds)
{
    hhm->timeout = milliseconds;
}

void hhm_set_marker(hhm_client *hhm, uint64_t marker)
{
    hhm->has_marker = 1;
    hhm->marker = marker;
}

void hhm_disconnect(hhm_client *hhm)
{
    let_go(hhm);
}

void hhm_set_attempts(hhm_client *hhm, unsigned attempts, unsigned pause)
{
    hhm->attempts = attempts > 0 ? attempts : 1;
    hhm->pause = pause;
}

/* Connections. Each function gives 0, or -1 with errno. */

static int64_t now(void)
{
    struct timespec time;
    clock_gettime(CLOCK_MONOTONIC, &time);
    return (int64_t)time.tv_sec * 1000 + time.tv_nsec / 1000000;
}

/* What is left of the timeout that began then, in milliseconds; -1 for ever. */
static int left_of(const hhm_client *hhm, int64_t begin)
{
    int64_t left = begin + (int64_t)hhm->timeout - now();
    if (hhm->timeout == 0)
        return -1;
    return left < 0 ? 0 : left > INT_MAX ? INT_MAX : (int)left;
}

/* Waits for events of a connection, for what is left of the timeout, through signals. Gives the events, or -1. */
static int wait_for(const hhm_client *hhm, int link, short events, int64_t begin)
{
    struct pollfd it = {link, events, 0};
    int ready;
    while ((ready = poll(&it, 1, left_of(hhm, begin))) < 0 && errno == EINTR) {
    }
    if (ready == 0)
        errno = ETIMEDOUT;
    return ready > 0 ? it.revents : -1;
}

/* Where the queue of those who wait at a Unix socket is full, connecting blocks; its timeout is that of sending. */
static int finish_unix(const hhm_client *hhm, int link, const struct sockaddr *place, socklen_t length)
{
    int64_t begin = now();
    int left;
    while ((left = left_of(hhm, begin)) != 0) {
        struct timeval limit = {(time_t)(left / 1000), (suseconds_t)(left % 1000 * 1000)};
        if (left > 0 && setsockopt(link, SOL_SOCKET, SO_SNDTIMEO, &limit, sizeof limit))
            return -1;
        if (!connect(link, place, length))
            return fcntl(link, F_SETFL, O_NONBLOCK);
        if (errno != EINTR && errno != EAGAIN)
            return -1;
    }
    errno = ETIMEDOUT;
    return -1;
}

static int finish_tcp(const hhm_client *hhm, int link, const struct sockaddr *place, socklen_t length)
{
    int yes = 1, fault = 0;
    socklen_t size = sizeof fault;
    if (setsockopt(link, IPPROTO_TCP, TCP_NODELAY, &yes, sizeof yes) || fcntl(link, F_SETFL, O_NONBLOCK))
        return -1;
    if (!connect(link, place, length))
        return 0;
    if ((errno != EINPROGRESS && errno != EINTR) || wait_for(hhm, link, POLLOUT, now()) < 0 ||
        getsockopt(link, SOL_SOCKET, SO_ERROR, &fault, &size))
        return -1;
    errno = fault;
    return fault ? -1 : 0;
}

/* A connection to one address. The timeout holds for connecting too. */
static int connected(const hhm_client *hhm, int family, const struct sockaddr *place, socklen_t length)
{
    int link = socket(family, SOCK_STREAM, 0), kept;
    if (link < 0)
        return -1;
    if (!(family == AF_UNIX ? finish_unix : finish_tcp)(hhm, link, place, length))
        return link;
    kept = errno;
    close(link);
    errno = kept;
    return -1;
}

static int connect_unix(const hhm_client *hhm)
{
    struct sockaddr_un place;
    memset(&place, 0, sizeof place);
    place.sun_family = AF_UNIX;
    memcpy(place.sun_path, hhm->host, strlen(hhm->host) + 1);
    return connected(hhm, AF_UNIX, (const struct sockaddr *)&place, sizeof place);
}

/* Tries each address of the host's name. */
static int connect_tcp(const hhm_client *hhm)
{
    struct addrinfo wanted, *found = NULL;
    int link = -1, kept;
    memset(&wanted, 0, sizeof wanted);
    wanted.ai_socktype = SOCK_STREAM;
    int fault = getaddrinfo(hhm->host, hhm->port, &wanted, &found);
    if (fault) {
        errno = fault == EAI_SYSTEM ? errno : EHOSTUNREACH;
        return -1;
    }
    for (const struct addrinfo *it = found; it && link < 0; it = it->ai_next)
        link = connected(hhm, it->ai_family, it->ai_addr, it->ai_addrlen);
    kept = errno;
    freeaddrinfo(found);
    errno = kept;
    return link;
}

static int is_pause(void)
{
    return errno == EAGAIN || errno == EWOULDBLOCK || errno == EINTR;
}

/* Waits until more can be sent. Reads replies meanwhile, since a server reads nothing while it can't write. */
static int wait_to_send(hhm_client *hhm, int64_t begin)
{
    size_t room = sizeof hhm->early - hhm->early_count;
    int events = wait_for(hhm, hhm->link, (short)(room > 0 ? POLLOUT | POLLIN : POLLOUT), begin);
    if (events < 0)
        return -1;
    if (room == 0 || !(events & POLLIN))
        return 0;
    ssize_t got = recv(hhm->link, hhm->early + hhm->early_count, room, 0);
    if (got == 0)
        errno = EPIPE;
    hhm->early_count += got > 0 ? (size_t)got : 0;
    return got > 0 || (got < 0 && is_pause()) ? 0 : -1;
}

/* That the server closed the connection is found out when its last reply was read. */
static int send_bytes(hhm_client *hhm, const void *bytes, size_t count)
{
    const unsigned char *place = (const unsigned char *)bytes;
    int64_t begin = now();
    while (count > 0) {
        ssize_t sent = send(hhm->link, place, count, MSG_NOSIGNAL);
        if (sent >= 0) {
            place += sent;
            count -= (size_t)sent;
            begin = now();
        } else if (!is_pause() || wait_to_send(hhm, begin)) {
            return errno == EPIPE || errno == ECONNRESET ? 0 : -1;
        }
    }
    return 0;
}

static int receive(hhm_client *hhm, void *bytes, size_t count)
{
    unsigned char *place = (unsigned char *)bytes;
    size_t have = hhm->early_count < count ? hhm->early_count : count;
    memcpy(place, hhm->early, have);
    hhm->early_count -= have;
    memmove(hhm->early, hhm->early + have, hhm->early_count);
    while (have < count) {
        ssize_t got = recv(hhm->link, place + have, count - have, 0);
        if (got == 0)
            errno = ECONNRESET;
        if (got > 0)
            have += (size_t)got;
        else if (got == 0 || !is_pause() || wait_for(hhm, hhm->link, POLLIN, now()) < 0)
            return -1;
    }
    return 0;
}

/* The head, the numbers and the text of a request in one piece where they are short, then its cells in pieces. */
static int send_request(hhm_client *hhm, const request *it)
{
    unsigned char piece[21 + 24 * PIECE], *end = piece;
    hhm->owed++;
    end = push(end, 8 * it->count + it->length + 24 * it->cell_count, 4);
    end = push(end, it->kind, 1);
    for (unsigned i = 0; i < it->count; i++)
        end = push(end, it->numbers[i], 8);
    size_t room = sizeof piece - (size_t)(end - piece), first = it->length < room ? it->length : room;
    if (first > 0) {
        memcpy(end, it->text, first);
        end += first;
    }
    for (size_t i = 0; i < it->cell_count; i++) {
        if ((size_t)(piece + sizeof piece - end) < 24) {
            if (send_bytes(hhm, piece, (size_t)(end - piece)))
                return -1;
            end = piece;
        }
        end = push_long(end, it->cells[i].row);
        end = push_long(end, it->cells[i].col);
        end = push_long(end, it->cells[i].count);
    }
    if (send_bytes(hhm, piece, (size_t)(end - piece)))
        return -1;
    return first < it->length ? send_bytes(hhm, it->text + first, it->length - first) : 0;
}

/* Requests and replies. */

/* Whether the body of a reply may be of any length, and else its length. */
static int is_long(uint8_t kind)
{
    return kind == TEXT || kind == CELLS || kind == ROWS || kind == TOLD;
}

static size_t length_of(uint8_t kind)
{
    static const size_t lengths[] = {16, 9, 16, 16, 0, 8, 0};
    return lengths[kind - ACCEPTED];
}

/* A reply that is none: the connection is closed. */
static hhm_result bad_reply(hhm_client *hhm)
{
    let_go(hhm);
    return told(hhm, HHM_BAD_REPLY, "what came is no reply to what was asked");
}

static hhm_result read_text(hhm_client *hhm, reply *out, size_t length)
{
    char *text = (char *)malloc(length + 1);
    if (!text) {
        let_go(hhm);
        return told(hhm, HHM_MEMORY, "no memory for a reply");
    }
    if (receive(hhm, text, length)) {
        free(text);
        return failed(hhm);
    }
    text[length] = 0;
    hhm->owed--;
    out->text = text;
    out->length = length;
    return HHM_OK;
}

/* Reads the next reply, which is to be of this kind or a refusal. */
static hhm_result read_reply(hhm_client *hhm, uint8_t wanted, reply *out)
{
    unsigned char head[5];
    if (receive(hhm, head, sizeof head))
        return failed(hhm);
    size_t length = (size_t)number_at(head, 4);
    uint8_t kind = head[4];
    int is_refusal = kind == REFUSED && length == 10;
    if (!is_refusal && (kind != wanted || (is_long(kind) ? length > HHM_MOST_BODY : length != length_of(kind))))
        return bad_reply(hhm);
    if (is_long(kind))
        return read_text(hhm, out, length);
    if (receive(hhm, out->bytes, length))
        return failed(hhm);
    hhm->owed--;
    if (is_refusal) {
        uint16_t code = (uint16_t)number_at(out->bytes, 2);
        if (code == 1 || (code >= 50 && code <= 52))
            let_go(hhm);
        return refused(hhm, code, number_at(out->bytes + 2, 8));
    }
    if (kind == VALUE && (out->bytes[0] > 1 || (out->bytes[0] == 0 && number_at(out->bytes + 1, 8) != 0)))
        return bad_reply(hhm);
    return HHM_OK;
}

static request of_numbers(uint8_t kind, unsigned count, uint64_t first, uint64_t second)
{
    request it = {kind, count, {first, second}, NULL, 0, NULL, 0};
    return it;
}

static hhm_status status_of(const reply *it)
{
    hhm_status status = {number_at(it->bytes, 8), number_at(it->bytes + 8, 8)};
    return status;
}

/* Puts the last batch again. Where others have put so much that the status shows nothing, its place does. */
static hhm_result put_last(hhm_client *hhm, hhm_status has)
{
    reply got;
    if (send_request(hhm, &hhm->last))
        return failed(hhm);
    hhm_result result = read_reply(hhm, ACCEPTED, &got);
    if (result == HHM_OK && number_at(got.bytes, 8) + 1 == hhm->seen.batches &&
        number_at(got.bytes + 8, 8) == hhm->seen.total)
        return HHM_OK;
    /* A log that has no room or has failed refuses a batch that is there too: then the status alone decides. */
    if (result == HHM_REFUSED && (hhm->refusal.code == LOG_FULL || hhm->refusal.code == LOG_FAILED))
        return HHM_OK;
    /* (a connection that is open had a refusal that ends no session) */
    return result == HHM_OK || (result == HHM_REFUSED && hhm->link >= 0) ? went_back(hhm, has) : result;
}

/* Puts the marker, which must be the first batch of the book. */
static hhm_result put_marker(hhm_client *hhm)
{
    request it = of_numbers(PUT_CELLS, 2, UINT64_MAX, hhm->marker);
    reply got;
    if (send_request(hhm, &it))
        return failed(hhm);
    hhm_result result = read_reply(hhm, ACCEPTED, &got);
    if (result == HHM_OK && number_at(got.bytes, 8) == 0)
        return HHM_OK;
    /* (any refusal but NumberReused and BookFull, as that of a log without room, says nothing of what the book has) */
    if (result == HHM_OK || (result == HHM_REFUSED && (hhm->refusal.code == 30 || hhm->refusal.code == 32)))
        return told(hhm, HHM_OTHER_MAP, "the server is one of another map");
    return result;
}

/* The identity of the server's book that the text of a reply to a Stats has; no digit where it has none. */
static void read_book(const char *text, char id[33])
{
    static const char front[] = "book{id=\"";
    for (const char *line = text; line && *line; line = strchr(line, '\n') ? strchr(line, '\n') + 1 : NULL) {
        const char *digits = line + sizeof front - 1;
        if (strncmp(line, front, sizeof front - 1) || strspn(digits, "0123456789abcdef") != 32 ||
            strncmp(digits + 32, "\"} ", 3))
            continue;
        memcpy(id, digits, 32);
        id[32] = 0;
        return;
    }
}

/* Asks, once over a connection, which book the server has. One that doesn't know the question, or has no memory for its
   answer, ends the connection: then there is none after this, which is no fault. */
static hhm_result ask_book(hhm_client *hhm)
{
    request it = of_numbers(STATS, 0, 0, 0);
    hhm_refusal before = hhm->refusal;
    reply got;
    if (hhm->knows_book)
        return HHM_OK;
    hhm->knows_book = 1;
    if (send_request(hhm, &it))
        return failed(hhm);
    hhm_result result = read_reply(hhm, TOLD, &got);
    if (result == HHM_REFUSED) {
        hhm->refusal = before;
        return HHM_OK;
    }
    if (result == HHM_OK) {
        read_book(got.text, hhm->book_id);
        free(got.text);
    }
    return result;
}

/* Makes a connection, over which the server is asked which book it has, or isn't. */
static hhm_result make_link(hhm_client *hhm, int asks)
{
    hhm->link = hhm->port ? connect_tcp(hhm) : connect_unix(hhm);
    hhm->process = getpid();
    hhm->knows_book = !asks;
    if (hhm->link < 0)
        return failed(hhm);
    return hhm->has_marker ? put_marker(hhm) : HHM_OK;
}

/* Makes a connection. One of a client that has put batches is first asked whether they are still there. */
static hhm_result greet(hhm_client *hhm, int asks)
{
    request it = of_numbers(STATUS, 0, 0, 0);
    reply got;
    hhm_result result = make_link(hhm, asks);
    if (result || hhm->seen.batches == 0)
        return result;
    result = ask_book(hhm);
    if (result == HHM_OK && hhm->link < 0)
        result = make_link(hhm, 0);
    if (result)
        return result;
    if (send_request(hhm, &it))
        return failed(hhm);
    result = read_reply(hhm, COUNTS, &got);
    if (result)
        return result;
    hhm_status has = status_of(&got);
    if (has_other_book(hhm) || has.batches < hhm->seen.batches || has.total < hhm->seen.total ||
        (has.batches == hhm->seen.batches && has.total != hhm->seen.total))
        return went_back(hhm, has);
    result = hhm->last.kind ? put_last(hhm, has) : HHM_OK;
    if (result == HHM_OK && !hhm->book_id[0])
        memcpy(hhm->book_id, hhm->seen_id, sizeof hhm->seen_id);
    return result;
}

static int is_put(const request *it)
{
    return it->kind == PUT || it->kind == PUT_CELLS;
}

/* Sends the requests that weren't sent over this connection, which is made where there is none. Before the first put
   the server is asked which book it has. */
static hhm_result send_all(hhm_client *hhm, const request *requests, size_t count)
{
    hhm_result result = hhm->link < 0 ? greet(hhm, 1) : HHM_OK;
    if (result == HHM_OK && is_put(requests))
        result = ask_book(hhm);
    if (result == HHM_OK && hhm->link < 0)
        result = greet(hhm, 0);
    for (size_t i = hhm->owed; i < count && result == HHM_OK; i++)
        if (send_request(hhm, &requests[i]))
            result = failed(hhm);
    return result;
}

static void sleep_for(unsigned milliseconds)
{
    struct timespec rest = {(time_t)(milliseconds / 1000), (long)(milliseconds % 1000) * 1000000};
    while (nanosleep(&rest, &rest) && errno == EINTR) {
    }
}

/* The reply to the first of the requests on the way; all are sent again where the connection failed, but not a save
   that took too long, which may be under way. Where no reply was read whole the connection is closed. */
static hhm_result first_reply(hhm_client *hhm, const request *requests, size_t count, uint8_t wanted, reply *out)
{
    unsigned pause = hhm->pause;
    for (unsigned attempt = 1;; attempt++) {
        hhm_result result = send_all(hhm, requests, count);
        int is_asked = result == HHM_OK;
        if (is_asked)
            result = read_reply(hhm, wanted, out);
        if (result == HHM_OK || (result == HHM_REFUSED && is_asked))
            return result;
        int kept = errno;
        let_go(hhm);
        errno = kept;
        if (result != HHM_FAILED || attempt >= hhm->attempts || (wanted == SAVED && is_asked && kept == ETIMEDOUT))
            return result;
        sleep_for(pause);
        pause = pause < 5000 ? 2 * pause : 10000;
    }
}

/* Before a call: lets a connection go that was left amid a frame or a reply, or that another process made. */
static void begin(hhm_client *hhm)
{
    if (hhm->owed > 0 || hhm->process != getpid())
        let_go(hhm);
}

/* Sends the last request, whose reply is read later, where there is a connection. A fault is found out then. */
static void send_ahead(hhm_client *hhm, const request *requests, size_t count)
{
    if (hhm->link >= 0 && send_all(hhm, requests, count))
        let_go(hhm);
}

static hhm_result ask(hhm_client *hhm, const request *it, uint8_t wanted, reply *out)
{
    begin(hhm);
    send_ahead(hhm, it, 1);
    return first_reply(hhm, it, 1, wanted, out);
}

static request of_cells(const hhm_client *hhm, uint64_t number, const hhm_cell *cells, size_t count)
{
    request it = of_numbers(PUT_CELLS, 2, hhm->number, number);
    it.cells = cells;
    it.cell_count = count;
    return it;
}

static hhm_result too_large(hhm_client *hhm)
{
    return told(hhm, HHM_TOO_LARGE, "a batch has at most 1048576 cells or 67108848 bytes of text");
}

/* Keeps a copy of a put, or none where there is no memory for it. */
static void keep_last(hhm_client *hhm, const request *it)
{
    size_t size = it->length + it->cell_count * sizeof *it->cells;
    if (size > hhm->size) {
        free(hhm->memory);
        hhm->memory = malloc(size);
        hhm->size = hhm->memory ? size : 0;
    }
    hhm->last = *it;
    if (size > hhm->size)
        hhm->last.kind = 0;
    else if (size > 0)
        memcpy(hhm->memory, it->kind == PUT ? (const void *)it->text : (const void *)it->cells, size);
    hhm->last.text = (const char *)hhm->memory;
    hhm->last.cells = (const hhm_cell *)hhm->memory;
}

/* The reply to a put, which is kept where its place is the highest. */
static hhm_accepted accepted_of(hhm_client *hhm, const request *put, const reply *it)
{
    hhm_accepted accepted = {number_at(it->bytes, 8), number_at(it->bytes + 8, 8)};
    if (accepted.index >= hhm->seen.batches) {
        hhm->seen.batches = accepted.index + 1;
        hhm->seen.total = accepted.total_after;
        memcpy(hhm->seen_id, hhm->book_id, sizeof hhm->book_id);
        keep_last(hhm, put);
    }
    return accepted;
}

/* The calls. */

static hhm_result ask_put(hhm_client *hhm, const request *it, hhm_accepted *accepted)
{
    reply got;
    hhm_result result = ask(hhm, it, ACCEPTED, &got);
    if (result == HHM_OK)
        *accepted = accepted_of(hhm, it, &got);
    return result;
}

hhm_result hhm_put(hhm_client *hhm, uint64_t number, const hhm_cell *cells, size_t count, hhm_accepted *accepted)
{
    if (count > HHM_MOST_CELLS)
        return too_large(hhm);
    request it = of_cells(hhm, number, cells, count);
    return ask_put(hhm, &it, accepted);
}

hhm_result hhm_put_text(hhm_client *hhm, uint64_t number, const char *text, size_t length, hhm_accepted *accepted)
{
    if (length > HHM_MOST_BODY - 16)
        return too_large(hhm);
    request it = of_numbers(PUT, 2, hhm->number, number);
    it.text = text;
    it.length = length;
    return ask_put(hhm, &it, accepted);
}

hhm_result hhm_put_all(hhm_client *hhm, const hhm_batch *batches, size_t count, size_t depth, hhm_accepted *accepted,
                       size_t *answered)
{
    size_t most = depth == 0 ? 1 : depth > HHM_MOST_DEPTH ? HHM_MOST_DEPTH : depth, first = 0, next = 0;
    request waiting[HHM_MOST_DEPTH];
    hhm_result result = HHM_OK;
    begin(hhm);
    while (result == HHM_OK && first < count) {
        for (; next < count && next - first < most && batches[next].count <= HHM_MOST_CELLS; next++) {
            waiting[next - first] = of_cells(hhm, batches[next].number, batches[next].cells, batches[next].count);
            send_ahead(hhm, waiting, next - first + 1);
        }
        if (next == first) {
            result = too_large(hhm);
            break;
        }
        reply got;
        result = first_reply(hhm, waiting, next - first, ACCEPTED, &got);
        if (result == HHM_OK) {
            accepted[first++] = accepted_of(hhm, waiting, &got);
            memmove(waiting, waiting + 1, (next - first) * sizeof *waiting);
        }
    }
    int kept = errno;
    /* The replies that nobody will read must not be taken for those of later requests. */
    if (next > first)
        let_go(hhm);
    *answered = first;
    errno = kept;
    return result;
}

hhm_result hhm_ask_cell(hhm_client *hhm, uint64_t row, uint64_t col, hhm_value *value)
{
    request it = of_numbers(CELL, 2, row, col);
    reply got;
    hhm_result result = ask(hhm, &it, VALUE, &got);
    if (result == HHM_OK) {
        value->is_stored = got.bytes[0];
        value->count = number_at(got.bytes + 1, 8);
    }
    return result;
}

hhm_result hhm_ask_row(hhm_client *hhm, uint64_t row, hhm_row_sum *sum)
{
    request it = of_numbers(ROW, 1, row, 0);
    reply got;
    hhm_result result = ask(hhm, &it, ROW_SUM, &got);
    if (result == HHM_OK) {
        sum->entries = number_at(got.bytes, 8);
        sum->total = number_at(got.bytes + 8, 8);
    }
    return result;
}

static hhm_result ask_counts(hhm_client *hhm, uint8_t kind, hhm_status *counts)
{
    request it = of_numbers(kind, 0, 0, 0);
    reply got;
    hhm_result result = ask(hhm, &it, COUNTS, &got);
    if (result == HHM_OK)
        *counts = status_of(&got);
    return result;
}

hhm_result hhm_ask_status(hhm_client *hhm, hhm_status *status)
{
    return ask_counts(hhm, STATUS, status);
}

hhm_result hhm_ask_stored(hhm_client *hhm, hhm_status *stored)
{
    return ask_counts(hhm, STORED, stored);
}

/* Ranges, tops and stats. */

/* A request whose body is these bytes. */
static request of_bytes(uint8_t kind, const unsigned char *bytes, size_t length)
{
    request it = of_numbers(kind, 0, 0, 0);
    it.text = (const char *)bytes;
    it.length = length;
    return it;
}

/* The three numbers of a cell or a row at a place of a reply. */
static void three_at(const reply *it, size_t place, uint64_t three[3])
{
    for (size_t i = 0; i < 3; i++)
        three[i] = number_at((const unsigned char *)it->text + place + 8 * i, 8);
}

/* Reads the cells of a page, and tells whether they are those of a block, in order, from a place on. */
static int read_page(const reply *got, hhm_block block, uint64_t row, uint64_t col, hhm_cell *cells, size_t most,
                     size_t *count, int *has_more)
{
    size_t found = got->length / 24;
    if (got->length % 24 != 1 || found > most || (unsigned char)got->text[0] > 1 || (got->text[0] && found < most))
        return 0;
    for (size_t i = 0; i < found; i++) {
        uint64_t three[3];
        three_at(got, 1 + 24 * i, three);
        int is_behind = three[0] > row || (three[0] == row && (i ? three[1] > col : three[1] >= col));
        if (!is_behind || three[0] < block.first_row || three[0] > block.last_row || three[1] < block.first_col ||
            three[1] > block.last_col)
            return 0;
        row = cells[i].row = three[0];
        col = cells[i].col = three[1];
        cells[i].count = three[2];
    }
    *count = found;
    *has_more = got->text[0];
    return 1;
}

hhm_result hhm_ask_page(hhm_client *hhm, hhm_block block, uint64_t row, uint64_t col, hhm_cell *cells, size_t most,
                        size_t *count, int *has_more)
{
    const uint64_t numbers[] = {block.first_row, block.last_row, block.first_col, block.last_col, row, col, most};
    unsigned char bytes[56];
    reply got;
    for (size_t i = 0; i < 7; i++)
        push(bytes + 8 * i, numbers[i], 8);
    request it = of_bytes(RANGE, bytes, sizeof bytes);
    hhm_result result = ask(hhm, &it, CELLS, &got);
    if (result)
        return result;
    int is_read = read_page(&got, block, row, col, cells, most, count, has_more);
    free(got.text);
    return is_read ? HHM_OK : bad_reply(hhm);
}

struct hhm_range {
    hhm_client *hhm;
    hhm_block block;
    /* Where the next page begins, and whether there is one. */
    uint64_t row, col;
    int has_more;
    size_t most, count, next;
    hhm_cell *cells;
};

hhm_range *hhm_range_open(hhm_client *hhm, hhm_block block, size_t page)
{
    if (page == 0 || page > HHM_MOST_PAGE) {
        errno = EINVAL;
        return NULL;
    }
    hhm_range *range = (hhm_range *)calloc(1, sizeof *range);
    hhm_cell *cells = (hhm_cell *)malloc(page * sizeof *cells);
    if (!range || !cells) {
        free(range);
        free(cells);
        errno = ENOMEM;
        return NULL;
    }
    range->hhm = hhm;
    range->block = block;
    range->has_more = 1;
    range->most = page;
    range->cells = cells;
    return range;
}

hhm_result hhm_range_next(hhm_range *range, hhm_cell *cell, int *has_cell)
{
    if (range->next == range->count && range->has_more) {
        hhm_result result = hhm_ask_page(range->hhm, range->block, range->row, range->col, range->cells, range->most,
                                         &range->count, &range->has_more);
        if (result) {
            range->next = range->count = 0;
            return result;
        }
        range->next = 0;
        if (range->has_more) {
            range->row = range->cells[range->count - 1].row;
            range->col = range->cells[range->count - 1].col + 1;
            /* (a column is below 2^60, so this is none) */
            range->has_more = range->col != 0;
        }
    }
    *has_cell = range->next < range->count;
    if (*has_cell)
        *cell = range->cells[range->next++];
    return HHM_OK;
}

void hhm_range_close(hhm_range *range)
{
    if (range)
        free(range->cells);
    free(range);
}

/* Reads the rows of a top, and tells whether they stand in order. */
static int read_top(const reply *got, hhm_by by, hhm_top_row *rows, size_t most, size_t *count)
{
    uint64_t high = UINT64_MAX, low_row = 0;
    size_t found = got->length / 24;
    if (got->length % 24 != 0 || found > most)
        return 0;
    for (size_t i = 0; i < found; i++) {
        uint64_t three[3];
        three_at(got, 24 * i, three);
        uint64_t number = by == HHM_BY_TOTAL ? three[2] : three[1];
        if (three[1] == 0 || (i > 0 && (number > high || (number == high && three[0] <= low_row))))
            return 0;
        high = number;
        low_row = rows[i].row = three[0];
        rows[i].entries = three[1];
        rows[i].total = three[2];
    }
    *count = found;
    return 1;
}

/* Asks for rows that lead. */
static hhm_result ask_rows(hhm_client *hhm, request *it, hhm_by by, hhm_top_row *rows, size_t most, size_t *count)
{
    reply got;
    hhm_result result = ask(hhm, it, ROWS, &got);
    if (result)
        return result;
    int is_read = read_top(&got, by, rows, most, count);
    free(got.text);
    return is_read ? HHM_OK : bad_reply(hhm);
}

hhm_result hhm_ask_top(hhm_client *hhm, hhm_by by, hhm_top_row *rows, size_t most, size_t *count)
{
    unsigned char bytes[9] = {(unsigned char)by};
    push(bytes + 1, most, 8);
    request it = of_bytes(TOP, bytes, sizeof bytes);
    return ask_rows(hhm, &it, by, rows, most, count);
}

hhm_result hhm_ask_groups(hhm_client *hhm, hhm_by by, uint64_t first, uint64_t last, unsigned shift, hhm_top_row *rows,
                          size_t most, size_t *count)
{
    unsigned char bytes[26] = {(unsigned char)by, (unsigned char)(shift < 64 ? shift : 64)};
    push(bytes + 2, most, 8);
    push(bytes + 10, first, 8);
    push(bytes + 18, last, 8);
    request it = of_bytes(GROUPS, bytes, sizeof bytes);
    return ask_rows(hhm, &it, by, rows, most, count);
}

/* Whether a text is lines `name value` of ASCII, each with its LF. */
static int are_stats(const reply *got)
{
    const char *line = got->text, *end = got->text + got->length;
    for (size_t i = 0; i < got->length; i++)
        if (got->text[i] == 0 || (unsigned char)got->text[i] > 127)
            return 0;
    while (line < end) {
        const char *stop = (const char *)memchr(line, '\n', (size_t)(end - line));
        const char *space = stop;
        while (space && space > line && *space != ' ')
            space--;
        if (!space || space == line || space + 1 == stop)
            return 0;
        line = stop + 1;
    }
    return 1;
}

hhm_result hhm_ask_stats(hhm_client *hhm, char **text, size_t *length)
{
    request it = of_numbers(STATS, 0, 0, 0);
    reply got;
    hhm_result result = ask(hhm, &it, TOLD, &got);
    if (result)
        return result;
    if (!are_stats(&got)) {
        free(got.text);
        return bad_reply(hhm);
    }
    *text = got.text;
    *length = got.length;
    return HHM_OK;
}

int hhm_stat_of(const char *text, const char *name, uint64_t *value)
{
    size_t length = strlen(name);
    for (const char *line = text; line && *line; line = strchr(line, '\n') ? strchr(line, '\n') + 1 : NULL) {
        const char *digits = line + length + 1;
        char *end;
        if (strncmp(line, name, length) || line[length] != ' ' || *digits < '0' || *digits > '9')
            continue;
        errno = 0;
        unsigned long long found = strtoull(digits, &end, 10);
        if (*end != '\n' || errno)
            return 0;
        *value = found;
        return 1;
    }
    return 0;
}

hhm_result hhm_export(hhm_client *hhm, char **text, size_t *length)
{
    request it = of_numbers(EXPORT, 0, 0, 0);
    reply got;
    hhm_result result = ask(hhm, &it, TEXT, &got);
    if (result == HHM_OK) {
        *text = got.text;
        *length = got.length;
    }
    return result;
}

hhm_result hhm_save(hhm_client *hhm, uint64_t *batches)
{
    request it = of_numbers(SAVE, 0, 0, 0);
    reply got;
    hhm_result result = ask(hhm, &it, SAVED, &got);
    if (result == HHM_OK)
        *batches = number_at(got.bytes, 8);
    return result;
}

hhm_result hhm_fold(hhm_client *hhm, uint64_t *folded)
{
    request it = of_numbers(FOLD, 0, 0, 0);
    reply got;
    hhm_result result = ask(hhm, &it, SAVED, &got);
    if (result == HHM_OK)
        *folded = number_at(got.bytes, 8);
    return result;
}

hhm_result hhm_stop(hhm_client *hhm)
{
    request it = of_numbers(STOP, 0, 0, 0);
    reply got;
    hhm_result result = ask(hhm, &it, STOPPING, &got);
    if (result == HHM_OK)
        let_go(hhm);
    return result;
}
