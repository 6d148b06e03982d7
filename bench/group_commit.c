/* How many records a second threads make durable in one file by group commit, and nothing else: the most that a server
 * which keeps each batch in a log can do.
 *
 *     group_commit FILE THREADS ON_THE_WAY BYTES SECONDS
 *
 * Each thread takes so many places of a counter, the queue, and waits until the last of them is durable. Who finds
 * nobody writing leads: it lets the others run once, writes what the queue has, in pages of 4,096 bytes over zeros that
 * were written before, syncs once, and wakes all. It prints the records a second, and the records a sync. */
#define _GNU_SOURCE
#include <fcntl.h>
#include <pthread.h>
#include <sched.h>
#include <stdint.h>
#include <stdio.h>
#include <stdlib.h>
#include <string.h>
#include <time.h>
#include <unistd.h>

enum { PAGE = 4096, MOST_RECORDS = 1024, MOST_THREADS = 256 };
static const uint64_t ROOM = 256ull << 20;

static int file;
static long on_the_way, bytes;
static char *group;
static uint64_t at;

static pthread_mutex_t queue = PTHREAD_MUTEX_INITIALIZER, desk = PTHREAD_MUTEX_INITIALIZER;
static pthread_cond_t told = PTHREAD_COND_INITIALIZER;
static uint64_t accepted, durable, syncs;
static int is_led;
static volatile int is_over;

/* Writes what was accepted behind this place, by one sync; the place behind it. */
static uint64_t write_group(uint64_t from) {
    pthread_mutex_lock(&queue);
    uint64_t count = accepted - from;
    if (count > MOST_RECORDS) count = MOST_RECORDS;
    for (uint64_t i = 0; i < count; i++) memset(group + i * bytes, (int)(from + i), bytes);
    pthread_mutex_unlock(&queue);
    size_t size = (count * bytes + PAGE - 1) / PAGE * PAGE;
    if (at + size > ROOM) at = 0;
    if (pwrite(file, group, size, at) != (ssize_t)size || fdatasync(file)) {
        perror("group_commit");
        exit(1);
    }
    at += size;
    syncs++;
    return from + count;
}

static void wait_for(uint64_t place) {
    pthread_mutex_lock(&desk);
    while (durable <= place) {
        if (is_led) {
            pthread_cond_wait(&told, &desk);
            continue;
        }
        is_led = 1;
        uint64_t from = durable;
        pthread_mutex_unlock(&desk);
        sched_yield();
        uint64_t end = write_group(from);
        pthread_mutex_lock(&desk);
        durable = end;
        is_led = 0;
        pthread_cond_broadcast(&told);
    }
    pthread_mutex_unlock(&desk);
}

static void *put(void *count) {
    while (!is_over) {
        pthread_mutex_lock(&queue);
        accepted += on_the_way;
        uint64_t last = accepted - 1;
        pthread_mutex_unlock(&queue);
        wait_for(last);
        *(uint64_t *)count += on_the_way;
    }
    return NULL;
}

static double now(void) {
    struct timespec time;
    clock_gettime(CLOCK_MONOTONIC, &time);
    return time.tv_sec + time.tv_nsec / 1e9;
}

int main(int count, char **words) {
    if (count != 6) return 2;
    long threads = atol(words[2]);
    static uint64_t counts[MOST_THREADS][8];
    static pthread_t ids[MOST_THREADS];
    on_the_way = atol(words[3]);
    bytes = atol(words[4]);
    group = calloc(MOST_RECORDS * bytes + PAGE, 1);
    char *zeros = calloc(1, 1 << 20);
    file = open(words[1], O_RDWR | O_CREAT | O_TRUNC, 0600);
    if (threads < 1 || threads > MOST_THREADS || file < 0 || !group || !zeros) return 1;
    for (uint64_t done = 0; done < ROOM; done += 1 << 20)
        if (pwrite(file, zeros, 1 << 20, done) != 1 << 20) return 1;
    if (fsync(file)) return 1;
    double begin = now();
    for (long i = 0; i < threads; i++) pthread_create(&ids[i], NULL, put, counts[i]);
    usleep(atof(words[5]) * 1e6);
    is_over = 1;
    uint64_t records = 0;
    for (long i = 0; i < threads; i++) {
        pthread_join(ids[i], NULL);
        records += counts[i][0];
    }
    printf("%.1f %.2f\n", records / (now() - begin), (double)records / syncs);
    return 0;
}
