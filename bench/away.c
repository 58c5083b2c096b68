/* Measures, in a program that is run with this library before all others (LD_PRELOAD), how long each call that receives a datagram
 * takes, how long its thread is away until the next one, and how long a thread that sleeps works between two sleeps. At the end it
 * writes into the file that AWAY names how many of each took less than so many microseconds, and the longest. Where NOYIELD is
 * set, a thread that sleeps never gives its processor up otherwise. */
#define _GNU_SOURCE
#include <stdio.h>
#include <stdlib.h>
#include <sys/socket.h>
#include <sys/syscall.h>
#include <time.h>
#include <unistd.h>

enum { STEPS = 7 };

struct times {
    long count[STEPS];
    long longest;
};

static const long bounds[STEPS] = {100, 500, 1000, 2000, 3000, 10000, 1000000000};
static struct times receiving, away, working;

static long now(void) {
    struct timespec time;
    clock_gettime(CLOCK_MONOTONIC, &time);
    return time.tv_sec * 1000000000L + time.tv_nsec;
}

static void count(struct times *times, long nanoseconds) {
    int step = 0;
    while (nanoseconds >= bounds[step] * 1000) step++;
    times->count[step]++;
    if (nanoseconds > times->longest) times->longest = nanoseconds;
}

static __thread long left, woke;

ssize_t recv(int from, void *into, size_t size, int flags) {
    long called = now();
    ssize_t got = syscall(SYS_recvfrom, from, into, size, flags, NULL, NULL);
    /* The first call waits for the sender to begin. */
    if (left && got >= 0) {
        count(&away, called - left);
        count(&receiving, now() - called);
    }
    left = got >= 0 ? now() : 0;
    return got;
}

int nanosleep(const struct timespec *asked, struct timespec *rest) {
    if (woke) count(&working, now() - woke);
    int result = syscall(SYS_clock_nanosleep, CLOCK_MONOTONIC, 0, asked, rest);
    woke = now();
    return result;
}

int sched_yield(void) { return woke && getenv("NOYIELD") != NULL ? 0 : syscall(SYS_sched_yield); }

static void put(FILE *to, const char *name, const struct times *times) {
    fprintf(to, "%s", name);
    for (int step = 0; step < STEPS; step++) fprintf(to, " %ld", times->count[step]);
    fprintf(to, " %ld\n", times->longest / 1000);
}

static void tell(void) {
    const char *path = getenv("AWAY");
    FILE *to = path == NULL ? NULL : fopen(path, "w");
    if (to == NULL) return;
    put(to, "receiving", &receiving);
    put(to, "away", &away);
    put(to, "working", &working);
    fclose(to);
}

/* A program of threads ends here, without its destructors. */
void _exit(int status) {
    tell();
    syscall(SYS_exit_group, status);
    __builtin_unreachable();
}

__attribute__((destructor)) static void end(void) { tell(); }
