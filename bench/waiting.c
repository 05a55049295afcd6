// A model of the turns of ftmpi's threads, to compare how ranks may wait; bench/waiting runs it.
#define _GNU_SOURCE
#include <linux/futex.h>
#include <pthread.h>
#include <sched.h>
#include <stdatomic.h>
#include <stdio.h>
#include <stdlib.h>
#include <sys/syscall.h>
#include <time.h>
#include <unistd.h>

enum { MOST_RANKS = 64 };

// The nanoseconds of an act, and of a turn that finds nothing.
static const double ACT = 600, TURN = 80;

struct Bell {
    _Alignas(64) _Atomic unsigned rung;
    _Atomic unsigned is_parked;
};

static struct Bell bells[MOST_RANKS];
static pthread_barrier_t gate;
static int ranks, rounds;
// How often a rank polls before it yields; how many waits yield at once after polls in vain; how
// many yields come before a sleep (0: none); whether waits that yield at once grow from 1 to that
// number, twice as many each time that polls are in vain, and half as many each time that they pay.
static int looks, rests, yields, grows;

static double clock_of(clockid_t clock) {
    struct timespec time;
    clock_gettime(clock, &time);
    return time.tv_sec * 1e9 + time.tv_nsec;
}

static void work(double nanoseconds) {
    double end = clock_of(CLOCK_MONOTONIC) + nanoseconds;
    while (clock_of(CLOCK_MONOTONIC) < end) {
    }
}

static void futex(_Atomic unsigned *word, int operation, unsigned value) {
    syscall(SYS_futex, word, operation, value, NULL, NULL, 0);
}

static void post(int dest) {
    work(ACT);
    atomic_fetch_add(&bells[dest].rung, 1);
    if (atomic_load(&bells[dest].is_parked)) futex(&bells[dest].rung, FUTEX_WAKE_PRIVATE, 1);
}

static void sleep_until_rung(struct Bell *bell, unsigned taken) {
    atomic_store(&bell->is_parked, 1);
    futex(&bell->rung, FUTEX_WAIT_PRIVATE, taken);
    atomic_store(&bell->is_parked, 0);
}

static void take(int rank, unsigned *taken) {
    static _Thread_local int resting, span = 1;
    struct Bell *bell = &bells[rank];
    int most = resting > 0 ? 0 : looks, vain;
    if (resting > 0) resting--;
    for (vain = 0; atomic_load(&bell->rung) == *taken; vain++) {
        work(TURN);
        if (vain < most) {
            __builtin_ia32_pause();
            continue;
        }
        if (most > 0 && vain == most) {
            resting = grows ? span - 1 : rests;
            span = 2 * span < rests ? 2 * span : rests;
        }
        if (yields == 0 || vain < most + yields) {
            sched_yield();
        } else {
            sleep_until_rung(bell, *taken);
        }
    }
    if (0 < vain && vain <= most && span > 1) span /= 2;
    (*taken)++;
    work(ACT);
}

// A barrier: rank 0 hears from all others, and then answers them. With two ranks, a round trip.
static void *live(void *argument) {
    int rank = (int)(long)argument;
    unsigned taken = 0;
    pthread_barrier_wait(&gate);
    for (int round = 0; round < rounds; round++) {
        if (rank == 0) {
            for (int other = 1; other < ranks; other++) take(0, &taken);
            for (int other = 1; other < ranks; other++) post(other);
        } else {
            post(0);
            take(rank, &taken);
        }
    }
    pthread_barrier_wait(&gate);
    return NULL;
}

int main(int count, char **words) {
    if (count != 7) {
        fprintf(stderr, "waiting RANKS ROUNDS LOOKS RESTS YIELDS GROWS\n");
        return 3;
    }
    ranks = atoi(words[1]);
    rounds = atoi(words[2]);
    looks = atoi(words[3]);
    rests = atoi(words[4]);
    yields = atoi(words[5]);
    grows = atoi(words[6]);
    pthread_barrier_init(&gate, NULL, ranks + 1);
    for (long rank = 0; rank < ranks; rank++) {
        pthread_t thread;
        if (pthread_create(&thread, NULL, live, (void *)rank) != 0) return 4;
    }
    pthread_barrier_wait(&gate);
    double begin = clock_of(CLOCK_MONOTONIC), spent = clock_of(CLOCK_PROCESS_CPUTIME_ID);
    pthread_barrier_wait(&gate);
    double took = clock_of(CLOCK_MONOTONIC) - begin;
    spent = clock_of(CLOCK_PROCESS_CPUTIME_ID) - spent;
    printf("%.2f %.2f\n", took / rounds / 1000, spent / rounds / 1000);
    return 0;
}
