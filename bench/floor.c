// How fast threads can take turns on this machine, first come, first served, with nothing proved, nobody asleep and no
// machine but a count: what floor.sh compiles and runs.
//
// floor WAY THREADS EVENTS makes so many events by each thread, and prints the nanoseconds an event took.
// ring      each thread waits for its number in one word, and writes the next: the hand-over alone, with no tickets
// ticket    a ticket is drawn, all look at one word for it, and the count lies beside that word
// apart     each waits on a word of its own by its ticket, and the count lies on a line of its own
// own       the same, but the count is handed on beside the word of who is next
// late      as ticket, but a thread draws only when the turn is free, or when it found it taken eight times, with rests
//           of 64 pauses between: it may overtake who came before it
#include <pthread.h>
#include <stdatomic.h>
#include <stdint.h>
#include <stdio.h>
#include <stdlib.h>
#include <string.h>
#include <time.h>

enum { LINE = 128, PLACES = 64, THREADS = 16 };

struct place {
    _Alignas(LINE) _Atomic uint64_t served;
    uint64_t count;
};

static struct place drawn, one, counted, places[PLACES];

static uint64_t threads, events;

// Looks until the word is this number.
static void await(_Atomic uint64_t *word, uint64_t number) {
    while (atomic_load_explicit(word, memory_order_acquire) != number) {
    }
}

static void give(_Atomic uint64_t *word, uint64_t number) {
    atomic_store_explicit(word, number, memory_order_release);
}

static uint64_t draw(void) {
    return atomic_fetch_add(&drawn.served, 1);
}

static void *ring(void *mine) {
    for (uint64_t i = 0; i < events; i++) {
        uint64_t number = i * threads + *(uint64_t *)mine;
        await(&one.served, number);
        give(&one.served, number + 1);
    }
    return NULL;
}

static void *ticket(void *mine) {
    (void)mine;
    for (uint64_t i = 0; i < events; i++) {
        uint64_t number = draw();
        await(&one.served, number);
        one.count++;
        give(&one.served, number + 1);
    }
    return NULL;
}

static void *apart(void *mine) {
    (void)mine;
    for (uint64_t i = 0; i < events; i++) {
        uint64_t number = draw();
        await(&places[number % PLACES].served, number);
        counted.count++;
        give(&places[(number + 1) % PLACES].served, number + 1);
    }
    return NULL;
}

static void *own(void *mine) {
    (void)mine;
    for (uint64_t i = 0; i < events; i++) {
        uint64_t number = draw();
        struct place *here = &places[number % PLACES], *next = &places[(number + 1) % PLACES];
        await(&here->served, number);
        next->count = here->count + 1;
        give(&next->served, number + 1);
    }
    return NULL;
}

static void rest(void) {
#ifdef __x86_64__
    for (int i = 0; i < 64; i++) __builtin_ia32_pause();
#endif
}

// Draws a ticket as soon as the turn is free, or when it was found taken eight times.
static uint64_t draw_late(void) {
    for (int looks = 0;;) {
        uint64_t served = atomic_load(&one.served), next = atomic_load(&drawn.served);
        if (served != next && looks < 8) {
            looks++;
            rest();
        } else if (atomic_compare_exchange_strong(&drawn.served, &next, next + 1)) {
            return next;
        }
    }
}

static void *late(void *mine) {
    (void)mine;
    for (uint64_t i = 0; i < events; i++) {
        uint64_t number = draw_late();
        await(&one.served, number);
        one.count++;
        give(&one.served, number + 1);
    }
    return NULL;
}

typedef void *body(void *);

static body *way(const char *name) {
    if (!strcmp(name, "ring")) return ring;
    if (!strcmp(name, "ticket")) return ticket;
    if (!strcmp(name, "apart")) return apart;
    if (!strcmp(name, "own")) return own;
    if (!strcmp(name, "late")) return late;
    return NULL;
}

static double now(void) {
    struct timespec at;
    clock_gettime(CLOCK_MONOTONIC, &at);
    return (double)at.tv_sec * 1e9 + (double)at.tv_nsec;
}

int main(int count, char **words) {
    body *run = count == 4 ? way(words[1]) : NULL;
    threads = count == 4 ? strtoull(words[2], NULL, 10) : 0;
    events = count == 4 ? strtoull(words[3], NULL, 10) : 0;
    if (!run || threads < 1 || threads > THREADS || events < 1) {
        fputs("usage: floor ring|ticket|apart|own|late THREADS EVENTS\n", stderr);
        return 2;
    }
    // At the start ticket 0 is served, and no other.
    for (int i = 1; i < PLACES; i++) places[i].served = UINT64_MAX;
    pthread_t started[THREADS];
    uint64_t numbers[THREADS];
    double start = now();
    for (uint64_t i = 0; i < threads; i++) {
        numbers[i] = i;
        if (pthread_create(&started[i], NULL, run, &numbers[i])) return 1;
    }
    for (uint64_t i = 0; i < threads; i++) pthread_join(started[i], NULL);
    printf("%.1f\n", (now() - start) / (double)(threads * events));
    return 0;
}
