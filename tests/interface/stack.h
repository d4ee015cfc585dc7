/* What the programs that measure the stack share: the largest sizes, plans and texts, and the measuring. Each is a program of
 * its own, which says what a call is and how it is made. */
#ifndef STACK_H
#define STACK_H

#define _POSIX_C_SOURCE 200809L
#include "runglaet.h"

#include <pthread.h>
#include <stdio.h>
#include <stdlib.h>
#include <string.h>
#include <sys/wait.h>
#include <unistd.h>

/* What the header promises is enough for any call but the readers and those of the pruned formula, and for these. */
enum { PROMISED = 12288, READER_PROMISED = 65536, PRUNED_PROMISED = 24576 };

enum { N = 64, K = 16, E = N * (N - 1) / 2, M = 32, ROWS = M + 1 };
enum { PLAN = ROWS * K, VARIABLES = PLAN * N };

/* Clauses and words of families A to G, from the table of document 01. */
enum {
    A = K, B = K, C = ROWS * K, D = ROWS * K * N * (N - 1) / 2, EE = ROWS * N * K * (K - 1) / 2, F = M * K * N,
    G = M * K * (K - 1) * N,
    CLAUSES = A + B + C + D + EE + F + G,
    WORDS = 2 * K + 2 * K + C * (N + 1) + 3 * D + 3 * EE + M * K * (3 * N + 2 * E) + 3 * G,
    /* The lowest clause that SWAPS below falsifies: of family G with t M-1, a K-2, b K-1, and v the goal of a. */
    SWAPPED = CLAUSES - G + (((M - 1) * K + K - 2) * (K - 1) + K - 2) * N + N - 1 - (K - 2),
    /* Under rule 2: G has a clause for each edge. SWAPS exchanges over the edge 48-49, agent K-2 on its low end. */
    CLOSING_G = M * E * K * (K - 1), CLOSING_CLAUSES = CLAUSES - G + CLOSING_G,
    CLOSING_WORDS = WORDS - 3 * G + 5 * CLOSING_G, LOW = N - K, EDGE = LOW * (2 * N - LOW - 1) / 2,
    CLOSING_SWAPPED = CLAUSES - G + (((M - 1) * E + EDGE) * K + K - 2) * (K - 1) + K - 2,
    /* Family H: all vertices are one step from each other, so that only time 0 and time M rule some out. */
    H = 2 * K * (N - 1)
};

static uint8_t instance[4 + 2 * E + 2 * K];
static uint64_t rule = 1;

/* Plans and their valuations. PASSES: every vertex is one step from every other, so all agents go to their goals in the
 * first step and wait there. SWAPS: the last two go to each other's goal and exchange places in the last step. TURNS, for
 * rule 2: they go to the goal of the next and turn in a ring, each to where another was. */
enum { PASSES, SWAPS, TURNS, PLANS };
static uint8_t plans[PLANS][PLAN];
static int32_t valuations[PLANS][VARIABLES];

static void fill(void) {
    instance[0] = N;
    instance[1] = K;
    instance[2] = E & 255;
    instance[3] = E >> 8;
    int j = 4;
    for (int low = 0; low < N; low++)
        for (int high = low + 1; high < N; high++, j++) {
            instance[j] = (uint8_t)low;
            instance[j + E] = (uint8_t)high;
        }
    for (int a = 0; a < K; a++) {
        instance[4 + 2 * E + a] = (uint8_t)a;
        instance[4 + 2 * E + K + a] = (uint8_t)(N - 1 - a);
        int other = a == K - 1 ? K - 2 : a == K - 2 ? K - 1 : a;
        for (int t = 0; t < ROWS; t++) {
            plans[PASSES][t * K + a] = (uint8_t)(t == 0 ? a : N - 1 - a);
            plans[SWAPS][t * K + a] = (uint8_t)(t == 0 ? a : t < M ? N - 1 - other : N - 1 - a);
            plans[TURNS][t * K + a] = (uint8_t)(t == 0 ? a : N - 1 - (a + t) % K);
        }
    }
    /* Variable i + 1 is that of agent i / N / ROWS at time i / N % ROWS. */
    for (int p = 0; p < PLANS; p++)
        for (int i = 0; i < VARIABLES; i++) {
            int at = plans[p][i / N % ROWS * K + i / N / ROWS];
            valuations[p][i] = at == i % N ? i + 1 : -(i + 1);
        }
}

/* A text being written: its bytes, and how many there are. */
typedef struct {
    char bytes[RUNGLAET_TEXT_MAX + 1];
    size_t length;
} text;

static void append(text *to, const char *bytes) {
    size_t length = strlen(bytes);
    memcpy(to->bytes + to->length, bytes, length);
    to->length += length;
}

/* v lines of at most 78 bytes with these literals and the 0. */
static void print_literals(text *to, const int32_t *literals, int count) {
    size_t column = 0;
    for (int i = 0; i <= count; i++) {
        char token[16];
        size_t length = (size_t)sprintf(token, " %d", (int)(i < count ? literals[i] : 0));
        if (column == 0 || column + length > 78) {
            append(to, column == 0 ? "v" : "\nv");
            column = 1;
        }
        append(to, token);
        column += length;
    }
    append(to, "\n");
}

/* Empty lines make it this long. */
static void lengthen(text *to, size_t length) {
    memset(to->bytes + to->length, '\n', length - to->length);
    to->length = length;
}

/* One call: which one, with which horizon, plan, text or clause number and length of its last slice, and the answer that
 * it must give. */
typedef struct {
    int which;
    const char *what;
    uint64_t horizon, chosen;
    size_t length;
    uint32_t number;
    uint64_t second;
} run;

/* Makes the call; the answer's clauses are 0 but for the size calls. And the clauses that it must answer if accepted. */
static runglaet_size make(const run *r);
static uint64_t clauses_of(const run *r);

/* The stack of the thread that makes the calls. */
enum { SIZE = 1 << 20 };
static _Alignas(4096) unsigned char stack[SIZE];

typedef struct {
    const run *r;
    unsigned char paint;
    runglaet_size answer;
    size_t used;
} measurement;

/* Paints all that lies below the stack pointer, makes the call, and looks how far down the paint is gone. The few bytes
 * of `make` count as the call's. */
static void *measure(void *argument) {
    measurement *m = argument;
    volatile unsigned char *top, *p;
    __asm__ volatile("mov %%rsp, %0" : "=r"(top));
    for (p = stack; p < top; p++) *p = m->paint;
    m->answer = make(m->r);
    for (p = stack; p < top && *p == m->paint; p++) {
    }
    m->used = (size_t)(top - p);
    return NULL;
}

static void stop(const char *what) {
    printf("stack: %s\n", what);
    exit(1);
}

/* The bytes used by one call, whose answer must be the expected one. */
static size_t used(const run *r, unsigned char paint) {
    measurement m = {r, paint, {0, 0, 0}, 0};
    pthread_attr_t attributes;
    pthread_t thread;
    if (pthread_attr_init(&attributes) != 0 || pthread_attr_setstack(&attributes, stack, SIZE) != 0 ||
        pthread_create(&thread, &attributes, measure, &m) != 0 || pthread_join(thread, NULL) != 0)
        stop("no thread with a stack of its own");
    pthread_attr_destroy(&attributes);
    uint64_t clauses = r->number == 0 ? clauses_of(r) : 0;
    if (m.answer.number != r->number || m.answer.second != r->second || m.answer.clauses != clauses) {
        printf("stack: %s: wrong answer, %u %llu, %llu clauses\n", r->what, (unsigned)m.answer.number,
               (unsigned long long)m.answer.second, (unsigned long long)m.answer.clauses);
        exit(1);
    }
    return m.used;
}

/* A process of its own for each call: the first time, the dynamic linker may look up memcpy and memset on the caller's
 * stack. Two paints, since a byte may hold one of them by chance. */
static size_t measured(const run *r) {
    int ends[2], status;
    size_t first, again, other;
    if (pipe(ends) != 0) stop("no pipe");
    fflush(stdout);
    pid_t child = fork();
    if (child < 0) stop("no process");
    if (child == 0) {
        first = used(r, 0xA5);
        again = used(r, 0x3C);
        other = used(r, 0xA5);
        if (other > again) again = other;
        if (again > first) first = again;
        printf("stack: %-46s %5zu bytes, %5zu the first time\n", r->what, again, first);
        fflush(stdout);
        _exit(write(ends[1], &first, sizeof first) != sizeof first);
    }
    close(ends[1]);
    if (waitpid(child, &status, 0) != child || status != 0 || read(ends[0], &first, sizeof first) != sizeof first)
        stop("a measurement failed");
    close(ends[0]);
    return first;
}

/* Tells the most bytes that these calls used; is it as many as promised or more? */
static int too_many(const char *calls, size_t most, size_t promised) {
    int more = most >= promised;
    printf("stack: %sat most %zu bytes, promised are less than %zu%s\n", calls, most, promised, more ? ": TOO MANY" : "");
    return more;
}

#endif
