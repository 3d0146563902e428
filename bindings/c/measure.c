/* Measures calls of the library, for tools/costs. Without a word it tells the stack that each needs, by the bytes of a
 * painted stack that were changed, and ends with 1 where that is more than the header says; with `times`, the processor time
 * of each, too. Each line is a row of docs/LIBRARY.md's table. With a row's number it makes that call as often as is said:
 * for someone who counts what the processor does.
 * usage: measure [times]
 * usage: measure ROW CALLS */
#define _GNU_SOURCE
#include "boltmeadow.h"
#include <pthread.h>
#include <stdio.h>
#include <stdlib.h>
#include <string.h>
#include <sys/mman.h>
#include <time.h>

enum { STACK = 1 << 20, PAINT = 0xA5, RECORDS = 64, RELAXED = 32 };

/* What the calls work on: 01's example; a longest scene, 16 obstacles of 12 vertices and 64 lines that cannot all be met;
 * 256 lines that are met, and some that are not, and a session of these; a log of 64 answers, and its index. */
static uint8_t example[BM_SCENE_1_BYTES], longest[BM_SCENE_1_BYTES], moved[BM_SCENE_2_BYTES], log_of[18 * RECORDS],
    index_of[64];
static size_t example_bytes, longest_bytes, index_bytes;
static float met[1024], unmet[1024], ring[384];
static uint8_t kinds[16], counts[16], answer[BM_ANSWER_BYTES], buffer[BM_SCENE_2_BYTES];
static bm_session empty, full, session;
static const bm_cart cart = {.margin = 0.5f, .horizon = 10, .wish_x = 3, .limit = 5};

static void no_inputs(void) {}

/* A direction turned by an angle whose cosine and sine are these. */
typedef struct turn {
    double x, y;
} turn;
static turn turned(turn at, double cosine, double sine) {
    return (turn){cosine * at.x - sine * at.y, sine * at.x + cosine * at.y};
}

static void make_lines(void) {
    turn at = {1, 0};
    for (int i = 0; i < 256; i++) {
        const float away[4] = {0, (float)(-1 - i), 1, 0};
        const float around[4] = {(float)(3 * at.x), (float)(3 * at.y), (float)at.y, (float)-at.x};
        memcpy(met + 4 * i, away, sizeof away);
        memcpy(unmet + 4 * i, around, sizeof around);
        at = turned(at, 0.9323273456060344, 0.3616154319649619);
    }
    bm_session_start(&empty, 0, 0, 2, 0);
}

static void make_full(void) {
    make_lines();
    full = empty;
    bm_session_batch(&full, unmet, 4 * RELAXED);
}

static void make_example(void) {
    const bm_cart small = {.margin = 0.5f, .horizon = 1, .wish_y = 1, .limit = 2};
    const uint8_t kind = BM_OPEN, count = 2;
    const float wall[4] = {-1, 1, 1, 1};
    example_bytes = bm_write_scene(small, 1, &kind, 1, &count, 1, wall, 4, 0, NULL, 0, example, sizeof example).length;
}

static void make_longest(void) {
    turn at = {1, 0};
    make_lines();
    for (int i = 0; i < 192; i++) {
        ring[2 * i] = (float)(3 + 3 * (i / 12) + at.x);
        ring[2 * i + 1] = (float)at.y;
        at = turned(at, 0.8660254037844387, 0.5);
    }
    memset(kinds, BM_CLOSED, sizeof kinds);
    memset(counts, 12, sizeof counts);
    longest_bytes =
        bm_write_scene(cart, 16, kinds, 16, counts, 16, ring, 384, 64, unmet, 256, longest, sizeof longest).length;
    bm_to_version_2(longest, longest_bytes, moved, sizeof moved);
}

static void make_log(void) {
    make_example();
    for (int i = 0; i < RECORDS; i++) bm_answer_record(example, example_bytes, log_of + 18 * i, 18);
    index_bytes = bm_build_index(log_of, sizeof log_of, index_of, sizeof index_of).length;
}

/* ---- the calls; each tells its refusal, which must be none */

static uint32_t nothing(void) { return 0; }
static uint32_t answer_example(void) { return bm_answer_record(example, example_bytes, answer, 18).refusal; }
static uint32_t answer_longest(void) { return bm_answer_record(longest, longest_bytes, answer, 18).refusal; }
static uint32_t read_longest(void) { return bm_read_scene(longest, longest_bytes).refusal; }
static uint32_t write_longest(void) {
    return bm_write_scene(cart, 16, kinds, 16, counts, 16, ring, 384, 64, unmet, 256, buffer, sizeof buffer).refusal;
}
static uint32_t to_version_2(void) { return bm_to_version_2(longest, longest_bytes, buffer, sizeof buffer).refusal; }
static uint32_t to_version_1(void) {
    return bm_to_version_1(moved, longest_bytes + 256, buffer, sizeof buffer).refusal;
}
static uint32_t solve_met(void) { return bm_solve_list(met, 1024, 0, 0, 0, 2).refusal; }
static uint32_t solve_unmet(void) { return bm_solve_list(unmet, 4 * RELAXED, 0, 0, 0, 2).refusal; }
static uint32_t check_move(void) { return bm_check_move(0, 0, 60, 1, 16, kinds, 16, counts, 16, ring, 384).refusal; }
static uint32_t obstacle_lines(void) {
    return bm_obstacle_lines(0, 0, 0, 0, 0.5f, 10, BM_CLOSED, 12, ring, 24).refusal;
}
static uint32_t read_answer(void) { return bm_read_answer(log_of, 18).refusal; }
static uint32_t tally_log(void) { return bm_tally_log(log_of, sizeof log_of).refusal; }
static uint32_t build_index(void) { return bm_build_index(log_of, sizeof log_of, buffer, sizeof buffer).refusal; }
static uint32_t count_fallbacks(void) {
    return bm_count_fallbacks(log_of, sizeof log_of, index_of, index_bytes, 1, 63).refusal;
}
static uint32_t append_record(void) {
    memcpy(buffer, index_of, index_bytes);
    return bm_append_record(log_of, sizeof log_of, buffer, sizeof buffer, index_bytes, log_of, 18).refusal;
}
static uint32_t start(void) { return bm_session_start(&session, 0, 0, 2, 0); }
static uint32_t copy(void) {
    session = empty;
    __asm__ volatile("" ::: "memory");
    return 0;
}
static uint32_t batch_one(void) { return copy() | bm_session_batch(&session, met, 4); }
static uint32_t batch_met(void) { return copy() | bm_session_batch(&session, met, 1024); }
static uint32_t batch_unmet(void) { return copy() | bm_session_batch(&session, unmet, 4 * RELAXED); }
static uint32_t withdraw(void) {
    session = full;
    return bm_session_withdraw(&session, 0);
}
static uint32_t change(void) {
    const size_t first = 0;
    session = full;
    return bm_session_change(&session, &first, 1, met, 4, NULL, 0);
}
static uint32_t change_origin(void) {
    session = full;
    return bm_session_change_origin(&session, 9, 9, NULL, 0, NULL, 0).refusal;
}
static uint32_t first_unmet(void) { return bm_session_first_unmet(&empty, met, 1024).refusal; }

typedef struct row {
    const char *what;
    void (*prepare)(void);
    uint32_t (*call)(void);
} row;
static const row rows[] = {{"`bm_answer_record`, the whole example", make_example, answer_example},
                           {"`bm_answer_record`, 192 vertices and 64 lines, relaxed", make_longest, answer_longest},
                           {"`bm_read_scene`, the same", make_longest, read_longest},
                           {"`bm_write_scene`, the same", make_longest, write_longest},
                           {"`bm_to_version_2`, the same", make_longest, to_version_2},
                           {"`bm_to_version_1`, the same", make_longest, to_version_1},
                           {"`bm_solve_list`, 256 lines, all met", make_lines, solve_met},
                           {"`bm_solve_list`, 32 lines, relaxed", make_lines, solve_unmet},
                           {"`bm_check_move`, 192 edges", make_longest, check_move},
                           {"`bm_obstacle_lines`, 12 vertices", make_longest, obstacle_lines},
                           {"`bm_read_answer`", make_log, read_answer},
                           {"`bm_tally_log`, 64 records", make_log, tally_log},
                           {"`bm_build_index`, 64 records", make_log, build_index},
                           {"`bm_count_fallbacks`, 63 records walked", make_log, count_fallbacks},
                           {"`bm_append_record`", make_log, append_record},
                           {"`bm_session_start`", no_inputs, start},
                           {"`bm_session_first_unmet`, 256 lines", make_lines, first_unmet},
                           {"a copy of a session, as it is in each row below", make_lines, copy},
                           {"`bm_session_batch`, one line that is met, the first", make_lines, batch_one},
                           {"`bm_session_batch`, 256 lines, all met", make_lines, batch_met},
                           {"`bm_session_batch`, 32 lines, relaxed", make_lines, batch_unmet},
                           {"`bm_session_withdraw`, of 32 relaxed lines", make_full, withdraw},
                           {"`bm_session_change`, one of them for another", make_full, change},
                           {"`bm_session_change_origin`, none of them", make_full, change_origin}};
enum { ROWS = sizeof rows / sizeof *rows };

/* ---- the measures */

static uint32_t refusal;
static void *run(void *call) {
    refusal = ((const row *)call)->call();
    return NULL;
}

/* How many bytes of a painted stack a thread changes that makes the call. */
static size_t stack_with(const row *one) {
    uint8_t *stack = mmap(NULL, STACK, PROT_READ | PROT_WRITE, MAP_PRIVATE | MAP_ANONYMOUS, -1, 0);
    pthread_attr_t attributes;
    pthread_t thread;
    size_t clean = 0;
    memset(stack, PAINT, STACK);
    pthread_attr_init(&attributes);
    pthread_attr_setstack(&attributes, stack, STACK);
    if (pthread_create(&thread, &attributes, run, (void *)(uintptr_t)one) != 0) exit(2);
    pthread_join(thread, NULL);
    while (clean < STACK && stack[clean] == PAINT) clean++;
    munmap(stack, STACK);
    return STACK - clean;
}

/* Processor time of a call in microseconds: as many calls as take a fifth of a second, the least of five turns. */
static double time_of(const row *one) {
    double least = 1e9;
    for (int turn = 0; turn < 5; turn++) {
        long calls = 0;
        clock_t begun = clock(), now = begun;
        while (now - begun < CLOCKS_PER_SEC / 5) {
            for (int i = 0; i < 100; i++) refusal |= one->call();
            calls += 100;
            now = clock();
        }
        double each = 1e6 * (double)(now - begun) / CLOCKS_PER_SEC / (double)calls;
        if (each < least) least = each;
    }
    return least;
}

/* The row's stack and, if they are asked for, its times. */
static void tell(const row *one, size_t bare, int times) {
    one->prepare();
    size_t stack = stack_with(one) - bare;
    if (refusal != BM_FINE || stack > BM_STACK_BYTES) {
        fprintf(stderr, "measure: %s: refusal %u, stack %zu\n", one->what, refusal, stack);
        exit(1);
    }
    printf(times ? "| %s | %zu | %.2f |\n" : "| %s | %zu |\n", one->what, stack, times ? time_of(one) : 0.0);
}

int main(int argc, char **argv) {
    const row alone = {"", no_inputs, nothing};
    if (argc == 3 && atoi(argv[1]) < ROWS) {
        const row *one = &rows[atoi(argv[1])];
        one->prepare();
        for (int i = 0; i < atoi(argv[2]); i++) refusal |= one->call();
        return refusal != BM_FINE;
    }
    size_t bare = stack_with(&alone);
    for (size_t i = 0; i < ROWS; i++) tell(&rows[i], bare, argc == 2);
    printf("measure: ok %d\n", ROWS);
    return 0;
}
