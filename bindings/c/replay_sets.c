/* Replays the sets of crates/replay_*, stored or drawn, through the library: each call told as the oracle has it. Words and
 * pairs are big-endian; two zeros agree whatever their sign. Its last line is `SET: ok N`.
 * usage: replay_sets lists|edges|walls|failures FILE
 * usage: replay_sets writings|moves CALLS ANSWERS */
#include "boltmeadow.h"
#include <stdio.h>
#include <stdlib.h>
#include <string.h>

enum { ROOM = 1 << 16, SENTINEL = 0xA5 };
static const char *set;
static size_t place;
static FILE *calls, *answers;
static uint8_t head[128], rest[ROOM], wanted[ROOM], buffer[ROOM];

static void hold(int good, const char *what) {
    if (good) return;
    fprintf(stderr, "replay_sets: %s: call %zu: not so: %s\n", set, place, what);
    exit(1);
}

static uint32_t word(const uint8_t *bytes, size_t i) {
    bytes += 4 * i;
    return (uint32_t)bytes[0] << 24 | (uint32_t)bytes[1] << 16 | (uint32_t)bytes[2] << 8 | bytes[3];
}

static float number(const uint8_t *bytes, size_t i) {
    uint32_t pattern = word(bytes, i);
    float value;
    memcpy(&value, &pattern, sizeof value);
    return value;
}

/* So many numbers of a record, to memory that the next call of it takes again. */
static const float *numbers(const uint8_t *bytes, size_t count) {
    static float found[ROOM / 4];
    for (size_t i = 0; i < count; i++) found[i] = number(bytes, i);
    return found;
}

static void read_whole(FILE *file, uint8_t *to, size_t bytes) {
    hold(bytes <= ROOM && fread(to, 1, bytes, file) == bytes, "a record is whole");
}

/* The next head; 0 where the file has ended. */
static int read_head(size_t bytes) {
    size_t got = fread(head, 1, bytes, calls);
    hold(got == 0 || got == bytes, "a record is whole");
    return got > 0;
}

/* Whether cause and failed line are those of two words: FFFFFFFF and 0 for none. */
static int is_failed(uint32_t cause, size_t line, size_t earlier, uint32_t at, uint32_t why) {
    if (cause == BM_CAUSE_NONE) return at == 0xffffffff && why == 0 && line == 0 && earlier == 0;
    return at == line && why >> 16 == cause && (why & 0xffff) == earlier;
}

/* A list: numbers, rigid count, limit, wish; then how it stands. */
static int lists(void) {
    if (!read_head(20)) return 0;
    size_t count = word(head, 0);
    read_whole(calls, rest, 4 * count + 28);
    const uint8_t *told = rest + 4 * count;
    bm_standing s =
        bm_solve_list(numbers(rest, count), count, word(head, 1), number(head, 3), number(head, 4), number(head, 2));
    hold(word(told, 0) == (s.refusal ? 100 + s.refusal : s.phase), "phase or refusal");
    hold(s.x == number(told, 1) && s.y == number(told, 2) && s.penetration == number(told, 3), "point and penetration");
    hold(is_failed(s.cause, s.failed_line, s.cause_line, word(told, 4), word(told, 5)), "failed line and cause");
    hold(s.probes == word(told, 6), "probes");
    return 1;
}

/* An encounter: kind, numbers, answer, vertex count (two words), position, velocity, margin, horizon; then the lines. */
static int edges(void) {
    if (!read_head(44)) return 0;
    size_t count = word(head, 1), vertices = (size_t)word(head, 3) << 32 | word(head, 4);
    uint32_t told = word(head, 2);
    size_t lines = told < 100 ? told : 0;
    read_whole(calls, rest, 4 * count + 16 * lines);
    bm_lines made =
        bm_obstacle_lines(number(head, 5), number(head, 6), number(head, 7), number(head, 8), number(head, 9),
                          number(head, 10), (uint8_t)word(head, 0), vertices, numbers(rest, count), count);
    hold(told == (made.refusal ? 100 + made.refusal : made.count) && made.count == lines, "refusal or count");
    for (size_t i = 0; i < 4 * lines; i++) hold(made.lines[i] == number(rest + 4 * count, i), "lines");
    for (size_t i = 4 * lines; i < 256; i++) hold(made.lines[i] == 0, "zeros behind the lines");
    return 1;
}

/* A move: from, to, obstacles, how many kinds, counts and numbers; the answer; then numbers, kinds, counts. */
static int walls(void) {
    if (!read_head(48)) return 0;
    size_t kinds = word(head, 5), counts = word(head, 6), count = word(head, 7);
    read_whole(calls, rest, 4 * count + kinds + counts);
    bm_crossing c =
        bm_check_move(number(head, 0), number(head, 1), number(head, 2), number(head, 3), word(head, 4),
                      rest + 4 * count, kinds, rest + 4 * count + kinds, counts, numbers(rest, count), count);
    hold(word(head, 8) == (c.refusal ? 100 + c.refusal : c.edges > 0), "crossed, clear or refused");
    hold(c.obstacle == word(head, 9) && c.vertex == word(head, 10) && c.edges == word(head, 11),
         "the first edge, and how many");
    return 1;
}

/* A scene that is not refused: its bytes, the failed line, its cause and its origin. */
static int failures(void) {
    if (!read_head(24)) return 0;
    size_t bytes = word(head, 0);
    read_whole(calls, rest, bytes);
    bm_answer a = bm_answer_record(rest, bytes, buffer, BM_ANSWER_BYTES);
    hold(a.refusal == BM_FINE, "not refused");
    hold(is_failed(a.cause, a.failed_line, a.cause_line, word(head, 1), word(head, 2)), "failed line and cause");
    hold(a.origin_kind == word(head, 3) && a.origin_place == word(head, 4) && a.origin_vertex == word(head, 5),
         "origin");
    return 1;
}

/* What a writing call told, in two pairs, and the whole buffer. */
static void hold_written(const uint8_t *told, size_t told_bytes, size_t room) {
    read_whole(answers, wanted, told_bytes + room);
    hold(memcmp(told, wanted, told_bytes) == 0, "length or refusal");
    hold(memcmp(buffer, wanted + told_bytes, room) == 0, "the buffer");
}

/* A call of the writer: cart, obstacles, how many kinds, counts, numbers of vertices, neighbours, numbers of lines, buffer. */
static int writings(void) {
    static float vertices[ROOM / 4];
    if (!read_head(64)) return 0;
    size_t kinds = word(head, 10), counts = word(head, 11), of = word(head, 12), lines = word(head, 14),
           room = word(head, 15);
    read_whole(calls, rest, kinds + counts + 4 * (of + lines));
    memcpy(vertices, numbers(rest + kinds + counts, of), 4 * of);
    const float *c = numbers(head, 9);
    bm_cart cart = {c[0], c[1], c[2], c[3], c[4], c[5], c[6], c[7], c[8]};
    memset(buffer, SENTINEL, sizeof buffer);
    bm_written w = bm_write_scene(cart, word(head, 9), rest, kinds, rest + kinds, counts, vertices, of, word(head, 13),
                                  numbers(rest + kinds + counts + 4 * of, lines), lines, buffer, room);
    const uint8_t told[4] = {0, (uint8_t)w.refusal, (uint8_t)(w.length >> 8), (uint8_t)w.length};
    hold_written(told, 4, room);
    return 1;
}

/* A move between the versions: the version to move to, the buffer's length, the record's length, in pairs. */
static int moves(void) {
    if (!read_head(6)) return 0;
    size_t room = 256 * (size_t)head[2] + head[3], bytes = 256 * (size_t)head[4] + head[5];
    read_whole(calls, rest, bytes);
    memset(buffer, SENTINEL, sizeof buffer);
    bm_written w = (head[1] == 1 ? bm_to_version_1 : bm_to_version_2)(rest, bytes, buffer, room);
    size_t pair = w.refusal ? 0xff00 + w.refusal : w.length;
    const uint8_t told[2] = {(uint8_t)(pair >> 8), (uint8_t)pair};
    hold_written(told, 2, room);
    return 1;
}

typedef struct kind {
    const char *name;
    int (*next)(void);
    int files;
} kind;
static const kind kinds[] = {{"lists", lists, 1},       {"edges", edges, 1},       {"walls", walls, 1},
                             {"failures", failures, 1}, {"writings", writings, 2}, {"moves", moves, 2}};

int main(int argc, char **argv) {
    const kind *found = NULL;
    for (size_t i = 0; argc > 1 && i < sizeof kinds / sizeof *kinds; i++)
        if (strcmp(argv[1], kinds[i].name) == 0) found = &kinds[i];
    if (found != NULL && argc == 2 + found->files) {
        set = found->name;
        calls = fopen(argv[2], "rb");
        answers = fopen(argv[argc - 1], "rb");
    }
    if (calls == NULL || answers == NULL) {
        fprintf(
            stderr,
            "usage: replay_sets lists|edges|walls|failures FILE\nusage: replay_sets writings|moves CALLS ANSWERS\n");
        return 2;
    }
    while (found->next()) place++;
    hold(found->files == 1 || fgetc(answers) == EOF, "there are no answers left over");
    printf("%s: ok %zu\n", set, place);
    return 0;
}
