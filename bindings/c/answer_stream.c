/* Answers scene records from standard input as the program `feed` does, in process: the output must be the same bytes. Of
 * each record it also asks that answer, bytes and reader agree, that a scene that is read is written to the same bytes, and
 * that a record that can be moved comes back; the first of which that is not so ends it with 1. How many records there were
 * is told on standard error.
 * usage: answer_stream < scenes > answers */
#include "boltmeadow.h"
#include <stdio.h>
#include <stdlib.h>
#include <string.h>

static size_t place;

static void hold(int good, const char *what) {
    if (good) return;
    fprintf(stderr, "answer_stream: record %zu: not so: %s\n", place, what);
    exit(1);
}

static uint32_t bits(float number) {
    uint32_t pattern;
    memcpy(&pattern, &number, sizeof pattern);
    return pattern;
}

/* Whether an answer says what its record does. */
static int is_told(const bm_answer *told, const bm_reply *reply) {
    uint32_t failed = told->cause == BM_CAUSE_NONE ? BM_NO_LINE : (uint32_t)told->failed_line;
    return reply->refusal == BM_FINE && reply->code == told->outcome && reply->x == bits(told->x) &&
           reply->y == bits(told->y) && reply->failed_line == failed && reply->probes == told->probes;
}

/* The record's answer, written; a refusal as the program writes it. */
static void answer(const uint8_t *record, size_t bytes) {
    uint8_t buffer[BM_ANSWER_BYTES] = {0, 2, 1};
    size_t length = BM_ANSWER_BYTES;
    bm_answer told = bm_answer_record(record, bytes, buffer, sizeof buffer);
    if (told.refusal != BM_FINE) {
        static const uint8_t untouched[BM_ANSWER_BYTES] = {0, 2, 1};
        hold(memcmp(buffer, untouched, sizeof buffer) == 0, "a refusal leaves the buffer as it was");
        buffer[3] = (uint8_t)(BM_REFUSED_CODE + told.refusal);
        length = BM_REFUSAL_BYTES;
    }
    bm_reply reply = bm_read_answer(buffer, length);
    hold(told.refusal == BM_FINE ? is_told(&told, &reply) : reply.code == buffer[3], "answer and record agree");
    if (fwrite(buffer, 1, length, stdout) != length) {
        perror("answer_stream: standard output");
        exit(2);
    }
}

/* The number of vertices of all obstacles. */
static size_t vertices_of(const bm_scene *scene) {
    size_t all = 0;
    for (size_t i = 0; i < scene->obstacles; i++) all += scene->counts[i];
    return all;
}

/* A record that is read, and what the writer makes of the scene. */
static void read_and_write(const uint8_t *record, size_t bytes) {
    uint8_t written[BM_SCENE_1_BYTES], moved[BM_SCENE_2_BYTES], back[BM_SCENE_2_BYTES];
    bm_scene scene = bm_read_scene(record, bytes);
    if (scene.refusal != BM_FINE) return;
    bm_written length = bm_write_scene(scene.cart, scene.obstacles, scene.kinds, scene.obstacles, scene.counts,
                                       scene.obstacles, scene.vertices, 2 * vertices_of(&scene), scene.neighbours,
                                       scene.lines, 4 * scene.neighbours, written, sizeof written);
    hold(length.refusal == BM_FINE, "a scene that is read is written");
    if (record[2] == 1) {
        hold(length.length == bytes && memcmp(record, written, bytes) == 0, "it is written to the same bytes");
        bm_written there = bm_to_version_2(record, bytes, moved, sizeof moved);
        hold(there.refusal == BM_FINE && there.length == bytes + 4 * scene.neighbours, "it is moved to version 2");
        bm_written here = bm_to_version_1(moved, there.length, back, sizeof back);
        hold(here.length == bytes && memcmp(record, back, bytes) == 0, "it comes back");
    } else {
        uint32_t numbered = 0;
        for (size_t i = 0; i < scene.neighbours; i++) numbered |= scene.numbers[i];
        bm_written here = bm_to_version_1(record, bytes, back, sizeof back);
        hold(here.refusal == (numbered ? BM_REFUSED_LOSS : BM_FINE), "version 2 is moved back where it has no numbers");
        hold(numbered || (here.length == length.length && memcmp(back, written, here.length) == 0), "as it is written");
    }
}

static uint8_t *whole_input(size_t *length) {
    size_t room = 1 << 20, got;
    uint8_t *input = malloc(room);
    *length = 0;
    while (input != NULL && (got = fread(input + *length, 1, room - *length, stdin)) > 0) {
        *length += got;
        if (*length == room) input = realloc(input, room *= 2);
    }
    if (input == NULL || ferror(stdin)) {
        perror("answer_stream: standard input");
        exit(2);
    }
    return input;
}

int main(void) {
    size_t length, at = 0;
    uint8_t *input = whole_input(&length);
    while (at < length) {
        size_t left = length - at;
        size_t bytes = left < 2 ? left : 2 + 256 * (size_t)input[at] + input[at + 1];
        if (bytes > left) bytes = left;
        answer(input + at, bytes);
        read_and_write(input + at, bytes);
        at += bytes;
        place++;
    }
    free(input);
    fprintf(stderr, "answer_stream: ok %zu\n", place);
    return fflush(stdout) == 0 ? 0 : 2;
}
