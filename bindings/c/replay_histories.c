/* Replays calls of sessions through the library, each held to how the oracle has it judged and how the session stands then.
 * The form of a record is in oracle/src/histories/mod.rs: a head of 18 words, big-endian, then the origins that stand, a
 * batch, its origins, indices. Two zeros agree whatever their sign. Its last line is `histories: ok N`.
 * usage: replay_histories FILE */
#include "boltmeadow.h"
#include <stdio.h>
#include <stdlib.h>
#include <string.h>

enum { HEAD = 18, MOST_WORDS = 3000 };
enum { START, BATCH, BATCH_WITH_ORIGINS, WITHDRAWAL, TRIED_WITHDRAWAL, QUESTION, CHANGE, CHANGE_ORIGIN };
static const uint32_t none = 0xffffffff;

/* A record: its head without the first word, and what follows it. */
typedef struct call {
    uint32_t kind, first, second, judged, count, rigid, told, phase, x, y, penetration, failed, cause, probes, pair[2],
        more;
    uint32_t origins[3 * BM_MOST_LINES], brought[MOST_WORDS];
    float batch[MOST_WORDS];
    size_t indices[MOST_WORDS];
} call;

static size_t place;

static void hold(int good, const char *what) {
    if (good) return;
    fprintf(stderr, "replay_histories: call %zu: not so: %s\n", place, what);
    exit(1);
}

static float number(uint32_t word) {
    float value;
    memcpy(&value, &word, sizeof value);
    return value;
}

/* So many words of the file; 0 where it has ended before the first. */
static int read_words(FILE *file, uint32_t *words, size_t count) {
    uint8_t bytes[4 * MOST_WORDS];
    hold(count <= MOST_WORDS, "a record is not longer than any");
    size_t got = fread(bytes, 1, 4 * count, file);
    if (got == 0 && count > 0 && feof(file)) return 0;
    hold(got == 4 * count, "a record is whole");
    for (size_t i = 0; i < count; i++)
        words[i] = (uint32_t)bytes[4 * i] << 24 | (uint32_t)bytes[4 * i + 1] << 16 | (uint32_t)bytes[4 * i + 2] << 8 |
                   bytes[4 * i + 3];
    return 1;
}

static int read_call(FILE *file, call *c) {
    uint32_t head[HEAD], rest[MOST_WORDS];
    if (!read_words(file, head, HEAD)) return 0;
    memcpy(c, head + 1, 4 * (HEAD - 1));
    size_t numbers = c->kind == START || c->kind == WITHDRAWAL || c->kind == TRIED_WITHDRAWAL ? 0 : c->first;
    size_t origins = c->kind == BATCH_WITH_ORIGINS || c->kind >= CHANGE ? c->second : 0;
    size_t indices = c->kind == CHANGE ? c->more : 0;
    hold(head[0] == 4 * (c->told + numbers + origins + indices) && c->told <= 3 * BM_MOST_LINES,
         "a record has its parts");
    hold(read_words(file, rest, head[0] / 4), "a record is whole");
    memset(c->origins, 0, sizeof c->origins);
    memcpy(c->origins, rest, 4 * c->told);
    memcpy(c->batch, rest + c->told, 4 * numbers);
    memcpy(c->brought, rest + c->told + numbers, 4 * origins);
    for (size_t i = 0; i < indices; i++) c->indices[i] = rest[c->told + numbers + origins + i];
    return 1;
}

/* The call, made of the session; what it tells. */
static uint32_t made(const call *c, bm_session *session) {
    bm_changed changed;
    bm_unmet unmet;
    switch (c->kind) {
    case START: return bm_session_start(session, number(c->pair[0]), number(c->pair[1]), number(c->second), c->first);
    case BATCH: return bm_session_batch(session, c->batch, c->first);
    case BATCH_WITH_ORIGINS: return bm_session_batch_with_origins(session, c->batch, c->first, c->brought, c->second);
    case WITHDRAWAL:
    case TRIED_WITHDRAWAL: return bm_session_withdraw(session, c->first);
    case QUESTION:
        unmet = bm_session_first_unmet(session, c->batch, c->first);
        hold(unmet.found == (c->second != none && c->judged == 0), "a line is found");
        hold(unmet.index == (unmet.found ? c->second : 0), "it is this one");
        return unmet.refusal;
    case CHANGE: return bm_session_change(session, c->indices, c->more, c->batch, c->first, c->brought, c->second);
    default:
        changed = bm_session_change_origin(session, c->pair[0], c->pair[1], c->batch, c->first, c->brought, c->second);
        hold(changed.withdrawn == c->more, "so many lines are taken back");
        return changed.refusal;
    }
}

static void stands(const call *c, const bm_session *session) {
    uint32_t cause = bm_session_cause(session);
    hold(bm_session_count(session) == c->count && bm_session_rigid(session) == c->rigid, "counts");
    hold(memcmp(session->origins, c->origins, sizeof c->origins) == 0, "origins");
    hold(bm_session_phase(session) == c->phase, "phase");
    hold(bm_session_x(session) == number(c->x) && bm_session_y(session) == number(c->y), "point");
    hold(bm_session_penetration(session) == number(c->penetration), "penetration");
    hold(bm_session_probes(session) == c->probes, "probes");
    hold((cause == BM_CAUSE_NONE) == (c->failed == none), "whether a line failed");
    hold(cause == c->cause >> 16 && bm_session_cause_line(session) == (c->cause & 0xffff), "cause");
    hold(cause == BM_CAUSE_NONE || bm_session_failed_line(session) == c->failed, "failed line");
    hold(c->phase != BM_RIGID_FAILURE || bm_session_rigid_line(session) == c->failed, "line of a rigid failure");
}

/* A session stands as the single call over its lines does. */
static void stands_alone(const bm_session *session) {
    bm_standing alone =
        bm_solve_list(session->lines, 4 * bm_session_count(session), bm_session_rigid(session),
                      bm_session_wish_x(session), bm_session_wish_y(session), bm_session_limit(session));
    hold(alone.refusal == BM_FINE && alone.phase == bm_session_phase(session), "phase of the list");
    hold(alone.x == bm_session_x(session) && alone.y == bm_session_y(session), "point of the list");
    hold(alone.penetration == bm_session_penetration(session), "penetration of the list");
    hold(alone.cause == bm_session_cause(session) && alone.cause_line == bm_session_cause_line(session),
         "cause of the list");
    hold(alone.failed_line == bm_session_failed_line(session) && alone.probes == bm_session_probes(session),
         "probes of the list");
}

static void replay(const call *c, bm_session *session) {
    bm_session before = *session, after = *session;
    uint32_t refusal = made(c, &after);
    hold(refusal == c->judged, "how it is judged");
    hold((refusal == BM_FINE && c->kind != QUESTION) || memcmp(&before, &after, sizeof after) == 0,
         "a refusal leaves it alone");
    stands(c, &after);
    stands_alone(&after);
    if (c->kind != TRIED_WITHDRAWAL) *session = after;
}

int main(int argc, char **argv) {
    static call c;
    static bm_session session;
    FILE *file = argc == 2 ? fopen(argv[1], "rb") : NULL;
    if (file == NULL) {
        fprintf(stderr, "usage: replay_histories FILE\n");
        return 2;
    }
    for (place = 0; read_call(file, &c); place++) replay(&c, &session);
    fclose(file);
    printf("histories: ok %zu\n", place);
    return 0;
}
