/* Boltmeadow's proved velocity solver in process, for C99 and later and for C++. docs/LIBRARY.md says how to build
 * and link it, docs/RECORDS.md what scenes, lines, outcomes and refusals mean.
 *
 * Calls. Whatever bytes and numbers are lent, a call answers with a result or with the number of a refusal, BM_FINE
 * being none. Beside a refusal all else of an answer is 0, and what was lent is as it was. A struct that is handed
 * back has its refusal first; a plain uint32_t is the refusal itself.
 *
 * Lent memory. The caller owns all of it; nothing is kept once a call has returned, nothing is allocated, and there
 * is nothing to free. A pointer comes with how many elements it has: bytes of bytes, numbers of numbers, so 8 for two
 * lines. It may be NULL where that is 0. A pointer without a length is to as many as its type says and is never NULL.
 * What a call writes to must not overlap what else it is lent.
 *
 * Threads. There is no state, no lock and no start: any thread may call anything at any time, but two calls at once
 * must not share memory that one of them writes. A call needs at most BM_STACK_BYTES of stack.
 *
 * Lines are four numbers, point x, y and direction x, y; origins three, kind, place and vertex; vertices two. */
#ifndef BOLTMEADOW_H
#define BOLTMEADOW_H

#include <stddef.h>
#include <stdint.h>

#ifdef __cplusplus
extern "C" {
#endif

/* The archive is for x86-64, where a size_t has 64 bits. */
typedef char bm_size_t_has_64_bits[sizeof(size_t) == 8 ? 1 : -1];

/* ---- constants */

/* Refusals; bm_refusal_text has them in words. */
enum bm_refusals {
    BM_FINE = 0,
    BM_REFUSED_VERSION = 1,
    BM_REFUSED_AMOUNT = 2,
    BM_REFUSED_KIND = 3,
    BM_REFUSED_COUNT = 4,
    BM_REFUSED_EMPTY = 5,
    BM_REFUSED_NUMBER = 6,
    BM_REFUSED_DIRECTION = 7,
    BM_REFUSED_INTERVAL = 8,
    BM_REFUSED_EDGE = 9,
    BM_REFUSED_BUFFER = 10,
    BM_REFUSED_LOSS = 11,
    BM_REFUSED_LOG = 12,
    BM_REFUSED_RANGE = 13,
    BM_REFUSED_DOUBLED = 14,
    BM_REFUSED_INDEX = 15
};

/* How lines stand: every one met; the ones behind the rigid count relaxed; a rigid one that cannot be met. */
enum bm_phases { BM_SOLVING = 0, BM_RELAXING = 1, BM_RIGID_FAILURE = 2 };

/* Why a line failed: none did; the circle of the limit; an earlier line that is parallel; ends that crossed at one. */
enum bm_causes { BM_CAUSE_NONE = 0, BM_CAUSE_CIRCLE = 1, BM_CAUSE_PARALLEL = 2, BM_CAUSE_CROSSING = 3 };

/* What a line is of: unknown; an obstacle's edge, its place the obstacle's, its vertex the left one; a neighbour, by
 * its place. A batch may bring other numbers: they are kept as they stand. */
enum bm_origins { BM_ORIGIN_UNKNOWN = 0, BM_ORIGIN_EDGE = 1, BM_ORIGIN_NEIGHBOUR = 2 };

/* Kinds of obstacles. */
enum bm_kinds { BM_CLOSED = 1, BM_OPEN = 2 };

/* A scene's outcomes: docs/RECORDS.md, "Outcomes". At BM_STUCK stop the cart. */
enum bm_outcomes { BM_MET = 1, BM_RELAXED = 2, BM_REST_MET = 3, BM_REST_RELAXED = 4, BM_STUCK = 5 };

/* Limits, and lengths in bytes. */
enum bm_limits {
    BM_MOST_LINES = 256,      /* of a list, or of a session */
    BM_MOST_OBSTACLES = 16,   /* of a scene, or lent */
    BM_MOST_VERTICES = 64,    /* of one obstacle */
    BM_MOST_TOGETHER = 192,   /* vertices of all obstacles */
    BM_MOST_NEIGHBOURS = 64,  /* of a scene */
    BM_ANSWER_BYTES = 18,     /* an outcome's record */
    BM_REFUSAL_BYTES = 4,     /* a refused scene's: 00 02 01 and BM_REFUSED_CODE + its number */
    BM_REFUSED_CODE = 128,    /* a reply's code is an outcome, or this and a refusal's number */
    BM_NO_LINE = 0xffff,      /* a record's failed line where none failed */
    BM_SCENE_1_BYTES = 2633,  /* the longest scene record of version 1 */
    BM_SCENE_2_BYTES = 2889,  /* and of version 2 */
    BM_INDEX_BYTES = 21,      /* the index of a log of fewer than 64 records, */
    BM_INDEX_ENTRY_BYTES = 8, /* and so much more for each 64 records */
    BM_STACK_BYTES = 163840   /* more than any call was seen to need */
};

/* Ranges of numbers, their ends admitted. */
#define BM_PLACE_MOST 65536.0f          /* magnitude of a position, velocity, wish or vertex, x and y each */
#define BM_SPEED_MOST 1024.0f           /* limit and margin, from 0 */
#define BM_HORIZON_LEAST 0.0009765625f  /* 1/1024 */
#define BM_HORIZON_MOST 1024.0f
#define BM_POINT_MOST 268435456.0f      /* magnitude of a line's point, x and y each */
#define BM_DIRECTION_LEAST 0.9990234375f /* a direction's x * x + y * y */
#define BM_DIRECTION_MOST 1.0009765625f

/* The meaning of a refusal. Left alone: everything. */
static inline const char *bm_refusal_text(uint32_t refusal) {
    switch (refusal) {
    case BM_FINE: return "fine";
    case BM_REFUSED_VERSION: return "another version";
    case BM_REFUSED_AMOUNT: return "bytes or numbers are missing or left over";
    case BM_REFUSED_KIND: return "an obstacle is neither closed nor open";
    case BM_REFUSED_COUNT: return "a count or a length is over its limit";
    case BM_REFUSED_EMPTY: return "an open obstacle has no vertices";
    case BM_REFUSED_NUMBER: return "a number is not finite or out of its range";
    case BM_REFUSED_DIRECTION: return "a line's direction is out of its band";
    case BM_REFUSED_INTERVAL: return "the ends of an interval are not in order at the clamp to a wish";
    case BM_REFUSED_EDGE: return "a wall's line is not admitted, or a point is not finite";
    case BM_REFUSED_BUFFER: return "a lent buffer is too short";
    case BM_REFUSED_LOSS: return "a move to version 1 would lose a neighbour's number";
    case BM_REFUSED_LOG: return "the log has another length than its index names";
    case BM_REFUSED_RANGE: return "the records asked for are not in the log, or not in order";
    case BM_REFUSED_DOUBLED: return "an obstacle has a doubled vertex";
    case BM_REFUSED_INDEX: return "an index is not below the line count, or not above the one before";
    default: return "no refusal has this number";
    }
}

/* ---- answers */

/* A cart: position, velocity, margin to walls, horizon, and the wish and the limit of its velocity. */
typedef struct bm_cart {
    float position_x, position_y, velocity_x, velocity_y, margin, horizon, wish_x, wish_y, limit;
} bm_cart;

/* What was written to the start of a lent buffer: how many bytes. */
typedef struct bm_written {
    uint32_t refusal;
    size_t length;
} bm_written;

/* A scene's answer: outcome and velocity; cause of the failed line of the last pass run, its index, the earlier line
 * that the cause names, and its origin, all 0 where none failed; probes of all passes. */
typedef struct bm_answer {
    uint32_t refusal;
    uint32_t outcome;
    float x, y;
    uint32_t cause;
    size_t failed_line, cause_line;
    uint32_t origin_kind, origin_place, origin_vertex;
    uint32_t probes;
} bm_answer;

/* A scene, zeros behind the counts. Vertices stand obstacle behind obstacle; numbers are those of the neighbours, 0
 * each in a record of version 1. */
typedef struct bm_scene {
    uint32_t refusal;
    bm_cart cart;
    size_t obstacles;
    uint8_t kinds[BM_MOST_OBSTACLES], counts[BM_MOST_OBSTACLES];
    float vertices[2 * BM_MOST_TOGETHER];
    size_t neighbours;
    float lines[4 * BM_MOST_NEIGHBOURS];
    uint32_t numbers[BM_MOST_NEIGHBOURS];
} bm_scene;

/* How a list stands: phase, point, penetration (0 where it is not relaxing); cause of the failed line, its index and
 * the earlier line that the cause names, all 0 where none failed; probes. */
typedef struct bm_standing {
    uint32_t refusal;
    uint32_t phase;
    float x, y, penetration;
    uint32_t cause;
    size_t failed_line, cause_line;
    uint32_t probes;
} bm_standing;

/* How many edges a move crosses, and the first of them: its obstacle's place, and its left vertex there. */
typedef struct bm_crossing {
    uint32_t refusal;
    size_t edges, obstacle, vertex;
} bm_crossing;

/* An obstacle's lines, zeros behind the count. */
typedef struct bm_lines {
    uint32_t refusal;
    size_t count;
    float lines[4 * BM_MOST_VERTICES];
} bm_lines;

/* An answer record: code, the bits of x and y, failed line (BM_NO_LINE for none) and probes, as they stand there. Of
 * a refused scene's record there is the code alone. */
typedef struct bm_reply {
    uint32_t refusal;
    uint32_t code, x, y, failed_line, probes;
} bm_reply;

/* The figures of a log: how many answers there are of each outcome and of each refusal, by its number; sum and
 * largest of the probes; how many name a failed line. Beside a refusal, the place of the record that is refused, and
 * no figures. */
typedef struct bm_tally {
    uint32_t refusal;
    uint64_t place;
    uint64_t outcomes[6], refusals[16];
    uint64_t probes, largest, failed;
} bm_tally;

/* How many fallbacks there are. */
typedef struct bm_fallbacks {
    uint32_t refusal;
    uint64_t count;
} bm_fallbacks;

/* How many lines a change by origin took back. */
typedef struct bm_changed {
    uint32_t refusal;
    size_t withdrawn;
} bm_changed;

/* The first line of a batch that may matter: found is 1 and the index is the one that it gets; or both are 0. */
typedef struct bm_unmet {
    uint32_t refusal;
    uint32_t found;
    size_t index;
} bm_unmet;

/* ---- scenes */

/* Answers a scene record of either version.
 * In: the record's bytes. Out: the answer; at the buffer's start its BM_ANSWER_BYTES as a record.
 * Refused: a buffer of fewer bytes (10), the record (1 to 7, 14), its walls (9).
 * Left alone: the buffer behind the record, and all of it beside a refusal. */
bm_answer bm_answer_record(const uint8_t *scene, size_t scene_bytes, uint8_t *buffer, size_t buffer_bytes);

/* Reads a scene record of either version.
 * In: its bytes. Out: the scene, with its neighbours' numbers. Refused: 1 to 7, 14. Left alone: everything. */
bm_scene bm_read_scene(const uint8_t *scene, size_t scene_bytes);

/* Writes a scene as a record of version 1.
 * In: the cart; how many obstacles, a kind and a count for each, their vertices; how many neighbours, their lines.
 * Out: the record at the buffer's start; BM_SCENE_1_BYTES are enough for any. Refused: the first fault in the
 * record's order (2 to 7, 14), what is left over (2), a buffer that is shorter than the record (10).
 * Left alone: the buffer behind the record, and all of it beside a refusal. */
bm_written bm_write_scene(bm_cart cart, size_t obstacles, const uint8_t *kinds, size_t kinds_bytes, const uint8_t *counts,
                          size_t counts_bytes, const float *vertices, size_t vertices_numbers, size_t neighbours,
                          const float *lines, size_t lines_numbers, uint8_t *buffer, size_t buffer_bytes);

/* Moves a scene record of version 1 to version 2, every neighbour's number being 0.
 * In: its bytes. Out: the new record at the buffer's start; BM_SCENE_2_BYTES are enough for any.
 * Refused: another version (1), the record (2 to 7, 14), a buffer that is too short (10).
 * Left alone: the buffer behind the record, and all of it beside a refusal. */
bm_written bm_to_version_2(const uint8_t *scene, size_t scene_bytes, uint8_t *buffer, size_t buffer_bytes);

/* Moves a scene record of version 2 to version 1, as above. Refused besides: a number that is not 0 (11), before 10. */
bm_written bm_to_version_1(const uint8_t *scene, size_t scene_bytes, uint8_t *buffer, size_t buffer_bytes);

/* ---- lists of lines */

/* Solves a list of lines.
 * In: its numbers; how many of the first lines are rigid; the wish and the limit. Out: how it stands.
 * Refused: numbers that are no whole lines (2), more than BM_MOST_LINES (4), wish or limit (6), a line (6, 7).
 * Left alone: everything. */
bm_standing bm_solve_list(const float *lines, size_t lines_numbers, size_t rigid, float wish_x, float wish_y, float limit);

/* ---- obstacles */

/* Tells whether the straight way from one position to another crosses an edge of lent obstacles, from either side.
 * In: the positions; obstacles as for bm_write_scene. Out: the first crossed edge and how many there are.
 * Refused: the positions (6), then the first fault of the obstacles (2 to 6, 14). Left alone: everything. */
bm_crossing bm_check_move(float from_x, float from_y, float to_x, float to_y, size_t obstacles, const uint8_t *kinds,
                          size_t kinds_bytes, const uint8_t *counts, size_t counts_bytes, const float *vertices,
                          size_t vertices_numbers);

/* Makes the lines that one obstacle asks a cart to keep to.
 * In: the cart's position, velocity, margin and horizon; the obstacle's kind, vertex count and vertices. Out: its
 * lines.
 * Refused: the cart's numbers (6), the obstacle (2 to 6, 14), a line that is not admitted (9). Left alone:
 * everything. */
bm_lines bm_obstacle_lines(float position_x, float position_y, float velocity_x, float velocity_y, float margin,
                           float horizon, uint8_t kind, size_t count, const float *vertices, size_t vertices_numbers);

/* ---- answer records and logs of them */

/* Reads one answer record.
 * In: its bytes. Out: what it says. Refused: another version (1), all else (2). Left alone: everything. */
bm_reply bm_read_answer(const uint8_t *answer, size_t answer_bytes);

/* Counts a log of answer records.
 * In: its bytes. Out: its figures. Refused: the first bad record (1, 2), more than 4,294,967,295 records (4); the
 * place is told. Left alone: everything. */
bm_tally bm_tally_log(const uint8_t *log, size_t log_bytes);

/* Builds the index of a log's fallbacks, outcomes 3 to 5.
 * In: the log's bytes. Out: the index at the buffer's start; BM_INDEX_BYTES, and BM_INDEX_ENTRY_BYTES for each 64
 * records.
 * Refused: the first bad record (1, 2), a log of more than 4,294,967,295 bytes (4), a buffer that is too short (10).
 * Left alone: the buffer behind the index, and all of it beside a refusal. */
bm_written bm_build_index(const uint8_t *log, size_t log_bytes, uint8_t *buffer, size_t buffer_bytes);

/* Counts the fallbacks from record a up to but not including record b.
 * In: the log and its index. Out: their number. Refused: the index (2, 1), a log that it is not of (12), a > b or b
 * over the record count (13), entries and records on the way (2, 1). Left alone: everything. */
bm_fallbacks bm_count_fallbacks(const uint8_t *log, size_t log_bytes, const uint8_t *index, size_t index_bytes, size_t a,
                                size_t b);

/* Brings an index up to date with a record that is about to stand behind the log.
 * In: the log without it; the buffer, whose first `length` bytes are the log's index; the record. Out: the new index
 * at the buffer's start, at most BM_INDEX_ENTRY_BYTES longer. Refused: a length over the buffer's (2), the index as
 * above, bytes that are not one answer record (1, 2), a number over 4,294,967,295 (4), a buffer that is too short
 * (10).
 * Left alone: the buffer behind the new index, and all of it beside a refusal; the log. */
bm_written bm_append_record(const uint8_t *log, size_t log_bytes, uint8_t *buffer, size_t buffer_bytes, size_t length,
                            const uint8_t *record, size_t record_bytes);

/* ---- sessions */

/* A session: lines come and go, and after each call it stands as the list of its lines does. It is plain memory: it
 * may be copied, kept, and sent to another x86-64 machine. Memory that no call has made, or that was changed, is
 * answered too, as the session that it says: a count over BM_MOST_LINES gets 4; any other is promised an answer and
 * nothing more. */
typedef struct bm_session {
    float lines[4 * BM_MOST_LINES];
    uint32_t origins[3 * BM_MOST_LINES];
    float numbers[6]; /* wish x, y; limit; point x, y; penetration */
    size_t words[8];  /* count; rigid; phase; index of a rigid failure; cause, failed line, cause's line; probes */
} bm_session;

/* The exported functions, over a session's four arrays; each inline function below says what its own does. */
uint32_t bm_session_start_in(float lines[1024], uint32_t origins[768], float numbers[6], size_t words[8], float wish_x,
                             float wish_y, float limit, size_t rigid);
uint32_t bm_session_batch_in(float lines[1024], uint32_t origins[768], float numbers[6], size_t words[8],
                             const float *batch, size_t batch_numbers);
uint32_t bm_session_batch_with_origins_in(float lines[1024], uint32_t origins[768], float numbers[6], size_t words[8],
                                          const float *batch, size_t batch_numbers, const uint32_t *brought,
                                          size_t brought_numbers);
uint32_t bm_session_withdraw_in(float lines[1024], uint32_t origins[768], float numbers[6], size_t words[8], size_t index);
uint32_t bm_session_change_in(float lines[1024], uint32_t origins[768], float numbers[6], size_t words[8],
                              const size_t *withdrawn, size_t withdrawn_numbers, const float *batch, size_t batch_numbers,
                              const uint32_t *brought, size_t brought_numbers);
bm_changed bm_session_change_origin_in(float lines[1024], uint32_t origins[768], float numbers[6], size_t words[8],
                                       uint32_t kind, uint32_t place, const float *batch, size_t batch_numbers,
                                       const uint32_t *brought, size_t brought_numbers);
bm_unmet bm_session_first_unmet_in(const float lines[1024], const uint32_t origins[768], const float numbers[6],
                                   const size_t words[8], const float *batch, size_t batch_numbers);

/* Starts a session with no lines.
 * In: the wish and the limit; how many of the first lines will be rigid, which may be more than ever come. Out: the
 * session, whatever it held. Refused: a wish or limit out of range (6). Left alone beside a refusal: the session. */
static inline uint32_t bm_session_start(bm_session *session, float wish_x, float wish_y, float limit, size_t rigid) {
    return bm_session_start_in(session->lines, session->origins, session->numbers, session->words, wish_x, wish_y, limit,
                               rigid);
}

/* Adds lines, whose origins are unknown.
 * In: their numbers. Out: the session with them. Refused: a session of more than BM_MOST_LINES (4), numbers that are
 * no whole lines (2), too many with those that stand (4), a line (6, 7). Left alone beside a refusal: the session. */
static inline uint32_t bm_session_batch(bm_session *session, const float *batch, size_t batch_numbers) {
    return bm_session_batch_in(session->lines, session->origins, session->numbers, session->words, batch, batch_numbers);
}

/* Adds lines with their origins, three numbers a line, or none at all. Refused besides: another count of them (2),
 * with the numbers that are no whole lines. All else as above. */
static inline uint32_t bm_session_batch_with_origins(bm_session *session, const float *batch, size_t batch_numbers,
                                                     const uint32_t *brought, size_t brought_numbers) {
    return bm_session_batch_with_origins_in(session->lines, session->origins, session->numbers, session->words, batch,
                                            batch_numbers, brought, brought_numbers);
}

/* Takes back the line at an index. Later lines move down by one; the rigid count is one less if the index is below
 * it.
 * In: the index. Out: the session that was never given the line. Refused: a session of more than BM_MOST_LINES (4),
 * an index that is not below the count (15). Left alone beside a refusal: the session. */
static inline uint32_t bm_session_withdraw(bm_session *session, size_t index) {
    return bm_session_withdraw_in(session->lines, session->origins, session->numbers, session->words, index);
}

/* Takes back lines and adds others, in one step.
 * In: strictly ascending indices of the session as it stands; a batch with its origins, or none at all. Out: the
 * session without those and with these behind. Refused: a session of more than BM_MOST_LINES (4), the indices (15),
 * then the batch for the lines that are left, as above. Left alone beside a refusal: the session. */
static inline uint32_t bm_session_change(bm_session *session, const size_t *withdrawn, size_t withdrawn_numbers,
                                         const float *batch, size_t batch_numbers, const uint32_t *brought,
                                         size_t brought_numbers) {
    return bm_session_change_in(session->lines, session->origins, session->numbers, session->words, withdrawn,
                                withdrawn_numbers, batch, batch_numbers, brought, brought_numbers);
}

/* The same for every line whose origin has this kind and place; where there is none, the batch is added.
 * Out besides: how many lines were taken back. */
static inline bm_changed bm_session_change_origin(bm_session *session, uint32_t kind, uint32_t place, const float *batch,
                                                  size_t batch_numbers, const uint32_t *brought, size_t brought_numbers) {
    return bm_session_change_origin_in(session->lines, session->origins, session->numbers, session->words, kind, place,
                                       batch, batch_numbers, brought, brought_numbers);
}

/* Names the first line of a batch that the session's point does not strictly meet. Where there is none, and the
 * session is solving, the batch would change neither phase nor point.
 * In: the batch's numbers. Out: the index that the line would get. Refused: as the batch would be. Left alone:
 * everything. */
static inline bm_unmet bm_session_first_unmet(const bm_session *session, const float *batch, size_t batch_numbers) {
    return bm_session_first_unmet_in(session->lines, session->origins, session->numbers, session->words, batch,
                                     batch_numbers);
}

/* ---- what a session holds, read as the library reads it. Left alone: everything. */

static inline size_t bm_session_count(const bm_session *session) { return session->words[0]; }
static inline size_t bm_session_rigid(const bm_session *session) { return session->words[1]; }
static inline float bm_session_wish_x(const bm_session *session) { return session->numbers[0]; }
static inline float bm_session_wish_y(const bm_session *session) { return session->numbers[1]; }
static inline float bm_session_limit(const bm_session *session) { return session->numbers[2]; }
static inline uint32_t bm_session_probes(const bm_session *session) { return (uint32_t)(session->words[7] & 0xffffffffu); }

/* BM_SOLVING, BM_RELAXING or BM_RIGID_FAILURE; its point; its penetration, 0 where it is not relaxing; the line of a
 * rigid failure, 0 where it is none. */
static inline uint32_t bm_session_phase(const bm_session *session) {
    return session->words[2] < 2 ? (uint32_t)session->words[2] : (uint32_t)BM_RIGID_FAILURE;
}
static inline float bm_session_x(const bm_session *session) { return session->numbers[3]; }
static inline float bm_session_y(const bm_session *session) { return session->numbers[4]; }
static inline float bm_session_penetration(const bm_session *session) {
    return bm_session_phase(session) == BM_RELAXING ? session->numbers[5] : 0.0f;
}
static inline size_t bm_session_rigid_line(const bm_session *session) {
    return bm_session_phase(session) == BM_RIGID_FAILURE ? session->words[3] : 0;
}

/* The cause of the failed line, BM_CAUSE_NONE where none failed; its index; the earlier line that the cause names. */
static inline uint32_t bm_session_cause(const bm_session *session) {
    return session->words[4] < 3 ? (uint32_t)session->words[4] : (uint32_t)BM_CAUSE_CROSSING;
}
static inline size_t bm_session_failed_line(const bm_session *session) {
    return bm_session_cause(session) == BM_CAUSE_NONE ? 0 : session->words[5];
}
static inline size_t bm_session_cause_line(const bm_session *session) {
    return bm_session_cause(session) < BM_CAUSE_PARALLEL ? 0 : session->words[6];
}

/* The four numbers of the line at an index, the three of its origin; NULL where there is no such line. */
static inline const float *bm_session_line(const bm_session *session, size_t i) {
    return i < session->words[0] && i < BM_MOST_LINES ? session->lines + 4 * i : NULL;
}
static inline const uint32_t *bm_session_origin(const bm_session *session, size_t i) {
    return i < session->words[0] && i < BM_MOST_LINES ? session->origins + 3 * i : NULL;
}

#ifdef __cplusplus
}
#endif

#endif
