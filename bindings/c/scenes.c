/* Scene records: answered, read, written, moved between the versions. */
#include "cases.h"

/* The cart of docs/RECORDS.md's smallest records, 36 bytes: at rest at the origin, horizon 1. */
#define CART "0000000000000000000000000000000000000000 3F800000 000000000000000000000000"
#define ZEROS_8 "0000000000000000"
/* 01's whole example behind its length and version. */
#define EXAMPLE \
    ZEROS_8 ZEROS_8 "3F000000 3F800000 00000000 3F800000 40000000 01 02 02 BF800000 3F800000 3F800000 3F800000 00"
#define SMALLEST_9 \
    "0039 01" ZEROS_8 "3DB68D80BF49E3E83F7844143F800000" ZEROS_8 \
    "3F800000 01 02 02 BF9961B6BF4C168EBF70E3003E705186 00"

/* The smallest record of each refusal that the reader tells, under a version. */
typedef struct refused_record {
    const char *record;
    uint32_t refusal;
} refused_record;
static const refused_record under_1[] = {
    {"", 2}, {"00", 2}, {"0000", 2}, {"0002 01", 2}, {"0001 00", 1}, {"0001 03", 1}, {"0B48", 4}, {"0027 01" CART "01 00", 3},
    {"0028 01" CART "01 02 00", 5}, {"0005 01 7FC00000", 6}, {"0037 01" CART "00 01" ZEROS_8 ZEROS_8, 7},
    {"0030 01" CART "01 01 01" ZEROS_8, 14}, {"0028 01" CART "00 00 00", 2}, {"0026 01" CART "11", 4}};
static const refused_record under_2[] = {
    {"0027 02" CART "01 00", 3}, {"0026 02" CART "11", 4}, {"0028 02" CART "01 02 00", 5}, {"0005 02 7FC00000", 6},
    {"003B 02" CART "00 01 00000000" ZEROS_8 ZEROS_8, 7}, {"0030 02" CART "01 01 01" ZEROS_8, 14}, {"0001 02", 2}};
#define EACH(list) (sizeof(list) / sizeof *(list))

/* Beside a refusal all else is 0. */
static int is_bare_answer(bm_answer a) {
    return a.outcome == 0 && bits(a.x) == 0 && bits(a.y) == 0 && a.cause == 0 && a.failed_line == 0 && a.cause_line == 0 &&
           a.origin_kind == 0 && a.origin_place == 0 && a.origin_vertex == 0 && a.probes == 0;
}

static void refused_answer(bytes record, size_t buffer_bytes, uint32_t refusal) {
    uint8_t *buffer = lend_buffer(buffer_bytes);
    bm_answer answer = bm_answer_record(record.at, record.count, buffer, buffer_bytes);
    HOLDS(answer.refusal == refusal);
    HOLDS(is_bare_answer(answer));
    HOLDS(is_untouched(buffer, 0, buffer_bytes));
}

/* The record's bytes at a buffer's start; those behind are as they were. */
static bm_answer answered(const char *scene, const char *wanted) {
    bytes record = hex(scene), answer = hex(wanted);
    uint8_t *exact = lend_buffer(BM_ANSWER_BYTES), *longer = lend_buffer(40);
    bm_answer first = bm_answer_record(record.at, record.count, exact, BM_ANSWER_BYTES);
    bm_answer second = bm_answer_record(record.at, record.count, longer, 40);
    HOLDS(first.refusal == BM_FINE && second.refusal == BM_FINE);
    HOLDS(memcmp(exact, answer.at, BM_ANSWER_BYTES) == 0);
    HOLDS(memcmp(longer, answer.at, BM_ANSWER_BYTES) == 0);
    HOLDS(is_untouched(longer, BM_ANSWER_BYTES, 40));
    HOLDS(first.outcome == second.outcome && first.probes == second.probes);
    return first;
}

static void whole_example(void) {
    bm_answer answer = answered("0039 01" EXAMPLE, "0010 01 01 00000000 3F000000 FFFF 00000001");
    HOLDS(answer.outcome == BM_MET && answer.x == 0.0f && answer.y == 0.5f && answer.probes == 1);
    HOLDS(answer.cause == BM_CAUSE_NONE && answer.failed_line == 0 && answer.cause_line == 0);
    HOLDS(answer.origin_kind == BM_ORIGIN_UNKNOWN && answer.origin_place == 0 && answer.origin_vertex == 0);
    answered("0039 02" EXAMPLE, "0010 01 01 00000000 3F000000 FFFF 00000001");
}

/* 02, T-06: a neighbour's line that a wall's leaves nothing of, and a wall of which only the second edge makes a line. */
static void failed_lines(void) {
    bm_answer answer = answered("0049 01" ZEROS_8 ZEROS_8 "3F000000 3F800000" ZEROS_8 "40000000 01 01 02 3F800000 3F800000 BF800000"
                                "3F800000 01 00000000 3F800000 3F800000 00000000",
                                "0010 01 02 3FF7DEF6 3F000000 0001 00000005");
    HOLDS(answer.outcome == BM_RELAXED && answer.failed_line == 1);
    HOLDS(answer.cause == BM_CAUSE_PARALLEL && answer.cause_line == 0);
    HOLDS(answer.origin_kind == BM_ORIGIN_NEIGHBOUR && answer.origin_place == 0 && answer.origin_vertex == 0);
    bytes record = hex("0039 01 00000000 00000000 3F97E082 BF3EA20C 3DD512D4 3E2D1032 3EF20058 3C97F82F 00000000"
                       "01 01 02 BC337879 BDD3E3A7 3F1F9987 BE2EB90E 00");
    uint8_t *buffer = lend_buffer(BM_ANSWER_BYTES);
    answer = bm_answer_record(record.at, record.count, buffer, BM_ANSWER_BYTES);
    HOLDS(answer.refusal == BM_FINE && answer.outcome == BM_STUCK && answer.failed_line == 0);
    HOLDS(answer.cause == BM_CAUSE_CIRCLE && answer.cause_line == 0);
    HOLDS(answer.origin_kind == BM_ORIGIN_EDGE && answer.origin_place == 0 && answer.origin_vertex == 1);
}

static void refused_answers(void) {
    for (size_t i = 0; i < EACH(under_1); i++) refused_answer(hex(under_1[i].record), BM_ANSWER_BYTES, under_1[i].refusal);
    for (size_t i = 0; i < EACH(under_2); i++) refused_answer(hex(under_2[i].record), 40, under_2[i].refusal);
    refused_answer(hex(SMALLEST_9), BM_ANSWER_BYTES, BM_REFUSED_EDGE);
    for (size_t length = 0; length < BM_ANSWER_BYTES; length++) {
        refused_answer(hex("0039 01" EXAMPLE), length, BM_REFUSED_BUFFER);
        refused_answer(hex("0000"), length, BM_REFUSED_BUFFER);
    }
    for (size_t cut = 0; cut < 59; cut++)
        refused_answer((bytes){lend(hex("0039 01" EXAMPLE).at, cut), cut}, BM_ANSWER_BYTES, BM_REFUSED_AMOUNT);
}

static int is_blank_scene(const bm_scene *scene) {
    static const bm_cart none;
    bm_scene blank;
    memset(&blank, 0, sizeof blank);
    return memcmp(&scene->cart, &none, sizeof none) == 0 && scene->obstacles == 0 && scene->neighbours == 0 &&
           memcmp(scene->kinds, blank.kinds, sizeof blank.kinds) == 0 &&
           memcmp(scene->counts, blank.counts, sizeof blank.counts) == 0 &&
           memcmp(scene->vertices, blank.vertices, sizeof blank.vertices) == 0 &&
           memcmp(scene->lines, blank.lines, sizeof blank.lines) == 0 &&
           memcmp(scene->numbers, blank.numbers, sizeof blank.numbers) == 0;
}

static void refused_reading(const refused_record *given) {
    bytes record = hex(given->record);
    bm_scene scene = bm_read_scene(record.at, record.count);
    HOLDS(scene.refusal == given->refusal);
    HOLDS(is_blank_scene(&scene));
}

static void readings(void) {
    bytes record = hex("0039 01" EXAMPLE);
    bm_scene scene = bm_read_scene(record.at, record.count);
    HOLDS(scene.refusal == BM_FINE && scene.obstacles == 1 && scene.neighbours == 0);
    HOLDS(scene.cart.margin == 0.5f && scene.cart.horizon == 1 && scene.cart.limit == 2);
    HOLDS(scene.cart.position_x == 0 && scene.cart.position_y == 0 && scene.cart.velocity_x == 0 && scene.cart.velocity_y == 0);
    HOLDS(scene.cart.wish_x == 0 && scene.cart.wish_y == 1);
    HOLDS(scene.kinds[0] == BM_OPEN && scene.kinds[1] == 0 && scene.counts[0] == 2 && scene.counts[1] == 0);
    HOLDS(scene.vertices[0] == -1 && scene.vertices[1] == 1 && scene.vertices[2] == 1 && scene.vertices[3] == 1);
    HOLDS(scene.vertices[4] == 0 && scene.vertices[383] == 0);
    record = hex("003B 02" CART "00 01 00000007 00000000 3E800000 BF800000 00000000");
    scene = bm_read_scene(record.at, record.count);
    HOLDS(scene.refusal == BM_FINE && scene.obstacles == 0 && scene.neighbours == 1);
    HOLDS(scene.numbers[0] == 7 && scene.numbers[1] == 0 && scene.lines[1] == 0.25f && scene.lines[2] == -1);
    record = hex(SMALLEST_9);
    HOLDS(bm_read_scene(record.at, record.count).refusal == BM_FINE);
    for (size_t i = 0; i < EACH(under_1); i++) refused_reading(&under_1[i]);
    for (size_t i = 0; i < EACH(under_2); i++) refused_reading(&under_2[i]);
}

/* A call of the writer: what is lent but the cart, whose position x is told apart. */
typedef struct writing {
    float x;
    size_t obstacles, kinds, counts, vertices, neighbours, lines;
    uint8_t kind[17], count[17];
    float vertex[390], line[260];
    size_t buffer;
    uint32_t refusal;
    size_t length;
} writing;

static void write_scene(const writing *w) {
    bm_cart cart = {w->x, 0, 0, 0, 0.5f, 1, 0, 1, 2};
    uint8_t *buffer = lend_buffer(w->buffer);
    bm_written written =
        bm_write_scene(cart, w->obstacles, lend(w->kind, w->kinds), w->kinds, lend(w->count, w->counts), w->counts,
                       lend(w->vertex, 4 * w->vertices), w->vertices, w->neighbours, lend(w->line, 4 * w->lines), w->lines,
                       buffer, w->buffer);
    HOLDS(written.refusal == w->refusal);
    HOLDS(written.length == w->length);
    HOLDS(is_untouched(buffer, w->length, w->buffer));
    if (w->length == 59) HOLDS(memcmp(buffer, hex("0039 01" EXAMPLE).at, 59) == 0);
    if (w->length == 41) HOLDS(bm_read_scene(buffer, 41).refusal == BM_FINE);
}

/* docs/RECORDS.md, "Writing a scene": one case a row. */
static void writings(void) {
#define WALL .obstacles = 1, .kinds = 1, .kind = {BM_OPEN}, .counts = 1, .count = {2}
    const writing rows[] = {
        {WALL, .vertices = 4, .vertex = {-1, 1, 1, 1}, .buffer = 59, .length = 59},
        {WALL, .vertices = 4, .vertex = {-1, 1, 1, 1}, .buffer = 80, .length = 59},
        {WALL, .vertices = 4, .vertex = {-1, 1, 1, 1}, .buffer = 58, .refusal = 10},
        {.buffer = 41, .length = 41},
        {.buffer = 40, .refusal = 10},
        {.buffer = 0, .refusal = 10},
        {WALL, .vertices = 3, .vertex = {0, 0, 0}, .buffer = 99, .refusal = 2},
        {WALL, .vertices = 4, .vertex = {0, 0, -0.0f, 0}, .neighbours = 65, .refusal = 14},
        {WALL, .vertices = 3, .vertex = {NAN, 0, 0}, .buffer = 99, .refusal = 6},
        {WALL, .vertices = 5, .vertex = {0, 0, 1, 0, 9}, .neighbours = 1, .lines = 4, .line = {NAN, 0, 1, 0}, .buffer = 99, .refusal = 6},
        {WALL, .vertices = 5, .vertex = {0, 0, 1, 0, 9}, .neighbours = 1, .lines = 4, .line = {0, 1, 1, 0}, .buffer = 99, .refusal = 2},
        {.x = NAN, .buffer = 99, .refusal = 6},
        {.x = 65537, .obstacles = 17, .buffer = 99, .refusal = 6},
        {.obstacles = 17, .buffer = 99, .refusal = 4},
        {.obstacles = 1, .buffer = 99, .refusal = 2},
        {.obstacles = 1, .kinds = 1, .kind = {3}, .buffer = 99, .refusal = 3},
        {.obstacles = 1, .kinds = 1, .kind = {1}, .buffer = 99, .refusal = 2},
        {.kinds = 1, .kind = {1}, .buffer = 99, .refusal = 2},
        {.counts = 1, .count = {1}, .buffer = 99, .refusal = 2},
        {.lines = 1, .buffer = 99, .refusal = 2},
        {.obstacles = 1, .kinds = 1, .kind = {2}, .counts = 1, .count = {0}, .buffer = 99, .refusal = 5},
        {.obstacles = 1, .kinds = 1, .kind = {1}, .counts = 1, .count = {65}, .buffer = 99, .refusal = 4},
        {.neighbours = 65, .buffer = 99, .refusal = 4},
        {.neighbours = 1, .lines = 4, .line = {0, 0, 1, 1}, .buffer = 99, .refusal = 7},
        {.neighbours = 1, .lines = 3, .line = {0, 0, 1}, .buffer = 99, .refusal = 2},
        {.neighbours = SIZE_MAX, .buffer = 99, .refusal = 4},
        {.obstacles = SIZE_MAX, .buffer = 99, .refusal = 4}};
#undef WALL
    for (size_t i = 0; i < EACH(rows); i++) write_scene(&rows[i]);
}

typedef bm_written mover(const uint8_t *, size_t, uint8_t *, size_t);

static void refused_move(mover *move, const char *record, size_t buffer_bytes, uint32_t refusal) {
    bytes from = hex(record);
    uint8_t *buffer = lend_buffer(buffer_bytes);
    bm_written written = move(from.at, from.count, buffer, buffer_bytes);
    HOLDS(written.refusal == refusal);
    HOLDS(written.length == 0);
    HOLDS(is_untouched(buffer, 0, buffer_bytes));
}

static void moved(mover *move, const char *record, const char *wanted) {
    bytes from = hex(record), to = hex(wanted);
    uint8_t *buffer = lend_buffer(to.count + 9);
    bm_written written = move(from.at, from.count, buffer, to.count + 9);
    HOLDS(written.refusal == BM_FINE && written.length == to.count);
    HOLDS(memcmp(buffer, to.at, to.count) == 0);
    HOLDS(is_untouched(buffer, to.count, to.count + 9));
    refused_move(move, record, to.count - 1, BM_REFUSED_BUFFER);
    refused_move(move, record, 0, BM_REFUSED_BUFFER);
}

static void moves(void) {
#define LINE "00000000 3F800000 3F800000 00000000"
    const char *one = "0037 01" CART "00 01" LINE, *two = "003B 02" CART "00 01 00000000" LINE;
    const char *seven = "003B 02" CART "00 01 00000007" LINE;
#undef LINE
    moved(bm_to_version_2, one, two);
    moved(bm_to_version_1, two, one);
    moved(bm_to_version_2, "0039 01" EXAMPLE, "0039 02" EXAMPLE);
    moved(bm_to_version_1, "0039 02" EXAMPLE, "0039 01" EXAMPLE);
    refused_move(bm_to_version_2, two, 99, BM_REFUSED_VERSION);
    refused_move(bm_to_version_1, one, 99, BM_REFUSED_VERSION);
    refused_move(bm_to_version_2, "0005 02 7FC00000", 99, BM_REFUSED_VERSION);
    refused_move(bm_to_version_1, seven, 99, BM_REFUSED_LOSS);
    refused_move(bm_to_version_1, seven, 0, BM_REFUSED_LOSS);
    for (size_t i = 0; i < EACH(under_1); i++) refused_move(bm_to_version_2, under_1[i].record, 99, under_1[i].refusal);
    for (size_t i = 0; i < EACH(under_2); i++) refused_move(bm_to_version_1, under_2[i].record, 99, under_2[i].refusal);
}

void scene_cases(void) {
    whole_example();
    failed_lines();
    refused_answers();
    readings();
    writings();
    moves();
}
