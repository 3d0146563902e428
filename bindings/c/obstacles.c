/* Lent obstacles: moves over them, and the lines of one. */
#include "cases.h"

/* A question whether a move crosses a wall, and what is told. */
typedef struct move {
    float from[2], to[2];
    size_t obstacles, kinds, counts, vertices;
    uint8_t kind[17], count[17];
    float vertex[390];
    uint32_t refusal;
    size_t edges, obstacle, left;
} move;

static void check_move(const move *m) {
    bm_crossing crossing = bm_check_move(m->from[0], m->from[1], m->to[0], m->to[1], m->obstacles, lend(m->kind, m->kinds),
                                         m->kinds, lend(m->count, m->counts), m->counts, lend(m->vertex, 4 * m->vertices),
                                         m->vertices);
    HOLDS(crossing.refusal == m->refusal);
    HOLDS(crossing.edges == m->edges);
    HOLDS(crossing.obstacle == m->obstacle && crossing.vertex == m->left);
}

/* docs/RECORDS.md, "Whether a move crosses a wall". */
static void moves_over_walls(void) {
#define WALL(of_kind) .obstacles = 1, .kinds = 1, .kind = {of_kind}, .counts = 1, .count = {2}, .vertices = 4, .vertex = {-1, 1, 1, 1}
#define BOX .obstacles = 1, .kinds = 1, .kind = {BM_CLOSED}, .counts = 1, .count = {4}, .vertices = 8, .vertex = {1, 1, 3, 1, 3, 3, 1, 3}
    const move rows[] = {
        {WALL(BM_OPEN), .to = {0, 2}, .edges = 1},
        {WALL(BM_OPEN), .from = {0, 2}, .edges = 1},
        {WALL(BM_OPEN), .to = {0, 1}, .edges = 1},
        {WALL(BM_OPEN), .to = {0, 0.99999994f}},
        {WALL(BM_OPEN), .to = {2, 2}, .edges = 1},
        {WALL(BM_OPEN), .to = {2, 0}},
        {WALL(BM_OPEN)},
        {WALL(BM_CLOSED), .to = {0, 2}, .edges = 2},
        {BOX, .to = {2, 2}, .edges = 2},
        {BOX, .from = {0, 2}, .to = {4, 2}, .edges = 2, .left = 1},
        {.to = {9, 9}},
        {.obstacles = 2, .kinds = 2, .kind = {2, 2}, .counts = 2, .count = {1, 2}, .vertices = 6, .vertex = {5, 5, -1, 1, 1, 1},
         .to = {0, 2}, .edges = 1, .obstacle = 1},
        {.to = {0, NAN}, .obstacles = 17, .refusal = 6},
        {.from = {-65537, 0}, .refusal = 6},
        {.obstacles = 17, .refusal = 4},
        {.obstacles = 1, .refusal = 2},
        {.obstacles = 1, .kinds = 1, .kind = {3}, .refusal = 3},
        {.obstacles = 1, .kinds = 1, .kind = {1}, .refusal = 2},
        {.obstacles = 1, .kinds = 1, .kind = {2}, .counts = 1, .refusal = 5},
        {.obstacles = 1, .kinds = 1, .kind = {1}, .counts = 1, .count = {65}, .refusal = 4},
        {.obstacles = 1, .kinds = 1, .kind = {1}, .counts = 1, .count = {1}, .vertices = 2, .refusal = 14},
        {.obstacles = 1, .kinds = 1, .kind = {2}, .counts = 1, .count = {1}, .vertices = 2, .vertex = {INFINITY}, .refusal = 6},
        {.obstacles = 1, .kinds = 1, .kind = {2}, .counts = 1, .count = {1}, .vertices = 1, .refusal = 2},
        {.vertices = 1, .refusal = 2},
        {.kinds = 1, .refusal = 2},
        {.counts = 1, .refusal = 2},
        {.obstacles = SIZE_MAX, .refusal = 4}};
#undef WALL
#undef BOX
    for (size_t i = 0; i < sizeof rows / sizeof *rows; i++) check_move(&rows[i]);
}

/* A cart at a place, at rest unless said, beside an obstacle; and the line that is told, if there is one. */
typedef struct beside {
    float position[2], velocity[2], margin, horizon;
    uint8_t kind;
    size_t count, vertices;
    float vertex[132];
    uint32_t refusal;
    size_t lines;
    float line[4];
} beside;

static void obstacle_lines(const beside *b) {
    static const float none[4 * BM_MOST_VERTICES];
    bm_lines made = bm_obstacle_lines(b->position[0], b->position[1], b->velocity[0], b->velocity[1], b->margin, b->horizon,
                                      b->kind, b->count, lend(b->vertex, 4 * b->vertices), b->vertices);
    HOLDS(made.refusal == b->refusal);
    HOLDS(made.count == b->lines);
    if (b->lines == 1)
        for (size_t i = 0; i < 4; i++) HOLDS(made.lines[i] == b->line[i]);
    HOLDS(memcmp(made.lines + 4 * made.count, none, sizeof none - 16 * made.count) == 0);
}

/* P11, P12 as T-11 has it, and each refusal. */
static void lines_of_obstacles(void) {
#define WALL .horizon = 1, .kind = BM_OPEN, .count = 2, .vertices = 4
    const beside rows[] = {
        {WALL, .margin = 2, .vertex = {-1, 1, 1, 1}, .lines = 1, .line = {0, 0, -1, 0}},
        {WALL, .margin = 0.5f, .vertex = {-1, 1, 1, 1}, .lines = 1, .line = {-1, 0.5f, -1, 0}},
        {WALL, .margin = 2, .vertex = {1, 1, -1, 1}},
        {.horizon = 1, .kind = BM_CLOSED},
        {.horizon = 1, .kind = BM_OPEN, .count = 1, .vertices = 2},
        {.horizon = 1, .kind = BM_CLOSED, .count = 1, .vertices = 2, .vertex = {5, 0}, .margin = 1, .refusal = 14},
        {.horizon = 1, .kind = BM_CLOSED, .count = 1, .vertices = 2, .vertex = {0.5f, 0}, .margin = 1, .refusal = 14},
        {.horizon = 0, .kind = 7, .refusal = 6},
        {.position = {NAN, 0}, .horizon = 1, .kind = 7, .refusal = 6},
        {.velocity = {0, 65537}, .horizon = 1, .kind = 7, .refusal = 6},
        {.margin = -1, .horizon = 1, .kind = 7, .refusal = 6},
        {.horizon = 1, .kind = 0, .count = 65, .refusal = 3},
        {.horizon = 1, .kind = BM_OPEN, .count = 65, .refusal = 4},
        {.horizon = 1, .kind = BM_OPEN, .count = SIZE_MAX, .refusal = 4},
        {.horizon = 1, .kind = BM_OPEN, .count = 0, .refusal = 5},
        {.horizon = 1, .kind = BM_OPEN, .count = 2, .vertices = 3, .vertex = {0, 0, 1}, .refusal = 2},
        {.horizon = 1, .kind = BM_OPEN, .count = 2, .vertices = 3, .vertex = {0, NAN, 1}, .refusal = 6},
        {.horizon = 1, .kind = BM_OPEN, .count = 1, .vertices = 3, .refusal = 2},
        {.horizon = 1, .kind = BM_OPEN, .count = 2, .vertices = 4, .vertex = {1, 0, 1, -0.0f}, .refusal = 14},
        {WALL, .velocity = {0x1.6d1bp-4f, -0x1.93c7dp-1f}, .margin = 0x1.f08828p-1f,
         .vertex = {-0x1.32c36cp+0f, -0x1.982d1cp-1f, -0x1.e1c6p-1f, 0x1.e0a30cp-3f}, .refusal = 9}};
#undef WALL
    for (size_t i = 0; i < sizeof rows / sizeof *rows; i++) obstacle_lines(&rows[i]);
}

void obstacle_cases(void) {
    moves_over_walls();
    lines_of_obstacles();
}

/* ---- lists: 01's bench cases of the solve, and each refusal */

typedef struct list {
    size_t lines, rigid;
    float line[12], wish[2], limit;
    bm_standing wanted;
} list;

static void solve_list(const list *l) {
    bm_standing found = bm_solve_list(lend(l->line, 4 * l->lines), l->lines, l->rigid, l->wish[0], l->wish[1], l->limit);
    HOLDS(found.refusal == l->wanted.refusal && found.phase == l->wanted.phase);
    HOLDS(found.x == l->wanted.x && found.y == l->wanted.y && found.penetration == l->wanted.penetration);
    HOLDS(found.cause == l->wanted.cause && found.failed_line == l->wanted.failed_line);
    HOLDS(found.cause_line == l->wanted.cause_line && found.probes == l->wanted.probes);
}

static void longest_lists(void) {
    float lines[4 * 257];
    for (size_t i = 0; i < 257; i++) memcpy(lines + 4 * i, line_a, sizeof line_a);
    bm_standing found = bm_solve_list(lend(lines, 16 * 256), 4 * 256, 0, 0, 0, 2);
    HOLDS(found.refusal == BM_FINE && found.phase == BM_SOLVING && found.y == 1);
    HOLDS(bm_solve_list(lend(lines, 16 * 257), 4 * 257, 0, 0, 0, 2).refusal == BM_REFUSED_COUNT);
    HOLDS(bm_solve_list(lend(lines, 16 * 257), 4 * 257 - 1, 0, 0, 0, 2).refusal == BM_REFUSED_AMOUNT);
}

void list_cases(void) {
#define A 0, 1, 1, 0
#define B 0, -1, -1, 0
    const list rows[] = {
        {.wish = {3, 4}, .limit = 5, .wanted = {.x = 3, .y = 4}},
        {.wish = {4, 0}, .limit = 2, .wanted = {.x = 2}},
        {.lines = 4, .line = {A}, .limit = 2, .wanted = {.y = 1, .probes = 1}},
        {.lines = 4, .line = {0, 0, 1, 0}, .wish = {1, 0}, .limit = 2, .wanted = {.x = 1, .probes = 1}},
        {.lines = 4, .rigid = 1, .line = {0, 3, 1, 0}, .limit = 2, .wanted = {.phase = BM_RIGID_FAILURE, .cause = BM_CAUSE_CIRCLE, .probes = 1}},
        {.lines = 4, .line = {0, 3, 1, 0}, .limit = 2,
         .wanted = {.phase = BM_RELAXING, .y = 2, .penetration = 1, .cause = BM_CAUSE_CIRCLE, .probes = 2}},
        {.lines = 8, .line = {A, B}, .limit = 2,
         .wanted = {.phase = BM_RELAXING, .x = -2, .penetration = 1, .cause = BM_CAUSE_PARALLEL, .failed_line = 1, .probes = 6}},
        {.lines = 8, .rigid = 1, .line = {A, B}, .limit = 2,
         .wanted = {.phase = BM_RELAXING, .x = -1.7320508f, .y = 1, .penetration = 2, .cause = BM_CAUSE_PARALLEL, .failed_line = 1, .probes = 5}},
        {.lines = 8, .rigid = 2, .line = {A, B}, .limit = 2,
         .wanted = {.phase = BM_RIGID_FAILURE, .y = 1, .cause = BM_CAUSE_PARALLEL, .failed_line = 1, .probes = 3}},
        {.lines = 12, .rigid = 3, .line = {0, -2, 1, 0, A, B}, .limit = 2,
         .wanted = {.phase = BM_RIGID_FAILURE, .y = 1, .cause = BM_CAUSE_PARALLEL, .failed_line = 2, .cause_line = 1, .probes = 6}},
        {.lines = 8, .rigid = 2, .line = {0, 1.5f, 1, 0, 1.5f, 0, 0, -1}, .limit = 2,
         .wanted = {.phase = BM_RIGID_FAILURE, .y = 1.5f, .cause = BM_CAUSE_CROSSING, .failed_line = 1, .probes = 3}},
        {.lines = 3, .line = {A}, .limit = NAN, .wanted = {.refusal = 2}},
        {.lines = 4, .line = {A}, .limit = -1, .wanted = {.refusal = 6}},
        {.lines = 4, .line = {A}, .wish = {NAN, 0}, .limit = 2, .wanted = {.refusal = 6}},
        {.lines = 4, .line = {A}, .limit = 1024.0001f, .wanted = {.refusal = 6}},
        {.lines = 4, .line = {INFINITY, 1, 1, 0}, .limit = 2, .wanted = {.refusal = 6}},
        {.lines = 8, .line = {A, 0, 0, 1, 1}, .limit = 2, .wanted = {.refusal = 7}}};
#undef A
#undef B
    for (size_t i = 0; i < sizeof rows / sizeof *rows; i++) solve_list(&rows[i]);
    longest_lists();
}
