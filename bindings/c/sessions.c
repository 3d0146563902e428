/* Sessions: P7 in two batches, lines taken back and changed, each refusal with the memory that it leaves alone. */
#include "cases.h"

static const uint32_t wall_3[3] = {BM_ORIGIN_EDGE, 3, 1}, neighbour_2[3] = {BM_ORIGIN_NEIGHBOUR, 2, 0};

static bm_session *lend_session(const bm_session *session) { return lend(session, sizeof *session); }

static int is_same(const bm_session *one, const bm_session *other) { return memcmp(one, other, sizeof *one) == 0; }

/* How a session stands. */
static void stands(const bm_session *s, size_t count, uint32_t phase, float x, float y, float penetration,
                   uint32_t probes) {
    HOLDS(bm_session_count(s) == count);
    HOLDS(bm_session_phase(s) == phase);
    HOLDS(bm_session_x(s) == x && bm_session_y(s) == y);
    HOLDS(bm_session_penetration(s) == penetration);
    HOLDS(bm_session_probes(s) == probes);
}

static void failed_at(const bm_session *s, uint32_t cause, size_t line, size_t cause_line) {
    HOLDS(bm_session_cause(s) == cause);
    HOLDS(bm_session_failed_line(s) == line);
    HOLDS(bm_session_cause_line(s) == cause_line);
}

static int is_line(const bm_session *s, size_t i, const float line[4], const uint32_t origin[3]) {
    return memcmp(bm_session_line(s, i), line, 16) == 0 && memcmp(bm_session_origin(s, i), origin, 12) == 0;
}

/* A session with the lines A and B, whose origins are as above: P7 where nothing is rigid. */
static bm_session of_a_and_b(size_t rigid) {
    bm_session session;
    memset(&session, 0xEE, sizeof session);
    HOLDS(bm_session_start(&session, 0, 0, 2, rigid) == BM_FINE);
    HOLDS(bm_session_batch_with_origins(&session, lend(line_a, 16), 4, lend(wall_3, 12), 3) == BM_FINE);
    HOLDS(bm_session_batch_with_origins(&session, lend(line_b, 16), 4, lend(neighbour_2, 12), 3) == BM_FINE);
    return session;
}

static void p7_in_two_batches(void) {
    bm_session first, second;
    memset(&first, 0x5A, sizeof first);
    memset(&second, 0xFF, sizeof second);
    HOLDS(bm_session_start(&first, 0, 0, 2, 0) == BM_FINE);
    stands(&first, 0, BM_SOLVING, 0, 0, 0, 0);
    failed_at(&first, BM_CAUSE_NONE, 0, 0);
    HOLDS(bm_session_rigid(&first) == 0 && bm_session_limit(&first) == 2);
    HOLDS(bm_session_line(&first, 0) == NULL && bm_session_origin(&first, 0) == NULL);
    HOLDS(bm_session_batch(&first, lend(line_a, 16), 4) == BM_FINE);
    stands(&first, 1, BM_SOLVING, 0, 1, 0, 1);
    HOLDS(bm_session_batch(&first, NULL, 0) == BM_FINE);
    stands(&first, 1, BM_SOLVING, 0, 1, 0, 1);
    HOLDS(bm_session_batch(&first, lend(line_b, 16), 4) == BM_FINE);
    stands(&first, 2, BM_RELAXING, -2, 0, 1, 6);
    failed_at(&first, BM_CAUSE_PARALLEL, 1, 0);
    float both[8];
    memcpy(both, line_a, 16);
    memcpy(both + 4, line_b, 16);
    HOLDS(bm_session_start(&second, 0, 0, 2, 0) == BM_FINE);
    HOLDS(bm_session_batch(&second, lend(both, 32), 8) == BM_FINE);
    HOLDS(is_same(&first, &second));
}

/* P8 and P9, the fields of a start, and origins as they were brought. */
static void fields(void) {
    bm_session session = of_a_and_b(1);
    stands(&session, 2, BM_RELAXING, -1.7320508f, 1, 2, 5);
    session = of_a_and_b(2);
    stands(&session, 2, BM_RIGID_FAILURE, 0, 1, 0, 3);
    failed_at(&session, BM_CAUSE_PARALLEL, 1, 0);
    HOLDS(bm_session_rigid_line(&session) == 1 && bm_session_rigid(&session) == 2);
    HOLDS(is_line(&session, 0, line_a, wall_3) && is_line(&session, 1, line_b, neighbour_2));
    HOLDS(bm_session_line(&session, 2) == NULL && bm_session_origin(&session, 2) == NULL);
    HOLDS(bm_session_line(&session, SIZE_MAX) == NULL);
    HOLDS(bm_session_start(&session, 3, 4, 5, 9) == BM_FINE);
    stands(&session, 0, BM_SOLVING, 3, 4, 0, 0);
    HOLDS(bm_session_wish_x(&session) == 3 && bm_session_wish_y(&session) == 4 && bm_session_limit(&session) == 5);
    HOLDS(bm_session_rigid(&session) == 9);
}

/* Lines taken back: the session that was never given them, to the last byte. */
static void withdrawals(void) {
    bm_session session = of_a_and_b(2), fresh;
    HOLDS(bm_session_withdraw(&session, 0) == BM_FINE);
    stands(&session, 1, BM_SOLVING, 0, -1, 0, 1);
    HOLDS(bm_session_rigid(&session) == 1 && is_line(&session, 0, line_b, neighbour_2));
    bm_session_start(&fresh, 0, 0, 2, 1);
    bm_session_batch_with_origins(&fresh, line_b, 4, neighbour_2, 3);
    HOLDS(is_same(&session, &fresh));
    session = of_a_and_b(0);
    HOLDS(bm_session_withdraw(&session, 1) == BM_FINE);
    stands(&session, 1, BM_SOLVING, 0, 1, 0, 1);
    failed_at(&session, BM_CAUSE_NONE, 0, 0);
    HOLDS(bm_session_withdraw(&session, 0) == BM_FINE);
    bm_session_start(&fresh, 0, 0, 2, 0);
    HOLDS(is_same(&session, &fresh));
}

static void changes(void) {
    const size_t both[2] = {0, 1};
    bm_session session = of_a_and_b(0), fresh;
    HOLDS(bm_session_change(&session, lend(both, 16), 2, lend(line_zero, 16), 4, lend(wall_3, 12), 3) == BM_FINE);
    bm_session_start(&fresh, 0, 0, 2, 0);
    bm_session_batch_with_origins(&fresh, line_zero, 4, wall_3, 3);
    HOLDS(is_same(&session, &fresh));
    session = of_a_and_b(0);
    bm_changed changed = bm_session_change_origin(&session, BM_ORIGIN_EDGE, 3, NULL, 0, NULL, 0);
    HOLDS(changed.refusal == BM_FINE && changed.withdrawn == 1);
    HOLDS(bm_session_count(&session) == 1 && is_line(&session, 0, line_b, neighbour_2));
    changed = bm_session_change_origin(&session, BM_ORIGIN_EDGE, 3, line_zero, 4, NULL, 0);
    HOLDS(changed.refusal == BM_FINE && changed.withdrawn == 0 && bm_session_count(&session) == 2);
}

static void unmet_lines(void) {
    bm_session session;
    bm_session_start(&session, 0, 0, 2, 0);
    bm_session_batch(&session, line_a, 4);
    float two[8];
    memcpy(two, line_zero, 16);
    memcpy(two + 4, line_a, 16);
    const bm_session *asked = lend_session(&session);
    bm_unmet unmet = bm_session_first_unmet(asked, lend(two, 32), 8);
    HOLDS(unmet.refusal == BM_FINE && unmet.found == 1 && unmet.index == 2);
    unmet = bm_session_first_unmet(asked, lend(two, 32), 4);
    HOLDS(unmet.refusal == BM_FINE && unmet.found == 0 && unmet.index == 0);
    unmet = bm_session_first_unmet(asked, NULL, 0);
    HOLDS(unmet.refusal == BM_FINE && unmet.found == 0 && unmet.index == 0);
    HOLDS(is_same(asked, &session));
}

/* ---- refusals */

/* A batch with its origins, refused by every call that takes one; the session is lent, and stays as it is. */
static void refused_batch(const bm_session *session, const float *batch, size_t numbers, const uint32_t *brought,
                          size_t origins, uint32_t refusal) {
    bm_session *lent = lend_session(session);
    const float *lines = lend(batch, 4 * numbers);
    const uint32_t *of = lend(brought, 4 * origins);
    if (origins == 0) {
        HOLDS(bm_session_batch(lent, lines, numbers) == refusal);
        bm_unmet unmet = bm_session_first_unmet(lent, lines, numbers);
        HOLDS(unmet.refusal == refusal && unmet.found == 0 && unmet.index == 0);
    }
    HOLDS(bm_session_batch_with_origins(lent, lines, numbers, of, origins) == refusal);
    HOLDS(bm_session_change(lent, NULL, 0, lines, numbers, of, origins) == refusal);
    bm_changed changed = bm_session_change_origin(lent, 9, 9, lines, numbers, of, origins);
    HOLDS(changed.refusal == refusal && changed.withdrawn == 0);
    HOLDS(is_same(lent, session));
}

static void refused_batches(void) {
    static float many[4 * 257];
    const float bad_number[4] = {NAN, 0, 1, 0}, bad_direction[8] = {0, 1, 1, 0, 0, 0, 1, 1};
    const uint32_t origins[6] = {0};
    bm_session session = of_a_and_b(0);
    for (size_t i = 0; i < 257; i++) memcpy(many + 4 * i, line_a, 16);
    refused_batch(&session, line_a, 3, NULL, 0, BM_REFUSED_AMOUNT);
    refused_batch(&session, line_a, 4, origins, 1, BM_REFUSED_AMOUNT);
    refused_batch(&session, line_a, 4, origins, 4, BM_REFUSED_AMOUNT);
    refused_batch(&session, NULL, 0, origins, 3, BM_REFUSED_AMOUNT);
    refused_batch(&session, many, 4 * 257, origins, 1, BM_REFUSED_AMOUNT);
    refused_batch(&session, many, 4 * 255, NULL, 0, BM_REFUSED_COUNT);
    refused_batch(&session, bad_number, 4, NULL, 0, BM_REFUSED_NUMBER);
    refused_batch(&session, bad_direction, 8, origins, 6, BM_REFUSED_DIRECTION);
    HOLDS(bm_session_batch(&session, many, 4 * 254) == BM_FINE && bm_session_count(&session) == 256);
    refused_batch(&session, line_a, 4, NULL, 0, BM_REFUSED_COUNT);
}

static void refused_indices(void) {
    const size_t cases[][2] = {{2, 2}, {1, 0}, {0, 0}, {0, 2}, {SIZE_MAX, SIZE_MAX}};
    bm_session session = of_a_and_b(1), *lent = lend_session(&session);
    for (size_t i = 0; i < sizeof cases / sizeof *cases; i++)
        HOLDS(bm_session_change(lent, lend(cases[i], 16), 2, line_a, 4, NULL, 0) == BM_REFUSED_INDEX);
    HOLDS(bm_session_withdraw(lent, 2) == BM_REFUSED_INDEX);
    HOLDS(bm_session_withdraw(lent, SIZE_MAX) == BM_REFUSED_INDEX);
    /* The indices are judged before the batch; a batch that is refused takes nothing back. */
    HOLDS(bm_session_change(lent, lend(cases[0], 8), 1, line_a, 3, NULL, 0) == BM_REFUSED_INDEX);
    HOLDS(bm_session_change(lent, lend(cases[2], 8), 1, line_a, 3, NULL, 0) == BM_REFUSED_AMOUNT);
    bm_changed changed = bm_session_change_origin(lent, BM_ORIGIN_EDGE, 3, line_a, 3, NULL, 0);
    HOLDS(changed.refusal == BM_REFUSED_AMOUNT && changed.withdrawn == 0);
    HOLDS(is_same(lent, &session));
}

static void refused_starts(void) {
    bm_session session, *lent;
    memset(&session, 0xA5, sizeof session);
    lent = lend_session(&session);
    HOLDS(bm_session_start(lent, NAN, 0, 2, 0) == BM_REFUSED_NUMBER);
    HOLDS(bm_session_start(lent, 0, 65537, 2, 0) == BM_REFUSED_NUMBER);
    HOLDS(bm_session_start(lent, 0, 0, -1, 0) == BM_REFUSED_NUMBER);
    HOLDS(bm_session_start(lent, 0, 0, INFINITY, SIZE_MAX) == BM_REFUSED_NUMBER);
    HOLDS(is_same(lent, &session));
}

void session_cases(void) {
    p7_in_two_batches();
    fields();
    withdrawals();
    changes();
    unmet_lines();
    refused_starts();
    refused_batches();
    refused_indices();
}

/* ---- memory that no call has made */

/* A count over 256 gets 4 from every call, before anything else is looked at. */
static void too_many_lines(const bm_session *session) {
    const size_t index = 0;
    bm_session *lent = lend_session(session);
    refused_batch(session, line_a, 4, NULL, 0, BM_REFUSED_COUNT);
    refused_batch(session, line_a, 3, wall_3, 1, BM_REFUSED_COUNT);
    HOLDS(bm_session_withdraw(lent, 0) == BM_REFUSED_COUNT);
    HOLDS(bm_session_change(lent, lend(&index, 8), 1, NULL, 0, NULL, 0) == BM_REFUSED_COUNT);
    HOLDS(is_same(lent, session));
}

static void forged_phase(void) {
    bm_session session = of_a_and_b(0);
    session.words[2] = 7;
    session.words[3] = SIZE_MAX;
    session.words[4] = SIZE_MAX;
    session.words[7] = SIZE_MAX;
    HOLDS(bm_session_phase(&session) == BM_RIGID_FAILURE && bm_session_rigid_line(&session) == SIZE_MAX);
    HOLDS(bm_session_cause(&session) == BM_CAUSE_CROSSING && bm_session_probes(&session) == 0xffffffff);
    HOLDS(bm_session_penetration(&session) == 0);
    HOLDS(bm_session_first_unmet(&session, line_a, 4).refusal == BM_FINE);
    HOLDS(bm_session_batch(&session, line_a, 4) == BM_FINE);
    HOLDS(bm_session_phase(&session) == BM_RIGID_FAILURE && session.words[2] == BM_RIGID_FAILURE);
    HOLDS(bm_session_count(&session) == 3 && bm_session_rigid_line(&session) == SIZE_MAX);
    HOLDS(bm_session_withdraw(&session, 2) == BM_FINE);
    bm_session honest = of_a_and_b(0);
    HOLDS(is_same(&session, &honest));
}

static uint64_t drawn(void) {
    static uint64_t state = 0x626F6C74;
    state ^= state << 13;
    state ^= state >> 7;
    state ^= state << 17;
    return state;
}

/* Memory as it is drawn, its count within what a session holds as a rule. */
static bm_session drawn_session(void) {
    union {
        bm_session session;
        uint64_t words[sizeof(bm_session) / 8];
    } drawn_one;
    for (size_t i = 0; i < sizeof drawn_one.words / sizeof *drawn_one.words; i++) drawn_one.words[i] = drawn();
    if (drawn() % 8 > 0) drawn_one.session.words[0] = drawn() % 258;
    if (drawn() % 2 > 0) drawn_one.session.words[2] = drawn() % 3;
    if (drawn() % 2 > 0) drawn_one.session.numbers[2] = 2;
    return drawn_one.session;
}

/* One of the calls, drawn. */
static uint32_t called(bm_session *session, size_t index) {
    switch (drawn() % 5) {
    case 0: return bm_session_batch(session, line_a, 4);
    case 1: return bm_session_batch_with_origins(session, line_b, 4, wall_3, 3);
    case 2: return bm_session_withdraw(session, index);
    case 3: return bm_session_change(session, &index, 1, line_zero, 4, NULL, 0);
    default:
        return bm_session_change_origin(session, session->origins[0], session->origins[1], line_a, 4, NULL, 0).refusal;
    }
}

/* Whatever the memory, there is an answer; and beside a refusal it is as it was. */
static void drawn_memory(void) {
    for (unsigned turn = 0; turn < 2000; turn++) {
        bm_session session = drawn_session(), before = session;
        uint32_t refusal = called(&session, drawn() % 4);
        HOLDS(refusal <= BM_REFUSED_INDEX);
        HOLDS(refusal == BM_FINE || is_same(&session, &before));
        HOLDS(before.words[0] <= BM_MOST_LINES || refusal == BM_REFUSED_COUNT);
    }
}

void forged_cases(void) {
    bm_session session, zero;
    memset(&session, 0xFF, sizeof session);
    too_many_lines(&session);
    HOLDS(bm_session_phase(&session) == BM_RIGID_FAILURE && bm_session_line(&session, 256) == NULL);
    memset(&zero, 0, sizeof zero);
    HOLDS(bm_session_start(&session, 0, 0, 0, 0) == BM_FINE && is_same(&session, &zero));
    HOLDS(bm_session_batch(&zero, line_zero, 4) == BM_FINE && bm_session_batch(&session, line_zero, 4) == BM_FINE);
    HOLDS(is_same(&session, &zero));
    session = of_a_and_b(0);
    session.words[0] = 257;
    too_many_lines(&session);
    HOLDS(bm_session_line(&session, 255) != NULL && bm_session_line(&session, 256) == NULL);
    forged_phase();
    drawn_memory();
}

/* ---- NULL, wherever a length is 0 */

void null_cases(void) {
    bm_cart cart = {0, 0, 0, 0, 0, 1, 0, 0, 0};
    bm_session session;
    HOLDS(bm_answer_record(NULL, 0, NULL, 0).refusal == BM_REFUSED_BUFFER);
    HOLDS(bm_answer_record(NULL, 0, lend_buffer(18), 18).refusal == BM_REFUSED_AMOUNT);
    HOLDS(bm_read_scene(NULL, 0).refusal == BM_REFUSED_AMOUNT);
    HOLDS(bm_write_scene(cart, 0, NULL, 0, NULL, 0, NULL, 0, 0, NULL, 0, NULL, 0).refusal == BM_REFUSED_BUFFER);
    HOLDS(bm_write_scene(cart, 0, NULL, 0, NULL, 0, NULL, 0, 0, NULL, 0, lend_buffer(41), 41).length == 41);
    HOLDS(bm_to_version_2(NULL, 0, NULL, 0).refusal == BM_REFUSED_AMOUNT);
    HOLDS(bm_to_version_1(NULL, 0, NULL, 0).refusal == BM_REFUSED_AMOUNT);
    HOLDS(bm_solve_list(NULL, 0, 0, 3, 4, 5).y == 4);
    HOLDS(bm_check_move(0, 0, 1, 1, 0, NULL, 0, NULL, 0, NULL, 0).refusal == BM_FINE);
    HOLDS(bm_obstacle_lines(0, 0, 0, 0, 0, 1, BM_CLOSED, 0, NULL, 0).refusal == BM_FINE);
    HOLDS(bm_read_answer(NULL, 0).refusal == BM_REFUSED_AMOUNT);
    HOLDS(bm_tally_log(NULL, 0).refusal == BM_FINE);
    HOLDS(bm_build_index(NULL, 0, NULL, 0).refusal == BM_REFUSED_BUFFER);
    HOLDS(bm_count_fallbacks(NULL, 0, NULL, 0, 0, 0).refusal == BM_REFUSED_AMOUNT);
    HOLDS(bm_append_record(NULL, 0, NULL, 0, 0, NULL, 0).refusal == BM_REFUSED_AMOUNT);
    HOLDS(bm_session_start(&session, 0, 0, 2, 0) == BM_FINE);
    HOLDS(bm_session_batch(&session, NULL, 0) == BM_FINE);
    HOLDS(bm_session_batch_with_origins(&session, NULL, 0, NULL, 0) == BM_FINE);
    HOLDS(bm_session_change(&session, NULL, 0, NULL, 0, NULL, 0) == BM_FINE);
    HOLDS(bm_session_change_origin(&session, 0, 0, NULL, 0, NULL, 0).refusal == BM_FINE);
    HOLDS(bm_session_first_unmet(&session, NULL, 0).found == 0 && bm_session_count(&session) == 0);
}
