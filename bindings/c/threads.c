/* Four threads at once, each with a session, a scene and a buffer of its own: what each finds is what one alone finds. */
#include "cases.h"
#include <pthread.h>

enum { THREADS = 4, TURNS = 500 };

/* What a thread works on and finds: the session after its last turn, the last answer, and whether all turns ended alike. */
typedef struct work {
    size_t rigid;
    bm_session session;
    uint8_t answer[BM_ANSWER_BYTES];
    int alike;
} work;

static const uint8_t example[59] = {0, 0x39, 1,    0, 0,    0,    0,    0, 0,    0,    0,    0, 0,    0,    0,
                                    0, 0,    0,    0, 0x3F, 0,    0,    0, 0x3F, 0x80, 0,    0, 0,    0,    0,
                                    0, 0x3F, 0x80, 0, 0,    0x40, 0,    0, 0,    1,    2,    2, 0xBF, 0x80, 0,
                                    0, 0x3F, 0x80, 0, 0,    0x3F, 0x80, 0, 0,    0x3F, 0x80, 0, 0,    0};

static uint32_t one_turn(work *own) {
    uint32_t refusal = bm_session_start(&own->session, 0, 0, 2, own->rigid);
    refusal |= bm_session_batch(&own->session, line_a, 4);
    refusal |= bm_session_batch(&own->session, line_b, 4);
    refusal |= bm_session_withdraw(&own->session, 0);
    refusal |= bm_session_batch(&own->session, line_a, 4);
    return refusal | bm_answer_record(example, sizeof example, own->answer, sizeof own->answer).refusal;
}

static void *all_turns(void *given) {
    work *own = given;
    bm_session first;
    own->alike = one_turn(own) == BM_FINE;
    first = own->session;
    for (unsigned turn = 1; turn < TURNS; turn++)
        own->alike &= one_turn(own) == BM_FINE && memcmp(&first, &own->session, sizeof first) == 0;
    return NULL;
}

void thread_cases(void) {
    static work together[THREADS], alone[THREADS];
    pthread_t threads[THREADS];
    for (size_t i = 0; i < THREADS; i++) {
        together[i].rigid = alone[i].rigid = i;
        HOLDS(pthread_create(&threads[i], NULL, all_turns, &together[i]) == 0);
    }
    for (size_t i = 0; i < THREADS; i++) HOLDS(pthread_join(threads[i], NULL) == 0);
    for (size_t i = 0; i < THREADS; i++) {
        all_turns(&alone[i]);
        HOLDS(together[i].alike && alone[i].alike);
        HOLDS(memcmp(&together[i].session, &alone[i].session, sizeof(bm_session)) == 0);
        HOLDS(memcmp(together[i].answer, alone[i].answer, BM_ANSWER_BYTES) == 0);
    }
}
