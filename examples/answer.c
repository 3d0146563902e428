/* The whole example of docs/RECORDS.md in process: cc -I target/library examples/answer.c target/library/libboltmeadow.a */
#include "boltmeadow.h"
#include <stdio.h>

int main(void) {
    bm_cart cart = {.margin = 0.5f, .horizon = 1, .wish_y = 1, .limit = 2};
    uint8_t scene[BM_SCENE_1_BYTES], answer[BM_ANSWER_BYTES], kind = BM_OPEN, count = 2;
    bm_written written =
        bm_write_scene(cart, 1, &kind, 1, &count, 1, (float[]){-1, 1, 1, 1}, 4, 0, NULL, 0, scene, sizeof scene);
    bm_answer told = bm_answer_record(scene, written.length, answer, sizeof answer);
    printf("%s: outcome %u, velocity (%g, %g)\n", bm_refusal_text(told.refusal), told.outcome, told.x, told.y);
    return told.refusal != BM_FINE;
}
