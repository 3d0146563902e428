// Two lines that cannot both be met, as they come: c++ -I target/library examples/session.cc target/library/libboltmeadow.a
#include "boltmeadow.h"
#include <cstdio>

int main() {
    const float north[] = {0, 1, 1, 0}, south[] = {0, -1, -1, 0};
    bm_session session;
    if (bm_session_start(&session, 0, 0, 2, 0) || bm_session_batch(&session, north, 4) ||
        bm_session_batch(&session, south, 4))
        return 1;
    std::printf("phase %u, velocity (%g, %g), failed line %zu\n", bm_session_phase(&session), bm_session_x(&session),
                bm_session_y(&session), bm_session_failed_line(&session));
}
