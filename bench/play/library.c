// vrt49_play_run as drive.c asks for it: packets in the upper half and the place reached in the lower; of a refusal, all ones and its number.
#include "vrt49.h"
uint64_t r_play_run(uint32_t *t, size_t tn, const uint32_t *w, size_t n, size_t from, uint32_t *answers, size_t an) {
    size_t packets, next;
    uint32_t refused = vrt49_play_run(t, tn, w, n, from, answers, an, &packets, &next);
    return refused ? 0xffffffff00000000 | refused : packets << 32 | next;
}
