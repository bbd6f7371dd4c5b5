/* What every peer of the benchmark offers, as a shared library that bench loads (src/peers.rs): the same for C and Rust. */
#ifndef PEER_H
#define PEER_H
#include <stddef.h>
#include <stdint.h>

/* What a contender found. Contenders that did the same work on a good recording agree on all of it. */
struct found {
    uint64_t units;
    uint64_t lengths; /* bytes of all units */
    uint64_t slices;
    uint64_t fields; /* mixed from fields at the beginning, in the middle and near the end of each slice header */
    uint64_t bodies; /* bytes of all slices' unescaped bodies; 0 where the job leaves them alone */
};

/* A unit, or a run of them: where it begins and how long it is. Three bytes before a unit stands a start code. */
struct span {
    const uint8_t *bytes;
    size_t length;
};

static inline uint64_t fields_of(uint64_t first_mb_in_slice, uint64_t frame_num, int64_t slice_qp_delta)
{
    return first_mb_in_slice + 7 * frame_num + 11 * (uint64_t)(slice_qp_delta + 128);
}

/* A reader that knows the parameter sets of a recording. */
void *peer_open(const uint8_t *sets, size_t length);
#endif
