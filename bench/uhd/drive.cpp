// Makes packets of one kind and reads the header of each a number of times, by UHD (-DUHD) or by vrt49_read, and prints a sum
// of what was read, which is the same for both.
//     drive KIND TIMES    KIND: 1 class, 2 seconds, 4 fraction, 8 trailer, added
#include <arpa/inet.h>
#include <cstdint>
#include <cstdio>
#include <cstdlib>
#include <vector>
#ifdef UHD
#include <uhd/transport/vrt_if_packet.hpp>
using namespace uhd::transport::vrt;
#else
#include "vrt49.h"
#endif

enum { PACKETS = 1000, PAYLOAD = 366 };
static uint32_t state = 12345;
static uint32_t any() {
    state = state * 1664525 + 1013904223;
    return state ^ state >> 16;
}

// A data packet with an identifier, as UHD writes them: other time, sample count, a class of zeros.
static std::vector<uint32_t> packet(unsigned kind) {
    bool classed = kind & 1, seconds = kind & 2, fraction = kind & 4, trailed = kind & 8;
    std::vector<uint32_t> w = {0, any()};
    if (classed)
        w.insert(w.end(), {0, 0});
    if (seconds)
        w.push_back(any());
    if (fraction)
        w.insert(w.end(), {any(), any()});
    for (int i = 0; i < PAYLOAD; i++)
        w.push_back(any());
    if (trailed)
        w.push_back(0x00C00000);
    w[0] = 1u << 28 | classed << 27 | trailed << 26 | (seconds ? 3u : 0) << 22 | fraction << 20 | any() % 16 << 16 | w.size();
#ifdef BIG_ENDIAN_WORDS
    for (uint32_t &word : w)
        word = htonl(word);
#endif
    return w;
}

static uint64_t sum;
static void add(uint64_t x) { sum = sum * 31 + x; }

int main(int argc, char **argv) {
    if (argc != 3)
        return 2;
    unsigned kind = atoi(argv[1]);
    long times = atol(argv[2]);
    for (int i = 0; i < PACKETS; i++) {
        const std::vector<uint32_t> w = packet(kind);
#ifdef UHD
        if_packet_info_t p;
        p.num_packet_words32 = w.size();
        for (long k = 0; k < times; k++)
            UHD(w.data(), p);
        add(p.packet_count);
        add(p.sid);
        add(p.has_tsi ? p.tsi : 0);
        add(p.has_tsf ? p.tsf : 0);
        add(p.num_header_words32);
        add(p.num_payload_words32);
        add(p.has_tlr ? p.tlr : 0);
#else
        vrt49_packet p;
        for (long k = 0; k < times; k++)
            if (vrt49_read(w.data(), w.size(), &p))
                return 1;
        add(p.count);
        add(p.identifier);
        add(p.seconds);
        add(vrt49_fraction(&p));
        add(p.body_at);
        add(p.body_words);
        add(p.trailer);
#endif
    }
    std::printf("%016llx\n", (unsigned long long)sum);
    return 0;
}
