// Packs packets with UHD, unpacks them with UHD again, and prints both and the packets' words, one packet to a line, in hex:
//     what packing was given | what unpacking gives | words ..
// The first two are: type sid? sid cid? cid tsi? tsi tsf? tsf trailer? trailer sob eob count header payload
// A packet that UHD does not unpack has only a dash there.
#include <uhd/transport/vrt_if_packet.hpp>
#include <arpa/inet.h>
#include <cstdio>
#include <exception>
#include <vector>

using namespace uhd::transport::vrt;

static uint32_t state = 49;
static uint32_t any() {
    state = state * 1664525 + 1013904223;
    return state ^ state >> 16;
}

static void show(const if_packet_info_t &p) {
    std::printf("%x %x %x %x %llx %x %x %x %llx %x %x %x %x %zx %zx %zx | ", unsigned(p.packet_type), p.has_sid, p.sid, p.has_cid,
                (unsigned long long)p.cid, p.has_tsi, p.tsi, p.has_tsf, (unsigned long long)p.tsf, p.has_tlr, p.tlr, p.sob, p.eob,
                p.packet_count, p.num_header_words32, p.num_payload_words32);
}

static void packet(unsigned choice, size_t payload) {
    if_packet_info_t p;
    p.packet_type = if_packet_info_t::packet_type_t(choice % 3);
    choice /= 3;
    p.has_sid = choice & 1;
    p.has_cid = choice >> 1 & 1;
    p.has_tsi = choice >> 2 & 1;
    p.has_tsf = choice >> 3 & 1;
    p.has_tlr = choice >> 4 & 1;
    p.sob = choice >> 5 & 1;
    p.eob = choice >> 6 & 1;
    p.sid = any();
    p.cid = any() % (1 << 24) * (1ull << 32) | any();
    p.tsi = any();
    p.tsf = (uint64_t)any() << 32 | any();
    p.tlr = any();
    p.packet_count = any() % 16;
    p.num_payload_words32 = payload;
    p.num_payload_bytes = payload ? 4 * payload - any() % 4 : 0;
    std::vector<uint32_t> words(payload + max_if_hdr_words32 + 1);
    if_hdr_pack_be(words.data(), p);
    for (size_t i = 0; i < payload; i++)
        words[p.num_header_words32 + i] = any();
    words.resize(p.num_packet_words32);
    show(p);
    if_packet_info_t read;
    read.num_packet_words32 = p.num_packet_words32;
    try {
        if_hdr_unpack_be(words.data(), read);
        show(read);
    } catch (const std::exception &) {
        std::printf("- | ");
    }
    for (uint32_t word : words)
        std::printf("%x ", ntohl(word));
    std::printf("\n");
}

int main() {
    const size_t payloads[] = {0, 1, 2, 3, 4, 13, 31, 64, 100, 255, 366, 1000};
    for (unsigned choice = 0; choice < 3 * 32; choice++)
        for (size_t payload : payloads)
            packet(choice, payload);
    // with start or end of burst
    for (unsigned choice = 3 * 32; choice < 3 * 128; choice++)
        packet(choice, choice % 5);
    // as long as a size can say
    for (unsigned choice = 0; choice < 3 * 32; choice += 8)
        packet(choice, 65535 - max_if_hdr_words32 - 1);
    return 0;
}
