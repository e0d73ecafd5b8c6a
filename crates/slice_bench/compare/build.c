/* Builds frames of Ethernet II, IPv4 and UDP by hand in one buffer, with both checksums:
   build PAYLOAD_LEN FRAMES. Prints the time per frame and the sum. With BY_ETHERPARSE the library builds them, through
   its C interface. */
#include <stdint.h>
#include <stdio.h>
#include <stdlib.h>
#include <string.h>
#include <time.h>

struct headers {
    uint8_t destination[6], source[6];
    uint16_t ether_type, identification;
    uint8_t time_to_live;
    uint8_t source_address[4], destination_address[4];
    uint16_t source_port, destination_port;
};

#ifdef BY_ETHERPARSE
#include <etherparse.h>

size_t build(uint8_t *frame, const struct headers *h, const uint8_t *payload, size_t len) {
    static const struct etherparse_route route = {
        .version = 4, .with_ethernet = 1, .hop_limit = 20, .ethernet_source = {1,2,3,4,5,6},
        .ethernet_destination = {7,8,9,10,11,12}, .ipv4_source = {192,168,1,1}, .ipv4_destination = {192,168,1,2}};
    size_t written;
    if (etherparse_build_udp(&route, h->source_port, h->destination_port, payload, len, frame, 2048, &written)) exit(1);
    return written;
}
#else
static void put16(uint8_t *at, uint32_t value) { at[0] = value >> 8; at[1] = value; }

/* The sum of big-endian words; an odd last byte is padded with zero. */
static uint32_t sum16(const uint8_t *bytes, size_t len, uint32_t sum) {
    size_t i = 0;
    for (; i + 1 < len; i += 2) sum += (uint32_t)bytes[i] << 8 | bytes[i + 1];
    if (i < len) sum += (uint32_t)bytes[i] << 8;
    return sum;
}

static uint16_t fold(uint32_t sum) {
    while (sum >> 16) sum = (sum & 0xffff) + (sum >> 16);
    return ~sum;
}

__attribute__((noinline))
size_t build(uint8_t *frame, const struct headers *h, const uint8_t *payload, size_t len) {
    memcpy(frame, h->destination, 6);
    memcpy(frame + 6, h->source, 6);
    put16(frame + 12, h->ether_type);
    uint8_t *ip = frame + 14;
    ip[0] = 0x45;
    ip[1] = 0;
    put16(ip + 2, 28 + len);
    put16(ip + 4, h->identification);
    put16(ip + 6, 0x4000);
    ip[8] = h->time_to_live;
    ip[9] = 17;
    put16(ip + 10, 0);
    memcpy(ip + 12, h->source_address, 4);
    memcpy(ip + 16, h->destination_address, 4);
    put16(ip + 10, fold(sum16(ip, 20, 0)));
    uint8_t *udp = ip + 20;
    put16(udp, h->source_port);
    put16(udp + 2, h->destination_port);
    put16(udp + 4, 8 + len);
    put16(udp + 6, 0);
    memcpy(udp + 8, payload, len);
    uint16_t sum = fold(sum16(udp, 8 + len, sum16(ip + 12, 8, 17 + 8 + len)));
    put16(udp + 6, sum == 0 ? 0xffff : sum);
    return 42 + len;
}
#endif

int main(int argc, char **argv) {
    if (argc < 3) return fprintf(stderr, "usage: build PAYLOAD_LEN FRAMES\n"), 2;
    static uint8_t frame[2048], payload[2048];
    size_t len = strtoul(argv[1], 0, 10);
    uint64_t frames = strtoull(argv[2], 0, 10), total = 0;
    if (len > 1500) return 2;
    srand(1);
    for (size_t i = 0; i < len; i++) payload[i] = rand();
    struct headers h = {{7,8,9,10,11,12}, {1,2,3,4,5,6}, 0x0800, 0, 20,
                        {192,168,1,1}, {192,168,1,2}, 21, 1234};
    struct timespec a, b;
    clock_gettime(CLOCK_PROCESS_CPUTIME_ID, &a);
    for (uint64_t i = 0; i < frames; i++) {
        h.identification = i;
        size_t whole = build(frame, &h, payload, len);
        total += whole + (frame[24] << 8 | frame[25]) + (frame[40] << 8 | frame[41]);
    }
    clock_gettime(CLOCK_PROCESS_CPUTIME_ID, &b);
    double ns = (b.tv_sec - a.tv_sec) * 1e9 + (b.tv_nsec - a.tv_nsec);
    printf("%zu bytes: %.1f ns/frame, sum %llu\n", len, ns / frames, (unsigned long long)total);
    return 0;
}
