/* Parses Ethernet II frames by hand, stores the offsets of their layers, and sums fields of all layers:
   walk FILE ROUNDS. The file contains frames, each with its length in four bytes, little endian, then its bytes. */
#include <stdint.h>
#include <stdio.h>
#include <stdlib.h>
#include <string.h>
#include <time.h>

struct packet {
    uint32_t exts[3], n_exts, net, transport, payload, payload_len;
    uint16_t ether_type;
    uint8_t net_kind, transport_kind;
};

static uint32_t get16(const uint8_t *at) { return (uint32_t)at[0] << 8 | at[1]; }

__attribute__((noinline))
int walk(struct packet *p, const uint8_t *b, uint32_t len) {
    if (len < 14) return -1;
    uint32_t at = 14, end = len, type = get16(b + 12);
    p->n_exts = 0; p->net_kind = 0; p->transport_kind = 0;
    p->ether_type = type;
    while (p->n_exts < 3 && (type == 0x8100 || type == 0x88a8 || type == 0x9100)) {
        if (end - at < 4) return -1;
        p->exts[p->n_exts++] = at;
        type = get16(b + at + 2);
        at += 4;
    }
    uint32_t number;
    if (type == 0x0800) {
        if (end - at < 20) return -1;
        if (b[at] >> 4 != 4) return -1;
        uint32_t header = (b[at] & 15) * 4u, total = get16(b + at + 2);
        if (header < 20 || end - at < header || total < header || end - at < total) return -1;
        p->net = at; p->net_kind = 4;
        number = b[at + 9];
        int fragment = get16(b + at + 6) & 0x3fff;
        end = at + total;
        at += header;
        if (number == 51) {
            if (end - at < 12) return -1;
            uint32_t ext = (b[at + 1] + 2u) * 4u;
            if (b[at + 1] == 0 || end - at < ext) return -1;
            number = b[at];
            at += ext;
        }
        if (fragment) number = 256;
    } else if (type == 0x86dd) {
        if (end - at < 40 || b[at] >> 4 != 6) return -1;
        uint32_t content = get16(b + at + 4);
        if (content && end - at - 40 < content) return -1;
        p->net = at; p->net_kind = 6;
        number = b[at + 6];
        if (content) end = at + 40 + content;
        at += 40;
        int fragment = 0, first = 1;
        for (;;) {
            uint32_t ext;
            if (number == 0 && !first) return -1;
            if (number == 0 || number == 43 || number == 60) {
                if (end - at < 8) return -1;
                ext = (b[at + 1] + 1u) * 8u;
            } else if (number == 44) {
                if (end - at < 8) return -1;
                ext = 8;
                if (get16(b + at + 2) & 0xfff9) fragment = 1;
            } else if (number == 51) {
                if (end - at < 12 || b[at + 1] == 0) return -1;
                ext = (b[at + 1] + 2u) * 4u;
            } else break;
            if (end - at < ext) return -1;
            number = b[at];
            at += ext;
            first = 0;
        }
        if (fragment) number = 256;
    } else if (type == 0x0806) {
        if (end - at < 8) return -1;
        uint32_t size = 8 + 2u * b[at + 4] + 2u * b[at + 5];
        if (end - at < size) return -1;
        p->net = at; p->net_kind = 1;
        p->payload = at + size; p->payload_len = 0;
        return 0;
    } else {
        p->payload = at; p->payload_len = end - at;
        return 0;
    }
    p->transport = at;
    if (number == 17) {
        if (end - at < 8) return -1;
        uint32_t size = get16(b + at + 4);
        if (size) { if (size < 8 || end - at < size) return -1; end = at + size; }
        p->transport_kind = 17;
        at += 8;
    } else if (number == 6) {
        if (end - at < 20) return -1;
        uint32_t size = (b[at + 12] >> 4) * 4u;
        if (size < 20 || end - at < size) return -1;
        p->transport_kind = 6;
        at += size;
    } else if (number == 1 || number == 58) {
        if (end - at < 8) return -1;
        p->transport_kind = number;
        at += 8;
    }
    p->payload = at;
    p->payload_len = end - at;
    return 0;
}

static uint64_t sum(const struct packet *p, const uint8_t *b) {
    uint64_t s = p->ether_type + p->payload_len;
    if (p->net_kind == 4) s += b[p->net + 9] + get16(b + p->net + 2);
    else if (p->net_kind == 6) s += b[p->net + 6] + get16(b + p->net + 4);
    if (p->transport_kind == 17 || p->transport_kind == 6) s += get16(b + p->transport) + get16(b + p->transport + 2);
    return s;
}

int main(int argc, char **argv) {
    if (argc < 3) return fprintf(stderr, "usage: walk FILE ROUNDS\n"), 2;
    FILE *f = fopen(argv[1], "rb");
    if (!f) return 1;
    long rounds = atol(argv[2]);
    fseek(f, 0, SEEK_END); long size = ftell(f); rewind(f);
    uint8_t *all = malloc(size);
    if (fread(all, 1, size, f) != (size_t)size) return 1;
    long n = 0;
    for (long at = 0; at < size; n++) at += 4 + (all[at] | all[at + 1] << 8 | all[at + 2] << 16 | (long)all[at + 3] << 24);
    const uint8_t **frames = malloc(n * sizeof *frames); uint32_t *lens = malloc(n * sizeof *lens);
    n = 0;
    for (long at = 0; at < size; n++) {
        lens[n] = all[at] | all[at + 1] << 8 | all[at + 2] << 16 | (uint32_t)all[at + 3] << 24;
        frames[n] = all + at + 4; at += 4 + lens[n];
    }
    struct packet p; uint64_t total = 0;
    struct timespec a, z;
    clock_gettime(CLOCK_PROCESS_CPUTIME_ID, &a);
    for (long r = 0; r < rounds; r++) {
        total = 0;
        for (long i = 0; i < n; i++) if (walk(&p, frames[i], lens[i]) == 0) total += sum(&p, frames[i]);
    }
    clock_gettime(CLOCK_PROCESS_CPUTIME_ID, &z);
    printf("%ld frames, %.1f ns a frame, sum %llu\n", n, ((z.tv_sec - a.tv_sec) * 1e9 + (z.tv_nsec - a.tv_nsec)) / ((double)rounds * n), (unsigned long long)total);
    return 0;
}
