// Matches a filter against frames with the interpreter of libpcap: bpf FILE EXPRESSION [ROUNDS]
//
// FILE is a file of slice_bench: frames, each with its length in four bytes, little endian, and then its bytes. The
// filter is compiled once, with libpcap's optimiser, for Ethernet II. Like slice_bench, bpf matches it against the first
// 1,000 frames in one round without a clock and then in ROUNDS rounds, and prints how many frames match, the mean time
// for each frame, and the number of instructions of the filter. Build: gcc -O2 bpf.c -o bpf -lpcap
#include <pcap/pcap.h>
#include <stdint.h>
#include <stdio.h>
#include <stdlib.h>
#include <time.h>

enum { MOST_FRAMES = 1000, MOST_BYTES = 1 << 26, SNAP_LEN = 262144 };

static unsigned char bytes[MOST_BYTES];
static const unsigned char *frames[MOST_FRAMES];
static uint32_t lens[MOST_FRAMES];

static uint32_t length_at(const unsigned char *at) {
    return at[0] | (uint32_t)at[1] << 8 | (uint32_t)at[2] << 16 | (uint32_t)at[3] << 24;
}

// Reads the first frames of the file, and returns their number.
static size_t read_frames(const char *path) {
    FILE *file = fopen(path, "rb");
    if (!file) return 0;
    size_t len = fread(bytes, 1, sizeof bytes, file), count = 0, at = 0;
    fclose(file);
    while (count < MOST_FRAMES && len - at >= 4 && len - at - 4 >= length_at(bytes + at)) {
        lens[count] = length_at(bytes + at);
        frames[count] = bytes + at + 4;
        at += 4 + lens[count++];
    }
    return count;
}

// Returns the number of frames that match.
static size_t matched(const struct bpf_program *filter, size_t count) {
    size_t found = 0;
    for (size_t i = 0; i < count; i++) found += bpf_filter(filter->bf_insns, frames[i], lens[i], lens[i]) != 0;
    return found;
}

int main(int argc, char **argv) {
    if (argc < 3) {
        fputs("usage: bpf FILE EXPRESSION [ROUNDS]\n", stderr);
        return 2;
    }
    long rounds = argc > 3 ? atol(argv[3]) : 1000;
    size_t count = read_frames(argv[1]);
    pcap_t *handle = pcap_open_dead(DLT_EN10MB, SNAP_LEN);
    struct bpf_program filter;
    if (rounds < 1 || !count || !handle || pcap_compile(handle, &filter, argv[2], 1, PCAP_NETMASK_UNKNOWN)) {
        fprintf(stderr, "bpf: %s\n", count && handle ? pcap_geterr(handle) : "no frames");
        return 1;
    }
    size_t found = matched(&filter, count);
    struct timespec start, end;
    clock_gettime(CLOCK_MONOTONIC, &start);
    for (long round = 0; round < rounds; round++)
        if (matched(&filter, count) != found) return 1;
    clock_gettime(CLOCK_MONOTONIC, &end);
    double nanos = (end.tv_sec - start.tv_sec) * 1e9 + (end.tv_nsec - start.tv_nsec);
    printf("%zu of %zu frames, %.1f ns, %u instructions\n", found, count, nanos / rounds / count, filter.bf_len);
    return 0;
}
