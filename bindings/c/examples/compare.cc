/* Compares the time of this library's C interface with others that read the same frames, in one process and in turns:
 *     compare FILE ROUNDS [COLUMN]
 * FILE is a corpus of crates/slice_bench/corpora.py: frames, each with its length in four bytes (little-endian) before
 * its bytes. The walk by hand is crates/slice_bench/compare/walk.c. If installed, libtins (-DWITH_TINS -ltins) and the
 * filter of libpcap (-DWITH_PCAP -lpcap: "udp", compiled once and run over each frame) are measured too. The column
 * etherparse_fields slices a frame and then reads all fields. Prints
 * nanoseconds for each frame, of the fastest round, and their ratio to the first column, the walk. With COLUMN, a
 * printed name, only that column runs, so that its instructions can be counted. compare.py builds it and measures
 * both. */
#include "../etherparse.h"
#include <cstdio>
#include <cstdlib>
#include <cstring>
#include <ctime>
#include <vector>
#ifdef WITH_TINS
#include <tins/tins.h>
#endif
#ifdef WITH_PCAP
#include <pcap.h>
#endif

struct packet; /* of walk.c: at least 32 bytes are reserved for it */
extern "C" int walk(struct packet *p, const uint8_t *bytes, uint32_t len);

struct frame {
    const uint8_t *bytes;
    uint32_t len;
};

static uint64_t by_etherparse(const std::vector<frame> &frames) {
    uint64_t sum = 0;
    for (const frame &f : frames) {
        struct etherparse_packet packet;
        if (etherparse_slice(ETHERPARSE_ENTRY_ETHERNET, 0, f.bytes, f.len, &packet) == ETHERPARSE_OK)
            sum += packet.payload.offset;
    }
    return sum;
}

static uint64_t by_etherparse_laxly(const std::vector<frame> &frames) {
    uint64_t sum = 0;
    for (const frame &f : frames) {
        struct etherparse_packet packet;
        if (etherparse_slice_lax(ETHERPARSE_ENTRY_ETHERNET, 0, f.bytes, f.len, &packet) == ETHERPARSE_OK)
            sum += packet.payload.offset;
    }
    return sum;
}

static uint64_t by_etherparse_with_fields(const std::vector<frame> &frames) {
    uint64_t sum = 0;
    for (const frame &f : frames) {
        struct etherparse_packet packet;
        struct etherparse_fields fields;
        if (etherparse_slice(ETHERPARSE_ENTRY_ETHERNET, 0, f.bytes, f.len, &packet) == ETHERPARSE_OK &&
            etherparse_fields(&packet, f.bytes, f.len, &fields) == ETHERPARSE_OK)
            sum += fields.ip.hop_limit + fields.transport.source_port;
    }
    return sum;
}

static uint64_t by_walk(const std::vector<frame> &frames) {
    uint64_t sum = 0;
    for (const frame &f : frames) {
        alignas(8) uint32_t packet[16];
        if (walk(reinterpret_cast<struct packet *>(packet), f.bytes, f.len) == 0) sum += packet[6];
    }
    return sum;
}

#ifdef WITH_TINS
static uint64_t by_tins(const std::vector<frame> &frames) {
    uint64_t sum = 0;
    for (const frame &f : frames) {
        try {
            Tins::EthernetII packet(f.bytes, f.len);
            const Tins::RawPDU *raw = packet.find_pdu<Tins::RawPDU>();
            sum += raw ? raw->payload_size() : 0;
        } catch (const Tins::exception_base &) {
        }
    }
    return sum;
}
#endif

#ifdef WITH_PCAP
static struct bpf_program filter;
static uint64_t by_pcap(const std::vector<frame> &frames) {
    uint64_t sum = 0;
    for (const frame &f : frames) {
        struct pcap_pkthdr header = {};
        header.caplen = header.len = f.len;
        sum += pcap_offline_filter(&filter, &header, f.bytes) != 0;
    }
    return sum;
}
#endif

struct column {
    const char *name;
    uint64_t (*run)(const std::vector<frame> &);
    double fastest;
    uint64_t sum;
};

int main(int argc, char **argv) {
    if (argc != 3 && argc != 4) return fprintf(stderr, "usage: compare FILE ROUNDS [COLUMN]\n"), 2;
    FILE *file = fopen(argv[1], "rb");
    if (!file) return perror(argv[1]), 1;
    std::vector<uint8_t> all;
    static uint8_t some[1 << 16];
    for (size_t n; (n = fread(some, 1, sizeof some, file)) != 0;) all.insert(all.end(), some, some + n);
    fclose(file);
    std::vector<frame> frames;
    for (size_t at = 0; at + 4 <= all.size();) {
        uint32_t len = all[at] | all[at + 1] << 8 | all[at + 2] << 16 | static_cast<uint32_t>(all[at + 3]) << 24;
        at += 4;
        if (len > all.size() - at) return fprintf(stderr, "the corpus is cut\n"), 1;
        frames.push_back({&all[at], len});
        at += len;
    }
    std::vector<column> columns = {{"walk", by_walk, 1e300, 0},
                                   {"etherparse_slice", by_etherparse, 1e300, 0},
                                   {"etherparse_slice_lax", by_etherparse_laxly, 1e300, 0},
                                   {"etherparse_fields", by_etherparse_with_fields, 1e300, 0}};
#ifdef WITH_TINS
    columns.push_back({"libtins", by_tins, 1e300, 0});
#endif
#ifdef WITH_PCAP
    pcap_t *pcap = pcap_open_dead(DLT_EN10MB, 65535);
    if (pcap_compile(pcap, &filter, "udp", 1, PCAP_NETMASK_UNKNOWN) != 0) return pcap_perror(pcap, "udp"), 1;
    columns.push_back({"libpcap", by_pcap, 1e300, 0});
#endif
    if (argc == 4) {
        std::vector<column> chosen;
        for (const column &c : columns)
            if (strcmp(c.name, argv[3]) == 0) chosen.push_back(c);
        if (chosen.empty()) return fprintf(stderr, "compare: no column %s\n", argv[3]), 2;
        columns = chosen;
    }
    for (int round = 0, rounds = atoi(argv[2]); round < rounds; round++)
        for (column &c : columns) {
            struct timespec from, to;
            clock_gettime(CLOCK_PROCESS_CPUTIME_ID, &from);
            c.sum = c.run(frames);
            clock_gettime(CLOCK_PROCESS_CPUTIME_ID, &to);
            double ns = ((to.tv_sec - from.tv_sec) * 1e9 + (to.tv_nsec - from.tv_nsec)) / frames.size();
            if (ns < c.fastest) c.fastest = ns;
        }
    printf("%zu frames\n", frames.size());
    for (const column &c : columns)
        printf("%-20s %8.1f ns  %6.2f of the first  (sum %llu)\n", c.name, c.fastest, c.fastest / columns[0].fastest,
               static_cast<unsigned long long>(c.sum));
    return 0;
}
