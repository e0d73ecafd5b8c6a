/* Measures the stack that each call needs. Each call runs on a thread with a stack of 16 KiB, the minimum, which is
 * filled with a pattern before; then the deepest overwritten byte is searched. The exit status is 1 if a call needs
 * more than the header states. ETHERPARSE_SHOW_STACK=1 shows the figures. */
#define _GNU_SOURCE
#include <etherparse.h>
#include <limits.h>
#include <pthread.h>
#include <stdio.h>
#include <stdlib.h>
#include <string.h>
#include <unistd.h>

enum { LEAST = 16384, PAINT = 0xa5, ROOM = 70000 };

static uint8_t payload[1024], buffer[ROOM], frame[ROOM];
static size_t written, frame_len, sliced;
static uint32_t status;
static struct etherparse_packet packet, packets[4];
static struct etherparse_pool *pool;
static struct etherparse_pool_answer answer;
static struct etherparse_tagged_route tagged = {
    .route = {.version = 4, .with_ethernet = 1, .hop_limit = 20, .ipv4_source = {10, 0, 0, 1},
              .ipv4_destination = {10, 0, 0, 2}},
    .tag_count = 2, .vlan_ids = {1, 2}};
static const struct etherparse_tcp_fields tcp = {.source_port = 80, .destination_port = 4000};
static struct etherparse_fragment_fields fragment = {.ip_number = 17, .more_fragments = 1, .identification = 7};

/* ---- the calls */

static void version(void) { status = etherparse_version(); }
static void slice(void) { status = etherparse_slice(ETHERPARSE_ENTRY_ETHERNET, 0, frame, frame_len, &packet); }
static void slice_cut(void) { status = etherparse_slice(ETHERPARSE_ENTRY_ETHERNET, 0, frame, 40, &packet); }
static void slice_lax(void) { status = etherparse_slice_lax(ETHERPARSE_ENTRY_ETHERNET, 0, frame, frame_len, &packet); }
static void slice_lax_cut(void) { status = etherparse_slice_lax(ETHERPARSE_ENTRY_ETHERNET, 0, frame, 40, &packet); }
static void slice_many(void) {
    const size_t ends[4] = {frame_len, frame_len, 2 * frame_len, 3 * frame_len};
    status = etherparse_slice_many(ETHERPARSE_ENTRY_ETHERNET, 0, frame, 3 * frame_len, ends, 4, packets, &sliced);
}
static void slice_lax_many(void) {
    const size_t ends[4] = {40, frame_len, 2 * frame_len, 2 * frame_len + 40};
    status = etherparse_slice_lax_many(ETHERPARSE_ENTRY_ETHERNET, 0, frame, 3 * frame_len, ends, 4, packets, &sliced);
}
static struct etherparse_fields read_fields;
static const uint8_t *bytes; /* bytes of `packet` */
static size_t bytes_len;
static void fields(void) { status = etherparse_fields(&packet, bytes, bytes_len, &read_fields); }
static uint32_t bytes_entry;
static void checksums(void) { status = etherparse_checksums(bytes_entry, 0, bytes, bytes_len, &read_fields); }
static void text(void) {
    status = etherparse_refusal_text(&packet.refusal, (char *)buffer, ETHERPARSE_REFUSAL_TEXT_MAX, &written);
}
static void checksum(void) { status = etherparse_checksum(payload, sizeof payload); }
static void build_udp(void) {
    status = etherparse_build_udp(&tagged.route, 21, 1234, payload, sizeof payload, buffer, ROOM, &written);
}
static void build_tcp(void) {
    status = etherparse_build_tcp(&tagged.route, &tcp, payload, sizeof payload, buffer, ROOM, &written);
}
static void build_icmp_echo(void) {
    status = etherparse_build_icmp_echo(&tagged.route, 0, 1, 2, payload, sizeof payload, buffer, ROOM, &written);
}
static void build_tagged_udp(void) {
    status = etherparse_build_tagged_udp(&tagged, 21, 1234, payload, sizeof payload, buffer, ROOM, &written);
}
static void build_tagged_tcp(void) {
    status = etherparse_build_tagged_tcp(&tagged, &tcp, payload, 12, payload, sizeof payload, buffer, ROOM, &written);
}
static void build_tagged_icmp_echo(void) {
    status = etherparse_build_tagged_icmp_echo(&tagged, 0, 1, 2, payload, sizeof payload, buffer, ROOM, &written);
}
static void build_fragment(void) {
    status = etherparse_build_fragment(&tagged, &fragment, payload, sizeof payload, buffer, ROOM, &written);
}
static void pool_new(void) { status = etherparse_pool_new(&pool); }
static void pool_with_limit(void) { status = etherparse_pool_with_limit(ETHERPARSE_MAX_PAYLOAD, &pool); }
static void pool_push(void) {
    status = etherparse_pool_push(pool, ETHERPARSE_ENTRY_ETHERNET, 0, frame, frame_len, 1, 0, buffer, 8, &answer);
}
static void pool_take(void) { status = etherparse_pool_take(pool, buffer, ROOM, &answer); }
static void pool_discard(void) { etherparse_pool_discard(pool); }
static void pool_drop_older(void) { etherparse_pool_drop_older(pool, 2); }
static void pool_streams(void) { written = etherparse_pool_streams(pool); }
static void pool_bytes(void) { written = etherparse_pool_bytes(pool); }
static void pool_free(void) { etherparse_pool_free(pool); }
static struct etherparse_bounded_pool *bounded;
static struct etherparse_defrag_limits limits;
static struct etherparse_defrag_statistics statistics;
static struct etherparse_evicted_stream evicted;
static void limits_default(void) { etherparse_defrag_limits_default(&limits); }
static void bounded_pool_new(void) {
    const uint8_t seed[16] = {0};
    limits.streams = 8;
    status = etherparse_bounded_pool_new(&limits, seed, &bounded);
}
static void bounded_pool_push(void) {
    status = etherparse_bounded_pool_push(bounded, ETHERPARSE_ENTRY_ETHERNET, 0, frame, frame_len, 1, 0, buffer, 8,
                                          &answer);
}
static void bounded_pool_take(void) { status = etherparse_bounded_pool_take(bounded, buffer, ROOM, &answer); }
static void bounded_pool_discard(void) { etherparse_bounded_pool_discard(bounded); }
static void bounded_pool_expire(void) { written = etherparse_bounded_pool_expire(bounded, 2, 0); }
static void bounded_pool_remove(void) { written = etherparse_bounded_pool_remove(bounded, &evicted.id); }
static void bounded_pool_clear(void) { etherparse_bounded_pool_clear(bounded); }
static void bounded_pool_streams(void) { written = etherparse_bounded_pool_streams(bounded); }
static void bounded_pool_discarded_streams(void) { written = etherparse_bounded_pool_discarded_streams(bounded); }
static void bounded_pool_held_bytes(void) { written = etherparse_bounded_pool_held_bytes(bounded); }
static void bounded_pool_limits(void) { etherparse_bounded_pool_limits(bounded, &limits); }
static void bounded_pool_statistics(void) { etherparse_bounded_pool_statistics(bounded, &statistics); }
static void bounded_pool_evicted_count(void) { written = etherparse_bounded_pool_evicted_count(bounded); }
static void bounded_pool_evicted(void) { status = etherparse_bounded_pool_evicted(bounded, 0, &evicted); }
static void bounded_pool_free(void) { etherparse_bounded_pool_free(bounded); }
static struct etherparse_filter *filter;
static struct etherparse_filter_error error;
static uint8_t matches[4];
static const char *expression;
static void filter_new(void) { status = etherparse_filter_new(expression, strlen(expression), &filter, &error); }
static void filter_matches(void) {
    status = etherparse_filter_matches(filter, ETHERPARSE_ENTRY_ETHERNET, 0, frame, frame_len, 99, matches);
}
static void filter_matches_many(void) {
    const size_t ends[4] = {40, frame_len, 2 * frame_len, 2 * frame_len + 40};
    status = etherparse_filter_matches_many(filter, ETHERPARSE_ENTRY_ETHERNET, 0, frame, 3 * frame_len, ends, 4, NULL,
                                            matches, &sliced);
}
static void filter_text(void) { status = etherparse_filter_text(filter, (char *)buffer, ROOM, &written); }
static void filter_error_text(void) {
    status = etherparse_filter_error_text(error.kind, (char *)buffer, ETHERPARSE_REASON_TEXT_MAX, &written);
}
static void filter_free(void) { etherparse_filter_free(filter); }

/* ---- a call on a painted stack */

enum { OWN = 128 }; /* the calling function uses at most this many bytes below its frame */

struct painted {
    void (*call)(void);
    uint8_t *stack;
    size_t taken;
};

/* Fills the stack below its own frame with the pattern, makes the call, and searches the deepest overwritten byte: in
 * the thread itself, since starting and ending a thread need stack too. */
static void *run(void *argument) {
    struct painted *painted = argument;
    uint8_t *const top = __builtin_frame_address(0);
    volatile uint8_t *at = painted->stack;
    while (at < top - OWN) *at++ = PAINT;
    painted->call();
    at = painted->stack;
    while (at < top - OWN && *at == PAINT) at++;
    painted->taken = (size_t)(top - at);
    return NULL;
}

/* Returns the number of bytes that the call needs of a stack of `len` bytes, with the frame of its caller. */
static size_t needed_by(void (*call)(void), size_t len) {
    static uint8_t *stack;
    if (!stack && posix_memalign((void **)&stack, (size_t)sysconf(_SC_PAGESIZE), 1 << 17)) exit(2);
    struct painted painted = {call, stack, 0};
    pthread_attr_t attributes;
    pthread_t thread;
    if (pthread_attr_init(&attributes) || pthread_attr_setstack(&attributes, stack, len)
        || pthread_create(&thread, &attributes, run, &painted) || pthread_join(thread, NULL))
        exit(2);
    pthread_attr_destroy(&attributes);
    return painted.taken;
}

static int failed;

/* Checks that a call returns this status and needs at most `most` bytes. */
static void needs(const char *name, void (*call)(void), uint32_t wanted, size_t most, size_t len) {
    status = wanted;
    size_t taken = needed_by(call, len);
    if (getenv("ETHERPARSE_SHOW_STACK")) fprintf(stderr, "%-24s %6zu\n", name, taken);
    if (status != wanted) printf("%s: status %u\n", name, (unsigned)status), failed = 1;
    if (taken > most) printf("%s: %zu bytes of stack, above %zu\n", name, taken, most), failed = 1;
}
#define NEEDS(call, wanted) needs(#call, call, wanted, ETHERPARSE_STACK, LEAST)
#define HELD_NEEDS(call, wanted) needs(#call, call, wanted, ETHERPARSE_STACK_OF_POOLS, LEAST)

/* Builds the frame that is pushed next: the fragment with these bytes. */
static void cut(size_t from, size_t to, uint8_t more) {
    fragment.fragment_offset = (uint16_t)from, fragment.more_fragments = more;
    if (etherparse_build_fragment(&tagged, &fragment, payload, to - from, frame, sizeof frame, &frame_len)) exit(2);
}

/* Measures the checksums and fields of a packet, and then the fields of its description with too few bytes. */
static void fields_of(uint32_t entry, const uint8_t *frame, size_t len) {
    bytes = frame, bytes_len = len, bytes_entry = entry;
    NEEDS(checksums, ETHERPARSE_OK);
    if (etherparse_slice_lax(entry, 0, bytes, bytes_len, &packet)) exit(2);
    NEEDS(fields, ETHERPARSE_OK);
    bytes_len = 13;
    NEEDS(fields, ETHERPARSE_UNKNOWN_CHOICE);
}

/* Measures the fields of a packet of each kind. */
static void fields_of_each(void) {
    static const uint8_t arp[42] = {[12] = 8, 6, 0, 1, 8, 0, 6, 4, 0, 1};
    static const uint8_t cooked[44] = {[3] = 1, [14] = 8, 6, 0, 1, 8, 0, 6, 4, 0, 1};
    static const uint8_t macsec[30] = {[12] = 0x88, 0xe5, 0x20, [28] = 0x12, 0x34};
    static uint8_t built[200];
    size_t len;
    fields_of(ETHERPARSE_ENTRY_ETHERNET, frame, frame_len);
    fields_of(ETHERPARSE_ENTRY_ETHERNET, frame, tagged.route.version == 4 ? 46 : 66); /* with ports alone */
    fields_of(ETHERPARSE_ENTRY_ETHERNET, arp, sizeof arp);
    fields_of(ETHERPARSE_ENTRY_LINUX_SLL, cooked, sizeof cooked);
    fields_of(ETHERPARSE_ENTRY_ETHERNET, macsec, sizeof macsec);
    if (etherparse_build_tagged_tcp(&tagged, &tcp, payload, 12, payload, 9, built, sizeof built, &len)) exit(2);
    fields_of(ETHERPARSE_ENTRY_ETHERNET, built, len);
    if (etherparse_build_tagged_icmp_echo(&tagged, 0, 1, 2, payload, 9, built, sizeof built, &len)) exit(2);
    fields_of(ETHERPARSE_ENTRY_ETHERNET, built, len);
}

int main(void) {
    for (uint8_t number = 4; number <= 6; number = (uint8_t)(number + 2)) {
        tagged.route.version = number;
        if (etherparse_build_tagged_udp(&tagged, 21, 1234, payload, sizeof payload, frame, sizeof frame, &frame_len))
            return 2;
        memcpy(frame + frame_len, frame, frame_len), memcpy(frame + 2 * frame_len, frame, frame_len);
        NEEDS(version, ETHERPARSE_VERSION);
        fields_of_each();
        NEEDS(slice, ETHERPARSE_OK);
        NEEDS(slice_lax, ETHERPARSE_OK);
        NEEDS(slice_lax_cut, ETHERPARSE_OK);
        NEEDS(slice_many, ETHERPARSE_OK);
        NEEDS(slice_lax_many, ETHERPARSE_OK);
        NEEDS(slice_cut, ETHERPARSE_REFUSED);
        NEEDS(text, ETHERPARSE_OK);
        expression = "((ip6 and tcp[13] & 7 != 0) or (not (vlan 7 or ether host 2:0:0:0:0:1) and udp port 21 or https"
                     " or 7)) and net 10 or host 2001:db8::1 and arp[0:4] = 0x10800 or portrange 5-9 and not greater 7";
        HELD_NEEDS(filter_new, ETHERPARSE_OK);
        HELD_NEEDS(filter_matches, ETHERPARSE_OK);
        HELD_NEEDS(filter_matches_many, ETHERPARSE_OK);
        HELD_NEEDS(filter_text, ETHERPARSE_OK);
        HELD_NEEDS(filter_free, ETHERPARSE_OK);
        expression = "net 10.0.0.0 mask 255.0.255.0";
        HELD_NEEDS(filter_new, ETHERPARSE_REFUSED);
        NEEDS(filter_error_text, ETHERPARSE_OK);
        needs("checksum", checksum, 0xffff, ETHERPARSE_STACK, LEAST);
        NEEDS(build_udp, ETHERPARSE_OK);
        NEEDS(build_tcp, ETHERPARSE_OK);
        NEEDS(build_icmp_echo, ETHERPARSE_OK);
        NEEDS(build_tagged_udp, ETHERPARSE_OK);
        NEEDS(build_tagged_tcp, ETHERPARSE_OK);
        NEEDS(build_tagged_icmp_echo, ETHERPARSE_OK);
        needs("build_fragment", build_fragment, ETHERPARSE_OK, ETHERPARSE_STACK_OF_FRAGMENTS, 1 << 17);
        HELD_NEEDS(pool_new, ETHERPARSE_OK);
        HELD_NEEDS(pool_free, ETHERPARSE_OK);
        HELD_NEEDS(pool_with_limit, ETHERPARSE_OK);
        cut(16, 32, 1);
        HELD_NEEDS(pool_push, ETHERPARSE_OK);
        cut(32, 40, 0);
        HELD_NEEDS(pool_push, ETHERPARSE_OK);
        HELD_NEEDS(pool_streams, ETHERPARSE_OK);
        HELD_NEEDS(pool_bytes, ETHERPARSE_OK);
        cut(0, 16, 1);
        HELD_NEEDS(pool_push, ETHERPARSE_TOO_SMALL);
        HELD_NEEDS(pool_push, ETHERPARSE_PAYLOAD_WAITS);
        HELD_NEEDS(pool_take, ETHERPARSE_COMPLETE);
        for (size_t i = 0; i < 64; i++) { /* growing tables */
            fragment.identification = (uint32_t)(100 + i);
            cut(8, 16, 1);
            HELD_NEEDS(pool_push, ETHERPARSE_OK);
        }
        cut(24, 32, 0), status = etherparse_pool_push(pool, 0, 0, frame, frame_len, 1, 0, buffer, 8, &answer);
        cut(16, 24, 1), status = etherparse_pool_push(pool, 0, 0, frame, frame_len, 1, 0, buffer, 8, &answer);
        cut(0, 8, 1);
        HELD_NEEDS(pool_push, ETHERPARSE_TOO_SMALL);
        HELD_NEEDS(pool_discard, ETHERPARSE_OK);
        for (size_t at = 8; at < 96; at += 16) { /* parts with gaps between them, four of which are then connected */
            cut(at, at + 8, 1);
            HELD_NEEDS(pool_push, ETHERPARSE_OK);
        }
        cut(16, 56, 1);
        HELD_NEEDS(pool_push, ETHERPARSE_OK);
        HELD_NEEDS(pool_drop_older, ETHERPARSE_OK);
        HELD_NEEDS(pool_free, ETHERPARSE_OK);
        fragment.identification = 7;
        NEEDS(limits_default, ETHERPARSE_OK);
        HELD_NEEDS(bounded_pool_new, ETHERPARSE_OK);
        cut(16, 32, 1);
        HELD_NEEDS(bounded_pool_push, ETHERPARSE_OK);
        cut(32, 40, 0);
        HELD_NEEDS(bounded_pool_push, ETHERPARSE_OK);
        cut(0, 16, 1);
        HELD_NEEDS(bounded_pool_push, ETHERPARSE_TOO_SMALL);
        HELD_NEEDS(bounded_pool_push, ETHERPARSE_PAYLOAD_WAITS);
        HELD_NEEDS(bounded_pool_take, ETHERPARSE_COMPLETE);
        for (size_t i = 0; i < 64; i++) { /* growing tables, and evictions */
            fragment.identification = (uint32_t)(100 + i);
            cut(8, 16, 1);
            HELD_NEEDS(bounded_pool_push, ETHERPARSE_OK);
        }
        HELD_NEEDS(bounded_pool_evicted_count, ETHERPARSE_OK);
        HELD_NEEDS(bounded_pool_evicted, ETHERPARSE_OK);
        cut(8, 24, 1); /* covers bytes that came and others, so the stream is discarded */
        HELD_NEEDS(bounded_pool_push, ETHERPARSE_DISCARDED);
        HELD_NEEDS(bounded_pool_evicted, ETHERPARSE_OK);
        HELD_NEEDS(bounded_pool_streams, ETHERPARSE_OK);
        HELD_NEEDS(bounded_pool_discarded_streams, ETHERPARSE_OK);
        HELD_NEEDS(bounded_pool_held_bytes, ETHERPARSE_OK);
        HELD_NEEDS(bounded_pool_limits, ETHERPARSE_OK);
        HELD_NEEDS(bounded_pool_statistics, ETHERPARSE_OK);
        HELD_NEEDS(bounded_pool_remove, ETHERPARSE_OK); /* the discarded one, and then none */
        HELD_NEEDS(bounded_pool_remove, ETHERPARSE_OK);
        evicted.id.version = 0;
        HELD_NEEDS(bounded_pool_remove, ETHERPARSE_OK);
        HELD_NEEDS(bounded_pool_expire, ETHERPARSE_OK);
        fragment.identification = 7;
        cut(8, 16, 1);
        HELD_NEEDS(bounded_pool_push, ETHERPARSE_OK);
        HELD_NEEDS(bounded_pool_clear, ETHERPARSE_OK);
        HELD_NEEDS(bounded_pool_discard, ETHERPARSE_OK);
        HELD_NEEDS(bounded_pool_free, ETHERPARSE_OK);
        for (limits.overlap = 0; limits.overlap < ETHERPARSE_OVERLAP_DISCARD; limits.overlap++) {
            HELD_NEEDS(bounded_pool_new, ETHERPARSE_OK);
            for (size_t at = 8; at < 96; at += 16) {
                cut(at, at + 8, 1);
                HELD_NEEDS(bounded_pool_push, ETHERPARSE_OK);
            }
            cut(16, 56, 1);
            HELD_NEEDS(bounded_pool_push, ETHERPARSE_OK);
            HELD_NEEDS(bounded_pool_free, ETHERPARSE_OK);
        }
    }
    if (!failed)
        printf("stack: each call on a thread of %d bytes needs at most %d, on a pool or filter at most %d, "
               "and building a fragment at most %d\n",
               LEAST, ETHERPARSE_STACK, ETHERPARSE_STACK_OF_POOLS, ETHERPARSE_STACK_OF_FRAGMENTS);
    return failed;
}
