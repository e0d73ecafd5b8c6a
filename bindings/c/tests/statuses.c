/* Makes each call return each of its statuses, and checks the buffer, the stored number and the memory. The allocator
 * is this program's own, in place of etherparse_heap.c: it counts the allocated blocks, and fails one request. Prints
 * the properties that hold; the exit status is 1 if one does not. */
#include <etherparse.h>
#include <stdbool.h>
#include <stdio.h>
#include <stdlib.h>
#include <string.h>

/* ---- memory */

static unsigned long blocks, requests, refused; /* allocated blocks; requests so far; the request that fails */

static struct etherparse_block answer(void *block, bool is_new) {
    static char none;
    struct etherparse_block it = {block != NULL, block != NULL ? block : &none};
    if (it.is_there && is_new) blocks++;
    return it;
}

struct etherparse_block rattle_alloc(size_t len, size_t align) {
    return answer(++requests == refused ? NULL : malloc(len != 0 ? len : align), true);
}

struct etherparse_block rattle_realloc(void *block, size_t kept, size_t len, size_t align) {
    (void)kept;
    return answer(++requests == refused ? NULL : realloc(block, len != 0 ? len : align), false);
}

void rattle_dealloc(void *block) {
    blocks--;
    free(block);
}

/* ---- expectations */

static int failed;

static void want(bool holds, const char *what, int line) {
    if (!holds) printf("line %d: %s does not hold\n", line, what), failed = 1;
}
#define WANT(what) want(what, #what, __LINE__)

enum { ROOM = 200, LONG = 70000 };
static uint8_t buffer[ROOM], untouched[ROOM], payload[LONG];
static uint8_t *volatile target = buffer; /* the buffer that calls write to; may be null */
static size_t written;
static const struct etherparse_route route = {
    .version = 4, .with_ethernet = 1, .hop_limit = 20, .ipv4_source = {10, 0, 0, 1}, .ipv4_destination = {10, 0, 0, 2}};

static bool is_untouched(size_t from) { return memcmp(buffer + from, untouched + from, ROOM - from) == 0; }

/* ---- calls that write to a buffer: each takes a route, the payload's length and the buffer's length */

static uint32_t udp(const struct etherparse_route *r, size_t len, size_t room) {
    return etherparse_build_udp(r, 21, 1234, payload, len, target, room, &written);
}

static uint32_t tcp(const struct etherparse_route *r, size_t len, size_t room) {
    struct etherparse_tcp_fields fields = {.source_port = 80, .destination_port = 4000, .flags = ETHERPARSE_TCP_SYN};
    return etherparse_build_tcp(r, &fields, payload, len, target, room, &written);
}

static uint32_t echo(const struct etherparse_route *r, size_t len, size_t room) {
    return etherparse_build_icmp_echo(r, 1, 2, 3, payload, len, target, room, &written);
}

static struct etherparse_tagged_route tagged = {.tag_count = 2, .vlan_ids = {1, 4095}};
static struct etherparse_fragment_fields fragment_fields = {.ip_number = 17, .more_fragments = 1,
                                                            .fragment_offset = 16, .identification = 65535};
static size_t options_len = 40;

static uint32_t tagged_udp(const struct etherparse_route *r, size_t len, size_t room) {
    tagged.route = *r;
    return etherparse_build_tagged_udp(&tagged, 21, 1234, payload, len, target, room, &written);
}

static uint32_t tagged_tcp(const struct etherparse_route *r, size_t len, size_t room) {
    struct etherparse_tcp_fields fields = {.source_port = 80, .destination_port = 4000, .flags = ETHERPARSE_TCP_SYN};
    tagged.route = *r;
    return etherparse_build_tagged_tcp(&tagged, &fields, payload, options_len, payload, len, target, room, &written);
}

static uint32_t tagged_echo(const struct etherparse_route *r, size_t len, size_t room) {
    tagged.route = *r;
    return etherparse_build_tagged_icmp_echo(&tagged, 1, 2, 3, payload, len, target, room, &written);
}

static uint32_t fragments(const struct etherparse_route *r, size_t len, size_t room) {
    tagged.route = *r;
    return etherparse_build_fragment(&tagged, &fragment_fields, payload, len, target, room, &written);
}

static uint32_t text(const struct etherparse_route *r, size_t len, size_t room) {
    (void)r, (void)len;
    struct etherparse_refusal it = {.kind = ETHERPARSE_REFUSAL_IPV4_VERSION, .number = 15};
    return etherparse_refusal_text(&it, (char *)target, room, &written);
}

typedef uint32_t writing(const struct etherparse_route *, size_t, size_t);

/* A call that writes `whole` bytes: with a large enough buffer, with a small one, with a null one whose length is not
 * 0, and with each allocation failing. */
static void writes(const char *name, writing *call, size_t whole) {
    memcpy(buffer, untouched, ROOM);
    requests = refused = 0;
    WANT(call(&route, 8, ROOM) == ETHERPARSE_OK);
    WANT(written == whole && is_untouched(whole) && !is_untouched(0));
    WANT(blocks == 0);
    unsigned long asked = requests;
    memcpy(buffer, untouched, ROOM);
    WANT(call(&route, 8, whole) == ETHERPARSE_OK && written == whole);
    memcpy(buffer, untouched, ROOM);
    for (size_t room = 0; room < whole; room++) {
        WANT(call(&route, 8, room) == ETHERPARSE_TOO_SMALL);
        WANT(written == whole && is_untouched(0) && blocks == 0);
    }
    target = NULL, written = 7;
    WANT(call(&route, 8, ROOM) == ETHERPARSE_TOO_SMALL && written == whole && blocks == 0);
    target = buffer;
    WANT((asked > 0) == (call == text)); /* building a frame does not allocate */
    for (unsigned long i = 1; i <= asked; i++) {
        requests = 0, refused = i, written = 7;
        WANT(call(&route, 8, ROOM) == ETHERPARSE_OUT_OF_MEMORY);
        WANT(written == 0 && is_untouched(0) && blocks == 0);
    }
    refused = 0;
    printf("%s: written whole or not at all; without memory nothing is written, and none is kept\n", name);
}

/* A call that builds a frame: with an invalid version, and with a payload that is one byte too long. */
static void builds(const char *name, writing *call, size_t headers, size_t most) {
    struct etherparse_route other = route;
    for (int version = 0; version < 256; version++) {
        if (version == 4 || version == 6) continue;
        other.version = (uint8_t)version, written = 7;
        WANT(call(&other, 8, ROOM) == ETHERPARSE_UNKNOWN_CHOICE && written == 0);
    }
    WANT(call(&route, most, ROOM) == ETHERPARSE_TOO_SMALL && written == headers + most);
    WANT(call(&route, most + 1, ROOM) == ETHERPARSE_TOO_LONG && written == 0);
    WANT(call(&route, LONG, ROOM) == ETHERPARSE_TOO_LONG && written == 0);
    WANT(is_untouched(0) && blocks == 0);
    printf("%s: at most %zu bytes of payload, and no version but 4 and 6\n", name, most);
}

/* Invalid numbers of tags, options and fragments. */
static void tags(void) {
    struct etherparse_route other = route;
    memcpy(buffer, untouched, ROOM);
    for (uint32_t count = 3; count != 0; count = count < 20 ? count + 1 : count == 20 ? UINT32_MAX : 0) {
        tagged.tag_count = count;
        WANT(tagged_udp(&route, 8, ROOM) == ETHERPARSE_UNKNOWN_CHOICE && written == 0);
        WANT(fragments(&route, 8, ROOM) == ETHERPARSE_UNKNOWN_CHOICE && written == 0);
    }
    tagged.tag_count = 2, tagged.vlan_ids[1] = 4096;
    WANT(tagged_udp(&route, 8, ROOM) == ETHERPARSE_UNKNOWN_CHOICE && written == 0);
    tagged.vlan_ids[0] = 4096, tagged.vlan_ids[1] = 4095;
    WANT(tagged_tcp(&route, 8, ROOM) == ETHERPARSE_UNKNOWN_CHOICE && written == 0);
    tagged.tag_count = 1;
    WANT(fragments(&route, 8, ROOM) == ETHERPARSE_UNKNOWN_CHOICE && written == 0);
    tagged.vlan_ids[0] = 1, other.with_ethernet = 0;
    WANT(tagged_echo(&other, 8, ROOM) == ETHERPARSE_UNKNOWN_CHOICE && written == 0);
    options_len = 41;
    WANT(tagged_tcp(&route, 8, ROOM) == ETHERPARSE_TOO_LONG && written == 0);
    options_len = 40;
    for (uint16_t offset = 1; offset < 24; offset++) {
        fragment_fields.fragment_offset = offset;
        WANT(offset % 8 == 0 || (fragments(&route, 8, ROOM) == ETHERPARSE_UNKNOWN_CHOICE && written == 0));
    }
    fragment_fields.fragment_offset = 8, fragment_fields.identification = 65536;
    WANT(fragments(&route, 8, ROOM) == ETHERPARSE_UNKNOWN_CHOICE && written == 0 && is_untouched(0) && blocks == 0);
    other.version = 6, tagged.tag_count = 0;
    WANT(fragments(&other, 8, ROOM) == ETHERPARSE_OK && written == 40 + 8 + 8);
    tagged.vlan_ids[0] = tagged.vlan_ids[1] = 4096; /* not read */
    WANT(tagged_udp(&route, 8, ROOM) == ETHERPARSE_OK && written == 50);
    struct etherparse_packet packet;
    tagged.tag_count = 2, tagged.vlan_ids[0] = 7, tagged.vlan_ids[1] = 8, other.with_ethernet = 1;
    fragment_fields.fragment_offset = 65528, fragment_fields.identification = 0x12345678;
    WANT(fragments(&other, 8, ROOM) == ETHERPARSE_OK);
    WANT(etherparse_slice(ETHERPARSE_ENTRY_ETHERNET, 0, buffer, written, &packet) == ETHERPARSE_OK);
    WANT(packet.link_ext_count == 2 && packet.link_exts[0].vlan_id == 7 && packet.link_exts[1].vlan_id == 8);
    WANT(packet.ip.version == 6 && packet.ip.fragmented == 1 && packet.ip.fragment_offset == 65528);
    WANT(packet.ip.more_fragments == 1 && packet.ip.identification == 0x12345678 && packet.ip.number == 17);
    WANT(packet.payload.len == 8 && blocks == 0);
    printf("tags, options, fragments: no other numbers; a fragment after two tags is sliced as it was built\n");
}

/* ---- calls that do not allocate */

/* A call that slices one frame, and the call and the export that slice many frames alike. */
struct slicing {
    const char *name;
    bool is_lax;
    enum etherparse_status (*one)(uint32_t, uint16_t, const uint8_t *, size_t, struct etherparse_packet *);
    enum etherparse_status (*many)(uint32_t, uint16_t, const uint8_t *, size_t, const size_t *, size_t,
                                   struct etherparse_packet *, size_t *);
    uint32_t (*export)(uint32_t, uint16_t, const uint8_t *, size_t, const size_t *, size_t, struct etherparse_packet *,
                       size_t, size_t *);
};
static const struct slicing strict = {"etherparse_slice_many", false, etherparse_slice, etherparse_slice_many,
                                      etherparse_2_slice_many};
static const struct slicing lax = {"etherparse_slice_lax_many", true, etherparse_slice_lax, etherparse_slice_lax_many,
                                   etherparse_2_slice_lax_many};

/* Many frames in one call: all of them, also truncated ones, up to an invalid end, and none. */
static void many(const struct slicing *slices) {
    uint8_t frames[3 * 60];
    size_t lens[3], len = 0, ends[3], sliced = 7;
    struct etherparse_packet packets[4], one, before;
    for (size_t i = 0; i < 3; i++) {
        WANT(etherparse_build_udp(&route, 1, (uint16_t)i, payload, i, frames + len, 60, &lens[i]) == ETHERPARSE_OK);
        ends[i] = len += lens[i];
    }
    requests = 0;
    memset(&before, 0xab, sizeof before);
    /* The second frame is whole, or has too few bytes for Ethernet II or for UDP; the rest is then the third one. */
    for (size_t cut = 0; cut < 3; cut++) {
        if (cut != 0) ends[1] = ends[0] + (cut == 1 ? 13 : 38);
        for (size_t i = 0; i < 4; i++) packets[i] = before;
        WANT(slices->many(0, 0, frames, len, ends, 3, packets, &sliced) == ETHERPARSE_OK && sliced == 3);
        for (size_t i = 0, start = 0; i < 3; start = ends[i++]) {
            memset(&one, 0xab, sizeof one);
            enum etherparse_status status = slices->one(0, 0, frames + start, ends[i] - start, &one);
            WANT(memcmp(&one, &packets[i], sizeof one) == 0);
            WANT(cut != 0 || (status == ETHERPARSE_OK && one.destination_port == i && one.payload.len == i));
        }
        WANT(packets[0].refusal.kind == 0 && memcmp(&before, &packets[3], sizeof before) == 0);
        WANT(packets[1].refusal.kind == (cut == 0 ? ETHERPARSE_REFUSAL_NONE : ETHERPARSE_REFUSAL_LEN));
        bool shows_ip = cut == 0 || (cut == 2 && slices->is_lax);
        WANT(packets[1].net.kind == (shows_ip ? ETHERPARSE_NET_IPV4 : 0));
        WANT(packets[1].payload.incomplete == (cut == 2 && slices->is_lax));
    }
    for (size_t end = 0; end < 2; end++) {
        ends[1] = end ? len + 1 : ends[0] - 1;
        for (size_t i = 0; i < 4; i++) packets[i] = before;
        WANT(slices->many(0, 0, frames, len, ends, 3, packets, &sliced) == ETHERPARSE_UNKNOWN_CHOICE);
        WANT(sliced == 1 && packets[0].refusal.kind == 0 && memcmp(&before, &packets[1], sizeof before) == 0);
    }
    WANT(slices->many(4, 0, frames, len, ends, 3, packets, &sliced) == ETHERPARSE_UNKNOWN_CHOICE);
    WANT(sliced == 0 && memcmp(&before, &packets[1], sizeof before) == 0);
    WANT(slices->many(0, 0, NULL, 0, NULL, 0, NULL, &sliced) == ETHERPARSE_OK && sliced == 0);
    for (uint32_t entry = 0; entry < 5; entry += 4) { /* a null pointer, and a count above 0 */
        sliced = 7;
        WANT(slices->many(entry, 0, frames, len, ends, 3, NULL, &sliced) == ETHERPARSE_TOO_SMALL && sliced == 0);
    }
    WANT(slices->export(0, 0, frames, len, ends, 3, packets, 2, &sliced) == ETHERPARSE_TOO_SMALL);
    WANT(sliced == 0 && requests == 0);
    printf("%s: as one call for each, up to a bad end\n", slices->name);
}

/* Null pointers whose length is above 0: they have no bytes. */
static void nulls_with_lengths(void) {
    const uint8_t *volatile none = NULL;
    const size_t *volatile no_ends = NULL;
    const char *volatile no_text = NULL;
    const struct etherparse_tagged_route tagged = {.route = route};
    const struct etherparse_tcp_fields tcp = {.window_size = 1};
    const struct etherparse_fragment_fields part = {.ip_number = 17};
    const size_t ends[] = {0, 60};
    const uint8_t seed[16] = {0};
    struct etherparse_packet packets[2];
    struct etherparse_pool *pool;
    struct etherparse_bounded_pool *bounded;
    struct etherparse_pool_answer told;
    struct etherparse_filter *filter;
    uint8_t matches[2] = {7, 7};
    size_t count;
    WANT(etherparse_slice(ETHERPARSE_ENTRY_ETHERNET, 0, none, 60, packets) == ETHERPARSE_REFUSED);
    WANT(etherparse_slice_lax(ETHERPARSE_ENTRY_IP, 0, none, 60, packets) == ETHERPARSE_REFUSED);
    for (size_t i = 0; i < 2; i++) {
        const struct slicing *const slices = i == 0 ? &strict : &lax;
        WANT(slices->many(0, 0, none, 60, ends, 2, packets, &count) == ETHERPARSE_UNKNOWN_CHOICE && count == 1);
        WANT(slices->many(0, 0, buffer, 60, no_ends, 2, packets, &count) == ETHERPARSE_OK && count == 0);
    }
    WANT(etherparse_checksum(none, 3) == 0xffff);
    WANT(etherparse_build_udp(&route, 21, 1234, none, 9, buffer, ROOM, &written) == ETHERPARSE_OK && written == 42);
    WANT(etherparse_build_tcp(&route, &tcp, none, 9, buffer, ROOM, &written) == ETHERPARSE_OK && written == 54);
    WANT(etherparse_build_icmp_echo(&route, 0, 1, 2, none, 9, buffer, ROOM, &written) == ETHERPARSE_OK);
    WANT(written == 42);
    WANT(etherparse_build_tagged_udp(&tagged, 1, 2, none, 9, buffer, ROOM, &written) == ETHERPARSE_OK && written == 42);
    WANT(etherparse_build_tagged_tcp(&tagged, &tcp, none, 8, none, 9, buffer, ROOM, &written) == ETHERPARSE_OK);
    WANT(written == 54);
    WANT(etherparse_build_tagged_icmp_echo(&tagged, 0, 1, 2, none, 9, buffer, ROOM, &written) == ETHERPARSE_OK);
    WANT(written == 42);
    WANT(etherparse_build_fragment(&tagged, &part, none, 9, buffer, ROOM, &written) == ETHERPARSE_OK && written == 34);
    WANT(etherparse_pool_new(&pool) == ETHERPARSE_OK);
    WANT(etherparse_pool_push(pool, ETHERPARSE_ENTRY_IP, 0, none, 60, 0, 0, NULL, 0, &told) == ETHERPARSE_REFUSED);
    etherparse_pool_free(pool);
    WANT(etherparse_bounded_pool_new(NULL, seed, &bounded) == ETHERPARSE_OK);
    WANT(etherparse_bounded_pool_push(bounded, ETHERPARSE_ENTRY_IP, 0, none, 60, 0, 0, NULL, 0, &told)
         == ETHERPARSE_REFUSED);
    etherparse_bounded_pool_free(bounded);
    WANT(etherparse_filter_new(no_text, 9, &filter, NULL) == ETHERPARSE_OK);
    WANT(etherparse_filter_matches(filter, ETHERPARSE_ENTRY_IP, 0, none, 60, 60, matches) == ETHERPARSE_OK);
    WANT(matches[0] == 1);
    WANT(etherparse_filter_matches_many(filter, 0, 0, buffer, 60, no_ends, 2, NULL, matches, &count) == ETHERPARSE_OK);
    WANT(count == 0 && matches[1] == 7);
    etherparse_filter_free(filter);
    WANT(blocks == 0);
}

/* Null pointers with length 0. */
static void nulls(void) {
    struct etherparse_packet packet;
    struct etherparse_pool *pool;
    struct etherparse_pool_answer told;
    struct etherparse_refusal it = {.kind = ETHERPARSE_REFUSAL_MACSEC_VERSION};
    nulls_with_lengths();
    WANT(etherparse_slice(ETHERPARSE_ENTRY_ETHERNET, 0, NULL, 0, &packet) == ETHERPARSE_REFUSED);
    WANT(etherparse_checksum(NULL, 0) == 0xffff);
    WANT(etherparse_refusal_text(&it, NULL, 0, &written) == ETHERPARSE_TOO_SMALL && written == 18);
    WANT(etherparse_build_udp(&route, 21, 1234, NULL, 0, NULL, 0, &written) == ETHERPARSE_TOO_SMALL && written == 42);
    WANT(etherparse_build_udp(&route, 21, 1234, NULL, 0, buffer, ROOM, &written) == ETHERPARSE_OK && written == 42);
    WANT(etherparse_pool_new(&pool) == ETHERPARSE_OK);
    WANT(etherparse_pool_push(pool, ETHERPARSE_ENTRY_ETHERNET, 0, NULL, 0, 0, 0, NULL, 0, &told) == ETHERPARSE_REFUSED);
    WANT(etherparse_pool_take(pool, NULL, 0, &told) == ETHERPARSE_OK);
    etherparse_pool_free(pool);
    etherparse_pool_free(NULL);
    WANT(blocks == 0 && etherparse_version() == ETHERPARSE_VERSION);
    printf("null, with length 0 or above: no bytes\n");
}

static void slices(void) {
    struct etherparse_packet packet, nothing;
    requests = 0;
    memset(&nothing, 0, sizeof nothing);
    for (uint32_t entry = 4; entry != 3; entry = entry < 40 ? entry + 1 : entry == 40 ? UINT32_MAX : 3) {
        memset(&packet, 0xff, sizeof packet);
        WANT(etherparse_slice(entry, 0x0800, payload, 100, &packet) == ETHERPARSE_UNKNOWN_CHOICE);
        WANT(packet.link.kind == 0 && packet.link_ext_count == 0 && packet.net.kind == 0 && packet.ip.version == 0);
        WANT(packet.transport.kind == 0 && packet.payload.len == 0 && packet.payload.offset == 0);
        WANT(memcmp(&packet.refusal, &nothing.refusal, sizeof packet.refusal) == 0);
    }
    WANT(etherparse_slice(ETHERPARSE_ENTRY_ETHERNET, 0, payload, 13, &packet) == ETHERPARSE_REFUSED);
    WANT(packet.refusal.kind == ETHERPARSE_REFUSAL_LEN && packet.refusal.layer == ETHERPARSE_LAYER_ETHERNET2_HEADER);
    WANT(packet.refusal.required_len == 14 && packet.refusal.len == 13 && packet.refusal.layer_start_offset == 0);
    WANT(packet.link.kind == 0 && packet.payload.len == 0);
    WANT(etherparse_slice(ETHERPARSE_ENTRY_ETHERNET, 0, payload, 14, &packet) == ETHERPARSE_OK);
    WANT(etherparse_slice(ETHERPARSE_ENTRY_ETHER_TYPE, 0xffff, payload, 0, &packet) == ETHERPARSE_OK);
    WANT(etherparse_checksum(payload, 0) == 0xffff);
    WANT(requests == 0);
    printf("etherparse_slice, etherparse_checksum: no memory is asked for\n");
}

/* Checks the payload of a datagram of 8 bytes in IPv4 and Ethernet II that is truncated to `len` bytes. */
static void cut(size_t len, uint32_t transport, size_t offset, uint32_t incomplete, uint32_t end) {
    struct etherparse_packet packet;
    memset(&packet, 0xff, sizeof packet);
    WANT(etherparse_slice_lax(ETHERPARSE_ENTRY_ETHERNET, 0, buffer, len, &packet) == ETHERPARSE_OK);
    WANT(packet.link.kind == ETHERPARSE_LINK_ETHERNET2 && packet.link_ext_count == 0);
    WANT(packet.net.kind == (len < 34 ? 0 : ETHERPARSE_NET_IPV4) && packet.transport.kind == transport);
    WANT(packet.payload.offset == offset && packet.payload.len == len - offset);
    WANT(packet.payload.incomplete == incomplete && packet.payload.len_source == end);
    int stops = len < 42;
    WANT(packet.refusal.kind == (stops ? ETHERPARSE_REFUSAL_LEN : ETHERPARSE_REFUSAL_NONE));
    WANT(!stops || (packet.refusal.layer_start_offset == offset && packet.refusal.len == len - offset));
}

static void slices_laxly(void) {
    struct etherparse_packet packet;
    WANT(etherparse_build_udp(&route, 21, 1234, payload, 8, buffer, ROOM, &written) == ETHERPARSE_OK && written == 50);
    requests = 0;
    WANT(etherparse_slice_lax(4, 0, buffer, 50, &packet) == ETHERPARSE_UNKNOWN_CHOICE && packet.link.kind == 0);
    WANT(etherparse_slice_lax(ETHERPARSE_ENTRY_ETHERNET, 0, buffer, 13, &packet) == ETHERPARSE_REFUSED);
    WANT(packet.refusal.layer == ETHERPARSE_LAYER_ETHERNET2_HEADER && packet.refusal.len == 13);
    WANT(packet.payload.incomplete == 0 && packet.payload.len == 0);
    for (size_t len = 14; len < 34; len++) cut(len, 0, 14, 0, ETHERPARSE_END_SLICE);
    for (size_t len = 34; len < 42; len++) cut(len, 0, 34, 1, ETHERPARSE_END_SLICE);
    for (size_t len = 42; len < 50; len++) cut(len, ETHERPARSE_TRANSPORT_UDP, 42, 1, ETHERPARSE_END_SLICE);
    cut(50, ETHERPARSE_TRANSPORT_UDP, 42, 0, ETHERPARSE_END_UDP);
    buffer[16] = buffer[17] = 0; /* total length 0, as with segmentation offload */
    cut(50, ETHERPARSE_TRANSPORT_UDP, 42, 0, ETHERPARSE_END_UDP);
    buffer[38] = buffer[39] = 0; /* length of UDP */
    cut(50, ETHERPARSE_TRANSPORT_UDP, 42, 0, ETHERPARSE_END_SLICE);
    buffer[16] = buffer[17] = 0xff;
    cut(50, ETHERPARSE_TRANSPORT_UDP, 42, 1, ETHERPARSE_END_SLICE);
    buffer[39] = 16;
    cut(50, ETHERPARSE_TRANSPORT_UDP, 42, 0, ETHERPARSE_END_UDP);
    WANT(etherparse_slice_lax(ETHERPARSE_ENTRY_IP, 0, NULL, 0, &packet) == ETHERPARSE_REFUSED);
    WANT(etherparse_slice_lax(ETHERPARSE_ENTRY_ETHER_TYPE, 0x0800, NULL, 0, &packet) == ETHERPARSE_OK);
    WANT(packet.refusal.layer == ETHERPARSE_LAYER_IPV4_HEADER && packet.refusal.required_len == 20);
    WANT(requests == 0);
    printf("etherparse_slice_lax: each cut of a frame shows its front, and says where it stops and what is missing\n");
}

/* Reads fields over two patterns, and returns whether the status is `wanted` and both runs wrote equal bytes, except
 * padding: zeros, if `is_nothing`. The struct has 28 bytes of padding on x86-64. */
static bool reads(const struct etherparse_packet *packet, const uint8_t *bytes, size_t len, uint32_t wanted,
                  bool is_nothing, struct etherparse_fields *fields) {
    struct etherparse_fields other;
    const uint8_t *one = (const uint8_t *)fields, *two = (const uint8_t *)&other;
    size_t padding = 0;
    memset(fields, 0xff, sizeof *fields);
    memset(&other, 0, sizeof other);
    if (etherparse_fields(packet, bytes, len, fields) != wanted) return false;
    if (etherparse_fields(packet, bytes, len, &other) != wanted) return false;
    for (size_t i = 0; i < sizeof other; i++) {
        if (one[i] != two[i]) padding++;
        else if (is_nothing && one[i] != 0) return false;
    }
    return padding <= 28;
}

/* Fields of packets, of truncated ones and of refused ones; descriptions of other bytes, and null pointers. */
static void fields(void) {
    struct etherparse_packet packet, other;
    struct etherparse_fields it, *volatile none = NULL;
    const struct etherparse_packet *volatile no_packet = NULL;
    const uint8_t *volatile no_bytes = NULL;
    struct etherparse_route over_ipv6 = {.version = 6, .hop_limit = 9, .ipv6_source = {0xfe, [15] = 1}};
    WANT(etherparse_build_udp(&route, 21, 1234, payload, 8, buffer, ROOM, &written) == ETHERPARSE_OK && written == 50);
    requests = 0;
    WANT(etherparse_slice(ETHERPARSE_ENTRY_ETHERNET, 0, buffer, 50, &packet) == ETHERPARSE_OK);
    WANT(reads(&packet, buffer, 50, ETHERPARSE_OK, false, &it));
    WANT(it.link.ether_type == 0x0800 && it.tags[0].kind == 0 && it.arp.operation == 0 && it.ip.version == 4);
    WANT(memcmp(it.ip.source, route.ipv4_source, 4) == 0 && memcmp(it.ip.destination, route.ipv4_destination, 4) == 0);
    WANT(it.ip.hop_limit == 20 && it.ip.number == 17 && it.ip.dont_fragment == 1 && it.ip.more_fragments == 0);
    WANT(it.ip.length == 36 && it.ip.options.offset == 34 && it.ip.options.len == 0);
    WANT(it.transport.source_port == 21 && it.transport.destination_port == 1234 && it.transport.udp_length == 16);
    WANT(etherparse_fields(&packet, buffer, 50, none) == ETHERPARSE_OK);
    /* bytes that do not have the described headers: too few, and with another version of IP */
    for (size_t len = 0; len < 42; len++) WANT(reads(&packet, buffer, len, ETHERPARSE_UNKNOWN_CHOICE, true, &it));
    WANT(etherparse_fields(&packet, buffer, 41, none) == ETHERPARSE_UNKNOWN_CHOICE);
    WANT(reads(&packet, buffer + 1, 49, ETHERPARSE_UNKNOWN_CHOICE, true, &it));
    /* null pointers; null bytes have no length */
    WANT(reads(no_packet, buffer, 50, ETHERPARSE_UNKNOWN_CHOICE, true, &it));
    WANT(etherparse_fields(no_packet, no_bytes, 50, none) == ETHERPARSE_UNKNOWN_CHOICE);
    for (size_t len = 0; len < 2; len++) {
        WANT(reads(&packet, no_bytes, 50 * len, ETHERPARSE_UNKNOWN_CHOICE, true, &it));
        WANT(etherparse_slice(4, 0, buffer, 50, &other) == ETHERPARSE_UNKNOWN_CHOICE);
        WANT(reads(&other, no_bytes, 50 * len, ETHERPARSE_OK, true, &it));
    }
    /* no layer, and the ports of a truncated header */
    WANT(etherparse_slice(ETHERPARSE_ENTRY_ETHERNET, 0, buffer, 41, &other) == ETHERPARSE_REFUSED);
    WANT(reads(&other, buffer, 41, ETHERPARSE_OK, true, &it));
    for (size_t len = 34; len < 42; len++) {
        WANT(etherparse_slice_lax(ETHERPARSE_ENTRY_ETHERNET, 0, buffer, len, &other) == ETHERPARSE_OK);
        WANT(reads(&other, buffer, len, ETHERPARSE_OK, false, &it) && other.source_port == 0);
        WANT(it.transport.source_port == (len < 38 ? 0 : 21) && it.transport.destination_port == (len < 38 ? 0 : 1234));
        WANT(it.ip.hop_limit == 20 && it.transport.udp_length == 0);
    }
    /* a description whose numbers are too great for its bytes, for each of its numbers */
    for (size_t i = 0; i + 4 <= sizeof packet; i += 4) {
        other = packet;
        memset((uint8_t *)&other + i, 0xff, 4);
        uint32_t status = etherparse_fields(&other, buffer, 50, &it);
        WANT(status == ETHERPARSE_OK || status == ETHERPARSE_UNKNOWN_CHOICE);
    }
    packet.net.kind = 5;
    WANT(reads(&packet, buffer, 50, ETHERPARSE_UNKNOWN_CHOICE, true, &it));
    WANT(tcp(&over_ipv6, 8, ROOM) == ETHERPARSE_OK);
    WANT(etherparse_slice(ETHERPARSE_ENTRY_IP, 0, buffer, written, &packet) == ETHERPARSE_OK);
    WANT(reads(&packet, buffer, written, ETHERPARSE_OK, false, &it));
    WANT(it.transport.tcp_flags == ETHERPARSE_TCP_SYN && it.transport.data_offset == 5 && it.ip.hop_limit == 9);
    WANT(memcmp(it.ip.source, over_ipv6.ipv6_source, 16) == 0 && it.link.ether_type == 0);
    /* verdicts, which leave the other fields unchanged */
    WANT(etherparse_checksums(ETHERPARSE_ENTRY_IP, 0, buffer, written, &it) == ETHERPARSE_OK);
    WANT(it.header_checksum == ETHERPARSE_CHECKSUM_NONE && it.transport_checksum == ETHERPARSE_CHECKSUM_VALID);
    buffer[written - 1] ^= 1;
    WANT(etherparse_checksums(ETHERPARSE_ENTRY_IP, 0, buffer, written, &it) == ETHERPARSE_OK);
    WANT(it.transport_checksum == ETHERPARSE_CHECKSUM_INVALID && it.transport.tcp_flags == ETHERPARSE_TCP_SYN);
    WANT(etherparse_checksums(ETHERPARSE_ENTRY_IP, 0, buffer, written - 1, &it) == ETHERPARSE_OK);
    WANT(it.transport_checksum == ETHERPARSE_CHECKSUM_UNKNOWN && it.ip.hop_limit == 9);
    WANT(etherparse_checksums(4, 0, buffer, written, &it) == ETHERPARSE_UNKNOWN_CHOICE && it.transport_checksum == 0);
    it.transport_checksum = it.header_checksum = 7;
    WANT(etherparse_checksums(ETHERPARSE_ENTRY_IP, 0, no_bytes, 50, &it) == ETHERPARSE_REFUSED);
    WANT(it.transport_checksum == 0 && it.header_checksum == 0);
    WANT(etherparse_checksums(ETHERPARSE_ENTRY_IP, 0, buffer, written, none) == ETHERPARSE_OK);
    WANT(requests == 0);
    printf("etherparse_fields: none of other bytes; of a truncated header its ports; null pointers are answered\n");
    printf("etherparse_checksums: each status; the other fields stay\n");
}

static void refusals(void) {
    struct etherparse_refusal it = {.kind = ETHERPARSE_REFUSAL_LEN, .layer = 1, .len_source = 0};
    const struct { uint32_t kind, layer, len_source; } none[] = {
        {0, 0, 0}, {15, 1, 0}, {UINT32_MAX, 1, 0}, {1, 0, 0}, {1, 22, 0}, {1, 1, 6}, {1, 1, UINT32_MAX}};
    memcpy(buffer, untouched, ROOM);
    for (size_t i = 0; i < sizeof none / sizeof *none; i++) {
        it.kind = none[i].kind, it.layer = none[i].layer, it.len_source = none[i].len_source, written = 7;
        WANT(etherparse_refusal_text(&it, (char *)buffer, ROOM, &written) == ETHERPARSE_UNKNOWN_CHOICE);
        WANT(written == 0 && is_untouched(0) && blocks == 0);
    }
    /* the longest text */
    struct etherparse_refusal most = {.kind = ETHERPARSE_REFUSAL_LEN, .layer = ETHERPARSE_LAYER_ICMPV4_TIMESTAMP_REPLY,
                                      .len_source = ETHERPARSE_END_IPV6, .required_len = SIZE_MAX, .len = SIZE_MAX,
                                      .layer_start_offset = SIZE_MAX};
    WANT(etherparse_refusal_text(&most, (char *)buffer, ROOM, &written) == ETHERPARSE_OK);
    WANT(written == 142 && buffer[141] == 0 && strlen((char *)buffer) == 141);
    printf("etherparse_refusal_text: no text for numbers of no refusal, and none of more than 142 bytes\n");
}

/* ---- pools */

static size_t fragment(uint8_t *into, uint8_t stream, size_t from, size_t to, bool more) {
    const uint8_t head[20] = {0x45, 0, 0, (uint8_t)(20 + to - from), 0, stream, more ? 0x20 : 0, (uint8_t)(from / 8),
                              64, 17, 0, 0, 10, 0, 0, 1, 10, 0, 0, 2};
    memcpy(into, head, sizeof head);
    for (size_t i = from; i < to; i++) into[20 + i - from] = (uint8_t)i;
    return 20 + to - from;
}

static uint32_t push(struct etherparse_pool *pool, uint8_t stream, size_t from, size_t to, bool more, uint64_t time,
                     size_t room, struct etherparse_pool_answer *told) {
    uint8_t frame[ROOM];
    size_t len = fragment(frame, stream, from, to, more);
    return etherparse_pool_push(pool, ETHERPARSE_ENTRY_IP, 0, frame, len, time, 0, target, room, told);
}

/* Pushes a fragment; each allocation fails once before it succeeds. The pool may keep earlier allocations. */
static uint32_t pushed(struct etherparse_pool *pool, uint8_t stream, size_t from, size_t to, bool more, size_t room,
                       struct etherparse_pool_answer *told) {
    for (unsigned long i = 1;; i++) {
        requests = 0, refused = i;
        uint32_t status = push(pool, stream, from, to, more, 1, room, told);
        refused = 0;
        if (status != ETHERPARSE_OUT_OF_MEMORY) return status;
        WANT(requests == i && is_untouched(0) && told->len == 0 && told->fragment_refusal == 0);
    }
}

static void pools(void) {
    struct etherparse_pool *pool = NULL, *before = (struct etherparse_pool *)buffer;
    struct etherparse_pool_answer told;
    for (unsigned long i = 1;; i++) {
        requests = 0, refused = i, pool = before;
        uint32_t status = i % 2 ? etherparse_pool_new(&pool) : etherparse_pool_with_limit(64, &pool);
        refused = 0;
        if (status == ETHERPARSE_OK) break;
        WANT(status == ETHERPARSE_OUT_OF_MEMORY && pool == before && blocks == 0);
    }
    WANT(pool != before && blocks > 0);
    etherparse_pool_free(pool);
    WANT(blocks == 0);

    WANT(etherparse_pool_with_limit(64, &pool) == ETHERPARSE_OK);
    memcpy(buffer, untouched, ROOM);
    WANT(pushed(pool, 1, 32, 40, false, 40, &told) == ETHERPARSE_OK);
    WANT(pushed(pool, 1, 8, 16, true, 40, &told) == ETHERPARSE_OK);
    WANT(pushed(pool, 2, 8, 16, true, 40, &told) == ETHERPARSE_OK);
    WANT(push(pool, 1, 0, 7, true, 1, 40, &told) == ETHERPARSE_FRAGMENT_REFUSED);
    WANT(told.fragment_refusal == ETHERPARSE_FRAGMENT_UNALIGNED);
    WANT(push(pool, 1, 64, 65, false, 1, 40, &told) == ETHERPARSE_FRAGMENT_REFUSED);
    WANT(told.fragment_refusal == ETHERPARSE_FRAGMENT_TOO_BIG);
    WANT(push(pool, 1, 40, 48, true, 1, 40, &told) == ETHERPARSE_FRAGMENT_REFUSED);
    WANT(told.fragment_refusal == ETHERPARSE_FRAGMENT_CONFLICTING_END && is_untouched(0));
    WANT(pushed(pool, 1, 0, 8, true, 40, &told) == ETHERPARSE_OK);
    /* the payload is longer than the buffer, and waits */
    WANT(pushed(pool, 1, 16, 32, true, 39, &told) == ETHERPARSE_TOO_SMALL && told.len == 40 && is_untouched(0));
    WANT(push(pool, 2, 0, 8, true, 1, 40, &told) == ETHERPARSE_PAYLOAD_WAITS && told.len == 40 && is_untouched(0));
    WANT(etherparse_pool_push(pool, 4, 0, payload, 9, 1, 0, buffer, 40, &told) == ETHERPARSE_UNKNOWN_CHOICE);
    WANT(etherparse_pool_push(pool, ETHERPARSE_ENTRY_IP, 0, payload, 9, 1, 0, buffer, 40, &told)
         == ETHERPARSE_PAYLOAD_WAITS);
    etherparse_pool_drop_older(pool, 1);
    WANT(etherparse_pool_take(pool, buffer, 39, &told) == ETHERPARSE_TOO_SMALL && told.len == 40 && is_untouched(0));
    unsigned long held = blocks;
    WANT(etherparse_pool_take(pool, buffer, 40, &told) == ETHERPARSE_COMPLETE && blocks == held - 1);
    WANT(told.len == 40 && told.ip_number == 17 && told.len_source == ETHERPARSE_END_IPV4);
    for (size_t i = 0; i < 40; i++) WANT(buffer[i] == i);
    WANT(is_untouched(40));
    memcpy(buffer, untouched, ROOM);
    WANT(etherparse_pool_take(pool, buffer, ROOM, &told) == ETHERPARSE_OK && told.len == 0 && is_untouched(0));
    WANT(etherparse_pool_push(pool, ETHERPARSE_ENTRY_IP, 0, payload, 9, 1, 0, buffer, 40, &told)
         == ETHERPARSE_REFUSED);
    WANT(told.refusal.kind != ETHERPARSE_REFUSAL_NONE && told.len == 0 && is_untouched(0));
    /* a payload that no buffer is large enough for is discarded, and the pool continues */
    WANT(push(pool, 9, 8, 16, false, 2, 0, &told) == ETHERPARSE_OK);
    target = NULL;
    WANT(push(pool, 9, 0, 8, true, 2, ROOM, &told) == ETHERPARSE_TOO_SMALL && told.len == 16);
    WANT(etherparse_pool_take(pool, target, ROOM, &told) == ETHERPARSE_TOO_SMALL && told.len == 16);
    target = buffer;
    WANT(etherparse_pool_streams(pool) == 1 && etherparse_pool_bytes(pool) == 16 + 16);
    held = blocks;
    etherparse_pool_discard(pool);
    WANT(blocks == held - 1 && etherparse_pool_streams(pool) == 1 && etherparse_pool_bytes(pool) == 16);
    etherparse_pool_discard(pool);
    WANT(etherparse_pool_take(pool, buffer, ROOM, &told) == ETHERPARSE_OK && told.len == 0 && blocks == held - 1);
    /* the other stream is kept until it is dropped */
    etherparse_pool_drop_older(pool, 2);
    WANT(etherparse_pool_streams(pool) == 0 && etherparse_pool_bytes(pool) == 0);
    WANT(push(pool, 2, 0, 8, true, 2, ROOM, &told) == ETHERPARSE_OK);
    WANT(push(pool, 2, 16, 20, false, 2, ROOM, &told) == ETHERPARSE_OK);
    WANT(push(pool, 2, 8, 16, true, 2, ROOM, &told) == ETHERPARSE_COMPLETE && told.len == 20 && is_untouched(20));
    /* a pool is freed with its waiting payload and its streams */
    memcpy(buffer, untouched, ROOM);
    WANT(push(pool, 3, 8, 16, false, 2, 0, &told) == ETHERPARSE_OK);
    WANT(push(pool, 4, 8, 16, false, 2, 0, &told) == ETHERPARSE_OK);
    WANT(push(pool, 4, 0, 8, true, 2, 0, &told) == ETHERPARSE_TOO_SMALL && told.len == 16);
    etherparse_pool_free(pool);
    WANT(blocks == 0 && is_untouched(0));
    printf("pools: without memory the streams are as they were; a pool is freed with all that it holds\n");
}

/* ---- bounded pools */

static const uint8_t seed[16] = {1, 2, 3};

static uint32_t bounded_push(struct etherparse_bounded_pool *pool, uint8_t stream, size_t from, size_t to, bool more,
                             uint64_t time, size_t room, struct etherparse_pool_answer *told) {
    uint8_t frame[ROOM];
    size_t len = fragment(frame, stream, from, to, more);
    return etherparse_bounded_pool_push(pool, ETHERPARSE_ENTRY_IP, 0, frame, len, time, 7, target, room, told);
}

/* Whether the last call evicted or discarded this stream alone. */
static bool gone(struct etherparse_bounded_pool *pool, uint8_t stream, uint32_t cause, uint64_t first) {
    struct etherparse_evicted_stream it, before;
    const uint8_t source[4] = {10, 0, 0, 1}, destination[4] = {10, 0, 0, 2}, none[16] = {0};
    memset(&it, 0x5a, sizeof it);
    memcpy(&before, &it, sizeof it);
    if (etherparse_bounded_pool_evicted(pool, 1, &it) != ETHERPARSE_UNKNOWN_CHOICE) return false;
    if (memcmp(&before, &it, sizeof it) != 0 || etherparse_bounded_pool_evicted_count(pool) != 1) return false;
    if (etherparse_bounded_pool_evicted(pool, 0, &it) != ETHERPARSE_OK) return false;
    return it.cause == cause && it.first == first && it.id.channel == 7 && it.id.identification == stream
           && it.id.version == 4 && it.id.ip_number == 17 && it.id.vlan_id_count == 0 && it.id.vlan_ids[0] == 0
           && it.id.vlan_ids[1] == 0 && it.id.vlan_ids[2] == 0 && memcmp(it.id.ipv4_source, source, 4) == 0
           && memcmp(it.id.ipv4_destination, destination, 4) == 0 && memcmp(it.id.ipv6_source, none, 16) == 0
           && memcmp(it.id.ipv6_destination, none, 16) == 0;
}

/* Pushes a fragment; each allocation fails once before it succeeds, and then nothing is evicted or counted but the
 * fragment itself. */
static uint32_t bounded_pushed(struct etherparse_bounded_pool *pool, uint8_t stream, size_t from, size_t to, bool more,
                               uint64_t time, struct etherparse_pool_answer *told) {
    for (unsigned long i = 1;; i++) {
        struct etherparse_defrag_statistics before, after;
        etherparse_bounded_pool_statistics(pool, &before);
        size_t held = etherparse_bounded_pool_held_bytes(pool), streams = etherparse_bounded_pool_streams(pool);
        requests = 0, refused = i;
        uint32_t status = bounded_push(pool, stream, from, to, more, time, ROOM, told);
        refused = 0;
        if (status != ETHERPARSE_OUT_OF_MEMORY) return status;
        WANT(requests == i && is_untouched(0) && told->len == 0 && told->fragment_refusal == 0);
        WANT(etherparse_bounded_pool_held_bytes(pool) == held && etherparse_bounded_pool_streams(pool) == streams);
        WANT(etherparse_bounded_pool_evicted_count(pool) == 0);
        etherparse_bounded_pool_statistics(pool, &after);
        before.rejected_out_of_memory++;
        WANT(memcmp(&before, &after, sizeof before) == 0);
    }
}

/* Returns whether a pool has these limits. */
static bool has_limits(struct etherparse_bounded_pool *pool, const struct etherparse_defrag_limits *limits) {
    struct etherparse_defrag_limits it;
    memset(&it, 0xff, sizeof it);
    etherparse_bounded_pool_limits(pool, &it);
    return it.streams == limits->streams && it.bytes == limits->bytes && it.age == limits->age
           && it.overlap == limits->overlap && it.payload == limits->payload;
}

/* Limits, and pools that cannot be created. */
static void bounded_limits(void) {
    struct etherparse_bounded_pool *pool, *before = (struct etherparse_bounded_pool *)buffer;
    struct etherparse_defrag_limits limits;
    memset(&limits, 0xff, sizeof limits);
    etherparse_defrag_limits_default(&limits);
    WANT(limits.streams == 4096 && limits.bytes == 32 << 20 && limits.payload == ETHERPARSE_MAX_PAYLOAD);
    WANT(limits.age == 60000 && limits.overlap == ETHERPARSE_OVERLAP_DISCARD);
    for (limits.overlap = 3; limits.overlap != 2; limits.overlap = limits.overlap < 20 ? limits.overlap + 1 : 2) {
        pool = before;
        WANT(etherparse_bounded_pool_new(&limits, seed, &pool) == ETHERPARSE_UNKNOWN_CHOICE && pool == before);
    }
    limits.overlap = UINT32_MAX;
    WANT(etherparse_bounded_pool_new(&limits, seed, &pool) == ETHERPARSE_UNKNOWN_CHOICE && blocks == 0);
    limits.overlap = ETHERPARSE_OVERLAP_LAST_WINS;
    for (unsigned long i = 1;; i++) {
        requests = 0, refused = i, pool = before;
        uint32_t status = etherparse_bounded_pool_new(i % 2 ? &limits : NULL, seed, &pool);
        refused = 0;
        if (status == ETHERPARSE_OK) break;
        WANT(status == ETHERPARSE_OUT_OF_MEMORY && pool == before && blocks == 0);
    }
    WANT(pool != before && blocks > 0);
    etherparse_bounded_pool_free(pool);
    etherparse_bounded_pool_free(NULL);
    WANT(blocks == 0);
    const struct etherparse_defrag_limits each[] = {{.overlap = ETHERPARSE_OVERLAP_LAST_WINS},
                                                    {1, 2, 3, ETHERPARSE_OVERLAP_FIRST_WINS, 4},
                                                    {SIZE_MAX, SIZE_MAX, UINT64_MAX, ETHERPARSE_OVERLAP_DISCARD, 65535}};
    for (size_t i = 0; i < sizeof each / sizeof each[0]; i++) {
        WANT(etherparse_bounded_pool_new(&each[i], seed, &pool) == ETHERPARSE_OK && has_limits(pool, &each[i]));
        etherparse_bounded_pool_free(pool);
    }
    etherparse_defrag_limits_default(&limits);
    WANT(etherparse_bounded_pool_new(NULL, seed, &pool) == ETHERPARSE_OK && has_limits(pool, &limits));
    etherparse_bounded_pool_free(pool);
    WANT(blocks == 0);
}

/* Fragments that overlap, by each rule. */
static void bounded_overlaps(void) {
    for (uint32_t rule = 0; rule < 3; rule++) {
        struct etherparse_bounded_pool *pool;
        struct etherparse_pool_answer told;
        struct etherparse_defrag_limits limits;
        etherparse_defrag_limits_default(&limits);
        limits.overlap = rule;
        WANT(etherparse_bounded_pool_new(&limits, seed, &pool) == ETHERPARSE_OK);
        memcpy(buffer, untouched, ROOM);
        WANT(bounded_pushed(pool, 1, 8, 16, true, 1, &told) == ETHERPARSE_OK);
        WANT(bounded_pushed(pool, 1, 8, 16, true, 2, &told) == ETHERPARSE_OK); /* a repeat */
        WANT(has_limits(pool, &limits));
        uint8_t frame[ROOM];
        size_t len = fragment(frame, 1, 8, 16, true);
        frame[20] = 99; /* another byte at position 8 */
        uint32_t status = etherparse_bounded_pool_push(pool, ETHERPARSE_ENTRY_IP, 0, frame, len, 3, 7, buffer, ROOM,
                                                       &told);
        if (rule == ETHERPARSE_OVERLAP_DISCARD) {
            WANT(status == ETHERPARSE_DISCARDED && gone(pool, 1, ETHERPARSE_EVICTED_OVERLAP, 1));
            WANT(told.len == 0 && told.fragment_refusal == 0 && told.refusal.kind == 0 && is_untouched(0));
            WANT(etherparse_bounded_pool_streams(pool) == 0 && etherparse_bounded_pool_discarded_streams(pool) == 1);
            WANT(etherparse_bounded_pool_held_bytes(pool) == 0);
            WANT(bounded_push(pool, 1, 0, 8, true, 4, ROOM, &told) == ETHERPARSE_DISCARDED);
            WANT(etherparse_bounded_pool_evicted_count(pool) == 0);
            /* it stays until it expires; an end elsewhere discards a stream too */
            WANT(bounded_push(pool, 1, 16, 17, false, 60001, ROOM, &told) == ETHERPARSE_DISCARDED);
            WANT(bounded_push(pool, 1, 16, 17, false, 60002, ROOM, &told) == ETHERPARSE_OK);
            WANT(gone(pool, 1, ETHERPARSE_EVICTED_EXPIRED, 1));
            WANT(bounded_push(pool, 1, 16, 24, true, 60003, ROOM, &told) == ETHERPARSE_DISCARDED);
            WANT(gone(pool, 1, ETHERPARSE_EVICTED_OVERLAP, 60002));
            /* or until it is removed, which is not counted again */
            struct etherparse_evicted_stream it;
            struct etherparse_defrag_statistics before, after;
            WANT(etherparse_bounded_pool_evicted(pool, 0, &it) == ETHERPARSE_OK);
            etherparse_bounded_pool_statistics(pool, &before);
            WANT(etherparse_bounded_pool_remove(pool, &it.id) == 1);
            WANT(etherparse_bounded_pool_discarded_streams(pool) == 0);
            WANT(etherparse_bounded_pool_evicted_count(pool) == 0);
            etherparse_bounded_pool_statistics(pool, &after);
            WANT(memcmp(&before, &after, sizeof before) == 0);
            WANT(bounded_push(pool, 1, 16, 24, true, 60004, ROOM, &told) == ETHERPARSE_OK);
        } else {
            WANT(status == ETHERPARSE_OK && etherparse_bounded_pool_evicted_count(pool) == 0);
            WANT(bounded_pushed(pool, 1, 16, 17, false, 4, &told) == ETHERPARSE_OK);
            WANT(bounded_push(pool, 1, 16, 24, true, 4, ROOM, &told) == ETHERPARSE_FRAGMENT_REFUSED);
            WANT(told.fragment_refusal == ETHERPARSE_FRAGMENT_CONFLICTING_END);
            WANT(bounded_push(pool, 1, 0, 8, true, 5, ROOM, &told) == ETHERPARSE_COMPLETE && told.len == 17);
            for (size_t i = 0; i < 17; i++)
                WANT(buffer[i] == (i == 8 && rule == ETHERPARSE_OVERLAP_LAST_WINS ? 99 : i));
            WANT(is_untouched(17));
        }
        etherparse_bounded_pool_free(pool);
        WANT(blocks == 0);
    }
}

/* Removes streams by their identifiers from a pool without streams and for at most two. */
static void bounded_removals(struct etherparse_bounded_pool *pool) {
    const struct etherparse_stream_id id = {.channel = 7, .identification = 1, .version = 4, .ip_number = 17,
                                            .ipv4_source = {10, 0, 0, 1}, .ipv4_destination = {10, 0, 0, 2}};
    struct etherparse_pool_answer told;
    struct etherparse_defrag_statistics before, after;
    WANT(etherparse_bounded_pool_remove(pool, &id) == 0);
    WANT(bounded_pushed(pool, 1, 8, 16, true, 30, &told) == ETHERPARSE_OK);
    WANT(bounded_pushed(pool, 2, 8, 16, true, 30, &told) == ETHERPARSE_OK);
    etherparse_bounded_pool_statistics(pool, &before);
    size_t held = etherparse_bounded_pool_held_bytes(pool);
    /* identifiers of no stream here, and numbers that are none */
    for (int i = 0; i < 16; i++) {
        struct etherparse_stream_id other = id;
        if (i == 0) other.channel = 8;
        if (i == 1) other.identification = 3;
        if (i == 2) other.identification = 65536 + 1;
        if (i == 3) other.vlan_id_count = 1;
        if (i == 4) other.vlan_id_count = 4;
        if (i == 5) other.vlan_id_count = UINT32_MAX;
        if (i == 6) other.vlan_ids[0] = 1;
        if (i == 7) other.vlan_ids[2] = 4096;
        if (i == 8) other.version = 6;
        if (i == 9) other.version = 0;
        if (i == 10) other.ip_number = 6;
        if (i == 11) other.ipv4_source[3] = 2;
        if (i == 12) other.ipv4_destination[0] = 0;
        if (i == 13) other.ipv6_source[0] = 1;
        if (i == 14) other.ipv6_destination[15] = 1;
        if (i == 15) other.version = 255;
        WANT(etherparse_bounded_pool_remove(pool, &other) == 0 && etherparse_bounded_pool_evicted_count(pool) == 0);
    }
    etherparse_bounded_pool_statistics(pool, &after);
    WANT(memcmp(&before, &after, sizeof before) == 0 && etherparse_bounded_pool_held_bytes(pool) == held);
    WANT(etherparse_bounded_pool_streams(pool) == 2);
    /* an open stream, and then the other one */
    unsigned long all = blocks;
    WANT(etherparse_bounded_pool_remove(pool, &id) == 1 && etherparse_bounded_pool_streams(pool) == 1);
    WANT(blocks < all && etherparse_bounded_pool_evicted_count(pool) == 0);
    WANT(etherparse_bounded_pool_remove(pool, &id) == 0 && etherparse_bounded_pool_streams(pool) == 1);
    struct etherparse_stream_id second = id;
    second.identification = 2;
    WANT(etherparse_bounded_pool_remove(pool, &second) == 1 && etherparse_bounded_pool_held_bytes(pool) == 0);
}

static void bounded_pools(void) {
    struct etherparse_bounded_pool *pool;
    struct etherparse_pool_answer told;
    struct etherparse_defrag_statistics counted, zero;
    struct etherparse_evicted_stream it;
    bounded_limits();
    bounded_overlaps();

    struct etherparse_defrag_limits limits = {.streams = 2, .bytes = 1024, .age = 10, .payload = 700};
    WANT(etherparse_bounded_pool_new(&limits, seed, &pool) == ETHERPARSE_OK);
    memset(&zero, 0, sizeof zero);
    memset(&counted, 0xff, sizeof counted);
    etherparse_bounded_pool_statistics(pool, &counted);
    WANT(memcmp(&counted, &zero, sizeof zero) == 0 && etherparse_bounded_pool_evicted_count(pool) == 0);
    WANT(etherparse_bounded_pool_evicted(pool, 0, &it) == ETHERPARSE_UNKNOWN_CHOICE);
    memcpy(buffer, untouched, ROOM);
    /* one stream too many: the one whose last fragment is oldest goes */
    WANT(bounded_pushed(pool, 1, 8, 16, true, 0, &told) == ETHERPARSE_OK);
    WANT(bounded_pushed(pool, 2, 8, 16, true, 1, &told) == ETHERPARSE_OK);
    WANT(bounded_pushed(pool, 1, 24, 32, true, 2, &told) == ETHERPARSE_OK);
    WANT(etherparse_bounded_pool_streams(pool) == 2 && etherparse_bounded_pool_held_bytes(pool) > 0);
    WANT(bounded_pushed(pool, 3, 8, 16, true, 3, &told) == ETHERPARSE_OK);
    WANT(gone(pool, 2, ETHERPARSE_EVICTED_STREAMS, 1) && etherparse_bounded_pool_streams(pool) == 2);
    /* bytes that are not a frame, and an unknown entry: nothing is reported again */
    WANT(etherparse_bounded_pool_push(pool, ETHERPARSE_ENTRY_IP, 0, payload, 9, 3, 7, buffer, ROOM, &told)
         == ETHERPARSE_REFUSED);
    WANT(told.refusal.kind != ETHERPARSE_REFUSAL_NONE && etherparse_bounded_pool_evicted_count(pool) == 0);
    WANT(bounded_push(pool, 2, 8, 16, true, 3, ROOM, &told) == ETHERPARSE_OK);
    WANT(gone(pool, 1, ETHERPARSE_EVICTED_STREAMS, 0));
    WANT(etherparse_bounded_pool_push(pool, 4, 0, payload, 9, 3, 7, buffer, ROOM, &told) == ETHERPARSE_UNKNOWN_CHOICE);
    WANT(etherparse_bounded_pool_evicted_count(pool) == 0 && etherparse_bounded_pool_streams(pool) == 2);
    /* a stream that needs more than all may: it goes, and a rejected fragment leaves it */
    WANT(bounded_push(pool, 2, 0, 7, true, 3, ROOM, &told) == ETHERPARSE_FRAGMENT_REFUSED);
    WANT(told.fragment_refusal == ETHERPARSE_FRAGMENT_UNALIGNED);
    WANT(bounded_push(pool, 2, 696, 701, false, 3, ROOM, &told) == ETHERPARSE_FRAGMENT_REFUSED);
    WANT(told.fragment_refusal == ETHERPARSE_FRAGMENT_TOO_BIG);
    WANT(bounded_push(pool, 2, 640, 648, true, 3, ROOM, &told) == ETHERPARSE_OK);
    WANT(etherparse_bounded_pool_evicted_count(pool) == 0 && etherparse_bounded_pool_held_bytes(pool) <= 1024);
    /* old, and idle */
    WANT(etherparse_bounded_pool_expire(pool, 13, UINT64_MAX) == 0 && etherparse_bounded_pool_streams(pool) == 2);
    WANT(bounded_push(pool, 3, 0, 8, true, 8, ROOM, &told) == ETHERPARSE_OK);
    WANT(etherparse_bounded_pool_expire(pool, 9, 5) == 1 && gone(pool, 2, ETHERPARSE_EVICTED_EXPIRED, 3));
    WANT(etherparse_bounded_pool_expire(pool, 14, UINT64_MAX) == 1 && gone(pool, 3, ETHERPARSE_EVICTED_EXPIRED, 3));
    WANT(etherparse_bounded_pool_expire(pool, UINT64_MAX, 0) == 0 && etherparse_bounded_pool_held_bytes(pool) == 0);
    /* the payload is longer than the buffer, and waits */
    WANT(bounded_push(pool, 4, 8, 16, false, 20, ROOM, &told) == ETHERPARSE_OK);
    WANT(bounded_push(pool, 5, 8, 16, false, 20, ROOM, &told) == ETHERPARSE_OK);
    WANT(bounded_push(pool, 4, 0, 8, true, 20, 15, &told) == ETHERPARSE_TOO_SMALL && told.len == 16);
    WANT(bounded_push(pool, 5, 0, 8, true, 20, 16, &told) == ETHERPARSE_PAYLOAD_WAITS && told.len == 16);
    WANT(is_untouched(0) && etherparse_bounded_pool_evicted_count(pool) == 0);
    etherparse_bounded_pool_clear(pool);
    WANT(etherparse_bounded_pool_streams(pool) == 0 && etherparse_bounded_pool_evicted_count(pool) == 0);
    WANT(etherparse_bounded_pool_take(pool, buffer, 15, &told) == ETHERPARSE_TOO_SMALL && is_untouched(0));
    unsigned long held = blocks;
    WANT(etherparse_bounded_pool_take(pool, buffer, 16, &told) == ETHERPARSE_COMPLETE && blocks == held - 1);
    WANT(told.len == 16 && told.ip_number == 17 && told.len_source == ETHERPARSE_END_IPV4);
    for (size_t i = 0; i < 16; i++) WANT(buffer[i] == i);
    WANT(is_untouched(16));
    memcpy(buffer, untouched, ROOM);
    WANT(etherparse_bounded_pool_take(pool, buffer, ROOM, &told) == ETHERPARSE_OK && told.len == 0 && is_untouched(0));
    WANT(bounded_push(pool, 4, 8, 16, false, 20, ROOM, &told) == ETHERPARSE_OK);
    WANT(bounded_push(pool, 4, 0, 8, true, 20, 15, &told) == ETHERPARSE_TOO_SMALL);
    held = blocks;
    etherparse_bounded_pool_discard(pool);
    etherparse_bounded_pool_discard(pool);
    WANT(blocks == held - 1);
    WANT(etherparse_bounded_pool_take(pool, NULL, 0, &told) == ETHERPARSE_OK && told.len == 0);
    WANT(etherparse_bounded_pool_push(pool, ETHERPARSE_ENTRY_IP, 0, NULL, 0, 20, 7, NULL, 0, &told)
         == ETHERPARSE_REFUSED);
    bounded_removals(pool);
    etherparse_bounded_pool_statistics(pool, &counted);
    WANT(counted.begun == 9 && counted.completed == 2 && counted.discarded == 0 && counted.expired == 2);
    WANT(counted.evicted_for_streams == 2 && counted.evicted_for_bytes == 0 && counted.removed == 3);
    WANT(counted.accepted == 14 && counted.rejected_unaligned == 1 && counted.rejected_too_big == 1);
    WANT(counted.rejected_conflicting_end == 0 && counted.rejected_discarded == 0);
    WANT(counted.rejected_out_of_memory > 0 && counted.rejected_over_budget == 0);
    /* a pool is freed with its waiting payload and its streams */
    WANT(bounded_push(pool, 6, 8, 16, false, 20, ROOM, &told) == ETHERPARSE_OK);
    WANT(bounded_push(pool, 6, 0, 8, true, 20, 15, &told) == ETHERPARSE_TOO_SMALL);
    etherparse_bounded_pool_discard(pool);
    WANT(bounded_push(pool, 7, 8, 16, false, 20, ROOM, &told) == ETHERPARSE_OK);
    WANT(bounded_push(pool, 8, 8, 16, false, 20, ROOM, &told) == ETHERPARSE_OK);
    target = NULL;
    WANT(bounded_push(pool, 8, 0, 8, true, 20, ROOM, &told) == ETHERPARSE_TOO_SMALL && told.len == 16);
    WANT(etherparse_bounded_pool_take(pool, target, ROOM, &told) == ETHERPARSE_TOO_SMALL && told.len == 16);
    target = buffer;
    etherparse_bounded_pool_free(pool);
    WANT(blocks == 0 && is_untouched(0));

    /* a stream for which another one goes, and then a stream that alone is above the limit */
    limits.bytes = 100, limits.streams = 9;
    WANT(etherparse_bounded_pool_new(&limits, seed, &pool) == ETHERPARSE_OK);
    WANT(bounded_push(pool, 1, 8, 40, true, 1, ROOM, &told) == ETHERPARSE_OK);
    WANT(bounded_push(pool, 2, 8, 40, true, 2, ROOM, &told) == ETHERPARSE_OK);
    WANT(gone(pool, 1, ETHERPARSE_EVICTED_BYTES, 1) && etherparse_bounded_pool_held_bytes(pool) <= 100);
    WANT(bounded_push(pool, 2, 80, 160, true, 3, ROOM, &told) == ETHERPARSE_OVER_BUDGET);
    WANT(gone(pool, 2, ETHERPARSE_EVICTED_BYTES, 2) && told.len == 0 && told.fragment_refusal == 0);
    WANT(etherparse_bounded_pool_held_bytes(pool) == 0 && is_untouched(0));
    etherparse_bounded_pool_statistics(pool, &counted);
    WANT(counted.begun == 2 && counted.evicted_for_bytes == 2 && counted.rejected_over_budget == 1);
    etherparse_bounded_pool_free(pool);
    WANT(blocks == 0);
    printf("bounded pools: each status, limit and cause; without memory nothing changes; all is freed\n");
}

/* ---- filters */

/* Makes the filter of a text; each allocation fails once before it succeeds, and then nothing is kept. */
static struct etherparse_filter *filter_of(const char *expression) {
    char unused;
    struct etherparse_filter *const before = (struct etherparse_filter *)&unused;
    for (unsigned long i = 1;; i++) {
        struct etherparse_filter *filter = before;
        struct etherparse_filter_error error = {7, 7, 7};
        unsigned long held = blocks;
        requests = 0, refused = i;
        uint32_t status = etherparse_filter_new(expression, strlen(expression), &filter, &error);
        bool failed_one = requests >= refused;
        refused = 0;
        WANT(error.kind == 0 && error.start == 0 && error.end == 0);
        if (status == ETHERPARSE_OK) {
            WANT(!failed_one && i > 1 && filter != before && blocks > held);
            return filter;
        }
        WANT(status == ETHERPARSE_OUT_OF_MEMORY && failed_one && filter == before && blocks == held);
    }
}

static const struct {
    const char *text;
    size_t len, start, end;
    uint32_t kind;
    const char *why;
} wrong[] = {
    {"host 1.2.3.4 ?", 14, 13, 14, ETHERPARSE_FILTER_CHARACTER, "unexpected character"},
    {"ip[2:2] - 4", 11, 8, 9, ETHERPARSE_FILTER_ARITHMETIC, "arithmetic is not supported"},
    {"gateway", 7, 0, 7, ETHERPARSE_FILTER_NOT_TAKEN, "a keyword of tcpdump that is not supported"},
    {"udp port", 8, 8, 8, ETHERPARSE_FILTER_END, "the filter ends too early"},
    {"udp )", 5, 4, 5, ETHERPARSE_FILTER_MISPLACED, "not allowed here"},
    {"10.0.0.1", 8, 0, 8, ETHERPARSE_FILTER_UNQUALIFIED, "a value without host, net, port or the like before it"},
    {"hots", 4, 0, 4, ETHERPARSE_FILTER_UNKNOWN, "not a filter keyword"},
    {"host a.example", 14, 5, 14, ETHERPARSE_FILTER_NOT_AN_ADDRESS, "not an IP address (names are not looked up)"},
    {"net x", 5, 4, 5, ETHERPARSE_FILTER_NOT_A_NETWORK, "not a network (such as 10.0.0.0/8 or 192.168)"},
    {"ether host 1", 12, 11, 12, ETHERPARSE_FILTER_NOT_A_STATION, "not a MAC address (such as 02:00:00:00:00:01)"},
    {"port 65536", 10, 5, 10, ETHERPARSE_FILTER_NOT_A_PORT,
     "not a port (a number up to 65535, or a name such as http)"},
    {"portrange http", 14, 10, 14, ETHERPARSE_FILTER_NOT_A_RANGE, "not a range of ports (such as 6000-6010)"},
    {"proto 256", 9, 6, 9, ETHERPARSE_FILTER_NOT_A_PROTOCOL, "not a protocol number (up to 255)"},
    {"ether proto 6", 13, 12, 13, ETHERPARSE_FILTER_NOT_AN_ETHER_TYPE, "not an ether type (1536 to 65535)"},
    {"vlan 4096", 9, 5, 9, ETHERPARSE_FILTER_NOT_A_VLAN, "not a VLAN identifier (up to 4095)"},
    {"less x", 6, 5, 6, ETHERPARSE_FILTER_NOT_A_NUMBER, "not a number (up to 4294967295)"},
    {"ip[0:3] = 1", 11, 5, 6, ETHERPARSE_FILTER_NOT_A_SIZE, "not a size (1, 2 or 4)"},
    {"ip6 host 1.2.3.4", 16, 9, 16, ETHERPARSE_FILTER_WRONG_FAMILY, "an address of the other IP version"},
    {"net 10.0.0.0/33", 15, 13, 15, ETHERPARSE_FILTER_NOT_A_LENGTH, "not a prefix length of the address"},
    {"net 10.0.0.0 mask 255.0.255.0", 29, 18, 29, ETHERPARSE_FILTER_NOT_A_MASK, "not a mask (ones, followed by zeros)"},
    {"net 10.0.0.1/8", 14, 13, 14, ETHERPARSE_FILTER_HOST_BITS, "the address has bits set after the prefix"},
    {"host 10.0.0.1/8", 15, 13, 14, ETHERPARSE_FILTER_NET_ONLY, "only networks have a prefix length or mask"},
    {(const char *)payload, 65, 64, 65, ETHERPARSE_FILTER_DEEP, "more than 64 open parentheses and not"},
    {(const char *)payload, LONG, 65536, LONG, ETHERPARSE_FILTER_LONG, "the filter has more than 65536 bytes"},
    {"tcp \xc3\xbc\xff or udp", 14, 6, 14, ETHERPARSE_FILTER_NOT_UTF8, "not UTF-8"},
};

/* Each kind of error, with its text. */
static void filter_errors(void) {
    char unused;
    struct etherparse_filter *filter = (struct etherparse_filter *)&unused;
    struct etherparse_filter_error error;
    memset(payload, '(', LONG);
    for (uint32_t i = 0; i < sizeof wrong / sizeof *wrong; i++) {
        memset(&error, 0xff, sizeof error);
        WANT(etherparse_filter_new(wrong[i].text, wrong[i].len, &filter, &error) == ETHERPARSE_REFUSED);
        if (error.kind != i + 1 || error.start != wrong[i].start || error.end != wrong[i].end)
            printf("%.20s: kind %u from %zu to %zu\n", wrong[i].text, error.kind, error.start, error.end), failed = 1;
        WANT(wrong[i].kind == i + 1 && filter == (struct etherparse_filter *)&unused && blocks == 0);
        WANT(etherparse_filter_new(wrong[i].text, wrong[i].len, &filter, NULL) == ETHERPARSE_REFUSED && blocks == 0);
        size_t whole = strlen(wrong[i].why) + 1;
        WANT(whole <= ETHERPARSE_REASON_TEXT_MAX);
        for (size_t room = 0; room <= whole; room++) {
            memcpy(buffer, untouched, ROOM);
            uint32_t status = etherparse_filter_error_text(i + 1, (char *)buffer, room, &written);
            WANT(status == (room < whole ? ETHERPARSE_TOO_SMALL : ETHERPARSE_OK) && written == whole);
            WANT(is_untouched(room < whole ? 0 : whole));
        }
        WANT(strcmp((char *)buffer, wrong[i].why) == 0);
        target = NULL, written = 7;
        WANT(etherparse_filter_error_text(i + 1, (char *)target, ROOM, &written) == ETHERPARSE_TOO_SMALL);
        WANT(written == whole);
        target = buffer;
    }
    memcpy(buffer, untouched, ROOM);
    for (uint32_t i = 26; i != 1; i = i < 300 ? i + 1 : i == 300 ? UINT32_MAX : i == UINT32_MAX ? 0 : 1) {
        WANT(etherparse_filter_error_text(i, (char *)buffer, ROOM, &written) == ETHERPARSE_UNKNOWN_CHOICE);
        WANT(written == 0 && is_untouched(0));
    }
    memset(payload, 0, LONG);
    printf("etherparse_filter_new, etherparse_filter_error_text: each error has its place and its text\n");
}

static void filters(void) {
    uint8_t frame[ROOM], matches = 7, all[4];
    size_t len, matched;
    WANT(etherparse_build_udp(&route, 53, 1234, payload, 8, frame, ROOM, &len) == ETHERPARSE_OK && len == 50);
    memcpy(frame + len, frame, 13), memcpy(frame + len + 13, frame, len);
    const size_t total = 2 * len + 13, ends[3] = {len, len + 13, total};
    const uint32_t wire_lens[3] = {51, 13, 1000};
    static const struct {
        const char *text, *printed;
        uint8_t first, cut, last; /* whether a datagram matches, the front of one, and one with a greater wire_len */
    } rows[] = {
        {"", "", 1, 1, 1},
        {"udp port 53", "udp src or dst port 53", 1, 0, 1},
        {"not ip", "not ether proto 0x0800", 0, 1, 0},
        {"((src host 10.0.0.1)) and len > 51", "src host 10.0.0.1 and len > 51", 0, 0, 1},
    };
    for (size_t i = 0; i < sizeof rows / sizeof *rows; i++) {
        struct etherparse_filter *filter = filter_of(rows[i].text);
        unsigned long held = blocks;
        requests = 0;
        WANT(etherparse_filter_matches(filter, 0, 0, frame, len, 50, &matches) == ETHERPARSE_OK);
        WANT(matches == rows[i].first);
        WANT(etherparse_filter_matches(filter, 0, 0, frame, 13, 13, &matches) == ETHERPARSE_OK);
        WANT(matches == rows[i].cut);
        WANT(etherparse_filter_matches(filter, 4, 0, frame, len, 50, &matches) == ETHERPARSE_UNKNOWN_CHOICE);
        WANT(matches == 0);
        memset(all, 7, sizeof all);
        WANT(etherparse_filter_matches_many(filter, 0, 0, frame, total, ends, 3, wire_lens, all, &matched)
             == ETHERPARSE_OK);
        WANT(matched == 3 && all[0] == rows[i].first && all[1] == rows[i].cut && all[2] == rows[i].last && all[3] == 7);
        WANT(etherparse_filter_matches_many(filter, 0, 0, frame, total, ends, 3, NULL, all, &matched) == ETHERPARSE_OK);
        WANT(matched == 3 && all[2] == rows[i].first);
        memset(all, 7, sizeof all);
        WANT(etherparse_filter_matches_many(filter, 0, 0, frame, total - 1, ends, 3, NULL, all, &matched)
             == ETHERPARSE_UNKNOWN_CHOICE);
        WANT(matched == 2 && all[1] == rows[i].cut && all[2] == 7);
        WANT(etherparse_filter_matches_many(filter, 4, 0, frame, total, ends, 3, NULL, all, &matched)
             == ETHERPARSE_UNKNOWN_CHOICE);
        WANT(matched == 0 && etherparse_2_filter_matches_many(filter, 0, 0, frame, total, ends, 3, wire_lens, 0, all, 2,
                                                              &matched)
                                 == ETHERPARSE_TOO_SMALL);
        target = NULL;
        for (uint32_t entry = 0; entry < 5; entry += 4) { /* a null pointer, and a count above 0 */
            matched = 7;
            WANT(etherparse_filter_matches_many(filter, entry, 0, frame, total, ends, 3, NULL, target, &matched)
                 == ETHERPARSE_TOO_SMALL);
            WANT(matched == 0);
        }
        WANT(matched == 0 && requests == 0); /* matching does not allocate */
        size_t whole = strlen(rows[i].printed) + 1;
        WANT(etherparse_filter_text(filter, NULL, 0, &written) == ETHERPARSE_TOO_SMALL && written == whole);
        unsigned long asked = requests;
        written = 7;
        WANT(etherparse_filter_text(filter, (char *)target, ROOM, &written) == ETHERPARSE_TOO_SMALL);
        WANT(written == whole);
        target = buffer;
        for (unsigned long j = 0; j <= asked; j++) {
            memcpy(buffer, untouched, ROOM);
            requests = 0, refused = j;
            uint32_t status = etherparse_filter_text(filter, (char *)buffer, whole, &written);
            refused = 0;
            WANT(status == (j == 0 ? ETHERPARSE_OK : ETHERPARSE_OUT_OF_MEMORY) && written == (j == 0 ? whole : 0));
            WANT(is_untouched(j == 0 ? whole : 0) && blocks == held);
            WANT(j != 0 || strcmp((char *)buffer, rows[i].printed) == 0);
        }
        etherparse_filter_free(filter);
        WANT(blocks == 0);
    }
    struct etherparse_filter *filter;
    WANT(etherparse_filter_new(NULL, 0, &filter, NULL) == ETHERPARSE_OK);
    WANT(etherparse_filter_matches(filter, 0, 0, NULL, 0, 0, &matches) == ETHERPARSE_OK && matches == 1);
    WANT(etherparse_filter_matches_many(filter, 0, 0, NULL, 0, NULL, 0, NULL, NULL, &matched) == ETHERPARSE_OK);
    WANT(matched == 0);
    etherparse_filter_free(filter);
    etherparse_filter_free(NULL);
    WANT(blocks == 0);
    printf("filters: each status; without memory nothing is kept; matching takes none; all is freed\n");
}

int main(void) {
    for (size_t i = 0; i < ROOM; i++) untouched[i] = (uint8_t)(200 + i % 50);
    writes("etherparse_build_udp", udp, 50);
    writes("etherparse_build_tcp", tcp, 62);
    writes("etherparse_build_icmp_echo", echo, 50);
    writes("etherparse_build_tagged_udp", tagged_udp, 58);
    writes("etherparse_build_tagged_tcp", tagged_tcp, 110);
    writes("etherparse_build_tagged_icmp_echo", tagged_echo, 58);
    writes("etherparse_build_fragment", fragments, 50);
    writes("etherparse_refusal_text", text, 21);
    memcpy(buffer, untouched, ROOM);
    builds("etherparse_build_udp", udp, 42, 65507);
    builds("etherparse_build_tcp", tcp, 54, 65495);
    builds("etherparse_build_icmp_echo", echo, 42, 65507);
    builds("etherparse_build_tagged_udp", tagged_udp, 50, 65507);
    builds("etherparse_build_tagged_tcp", tagged_tcp, 102, 65455);
    builds("etherparse_build_tagged_icmp_echo", tagged_echo, 50, 65507);
    builds("etherparse_build_fragment", fragments, 42, 65515);
    tags();
    refusals();
    slices();
    slices_laxly();
    many(&strict);
    many(&lax);
    fields();
    nulls();
    pools();
    bounded_pools();
    filter_errors();
    filters();
    return failed;
}
