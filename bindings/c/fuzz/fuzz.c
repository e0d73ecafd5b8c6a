/* Passes inputs of libFuzzer to the calls of etherparse.h, and aborts on a result that the header does not allow.
 *
 * An input is the number of an entry, an ether type in two bytes, and frames, each after its length in two bytes. Each
 * frame is sliced separately, laxly and with its neighbour; errors are formatted; each payload is built into a frame,
 * which is sliced again; the fields of its headers are compared with its bytes, and read by descriptions with random
 * numbers; its bytes choose the words of a filter expression, which the frame is matched with; and all frames are
 * pushed to one pool, and to one bounded pool, whose limits are numbers of the ether type. Each frame ends before an
 * unreadable page, and the bytes after the end of each buffer are checked. The archive has no coverage counters for
 * libFuzzer, so results are counted instead.
 *
 * With ETHERPARSE_FUZZ_ONCE the program has a `main`, which passes files to the calls, without libFuzzer. */
#include <etherparse.h>
#include <stdio.h>
#include <stdlib.h>
#include <string.h>
#include <sys/mman.h>

#define WANT(holds) ((holds) ? (void)0 : (fprintf(stderr, "line %d: %s does not hold\n", __LINE__, #holds), abort()))

enum { ROOM = 1 << 17, PAGE = 4096, LIMIT = 256, MARK = 0xa5 };

__attribute__((used, section("__libfuzzer_extra_counters"))) static uint8_t seen[1 << 14];

static void see(uint32_t what, uint32_t which) { seen[(what * 131 + which) % sizeof seen] = 1; }

/* Returns memory of ROOM bytes between two unreadable pages. */
static uint8_t *room(void) {
    static uint8_t *between;
    if (!between) {
        uint8_t *all = mmap(NULL, PAGE + ROOM + PAGE, PROT_NONE, MAP_PRIVATE | MAP_ANONYMOUS, -1, 0);
        WANT(all != MAP_FAILED && mprotect(all + PAGE, ROOM, PROT_READ | PROT_WRITE) == 0);
        between = all + PAGE;
    }
    return between;
}

/* Returns a copy of the bytes at the end of readable memory. */
static const uint8_t *guarded(const uint8_t *bytes, size_t len) {
    WANT(len <= ROOM);
    return memcpy(room() + ROOM - len, bytes, len);
}

static void look_at_refusal(const struct etherparse_refusal *refusal) {
    WANT(refusal->kind >= ETHERPARSE_REFUSAL_LEN && refusal->kind <= ETHERPARSE_REFUSAL_TCP_DATA_OFFSET);
    int is_timestamp = refusal->layer == ETHERPARSE_LAYER_ICMPV4_TIMESTAMP
                       || refusal->layer == ETHERPARSE_LAYER_ICMPV4_TIMESTAMP_REPLY;
    if (refusal->kind == ETHERPARSE_REFUSAL_LEN) {
        WANT(refusal->layer >= ETHERPARSE_LAYER_ETHERNET2_HEADER && refusal->layer <= ETHERPARSE_LAYER_ICMPV6);
        WANT(refusal->len_source <= ETHERPARSE_END_ARP);
        WANT(is_timestamp ? refusal->required_len == 20 && refusal->len != 20 : refusal->required_len > refusal->len);
    } else {
        WANT(refusal->layer == 0 && refusal->required_len == 0 && refusal->len == 0);
    }
    char text[ETHERPARSE_REFUSAL_TEXT_MAX + 1];
    size_t written;
    memset(text, MARK, sizeof text);
    WANT(etherparse_refusal_text(refusal, text, ETHERPARSE_REFUSAL_TEXT_MAX, &written) == ETHERPARSE_OK);
    WANT(written <= ETHERPARSE_REFUSAL_TEXT_MAX && written == strlen(text) + 1);
    WANT((uint8_t)text[written] == MARK);
    WANT(etherparse_refusal_text(refusal, text, written - 1, &written) == ETHERPARSE_TOO_SMALL);
    see(refusal->kind, 64 * refusal->layer + refusal->len_source);
}

static void look_at_packet(const struct etherparse_packet *packet, uint32_t entry, size_t len) {
    size_t end = 0;
    WANT(packet->link_ext_count <= 3 && packet->payload.incomplete <= 1);
    WANT(packet->link.offset == end);
    WANT(packet->link.kind == (entry == ETHERPARSE_ENTRY_ETHERNET    ? ETHERPARSE_LINK_ETHERNET2
                               : entry == ETHERPARSE_ENTRY_LINUX_SLL ? ETHERPARSE_LINK_LINUX_SLL
                                                                     : 0u));
    WANT(packet->link.len == (packet->link.kind == 0 ? 0u : packet->link.kind == 1 ? 14u : 16u));
    end += packet->link.len;
    for (uint32_t i = 0; i < 3; i++) {
        const struct etherparse_link_ext *tag = &packet->link_exts[i];
        WANT((tag->kind != 0) == (i < packet->link_ext_count));
        WANT(tag->vlan_id <= 4095 && (tag->kind == ETHERPARSE_EXT_VLAN || tag->vlan_id == 0));
        if (tag->kind == 0) continue;
        WANT(tag->offset == end);
        end += tag->len;
    }
    WANT(packet->net.offset == end);
    end += packet->net.len;
    WANT(packet->ip.version == (packet->net.kind == ETHERPARSE_NET_ARP ? 0 : packet->net.kind));
    WANT(packet->ip.header_len <= packet->net.len && packet->ip.fragmented <= 1 && packet->ip.more_fragments <= 1);
    WANT(packet->transport.offset == end);
    end += packet->transport.len;
    WANT(!packet->ip.fragmented || packet->transport.kind == 0);
    uint32_t kind = packet->transport.kind;
    int has_ports = kind == ETHERPARSE_TRANSPORT_UDP || kind == ETHERPARSE_TRANSPORT_TCP;
    WANT(has_ports || (packet->source_port == 0 && packet->destination_port == 0));
    WANT(packet->payload.offset == end && packet->payload.len <= len - end && end <= len);
    WANT(packet->payload.len_source <= ETHERPARSE_END_ARP);
    see(20 + packet->net.kind, 64 * packet->transport.kind + 8 * packet->link_ext_count + packet->payload.len_source);
    see(30 + packet->link.kind, packet->ip.fragmented + 2 * packet->ip.more_fragments);
}

static size_t word(const uint8_t *at) { return (size_t)(at[0] << 8 | at[1]); }
static size_t long_word(const uint8_t *at) { return word(at) << 16 | word(at + 2); }

static void look_at_link_fields(const struct etherparse_packet *packet, const uint8_t *frame,
                                const struct etherparse_fields *fields) {
    const uint8_t *at = frame + packet->link.offset;
    int is_ethernet = packet->link.kind == ETHERPARSE_LINK_ETHERNET2;
    WANT(fields->link.ether_type == (is_ethernet ? word(at + 12) : 0));
    if (is_ethernet)
        WANT(memcmp(fields->link.destination, at, 6) == 0 && memcmp(fields->link.source, at + 6, 6) == 0);
    if (packet->link.kind == ETHERPARSE_LINK_LINUX_SLL) {
        WANT(fields->link.packet_type == word(at) && fields->link.hardware_type == word(at + 2));
        WANT(fields->link.address_len == word(at + 4) && memcmp(fields->link.address, at + 6, 8) == 0);
        WANT(fields->link.protocol == word(at + 14));
    }
    for (uint32_t i = 0; i < 3; i++) {
        const struct etherparse_tag_fields *tag = &fields->tags[i];
        at = frame + packet->link_exts[i].offset;
        WANT(tag->kind == packet->link_exts[i].kind);
        if (tag->kind == ETHERPARSE_EXT_VLAN) {
            WANT(tag->vlan_id == packet->link_exts[i].vlan_id && tag->ether_type == word(at + 2));
            WANT(tag->priority == at[0] >> 5 && tag->drop_eligible == (at[0] >> 4 & 1));
        } else if (tag->kind == ETHERPARSE_EXT_MACSEC) {
            WANT(tag->macsec_flags == (at[0] & 0x7c) && tag->association_number == (at[0] & 3));
            WANT(tag->short_len == (at[1] & 63) && tag->packet_number == long_word(at + 2));
            WANT(tag->sci == (at[0] & ETHERPARSE_MACSEC_SC ? long_word(at + 6) << 32 | long_word(at + 10) : 0));
        }
    }
}

static void look_at_net_fields(const struct etherparse_packet *packet, const uint8_t *frame,
                               const struct etherparse_fields *fields) {
    const struct etherparse_ip_fields *ip = &fields->ip;
    const struct etherparse_arp_fields *arp = &fields->arp;
    const uint8_t *at = frame + packet->net.offset;
    WANT(ip->version == packet->ip.version && ip->number == packet->ip.number);
    WANT(ip->more_fragments == packet->ip.more_fragments && ip->fragment_offset == packet->ip.fragment_offset);
    WANT(ip->identification == packet->ip.identification);
    if (ip->version == 4) {
        WANT(ip->dscp == at[1] >> 2 && ip->ecn == (at[1] & 3) && ip->length == word(at + 2) && ip->hop_limit == at[8]);
        WANT(ip->dont_fragment == (at[6] >> 6 & 1) && ip->next_header == at[9] && ip->checksum == word(at + 10));
        WANT(memcmp(ip->source, at + 12, 4) == 0 && memcmp(ip->destination, at + 16, 4) == 0 && ip->source[4] == 0);
        WANT(ip->options.offset == packet->net.offset + 20 && ip->options.len == packet->ip.header_len - 20);
    } else if (ip->version == 6) {
        WANT(ip->dscp == (word(at) >> 6 & 63) && ip->ecn == (at[1] >> 4 & 3) && ip->length == word(at + 4));
        WANT(ip->flow_label == (long_word(at) & 0xfffff) && ip->next_header == at[6] && ip->hop_limit == at[7]);
        WANT(memcmp(ip->source, at + 8, 16) == 0 && memcmp(ip->destination, at + 24, 16) == 0);
    }
    if (packet->net.kind == ETHERPARSE_NET_ARP) {
        WANT(arp->hardware_type == word(at) && arp->protocol_type == word(at + 2) && arp->operation == word(at + 6));
        WANT(arp->hardware_len == at[4] && arp->protocol_len == at[5]);
        WANT(arp->sender_hardware.offset == packet->net.offset + 8 && arp->sender_hardware.len == at[4]);
        WANT(arp->target_protocol.offset + at[5] == packet->net.offset + packet->net.len);
    } else {
        WANT(arp->hardware_type == 0 && arp->operation == 0 && arp->target_protocol.offset == 0);
    }
}

static void look_at_transport_fields(const struct etherparse_packet *packet, const uint8_t *frame,
                                     const struct etherparse_transport_fields *fields) {
    const uint8_t *at = frame + packet->transport.offset;
    uint32_t kind = packet->transport.kind, number = packet->ip.number;
    int is_tcp = kind == ETHERPARSE_TRANSPORT_TCP, is_udp = kind == ETHERPARSE_TRANSPORT_UDP;
    int is_icmp = kind == ETHERPARSE_TRANSPORT_ICMPV4 || kind == ETHERPARSE_TRANSPORT_ICMPV6;
    int is_cut = kind == 0 && (number == 6 || number == 17) && !packet->ip.fragmented && packet->payload.len >= 4;
    int has_ports = is_tcp || is_udp || is_cut;
    WANT(fields->source_port == (has_ports ? word(at) : 0));
    WANT(fields->destination_port == (has_ports ? word(at + 2) : 0));
    WANT(fields->udp_length == (is_udp ? word(at + 4) : 0));
    WANT(fields->checksum == (is_tcp ? word(at + 16) : is_udp ? word(at + 6) : is_icmp ? word(at + 2) : 0));
    WANT(fields->sequence_number == (is_tcp ? long_word(at + 4) : 0));
    WANT(fields->acknowledgment_number == (is_tcp ? long_word(at + 8) : 0));
    WANT(fields->tcp_flags == (is_tcp ? word(at + 12) & 0x1ff : 0));
    WANT(fields->data_offset == (is_tcp ? at[12] >> 4 : 0));
    WANT(fields->window_size == (is_tcp ? word(at + 14) : 0));
    WANT(fields->urgent_pointer == (is_tcp ? word(at + 18) : 0));
    WANT(fields->options.offset == (is_tcp ? packet->transport.offset + 20 : 0));
    WANT(fields->options.len == (is_tcp ? packet->transport.len - 20 : 0));
    WANT(fields->icmp_type == (is_icmp ? at[0] : 0) && fields->icmp_code == (is_icmp ? at[1] : 0));
    WANT(memcmp(fields->icmp_rest, is_icmp ? at + 4 : (const uint8_t *)"\0\0\0", 4) == 0);
    see(90, 4 * kind + 2 * (uint32_t)is_cut + (fields->options.len != 0));
}

/* Reads the fields by a description with random numbers, of a frame at the end and at the start of readable memory. */
static void look_at_description(const struct etherparse_packet *packet, const uint8_t *end, size_t len) {
    static const struct etherparse_fields nothing;
    struct etherparse_fields one, two;
    const uint8_t *start = memcpy(room(), end, len);
    memset(&one, 0xff, sizeof one), memset(&two, 0, sizeof two);
    enum etherparse_status status = etherparse_fields(packet, end, len, &one);
    WANT(etherparse_fields(packet, start, len, &two) == status);
    WANT(status == ETHERPARSE_OK || status == ETHERPARSE_UNKNOWN_CHOICE);
    WANT(status == ETHERPARSE_OK || memcmp(&two, &nothing, sizeof two) == 0);
    size_t first = offsetof(struct etherparse_ip_fields, identification), all = sizeof one.ip; /* padding before it */
    WANT(memcmp(&one.link, &two.link, sizeof one.link) == 0 && memcmp(&one.arp, &two.arp, sizeof one.arp) == 0);
    WANT(memcmp(&one.ip, &two.ip, first - 2) == 0);
    WANT(memcmp(&one.ip.identification, &two.ip.identification, all - first) == 0);
    const struct etherparse_place places[] = {one.ip.options, one.transport.options, one.arp.sender_hardware,
                                              one.arp.sender_protocol, one.arp.target_hardware,
                                              one.arp.target_protocol};
    for (size_t i = 0; i < sizeof places / sizeof *places; i++)
        WANT(places[i].offset <= len && places[i].len <= len - places[i].offset);
    see(91, status);
}

/* Checks the fields of a packet, and then changes up to four numbers of its description. */
static void look_at_fields(const struct etherparse_packet *packet, const uint8_t *frame, size_t len) {
    static const uint64_t numbers[] = {0, 1, 2, 4, 6, 8, 14, 17, 20, 34, 40, 58, 255, 1 << 16, UINT32_MAX, UINT64_MAX,
                                       UINT64_MAX - 13, UINT64_MAX - 19, 1ull << 63};
    struct etherparse_fields fields;
    WANT(etherparse_fields(packet, frame, len, &fields) == ETHERPARSE_OK);
    look_at_link_fields(packet, frame, &fields);
    look_at_net_fields(packet, frame, &fields);
    look_at_transport_fields(packet, frame, &fields.transport);
    uint64_t random = len;
    for (size_t i = 0; i < len; i++) random = (random ^ frame[i]) * 0x100000001b3;
    for (size_t count = 0; count < 4; count++) {
        struct etherparse_packet changed = *packet;
        size_t changes = count + 1;
        while (changes--) {
            random = random * 6364136223846793005 + 1442695040888963407;
            uint64_t number = numbers[(random >> 33) % (sizeof numbers / sizeof *numbers)];
            if (random >> 62 == 0) number = random >> 40; /* or the length, and numbers near it */
            if (random >> 62 == 1) number = len - (random >> 56) % 32;
            size_t place = (random >> 44) % (sizeof changed / 4) * 4, width = (random >> 61 & 1) ? 8 : 4;
            if (place + width > sizeof changed) width = 4;
            memcpy((uint8_t *)&changed + place, &number, width);
        }
        look_at_description(&changed, frame, random >> 61 == 7 ? len / 2 : len);
    }
}

/* Checks which verdicts there are, and that of the IPv4 header. */
static void look_at_checksums(uint32_t entry, uint16_t ether_type, const struct etherparse_packet *packet,
                              const uint8_t *frame, size_t len) {
    struct etherparse_fields fields;
    memset(&fields, 0x77, sizeof fields);
    WANT(etherparse_checksums(entry, ether_type, frame, len, &fields) == ETHERPARSE_OK);
    WANT(fields.ip.version == 0x77 && fields.transport.options.len == 0x7777777777777777);
    WANT(fields.header_checksum <= ETHERPARSE_CHECKSUM_INVALID);
    WANT((fields.header_checksum != 0) == (packet->net.kind == ETHERPARSE_NET_IPV4));
    if (fields.header_checksum) {
        uint16_t sum = etherparse_checksum(frame + packet->net.offset, packet->ip.header_len);
        WANT(fields.header_checksum == (sum == 0 ? ETHERPARSE_CHECKSUM_VALID : ETHERPARSE_CHECKSUM_INVALID));
    }
    WANT(fields.transport_checksum <= ETHERPARSE_CHECKSUM_UNKNOWN);
    WANT((fields.transport_checksum != 0) == (packet->transport.kind != 0 || packet->ip.fragmented));
    int is_unknown = packet->ip.fragmented || (packet->payload.incomplete && packet->transport.kind != 0);
    WANT(!is_unknown || fields.transport_checksum == ETHERPARSE_CHECKSUM_UNKNOWN);
    see(92, 8 * packet->transport.kind + fields.transport_checksum);
}

/* Checks lax slicing: a frame has its strict layers, and other bytes have the layers up to the first invalid one. */
static void look_at_lax(const struct etherparse_packet *strict, enum etherparse_status status, uint32_t entry,
                        uint16_t ether_type, const uint8_t *frame, size_t len) {
    struct etherparse_packet packet;
    memset(&packet, 0x33, sizeof packet);
    enum etherparse_status lax = etherparse_slice_lax(entry, ether_type, frame, len, &packet);
    see(60, lax * 32 + packet.refusal.kind);
    WANT((lax == ETHERPARSE_UNKNOWN_CHOICE) == (entry == 4));
    if (lax != ETHERPARSE_OK) {
        WANT(status == lax && packet.refusal.kind == strict->refusal.kind && packet.refusal.len == strict->refusal.len);
        WANT(packet.net.kind == 0 && packet.payload.len == 0 && packet.payload.incomplete == 0);
        return;
    }
    look_at_packet(&packet, entry, len);
    look_at_fields(&packet, frame, len);
    look_at_checksums(entry, ether_type, &packet, frame, len);
    if (packet.refusal.kind != ETHERPARSE_REFUSAL_NONE) {
        WANT(status == ETHERPARSE_REFUSED);
        look_at_refusal(&packet.refusal);
    }
    if (status != ETHERPARSE_OK) return;
    WANT(packet.refusal.kind == ETHERPARSE_REFUSAL_NONE && packet.payload.incomplete == 0);
    WANT(packet.payload.offset == strict->payload.offset && packet.payload.len == strict->payload.len);
    WANT(packet.payload.len_source == strict->payload.len_source && packet.transport.kind == strict->transport.kind);
    WANT(packet.net.len == strict->net.len && packet.link_ext_count == strict->link_ext_count);
}

/* Checks that a built frame has this payload when it is sliced. */
static void look_at_building(const uint8_t *payload, size_t len, uint32_t choice) {
    static uint8_t buffer[ROOM];
    struct etherparse_route route = {.version = choice & 1 ? 6 : 4, .with_ethernet = (choice >> 1) & 1, .hop_limit = 9};
    struct etherparse_packet packet;
    size_t written, room = len + 62;
    memset(buffer, MARK, room + 1);
    enum etherparse_status status = etherparse_build_udp(&route, 21, 1234, payload, len, buffer, room, &written);
    if (status == ETHERPARSE_TOO_LONG) {
        WANT(len > 65507 && buffer[0] == MARK);
        return;
    }
    size_t headers = 8 + (route.version == 4 ? 20 : 40) + (route.with_ethernet ? 14 : 0);
    WANT(status == ETHERPARSE_OK && written == len + headers && buffer[written] == MARK && buffer[room] == MARK);
    uint32_t entry = route.with_ethernet ? ETHERPARSE_ENTRY_ETHERNET : ETHERPARSE_ENTRY_IP;
    WANT(etherparse_slice(entry, 0, buffer, written, &packet) == ETHERPARSE_OK);
    WANT(packet.source_port == 21 && packet.destination_port == 1234 && packet.payload.len == len);
    WANT(len == 0 || memcmp(buffer + packet.payload.offset, payload, len) == 0);
    struct etherparse_fields fields;
    WANT(etherparse_checksums(entry, 0, buffer, written, &fields) == ETHERPARSE_OK);
    WANT(fields.transport_checksum == ETHERPARSE_CHECKSUM_VALID);
    if (route.version == 4) WANT(fields.header_checksum == ETHERPARSE_CHECKSUM_VALID);
    memset(buffer, MARK, room + 1);
    size_t less = written - 1;
    WANT(etherparse_build_udp(&route, 21, 1234, payload, len, buffer, less, &written) == ETHERPARSE_TOO_SMALL);
    WANT(written == less + 1 && buffer[0] == MARK && buffer[less] == MARK);
}

/* Checks frames with tags and options, and two fragments that a pool reassembles. */
static void look_at_tagged(const uint8_t *payload, size_t len, uint32_t choice) {
    static uint8_t buffer[ROOM];
    struct etherparse_tagged_route route = {
        .route = {.version = choice & 1 ? 6 : 4, .with_ethernet = 1, .hop_limit = 9},
        .tag_count = choice / 2 % 4,
        .vlan_ids = {(uint16_t)(choice * 37 % 4200), 42},
    };
    struct etherparse_tcp_fields fields = {.source_port = 21, .destination_port = 1234, .flags = (uint8_t)choice};
    struct etherparse_packet packet;
    size_t written, options_len = choice / 8 % 44;
    uint8_t options[44];
    memset(options, 1, sizeof options);
    if (len > 2000) len = 2000;
    memset(buffer, MARK, len + 200);
    enum etherparse_status status =
        etherparse_build_tagged_tcp(&route, &fields, options, options_len, payload, len, buffer, len + 200, &written);
    int fits = route.tag_count <= 2 && (route.tag_count == 0 || route.vlan_ids[0] <= 4095);
    WANT(status == (options_len > 40 ? ETHERPARSE_TOO_LONG : fits ? ETHERPARSE_OK : ETHERPARSE_UNKNOWN_CHOICE));
    see(50, status * 4 + route.tag_count);
    if (status != ETHERPARSE_OK) {
        WANT(written == 0 && buffer[0] == MARK);
        return;
    }
    WANT(buffer[written] == MARK);
    WANT(etherparse_slice(ETHERPARSE_ENTRY_ETHERNET, 0, buffer, written, &packet) == ETHERPARSE_OK);
    WANT(packet.link_ext_count == route.tag_count && packet.transport.len == 20 + (options_len + 3) / 4 * 4);
    for (uint32_t i = 0; i < route.tag_count; i++) WANT(packet.link_exts[i].vlan_id == route.vlan_ids[i]);
    WANT(packet.payload.len == len && (len == 0 || memcmp(buffer + packet.payload.offset, payload, len) == 0));

    struct etherparse_pool *pool;
    struct etherparse_pool_answer answer;
    uint8_t whole[2000];
    size_t half = len / 16 * 8;
    if (half == 0) return;
    WANT(etherparse_pool_new(&pool) == ETHERPARSE_OK);
    for (int i = 1; i >= 0; i--) {
        struct etherparse_fragment_fields fragment = {
            .ip_number = 253, .more_fragments = i == 0, .fragment_offset = (uint16_t)(i * half), .identification = 7};
        WANT(etherparse_build_fragment(&route, &fragment, payload + i * half, i == 0 ? half : len - half, buffer,
                                       sizeof buffer, &written)
             == ETHERPARSE_OK);
        status = etherparse_pool_push(pool, ETHERPARSE_ENTRY_ETHERNET, 0, buffer, written, 1, 0, whole, len, &answer);
        WANT(status == (i == 0 ? ETHERPARSE_COMPLETE : ETHERPARSE_OK));
    }
    WANT(answer.len == len && answer.ip_number == 253 && memcmp(whole, payload, len) == 0);
    etherparse_pool_free(pool);
}

static void look_at_pool(struct etherparse_pool *pool, uint32_t entry, uint16_t ether_type, const uint8_t *frame,
                         size_t len, uint64_t time, enum etherparse_status sliced) {
    uint8_t buffer[LIMIT + 1];
    struct etherparse_pool_answer answer;
    memset(buffer, MARK, sizeof buffer);
    size_t room = time % 2 == 0 ? LIMIT : 24; /* with a shorter buffer payloads wait */
    enum etherparse_status status =
        etherparse_pool_push(pool, entry, ether_type, frame, len, time, time % 3 == 2, buffer, room, &answer);
    see(40, status * 8 + answer.fragment_refusal);
    if (status == ETHERPARSE_COMPLETE) {
        WANT(answer.len <= room && buffer[answer.len] == MARK);
    } else {
        WANT(buffer[0] == MARK && buffer[room] == MARK);
    }
    if (status == ETHERPARSE_REFUSED) {
        WANT(sliced == ETHERPARSE_REFUSED);
        look_at_refusal(&answer.refusal);
    } else {
        WANT(answer.refusal.kind == 0);
    }
    if (status == ETHERPARSE_TOO_SMALL) {
        WANT(answer.len > room && answer.len <= LIMIT);
        WANT(etherparse_pool_push(pool, entry, ether_type, frame, len, time, 0, buffer, room, &answer)
             == ETHERPARSE_PAYLOAD_WAITS);
        size_t waits = answer.len;
        if (time % 4 == 3) {
            etherparse_pool_discard(pool);
            WANT(etherparse_pool_take(pool, buffer, LIMIT, &answer) == ETHERPARSE_OK && buffer[0] == MARK);
            return;
        }
        WANT(etherparse_pool_take(pool, buffer, waits - 1, &answer) == ETHERPARSE_TOO_SMALL && buffer[0] == MARK);
        WANT(etherparse_pool_take(pool, buffer, LIMIT, &answer) == ETHERPARSE_COMPLETE && answer.len == waits);
        WANT(buffer[waits] == MARK);
        WANT(etherparse_pool_take(pool, buffer, LIMIT, &answer) == ETHERPARSE_OK && answer.len == 0);
    }
}

/* Checks that a bounded pool stays within its limits, that its counters add up, and that it reports what it evicts. */
static void look_at_bounded(struct etherparse_bounded_pool *pool, const struct etherparse_defrag_limits *limits,
                            uint32_t entry, uint16_t ether_type, const uint8_t *frame, size_t len, uint64_t time,
                            enum etherparse_status sliced) {
    uint8_t buffer[LIMIT + 1];
    struct etherparse_pool_answer answer;
    struct etherparse_defrag_statistics before, after;
    struct etherparse_evicted_stream evicted;
    memset(buffer, MARK, sizeof buffer);
    size_t room = time % 2 == 0 ? LIMIT : 24; /* with a shorter buffer payloads wait */
    etherparse_bounded_pool_statistics(pool, &before);
    enum etherparse_status status =
        etherparse_bounded_pool_push(pool, entry, ether_type, frame, len, time, time % 3 == 2, buffer, room, &answer);
    etherparse_bounded_pool_statistics(pool, &after);
    see(70, status * 8 + answer.fragment_refusal);
    WANT((status == ETHERPARSE_REFUSED) == (sliced == ETHERPARSE_REFUSED));
    WANT((status == ETHERPARSE_UNKNOWN_CHOICE) == (sliced == ETHERPARSE_UNKNOWN_CHOICE));
    if (status == ETHERPARSE_COMPLETE) {
        WANT(answer.len <= room && buffer[answer.len] == MARK);
    } else {
        WANT(buffer[0] == MARK && buffer[room] == MARK);
    }
    if (status == ETHERPARSE_TOO_SMALL) {
        WANT(answer.len > room && answer.len <= LIMIT);
        size_t waits = answer.len;
        WANT(etherparse_bounded_pool_take(pool, buffer, waits - 1, &answer) == ETHERPARSE_TOO_SMALL);
        WANT(etherparse_bounded_pool_take(pool, buffer, LIMIT, &answer) == ETHERPARSE_COMPLETE && answer.len == waits);
        WANT(buffer[waits] == MARK);
    }
    WANT(status != ETHERPARSE_DISCARDED || limits->overlap == ETHERPARSE_OVERLAP_DISCARD);
    size_t open = etherparse_bounded_pool_streams(pool), gone = etherparse_bounded_pool_evicted_count(pool);
    WANT(open + etherparse_bounded_pool_discarded_streams(pool) <= (limits->streams == 0 ? 1 : limits->streams));
    WANT(etherparse_bounded_pool_held_bytes(pool) <= limits->bytes);
    WANT(after.begun == after.completed + after.discarded + after.expired + after.evicted_for_streams
                            + after.evicted_for_bytes + after.removed + open);
    WANT(after.begun - before.begun <= 1 && after.accepted - before.accepted <= 1);
    WANT(etherparse_bounded_pool_evicted(pool, gone, &evicted) == ETHERPARSE_UNKNOWN_CHOICE);
    for (size_t i = 0; i < gone; i++) {
        WANT(etherparse_bounded_pool_evicted(pool, i, &evicted) == ETHERPARSE_OK && evicted.first <= time);
        WANT(evicted.cause >= ETHERPARSE_EVICTED_EXPIRED && evicted.cause <= ETHERPARSE_EVICTED_BYTES);
        WANT((evicted.id.version == 4 || evicted.id.version == 6) && evicted.id.vlan_id_count <= 3);
        see(71, evicted.cause);
        /* of these only a discarded stream is still there, or that of the fragment */
        const struct etherparse_stream_id id = evicted.id;
        size_t left = etherparse_bounded_pool_discarded_streams(pool);
        if (i + 1 == gone && time % 4 == 1) {
            size_t removed = etherparse_bounded_pool_remove(pool, &id);
            WANT(removed <= 1 && etherparse_bounded_pool_evicted_count(pool) == 0);
            WANT(open + left == etherparse_bounded_pool_streams(pool)
                                    + etherparse_bounded_pool_discarded_streams(pool) + removed);
            WANT(evicted.cause != ETHERPARSE_EVICTED_OVERLAP || removed == 1);
            WANT(etherparse_bounded_pool_remove(pool, &id) == 0);
            see(72, (uint32_t)removed);
        }
    }
}

/* Checks that the halves of the bytes are sliced in one call as by a call for each. */
static void look_at_many(uint32_t entry, uint16_t ether_type, const uint8_t *frame, size_t len) {
    const size_t ends[2] = {len / 2, len};
    struct etherparse_packet both[2], other;
    size_t sliced;
    enum etherparse_status wanted = entry == 4 ? ETHERPARSE_UNKNOWN_CHOICE : ETHERPARSE_OK;
    WANT(etherparse_slice_many(entry, ether_type, frame, len, ends, 2, both, &sliced) == wanted);
    WANT(sliced == (entry == 4 ? 0u : 2u));
    if (entry != 4) {
        WANT(etherparse_slice(entry, ether_type, frame + len / 2, len - len / 2, &other)
             == (both[1].refusal.kind == 0 ? ETHERPARSE_OK : ETHERPARSE_REFUSED));
        WANT(other.payload.offset == both[1].payload.offset && other.refusal.number == both[1].refusal.number);
    }
    WANT(etherparse_slice_lax_many(entry, ether_type, frame, len, ends, 2, both, &sliced) == wanted);
    WANT(sliced == (entry == 4 ? 0u : 2u));
    if (entry != 4) {
        int is_refused = entry != ETHERPARSE_ENTRY_ETHER_TYPE && both[1].link.kind == 0 && both[1].net.kind == 0;
        WANT(etherparse_slice_lax(entry, ether_type, frame + len / 2, len - len / 2, &other)
             == (is_refused ? ETHERPARSE_REFUSED : ETHERPARSE_OK));
        WANT(other.payload.offset == both[1].payload.offset && other.payload.len == both[1].payload.len);
        WANT(other.refusal.kind == both[1].refusal.kind && other.refusal.number == both[1].refusal.number);
    }
}

/* Returns the filter of a text, or null after a look at its error. */
static struct etherparse_filter *filter_of(const char *text, size_t len) {
    struct etherparse_filter *filter = NULL;
    struct etherparse_filter_error error;
    text = (const char *)guarded((const uint8_t *)text, len);
    enum etherparse_status status = etherparse_filter_new(text, len, &filter, &error);
    see(80, status * 32 + error.kind);
    if (status == ETHERPARSE_OK) {
        WANT(filter && error.kind == 0 && error.end == 0);
        return filter;
    }
    char why[ETHERPARSE_REASON_TEXT_MAX];
    size_t written;
    WANT(status == ETHERPARSE_REFUSED && !filter && error.start <= error.end && error.end <= len);
    WANT(error.kind >= ETHERPARSE_FILTER_CHARACTER && error.kind <= ETHERPARSE_FILTER_NOT_UTF8);
    WANT(error.start < error.end || (error.start == len && error.kind == ETHERPARSE_FILTER_END));
    WANT(etherparse_filter_error_text(error.kind, why, sizeof why, &written) == ETHERPARSE_OK);
    WANT(written == strlen(why) + 1);
    return NULL;
}

/* Checks filters: bytes as a text, and words that the bytes choose, with their negation and what is printed of them. */
static void look_at_filters(uint32_t entry, uint16_t ether_type, const uint8_t *frame, size_t len) {
    static const char *const words[] = {
        "tcp", "udp", "ip", "ip6", "arp", "icmp", "src", "dst", "host", "net", "port", "portrange", "vlan", "less",
        "greater", "proto", "ether", "multicast", "10.0.0.1", "10", "192.168.0.0/16", "2001:db8::1", "53", "80-443",
        "http", "2:0:0:0:0:1", "and", "or", "not", "(", ")", "len", "[", "]", ":", "&", "=", "!=", "<", ">=", "|", "/",
        "mask", "255.255.255.0", "0x0800", "ip[9] = 17", "tcp[tcpflags] & (tcp-syn|tcp-ack) != 0", "udp[0:2] > 1000"};
    char text[1024], printed[8192], again[8192];
    size_t at = 6, written, rewritten, matched, half = len / 2;
    struct etherparse_filter *filter = filter_of((const char *)frame, len < 64 ? len : 64);
    etherparse_filter_free(filter);
    memcpy(text, "not ( ", 6);
    for (size_t i = 0; i < len && i < 16; i++) {
        const char *word = words[frame[i] % (sizeof words / sizeof *words)];
        memcpy(text + at, word, strlen(word));
        at += strlen(word);
        text[at++] = ' ';
    }
    text[at] = ')';
    filter = filter_of(text + 6, at - 6);
    struct etherparse_filter *negated = filter_of(text, at + 1);
    WANT(!filter || at == 6 || negated);
    if (!filter || !negated) {
        etherparse_filter_free(filter), etherparse_filter_free(negated);
        return;
    }
    WANT(etherparse_filter_text(filter, printed, sizeof printed, &written) == ETHERPARSE_OK);
    struct etherparse_filter *same = filter_of(printed, written - 1);
    WANT(same && etherparse_filter_text(same, again, sizeof again, &rewritten) == ETHERPARSE_OK);
    WANT(rewritten == written && memcmp(printed, again, written) == 0);
    uint8_t one, other, many[3] = {MARK, MARK, MARK};
    frame = guarded(frame, len);
    enum etherparse_status wanted = entry == 4 ? ETHERPARSE_UNKNOWN_CHOICE : ETHERPARSE_OK;
    uint32_t wire_len = (uint32_t)len + 9;
    WANT(etherparse_filter_matches(filter, entry, ether_type, frame, len, wire_len, &one) == wanted && one <= 1);
    WANT(etherparse_filter_matches(negated, entry, ether_type, frame, len, wire_len, &other) == wanted);
    WANT(other == (entry == 4 ? 0 : 1 - one));
    WANT(etherparse_filter_matches(same, entry, ether_type, frame, len, wire_len, &other) == wanted && other == one);
    const size_t ends[2] = {half, len};
    WANT(etherparse_filter_matches_many(same, entry, ether_type, frame, len, ends, 2, NULL, many, &matched) == wanted);
    WANT(matched == (entry == 4 ? 0 : 2) && many[2] == MARK && many[0] <= (entry == 4 ? MARK : 1));
    uint32_t rest = (uint32_t)(len - half);
    if (entry != 4) {
        WANT(etherparse_filter_matches(filter, entry, ether_type, frame + half, len - half, rest, &one) == wanted);
        WANT(many[1] == one);
    }
    see(81, one);
    etherparse_filter_free(filter), etherparse_filter_free(negated), etherparse_filter_free(same);
}

int LLVMFuzzerTestOneInput(const uint8_t *input, size_t left) {
    if (left < 3 || left > ROOM) return 0;
    uint32_t entry = input[0] % 5; /* 4 is invalid */
    uint16_t ether_type = (uint16_t)(input[1] << 8 | input[2]);
    input += 3, left -= 3;
    struct etherparse_pool *pool;
    WANT(etherparse_pool_with_limit(LIMIT, &pool) == ETHERPARSE_OK);
    const struct etherparse_defrag_limits limits = {
        .streams = input[-1] % 4, .bytes = 40u * (input[-2] % 16u), .age = input[-1] % 7, .overlap = input[-2] % 3u,
        .payload = LIMIT};
    struct etherparse_bounded_pool *bounded;
    WANT(etherparse_bounded_pool_new(&limits, (const uint8_t[16]){7}, &bounded) == ETHERPARSE_OK);
    for (uint64_t time = 0; left >= 2 && time < 16; time++) {
        size_t len = (size_t)(input[0] << 8 | input[1]);
        input += 2, left -= 2;
        if (len > left) len = left;
        const uint8_t *frame = guarded(input, len);
        input += len, left -= len;

        struct etherparse_packet packet, other;
        memset(&packet, 0x55, sizeof packet);
        memset(&other, 0xaa, sizeof other);
        enum etherparse_status status = etherparse_slice(entry, ether_type, frame, len, &packet);
        WANT(etherparse_slice(entry, ether_type, frame, len, &other) == status);
        WANT(other.payload.offset == packet.payload.offset && other.payload.len == packet.payload.len);
        WANT(other.refusal.kind == packet.refusal.kind && other.refusal.len == packet.refusal.len);
        WANT((entry == 4) == (status == ETHERPARSE_UNKNOWN_CHOICE));
        look_at_lax(&packet, status, entry, ether_type, frame, len);
        if (status == ETHERPARSE_OK) {
            WANT(packet.refusal.kind == ETHERPARSE_REFUSAL_NONE && packet.payload.incomplete == 0);
            look_at_packet(&packet, entry, len);
            look_at_fields(&packet, frame, len);
            const uint8_t *payload = frame + packet.payload.offset;
            look_at_building(payload, packet.payload.len, (uint32_t)len);
            look_at_tagged(payload, packet.payload.len, (uint32_t)len + (len != 0 ? frame[len / 2] : 0u));
        } else {
            WANT(packet.link.kind == 0 && packet.link_ext_count == 0 && packet.net.kind == 0);
            WANT(packet.ip.version == 0 && packet.transport.kind == 0 && packet.payload.len == 0);
            if (status == ETHERPARSE_REFUSED) look_at_refusal(&packet.refusal);
        }
        look_at_many(entry, ether_type, frame, len);
        look_at_pool(pool, entry, ether_type, frame, len, time, status);
        if (time % 5 == 4) etherparse_pool_drop_older(pool, time - 2);
        look_at_bounded(bounded, &limits, entry, ether_type, frame, len, time, status);
        if (time % 5 == 3) WANT(etherparse_bounded_pool_expire(bounded, time, 1) <= 4);
        look_at_filters(entry, ether_type, input - len, len); /* overwrites the copy of the frame */
    }
    etherparse_bounded_pool_free(bounded);
    WANT(etherparse_pool_bytes(pool) <= etherparse_pool_streams(pool) * LIMIT);
    etherparse_pool_free(pool);
    return 0;
}

#ifdef ETHERPARSE_FUZZ_ONCE
int main(int argc, char **argv) {
    static uint8_t input[ROOM];
    for (int i = 1; i < argc; i++) {
        FILE *file = fopen(argv[i], "rb");
        if (!file) return perror(argv[i]), 1;
        size_t len = fread(input, 1, sizeof input, file);
        fclose(file);
        LLVMFuzzerTestOneInput(input, len);
    }
    printf("%d inputs\n", argc - 1);
    return 0;
}
#endif
