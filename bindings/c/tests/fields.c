/* Compares etherparse_fields with fields that are read here by hand, from the standards' pictures of the headers: of
 * packets of each kind, truncated at each length, with changed bytes, and with descriptions of other packets. The bytes
 * end before a page that cannot be read, so that a read after them ends the program. Prints what holds; the exit status
 * is 1 if something does not. */
#define _DEFAULT_SOURCE
#include <etherparse.h>
#include <stdbool.h>
#include <stdio.h>
#include <stdlib.h>
#include <string.h>
#include <sys/mman.h>
#include <unistd.h>

static int failed;

static uint16_t word(const uint8_t *at) { return (uint16_t)(at[0] << 8 | at[1]); }
static uint32_t number(const uint8_t *at) { return (uint32_t)word(at) << 16 | word(at + 2); }

static bool within(size_t offset, size_t needed, size_t part, size_t len) {
    return offset <= len && part <= len - offset && needed <= part;
}

static struct etherparse_place place(size_t offset, size_t len) {
    const struct etherparse_place it = {offset, len};
    return it;
}

/* ---- the fields by hand; false if the described header is not at its place */

static bool link_by_hand(const struct etherparse_part *part, const uint8_t *bytes, size_t len,
                         struct etherparse_link_fields *f) {
    const uint8_t *at = bytes + part->offset;
    if (part->kind == 0) return true;
    if (part->kind == ETHERPARSE_LINK_ETHERNET2) {
        if (!within(part->offset, 14, part->len, len)) return false;
        memcpy(f->destination, at, 6);
        memcpy(f->source, at + 6, 6);
        f->ether_type = word(at + 12);
        return true;
    }
    if (part->kind != ETHERPARSE_LINK_LINUX_SLL || !within(part->offset, 16, part->len, len)) return false;
    f->packet_type = word(at);
    f->hardware_type = word(at + 2);
    f->address_len = word(at + 4);
    memcpy(f->address, at + 6, 8);
    f->protocol = word(at + 14);
    const uint16_t known[6] = {1, 770, 772, 778, 803, 824};
    for (int i = 0; i < 6; i++)
        if (known[i] == f->hardware_type) return f->packet_type <= 7;
    return false;
}

static bool tag_by_hand(const struct etherparse_link_ext *tag, const uint8_t *bytes, size_t len,
                        struct etherparse_tag_fields *f) {
    const uint8_t *at = bytes + tag->offset;
    if (tag->kind == 0) return true;
    f->kind = tag->kind;
    if (tag->kind == ETHERPARSE_EXT_VLAN) {
        if (!within(tag->offset, 4, tag->len, len)) return false;
        f->vlan_id = word(at) & 0xfff;
        f->priority = at[0] >> 5;
        f->drop_eligible = at[0] >> 4 & 1;
        f->ether_type = word(at + 2);
        return true;
    }
    if (tag->kind != ETHERPARSE_EXT_MACSEC || !within(tag->offset, 6, tag->len, len)) return false;
    bool has_sci = at[0] & ETHERPARSE_MACSEC_SC;
    bool unmodified = !(at[0] & (ETHERPARSE_MACSEC_E | ETHERPARSE_MACSEC_C));
    size_t whole = 6u + (has_sci ? 8 : 0) + (unmodified ? 2 : 0);
    f->short_len = at[1] & 63;
    if (at[0] & 128 || (unmodified && f->short_len == 1) || tag->len < whole) return false;
    f->macsec_flags = at[0] & 0x7c;
    f->association_number = at[0] & 3;
    f->packet_number = number(at + 2);
    if (has_sci) f->sci = (uint64_t)number(at + 6) << 32 | number(at + 10);
    if (unmodified) f->ether_type = word(at + whole - 2);
    return true;
}

static bool ip_by_hand(const struct etherparse_packet *packet, const uint8_t *bytes, size_t len,
                       struct etherparse_ip_fields *f) {
    const struct etherparse_part *part = &packet->net;
    const uint8_t *at = bytes + part->offset;
    f->version = (uint8_t)part->kind;
    f->number = packet->ip.number;
    if (part->kind == ETHERPARSE_NET_IPV4) {
        if (!within(part->offset, 20, part->len, len) || at[0] >> 4 != 4) return false;
        size_t header = 4u * (at[0] & 15);
        if (header < 20 || part->len < header) return false;
        f->dscp = at[1] >> 2, f->ecn = at[1] & 3;
        f->length = word(at + 2), f->identification = word(at + 4);
        f->dont_fragment = at[6] >> 6 & 1, f->more_fragments = at[6] >> 5 & 1;
        f->fragment_offset = (uint16_t)((word(at + 6) & 0x1fff) * 8);
        f->hop_limit = at[8], f->next_header = at[9], f->checksum = word(at + 10);
        memcpy(f->source, at + 12, 4);
        memcpy(f->destination, at + 16, 4);
        f->options = place(part->offset + 20, header - 20);
        return true;
    }
    if (!within(part->offset, 40, part->len, len) || at[0] >> 4 != 6) return false;
    f->dscp = (uint8_t)((at[0] & 15) << 2 | at[1] >> 6), f->ecn = at[1] >> 4 & 3;
    f->flow_label = number(at) & 0xfffff, f->length = word(at + 4);
    f->next_header = at[6], f->hop_limit = at[7];
    memcpy(f->source, at + 8, 16);
    memcpy(f->destination, at + 24, 16);
    f->more_fragments = packet->ip.more_fragments, f->fragment_offset = packet->ip.fragment_offset;
    f->identification = packet->ip.identification;
    return true;
}

static bool arp_by_hand(const struct etherparse_part *part, const uint8_t *bytes, size_t len,
                        struct etherparse_arp_fields *f) {
    const uint8_t *at = bytes + part->offset;
    if (!within(part->offset, 8, part->len, len)) return false;
    size_t hardware = at[4], protocol = at[5], next = part->offset + 8;
    if (part->len < 8 + 2 * hardware + 2 * protocol) return false;
    f->hardware_type = word(at), f->protocol_type = word(at + 2), f->operation = word(at + 6);
    f->hardware_len = at[4], f->protocol_len = at[5];
    f->sender_hardware = place(next, hardware), next += hardware;
    f->sender_protocol = place(next, protocol), next += protocol;
    f->target_hardware = place(next, hardware), next += hardware;
    f->target_protocol = place(next, protocol);
    return true;
}

static bool transport_by_hand(const struct etherparse_packet *packet, const uint8_t *bytes, size_t len,
                              struct etherparse_transport_fields *f) {
    const struct etherparse_part *part = &packet->transport;
    const uint8_t *at = bytes + (part->kind ? part->offset : packet->payload.offset);
    if (part->kind == 0) {
        if (!within(packet->payload.offset, 0, packet->payload.len, len)) return false;
        bool has_ports = packet->ip.number == ETHERPARSE_TRANSPORT_UDP || packet->ip.number == ETHERPARSE_TRANSPORT_TCP;
        if (has_ports && packet->ip.fragmented == 0 && packet->payload.len >= 4)
            f->source_port = word(at), f->destination_port = word(at + 2);
        return true;
    }
    if (!within(part->offset, part->kind == ETHERPARSE_TRANSPORT_TCP ? 20 : 8, part->len, len)) return false;
    switch (part->kind) {
    case ETHERPARSE_TRANSPORT_UDP:
        f->source_port = word(at), f->destination_port = word(at + 2), f->udp_length = word(at + 4);
        f->checksum = word(at + 6);
        return true;
    case ETHERPARSE_TRANSPORT_TCP:
        f->source_port = word(at), f->destination_port = word(at + 2), f->sequence_number = number(at + 4);
        f->acknowledgment_number = number(at + 8), f->data_offset = at[12] >> 4, f->tcp_flags = word(at + 12) & 0x1ff;
        f->window_size = word(at + 14), f->checksum = word(at + 16), f->urgent_pointer = word(at + 18);
        f->options = place(part->offset + 20, 4u * f->data_offset - 20);
        return f->data_offset >= 5 && part->len >= 4u * f->data_offset;
    case ETHERPARSE_TRANSPORT_ICMPV4:
    case ETHERPARSE_TRANSPORT_ICMPV6:
        f->icmp_type = at[0], f->icmp_code = at[1], f->checksum = word(at + 2);
        memcpy(f->icmp_rest, at + 4, 4);
        bool is_timestamp = (at[0] == 13 || at[0] == 14) && at[1] == 0;
        return part->kind == ETHERPARSE_TRANSPORT_ICMPV6 || !is_timestamp || part->len == 20;
    default:
        return false;
    }
}

static bool by_hand(const struct etherparse_packet *packet, const uint8_t *bytes, size_t len,
                    struct etherparse_fields *f) {
    memset(f, 0, sizeof *f);
    bool reads = link_by_hand(&packet->link, bytes, len, &f->link);
    for (int i = 0; i < 3 && reads; i++) reads = tag_by_hand(&packet->link_exts[i], bytes, len, &f->tags[i]);
    if (reads && packet->net.kind == ETHERPARSE_NET_ARP) reads = arp_by_hand(&packet->net, bytes, len, &f->arp);
    else if (reads && (packet->net.kind == ETHERPARSE_NET_IPV4 || packet->net.kind == ETHERPARSE_NET_IPV6))
        reads = ip_by_hand(packet, bytes, len, &f->ip);
    else if (packet->net.kind != 0)
        reads = false;
    reads = reads && transport_by_hand(packet, bytes, len, &f->transport);
    if (!reads) memset(f, 0, sizeof *f);
    return reads;
}

/* ---- verdicts by hand */

/* Returns the one's complement sum of bytes (RFC 1071), added to another one. */
static uint32_t sum(uint32_t start, const uint8_t *at, size_t len) {
    uint64_t total = start;
    for (size_t i = 0; i < len; i++) total += i % 2 ? at[i] : (uint32_t)at[i] << 8;
    while (total >> 16) total = (total & 0xffff) + (total >> 16);
    return (uint32_t)total;
}

/* Whether a source route is among IPv4 options. */
static bool has_source_route(const uint8_t *at, size_t len) {
    for (size_t i = 0; i < len && at[i] != 0;) {
        if (at[i] == 1) { i++; continue; }
        if (i + 1 == len || at[i + 1] < 2 || at[i + 1] > len - i) return false;
        if (at[i] == 131 || at[i] == 137) return true;
        i += at[i + 1];
    }
    return false;
}

/* Whether a routing header is among the extension headers of IPv6. */
static bool has_routing(uint8_t number, const uint8_t *at, size_t len) {
    for (size_t i = 0; i + 8 <= len;) {
        if (number == 43) return true;
        size_t part = number == 44 ? 8 : number == 51 ? 4u * (at[i + 1] + 2u) : 8u * (at[i + 1] + 1u);
        number = at[i];
        i += part;
    }
    return false;
}

static uint32_t header_verdict(const struct etherparse_packet *packet, const uint8_t *bytes) {
    if (packet->net.kind != ETHERPARSE_NET_IPV4) return ETHERPARSE_CHECKSUM_NONE;
    bool valid = sum(0, bytes + packet->net.offset, packet->ip.header_len) == 0xffff;
    return valid ? ETHERPARSE_CHECKSUM_VALID : ETHERPARSE_CHECKSUM_INVALID;
}

/* The end of the bytes that MACsec tags leave: their short lengths limit them, if these bytes are there. */
static size_t end_of_tags(const struct etherparse_packet *packet, const uint8_t *bytes, size_t len) {
    for (uint32_t i = 0; i < packet->link_ext_count; i++) {
        const struct etherparse_link_ext *tag = &packet->link_exts[i];
        const uint8_t *at = bytes + tag->offset;
        size_t end = tag->offset + (at[0] & ETHERPARSE_MACSEC_SC ? 14u : 6u) + (at[1] & 63u);
        if (tag->kind == ETHERPARSE_EXT_MACSEC && at[1] & 63 && end <= len) len = end;
    }
    return len;
}

static uint32_t transport_verdict(const struct etherparse_packet *packet, const uint8_t *bytes, size_t end) {
    size_t ip_len = end_of_tags(packet, bytes, end) - packet->net.offset;
    const uint8_t *ip = bytes + packet->net.offset, *message = bytes + packet->transport.offset;
    size_t len = packet->transport.len + packet->payload.len, header = packet->ip.header_len;
    uint32_t kind = packet->transport.kind, pseudo;
    if (kind == 0) return packet->ip.fragmented ? ETHERPARSE_CHECKSUM_UNKNOWN : ETHERPARSE_CHECKSUM_NONE;
    if (packet->payload.incomplete) return ETHERPARSE_CHECKSUM_UNKNOWN;
    bool is_udp = kind == ETHERPARSE_TRANSPORT_UDP, has_none = is_udp && word(message + 6) == 0;
    bool is_counted = !is_udp || word(message + 4) == len;
    if (packet->ip.version == 4) {
        if (word(ip + 2) < header || word(ip + 2) > ip_len || has_source_route(ip + 20, header - 20))
            return ETHERPARSE_CHECKSUM_UNKNOWN;
        if (kind == ETHERPARSE_TRANSPORT_ICMPV6) return ETHERPARSE_CHECKSUM_UNKNOWN;
        if (has_none) return ETHERPARSE_CHECKSUM_ABSENT;
        pseudo = sum((uint32_t)len + kind, ip + 12, 8);
    } else {
        if (word(ip + 4) == 0 || word(ip + 4) + 40u > ip_len || has_routing(ip[6], ip + 40, packet->net.len - 40))
            return ETHERPARSE_CHECKSUM_UNKNOWN;
        if (has_none) return ETHERPARSE_CHECKSUM_INVALID;
        pseudo = sum((uint32_t)len + kind, ip + 8, 32);
    }
    if (!is_counted) return ETHERPARSE_CHECKSUM_UNKNOWN;
    if (kind == ETHERPARSE_TRANSPORT_ICMPV4) pseudo = 0;
    return sum(pseudo, message, len) == 0xffff ? ETHERPARSE_CHECKSUM_VALID : ETHERPARSE_CHECKSUM_INVALID;
}

/* ---- comparison of all fields, without padding */

#define SAME(field) (memcmp(&a->field, &b->field, sizeof a->field) == 0)

static bool same_link(const struct etherparse_link_fields *a, const struct etherparse_link_fields *b) {
    return SAME(destination) && SAME(source) && SAME(ether_type) && SAME(packet_type) && SAME(hardware_type)
           && SAME(address_len) && SAME(address) && SAME(protocol);
}

static bool same_tag(const struct etherparse_tag_fields *a, const struct etherparse_tag_fields *b) {
    return SAME(kind) && SAME(vlan_id) && SAME(ether_type) && SAME(priority) && SAME(drop_eligible)
           && SAME(macsec_flags) && SAME(association_number) && SAME(short_len) && SAME(packet_number) && SAME(sci);
}

static bool same_ip(const struct etherparse_ip_fields *a, const struct etherparse_ip_fields *b) {
    return SAME(version) && SAME(number) && SAME(next_header) && SAME(hop_limit) && SAME(dscp) && SAME(ecn)
           && SAME(dont_fragment) && SAME(more_fragments) && SAME(fragment_offset) && SAME(length) && SAME(checksum)
           && SAME(identification) && SAME(flow_label) && SAME(source) && SAME(destination) && SAME(options);
}

static bool same_arp(const struct etherparse_arp_fields *a, const struct etherparse_arp_fields *b) {
    return SAME(hardware_type) && SAME(protocol_type) && SAME(hardware_len) && SAME(protocol_len) && SAME(operation)
           && SAME(sender_hardware) && SAME(sender_protocol) && SAME(target_hardware) && SAME(target_protocol);
}

static bool same_transport(const struct etherparse_transport_fields *a, const struct etherparse_transport_fields *b) {
    return SAME(source_port) && SAME(destination_port) && SAME(checksum) && SAME(udp_length) && SAME(sequence_number)
           && SAME(acknowledgment_number) && SAME(tcp_flags) && SAME(window_size) && SAME(urgent_pointer)
           && SAME(data_offset) && SAME(icmp_type) && SAME(icmp_code) && SAME(icmp_rest) && SAME(options);
}

static bool same(const struct etherparse_fields *a, const struct etherparse_fields *b) {
    return same_link(&a->link, &b->link) && same_tag(&a->tags[0], &b->tags[0]) && same_tag(&a->tags[1], &b->tags[1])
           && same_tag(&a->tags[2], &b->tags[2]) && same_ip(&a->ip, &b->ip) && same_arp(&a->arp, &b->arp)
           && same_transport(&a->transport, &b->transport);
}

/* ---- packets */

static uint8_t *page; /* its end is the last byte that can be read */
static size_t page_len;

static uint32_t random_number(void) {
    static uint64_t state = 1;
    state = state * 6364136223846793005u + 1442695040888963407u;
    return (uint32_t)(state >> 33);
}

/* Compares the fields of a description; returns the status. */
static enum etherparse_status compare(const struct etherparse_packet *packet, const uint8_t *bytes, size_t len,
                                      const char *name) {
    struct etherparse_fields fields, hand;
    memset(&fields, 0xa5, sizeof fields);
    enum etherparse_status status = etherparse_fields(packet, bytes, len, &fields);
    bool reads = by_hand(packet, bytes, len, &hand);
    if (status != (reads ? ETHERPARSE_OK : ETHERPARSE_UNKNOWN_CHOICE) || !same(&fields, &hand)) {
        if (failed++ < 20) printf("%s, %zu bytes: status %u, by hand %d\n", name, len, (unsigned)status, reads);
    }
    return status;
}

static const struct {
    const char *name;
    uint32_t entry;
    const char *hex;
} packets[] = {
    {"UDP", 0, "0708090a0b0c0102030405060800" "450000247d004000401111e3c0a80101c0a80102"
     "001504d2001067ef0102030405060708"},
    {"UDP with options of IPv4 and two tags", 0,
     "0708090a0b0c01020304050688a8f0648100300a0800" "47bb002c7d002000ff1111e3c0a80101c0a8010201010101020202ff"
     "001504d200100000" "0102030405060708"},
    {"TCP with options", 0,
     "0708090a0b0c0102030405060800" "4500003c7d004000400611e3c0a80101c0a80102"
     "0050c0010a0b0c0d0e0f1011a1ff2233445566770204055a0402080a00000001000000020103030a"},
    {"TCP over IPv6", 3, "6afbcdef0014063f" "20010db8000000000000000000000001" "20010db8000000000000000000000002"
     "0050c0010a0b0c0d0e0f101150122233445566ff"},
    {"UDP fragment over IPv6 after hop-by-hop options", 3,
     "6000000000180040" "20010db8000000000000000000000001" "20010db8000000000000000000000002"
     "2c00000000000000" "110005a901020304"
     "0102030405060708"},
    {"IPv4 fragment with an authentication header", 3,
     "4500003010002003403311e3c0a80101c0a80102" "1104000000000100000002000102030405060708090a0b0c0d0e0f10" "00000000"},
    {"ICMP", 3, "450000201234000040010000c0a80101c0a80102" "0304abcd000005dc" "01020304"},
    {"ICMP timestamp", 3, "450000281234000040010000c0a80101c0a80102" "0d00abcd00010002" "000000010000000200000003"},
    {"ICMPv6", 3, "60000000000c3aff" "fe800000000000000000000000000001" "ff020000000000000000000000000001"
     "8000abcd12345678" "01020304"},
    {"ARP", 0, "ffffffffffff0102030405060806" "0001080006040002" "010203040506c0a80101" "0a0b0c0d0e0fc0a80102"},
    {"MACsec with identifier", 0, "0708090a0b0c01020304050688e5" "23000000012a010203040506000f0800"
     "450000201234000040010000c0a80101c0a80102" "0800abcd00010002" "01020304"},
    {"MACsec, encrypted", 0, "0708090a0b0c01020304050688e5" "4e08000000ff" "0102030405060708"},
    {"cooked capture", 1, "0004000100060102030405060000" "0800" "4500001c7d004000401111e3c0a80101c0a80102"
     "001504d200080000"},
    {"cooked capture of netlink", 1, "0000033800000000000000000000" "0010" "01020304"},
};

static size_t bytes_of(const char *hex, uint8_t *bytes) {
    size_t len = 0;
    for (unsigned byte; sscanf(hex + 2 * len, "%2x", &byte) == 1; len++) bytes[len] = (uint8_t)byte;
    return len;
}

static unsigned long verdicts[5];

/* Compares the verdicts about a packet that is sliced laxly. */
static void verify(const char *name, uint32_t entry, const uint8_t *bytes, size_t len) {
    struct etherparse_packet packet;
    struct etherparse_fields fields;
    memset(&fields, 0xa5, sizeof fields);
    enum etherparse_status status = etherparse_slice_lax(entry, 0, bytes, len, &packet);
    if (etherparse_checksums(entry, 0, bytes, len, &fields) != status && failed++ < 20)
        printf("%s: another status\n", name);
    uint32_t header = header_verdict(&packet, bytes), transport = transport_verdict(&packet, bytes, len);
    if ((fields.header_checksum != header || fields.transport_checksum != transport) && failed++ < 20)
        printf("%s, %zu bytes: verdicts %u, %u, by hand %u, %u\n", name, len, (unsigned)fields.header_checksum,
               (unsigned)fields.transport_checksum, (unsigned)header, (unsigned)transport);
    if (fields.ip.version != 0xa5 && failed++ < 20) printf("%s: another field is changed\n", name);
    if (transport < 5) verdicts[transport]++;
}

/* Verifies frames that are built, also with one changed bit: these have no valid checksum. */
static void verify_built(void) {
    uint8_t built[256], payload[9] = {1, 2, 3, 4, 5, 6, 7, 8, 9};
    const struct etherparse_tcp_fields tcp = {.source_port = 1, .destination_port = 2, .flags = ETHERPARSE_TCP_ACK};
    for (uint32_t round = 0; round < 12; round++) {
        struct etherparse_route route = {.version = round & 1 ? 6 : 4, .with_ethernet = round >> 1 & 1, .hop_limit = 9,
                                         .ipv4_source = {1, 2, 3, 4}, .ipv6_destination = {5, 6}};
        size_t len = 0, used = 9 - round % 2;
        enum etherparse_status status =
            round < 4 ? etherparse_build_udp(&route, 3, 4, payload, used, built, sizeof built, &len)
            : round < 8 ? etherparse_build_tcp(&route, &tcp, payload, used, built, sizeof built, &len)
                        : etherparse_build_icmp_echo(&route, 0, 5, 6, payload, used, built, sizeof built, &len);
        uint32_t entry = route.with_ethernet ? ETHERPARSE_ENTRY_ETHERNET : ETHERPARSE_ENTRY_IP;
        struct etherparse_fields fields;
        uint8_t *bytes = page + page_len - len;
        memcpy(bytes, built, len);
        if (status != ETHERPARSE_OK || etherparse_checksums(entry, 0, bytes, len, &fields) != ETHERPARSE_OK
            || fields.header_checksum != (route.version == 4 ? ETHERPARSE_CHECKSUM_VALID : ETHERPARSE_CHECKSUM_NONE)
            || fields.transport_checksum != ETHERPARSE_CHECKSUM_VALID)
            failed++, printf("built packet %u: not valid\n", (unsigned)round);
        for (size_t bit = 0; bit < 8 * len; bit++) {
            bytes[bit / 8] ^= (uint8_t)(1u << bit % 8);
            verify("a built packet with a changed bit", entry, bytes, len);
            bytes[bit / 8] ^= (uint8_t)(1u << bit % 8);
        }
    }
}

/* Verifies UDP datagrams with a checksum, whose length field does not count their bytes: it is unknown whether it is
 * valid. */
static void verify_uncounted(void) {
    static const char *const datagrams[] = {
        "450000247d004000401111e3c0a80101c0a80102" "001504d200000001" "0102030405060708",
        "6000000000101140" "20010db8000000000000000000000001" "20010db8000000000000000000000002"
        "001504d200000001" "0102030405060708"};
    for (int i = 0; i < 2; i++)
        for (uint8_t length = 0; length < 8; length++) {
            uint8_t from[64];
            size_t len = bytes_of(datagrams[i], from);
            uint8_t *bytes = page + page_len - len;
            struct etherparse_fields fields;
            from[len - 11] = length;
            memcpy(bytes, from, len);
            if (etherparse_checksums(ETHERPARSE_ENTRY_IP, 0, bytes, len, &fields) != ETHERPARSE_OK
                || fields.transport_checksum != ETHERPARSE_CHECKSUM_UNKNOWN)
                failed++, printf("UDP with length %u: verdict %u\n", length, (unsigned)fields.transport_checksum);
            verify("UDP with a length that does not count it", ETHERPARSE_ENTRY_IP, bytes, len);
        }
}

/* Slices bytes at the end of the page, and compares the fields. */
static struct etherparse_packet sliced(const char *name, uint32_t entry, const uint8_t *from, size_t len, bool lax) {
    struct etherparse_packet packet;
    uint8_t *bytes = page + page_len - len;
    memcpy(bytes, from, len);
    enum etherparse_status status = lax ? etherparse_slice_lax(entry, 0, bytes, len, &packet)
                                        : etherparse_slice(entry, 0, bytes, len, &packet);
    (void)status;
    if (compare(&packet, bytes, len, name) != ETHERPARSE_OK && failed++ < 20)
        printf("%s: no fields of %zu bytes\n", name, len);
    verify(name, entry, bytes, len);
    return packet;
}

static size_t any_size(size_t len) {
    switch (random_number() % 8) {
    case 0: return SIZE_MAX - random_number() % 64;
    case 1: return (size_t)random_number() << 32;
    default: return random_number() % (len + 4);
    }
}

/* Changes one number of a description. */
static void change(struct etherparse_packet *packet, size_t len) {
    struct etherparse_part *parts[3] = {&packet->link, &packet->net, &packet->transport};
    struct etherparse_part *part = parts[random_number() % 3];
    struct etherparse_link_ext *tag = &packet->link_exts[random_number() % 3];
    switch (random_number() % 9) {
    case 0: part->kind = random_number() % 64; break;
    case 1: part->offset = any_size(len); break;
    case 2: part->len = any_size(len); break;
    case 3: tag->kind = random_number() % 4; break;
    case 4: tag->offset = any_size(len); break;
    case 5: tag->len = any_size(len); break;
    case 6: packet->payload.offset = any_size(len); break;
    case 7: packet->payload.len = any_size(len); break;
    default:
        packet->ip.number = (uint8_t)random_number(), packet->ip.more_fragments = (uint8_t)random_number();
        packet->ip.fragment_offset = (uint16_t)random_number(), packet->ip.identification = random_number();
        packet->ip.fragmented = random_number() % 3 ? 0 : (uint8_t)random_number();
    }
}

int main(void) {
    page_len = (size_t)sysconf(_SC_PAGESIZE);
    page = mmap(NULL, 2 * page_len, PROT_READ | PROT_WRITE, MAP_PRIVATE | MAP_ANONYMOUS, -1, 0);
    if (page == MAP_FAILED || mprotect(page + page_len, page_len, PROT_NONE) != 0) return perror("mmap"), 1;
    const size_t count = sizeof packets / sizeof *packets;
    uint8_t bytes[256];
    unsigned long changed = 0, unknown = 0;
    for (size_t i = 0; i < count; i++) {
        size_t whole = bytes_of(packets[i].hex, bytes);
        struct etherparse_packet packet = sliced(packets[i].name, packets[i].entry, bytes, whole, false);
        if (packet.refusal.kind != 0 && failed++ < 20) printf("%s is refused\n", packets[i].name);
        for (size_t len = 0; len <= whole; len++) sliced(packets[i].name, packets[i].entry, bytes, len, true);
    }
    printf("etherparse_fields: as by hand, of %zu packets, also truncated at each length\n", count);
    for (int round = 0; round < 20000; round++) {
        size_t i = random_number() % count, whole = bytes_of(packets[i].hex, bytes);
        for (int n = 0; n < 3; n++) bytes[random_number() % whole] ^= (uint8_t)(1u << random_number() % 8);
        size_t len = random_number() % 4 ? whole : random_number() % (whole + 1);
        struct etherparse_packet packet = sliced(packets[i].name, packets[i].entry, bytes, len, random_number() % 2);
        for (int n = 0; n < 4; n++) {
            change(&packet, len);
            changed++;
            unknown += compare(&packet, page + page_len - len, len, "a changed description") != ETHERPARSE_OK;
        }
    }
    printf("etherparse_fields: as by hand, of 20000 packets with changed bytes\n");
    if (unknown < changed / 4 || changed - unknown < changed / 8) failed++, printf("%lu of %lu\n", unknown, changed);
    printf("etherparse_fields: as by hand or refused, of %lu descriptions of other packets\n", changed);
    verify_built();
    verify_uncounted();
    for (int i = 0; i < 5; i++)
        if (verdicts[i] < 100) failed++, printf("%lu packets with verdict %d\n", verdicts[i], i);
    printf("etherparse_checksums: as by hand, of these packets, of built ones with a changed bit, and of uncounted UDP\n");
    struct etherparse_packet packet;
    struct etherparse_fields fields;
    if (etherparse_slice(ETHERPARSE_ENTRY_IP, 0, NULL, 0, &packet) != ETHERPARSE_REFUSED
        || etherparse_fields(&packet, NULL, 0, &fields) != ETHERPARSE_OK || fields.ip.version != 0)
        failed++;
    printf("etherparse_fields: null without bytes\n");
    return failed != 0;
}
