/* Prints fields of the headers of frames: addresses, TTL, ports and flags; also of a truncated frame. */
#define _POSIX_C_SOURCE 200112L /* for inet_ntop */
#include <arpa/inet.h>
#include <etherparse.h>
#include <stdio.h>

static void print_mac(const uint8_t *address) {
    for (int i = 0; i < 6; i++) printf("%s%02x", i ? ":" : "", address[i]);
}

static void print_ip(const struct etherparse_ip_fields *ip) {
    int family = ip->version == 4 ? AF_INET : AF_INET6;
    char source[INET6_ADDRSTRLEN], destination[INET6_ADDRSTRLEN];
    if (!inet_ntop(family, ip->source, source, sizeof source)
        || !inet_ntop(family, ip->destination, destination, sizeof destination))
        return;
    printf("  %s > %s, protocol %u, TTL %u%s\n", source, destination, ip->number, ip->hop_limit,
           ip->dont_fragment ? ", DF" : "");
}

static void print_arp(const struct etherparse_arp_fields *arp, const uint8_t *frame) {
    const uint8_t *sender = frame + arp->sender_protocol.offset;
    printf("  ARP operation %u", arp->operation);
    if (arp->sender_protocol.len == 4) printf(", sender %u.%u.%u.%u", sender[0], sender[1], sender[2], sender[3]);
    printf("\n");
}

static void print_tcp(const struct etherparse_transport_fields *tcp, const uint8_t *frame) {
    static const char *const names[] = {"FIN", "SYN", "RST", "PSH", "ACK", "URG", "ECE", "CWR", "NS"};
    printf(", sequence number %lu, window %u, flags", (unsigned long)tcp->sequence_number, tcp->window_size);
    for (int i = 0; i < 9; i++)
        if (tcp->tcp_flags >> i & 1) printf(" %s", names[i]);
    printf(", options");
    for (size_t i = 0; i < tcp->options.len; i++) printf(" %02x", frame[tcp->options.offset + i]);
}

static void print_transport(const struct etherparse_packet *packet, const struct etherparse_transport_fields *fields,
                            const uint8_t *frame) {
    uint32_t kind = packet->transport.kind;
    if (kind == 0 && !fields->source_port && !fields->destination_port) return;
    if (kind == ETHERPARSE_TRANSPORT_ICMPV4 || kind == ETHERPARSE_TRANSPORT_ICMPV6)
        printf("  ICMP type %u, code %u", fields->icmp_type, fields->icmp_code);
    else
        printf("  port %u to %u", fields->source_port, fields->destination_port);
    if (kind == ETHERPARSE_TRANSPORT_TCP) print_tcp(fields, frame);
    printf(kind == 0 ? " in a truncated header\n" : "\n");
}

static const char *const verdicts[] = {"none", "valid", "invalid", "absent", "unknown"};

/* Prints a line for each layer of an Ethernet frame, which may be truncated. */
static int print(const uint8_t *frame, size_t len) {
    struct etherparse_packet packet;
    struct etherparse_fields fields;
    if (etherparse_slice_lax(ETHERPARSE_ENTRY_ETHERNET, 0, frame, len, &packet) != ETHERPARSE_OK
        || etherparse_fields(&packet, frame, len, &fields) != ETHERPARSE_OK
        || etherparse_checksums(ETHERPARSE_ENTRY_ETHERNET, 0, frame, len, &fields) != ETHERPARSE_OK)
        return 1;
    print_mac(fields.link.source);
    printf(" > ");
    print_mac(fields.link.destination);
    for (uint32_t i = 0; i < packet.link_ext_count; i++)
        if (fields.tags[i].kind == ETHERPARSE_EXT_VLAN)
            printf(", VLAN %u with priority %u", fields.tags[i].vlan_id, fields.tags[i].priority);
    printf("\n");
    if (packet.net.kind == ETHERPARSE_NET_ARP) print_arp(&fields.arp, frame);
    if (fields.ip.version == 0) return 0;
    print_ip(&fields.ip);
    print_transport(&packet, &fields.transport, frame);
    printf("  checksums: %s, %s\n", verdicts[fields.header_checksum], verdicts[fields.transport_checksum]);
    return 0;
}

int main(void) {
    struct etherparse_tagged_route route = {
        .route = {.version = 4, .with_ethernet = 1, .hop_limit = 64, .ethernet_source = {2, 0, 0, 0, 0, 1},
                  .ethernet_destination = {2, 0, 0, 0, 0, 2}, .ipv4_source = {192, 168, 1, 1},
                  .ipv4_destination = {192, 168, 1, 2}, .ipv6_source = {0x20, 1, 0xd, 0xb8, [15] = 1},
                  .ipv6_destination = {0x20, 1, 0xd, 0xb8, [15] = 2}},
        .tag_count = 1, .vlan_ids = {42}};
    const struct etherparse_tcp_fields tcp = {.source_port = 443, .destination_port = 40000, .sequence_number = 1000,
                                              .window_size = 65535, .flags = ETHERPARSE_TCP_SYN | ETHERPARSE_TCP_ACK};
    const uint8_t max_segment_size[4] = {2, 4, 5, 0xb4};
    const uint8_t arp[42] = {0xff, 0xff, 0xff, 0xff, 0xff, 0xff, 2, 0, 0, 0, 0, 1, 8, 6, 0, 1, 8, 0, 6, 4, 0, 1,
                             2,    0,    0,    0,    0,    1,    192, 168, 1, 1, [38] = 192, 168, 1, 2};
    uint8_t frame[128];
    size_t len;
    if (etherparse_build_tagged_tcp(&route, &tcp, max_segment_size, 4, NULL, 0, frame, sizeof frame, &len)
            != ETHERPARSE_OK
        || print(frame, len) || print(frame, len - 20))
        return 1;
    route.route.version = 6;
    if (etherparse_build_tagged_icmp_echo(&route, 1, 1, 2, NULL, 0, frame, sizeof frame, &len) != ETHERPARSE_OK
        || print(frame, len))
        return 1;
    return print(arp, sizeof arp);
}
