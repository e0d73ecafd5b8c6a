/* Builds frames into a buffer, prints them, and slices them again. */
#include <etherparse.h>
#include <stdio.h>
#include <string.h>

static void print(const char *name, uint32_t status, const uint8_t *frame, size_t len) {
    printf("%s: status %u, %zu bytes", name, (unsigned)status, len);
    if (status == ETHERPARSE_OK) {
        struct etherparse_packet packet;
        printf("\n ");
        for (size_t i = 0; i < len; i++) printf(" %02x", frame[i]);
        if (etherparse_slice(ETHERPARSE_ENTRY_ETHERNET, 0, frame, len, &packet) == ETHERPARSE_OK)
            printf("\n  net %u, transport %u, %zu bytes of payload", (unsigned)packet.net.kind,
                   (unsigned)packet.transport.kind, packet.payload.len);
    }
    printf("\n");
}

int main(void) {
    struct etherparse_route route = {
        .version = 4,
        .with_ethernet = 1,
        .hop_limit = 20,
        .ethernet_source = {1, 2, 3, 4, 5, 6},
        .ethernet_destination = {7, 8, 9, 10, 11, 12},
        .ipv4_source = {192, 168, 1, 1},
        .ipv4_destination = {192, 168, 1, 2},
        .ipv6_source = {0xfe, 0x80, [15] = 1},
        .ipv6_destination = {0xfe, 0x80, [15] = 2},
    };
    const uint8_t payload[] = {1, 2, 3, 4, 5, 6, 7, 8};
    uint8_t buffer[100];
    size_t written;
    uint32_t status;

    status = etherparse_build_udp(&route, 21, 1234, payload, sizeof payload, buffer, sizeof buffer, &written);
    print("udp over IPv4", status, buffer, written);
    status = etherparse_build_udp(&route, 21, 1234, payload, sizeof payload, buffer, 49, &written);
    print("in 49 bytes", status, buffer, written);
    status = etherparse_build_icmp_echo(&route, 0, 1, 2, payload, sizeof payload, buffer, sizeof buffer, &written);
    print("echo over IPv4", status, buffer, written);
    route.version = 6;
    struct etherparse_tcp_fields fields = {.source_port = 80, .destination_port = 4000, .sequence_number = 7,
                                           .window_size = 512, .flags = ETHERPARSE_TCP_SYN | ETHERPARSE_TCP_ACK};
    status = etherparse_build_tcp(&route, &fields, payload, sizeof payload, buffer, sizeof buffer, &written);
    print("tcp over IPv6", status, buffer, written);
    route.version = 5;
    status = etherparse_build_udp(&route, 21, 1234, payload, sizeof payload, buffer, sizeof buffer, &written);
    print("version 5", status, buffer, written);
    return 0;
}
