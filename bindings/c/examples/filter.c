/* Prints the UDP datagrams to a port in a capture: filter PORT FILE.
 * FILE is an Ethernet II capture in the classic pcap format, of either byte order. */
#include <etherparse.h>
#include <stdio.h>
#include <stdlib.h>

static uint32_t number(const uint8_t *at, int big) {
    return big ? (uint32_t)at[0] << 24 | (uint32_t)at[1] << 16 | (uint32_t)at[2] << 8 | at[3]
               : (uint32_t)at[3] << 24 | (uint32_t)at[2] << 16 | (uint32_t)at[1] << 8 | at[0];
}

int main(int argc, char **argv) {
    if (argc != 3) return fprintf(stderr, "usage: filter PORT FILE\n"), 2;
    unsigned long port = strtoul(argv[1], NULL, 10);
    FILE *file = fopen(argv[2], "rb");
    if (!file) return perror(argv[2]), 1;

    uint8_t head[24];
    if (fread(head, 1, sizeof head, file) != sizeof head) return fprintf(stderr, "no capture\n"), 1;
    int big = head[0] == 0xa1;
    uint32_t magic = number(head, big);
    if ((magic != 0xa1b2c3d4 && magic != 0xa1b23c4d) || number(head + 20, big) != 1)
        return fprintf(stderr, "no capture of Ethernet\n"), 1;

    static uint8_t frame[1 << 18];
    uint8_t record[16];
    unsigned long frames = 0, found = 0, refused = 0;
    while (fread(record, 1, sizeof record, file) == sizeof record) {
        size_t len = number(record + 8, big);
        if (len > sizeof frame || fread(frame, 1, len, file) != len) return fprintf(stderr, "the capture is cut\n"), 1;
        frames++;
        struct etherparse_packet packet;
        if (etherparse_slice(ETHERPARSE_ENTRY_ETHERNET, 0, frame, len, &packet) != ETHERPARSE_OK) {
            char text[ETHERPARSE_REFUSAL_TEXT_MAX];
            size_t written;
            if (etherparse_refusal_text(&packet.refusal, text, sizeof text, &written) != ETHERPARSE_OK)
                return fprintf(stderr, "out of memory\n"), 1;
            printf("%lu: %s\n", frames, text);
            refused++;
            continue;
        }
        if (packet.transport.kind != ETHERPARSE_TRANSPORT_UDP || packet.destination_port != port) continue;
        struct etherparse_fields fields;
        if (etherparse_fields(&packet, frame, len, &fields) != ETHERPARSE_OK) return 1; /* never, for its own packet */
        found++;
        printf("%lu: ", frames);
        const uint8_t *source = fields.ip.source;
        if (fields.ip.version == 4) printf("from %u.%u.%u.%u ", source[0], source[1], source[2], source[3]);
        printf("port %u, %zu bytes at %zu:", packet.source_port, packet.payload.len, packet.payload.offset);
        for (size_t i = 0; i < packet.payload.len && i < 8; i++) printf(" %02x", frame[packet.payload.offset + i]);
        for (uint32_t i = 0; i < packet.link_ext_count; i++)
            if (packet.link_exts[i].kind == ETHERPARSE_EXT_VLAN) printf(", VLAN %u", packet.link_exts[i].vlan_id);
        printf("\n");
    }
    fclose(file);
    printf("%lu frames, %lu to port %lu, %lu refused\n", frames, found, port, refused);
    return 0;
}
