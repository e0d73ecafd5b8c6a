/* Reads the fields of frames through the C interface, so that bench/instructions can count it: fields FILE ROUNDS
 * FILE has frames, each with its length in four bytes (little-endian) before its bytes. Each frame is sliced once; a
 * round reads the fields of all frames. Prints a sum over fields, so that no call is optimized away. */
#include "../bindings/c/etherparse.h"
#include <stdio.h>
#include <stdlib.h>

#define MOST_FRAMES 1000
#define MOST_BYTES 2048

struct frame {
    struct etherparse_packet packet;
    uint8_t bytes[MOST_BYTES];
    size_t len;
};

static struct frame frames[MOST_FRAMES];

/* Returns the number of frames in the file, or 0 if it is not such a file, or a frame is rejected. */
static size_t read_frames(FILE *file) {
    size_t count = 0;
    uint8_t head[4];
    for (; fread(head, 1, sizeof head, file) == sizeof head; count++) {
        struct frame *frame = &frames[count];
        if (count == MOST_FRAMES) return 0;
        frame->len = (size_t)head[0] | (size_t)head[1] << 8 | (size_t)head[2] << 16 | (size_t)head[3] << 24;
        if (frame->len > MOST_BYTES || fread(frame->bytes, 1, frame->len, file) != frame->len) return 0;
        if (etherparse_slice(ETHERPARSE_ENTRY_ETHERNET, 0, frame->bytes, frame->len, &frame->packet) != ETHERPARSE_OK)
            return 0;
    }
    return count;
}

int main(int argc, char **argv) {
    FILE *file = argc == 3 ? fopen(argv[1], "rb") : NULL;
    const size_t count = file ? read_frames(file) : 0;
    const unsigned long rounds = argc == 3 ? strtoul(argv[2], NULL, 10) : 0;
    uint64_t sum = 0;
    for (unsigned long round = 0; round < rounds; round++) {
        for (size_t i = 0; i < count; i++) {
            const struct frame *frame = &frames[i];
            struct etherparse_fields fields;
            if (etherparse_fields(&frame->packet, frame->bytes, frame->len, &fields) != ETHERPARSE_OK) return 1;
            sum += fields.ip.hop_limit + fields.transport.source_port;
        }
    }
    printf("%zu %llu\n", count, (unsigned long long)sum);
    return count == 0;
}
