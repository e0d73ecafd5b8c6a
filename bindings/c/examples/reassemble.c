/* Reassembles two fragmented datagrams, whose fragments are interleaved and out of order. */
#include <etherparse.h>
#include <stdio.h>
#include <string.h>

/* Writes a fragment of an IPv4 packet with `end` bytes of payload: the bytes `from` to `to`. */
static size_t cut(const uint8_t *packet, size_t end, uint16_t identification, size_t from, size_t to,
                  uint8_t *fragment) {
    size_t len = 20 + to - from, place = from / 8 | (to < end ? 0x2000 : 0);
    memcpy(fragment, packet, 20);
    memcpy(fragment + 20, packet + 20 + from, to - from);
    fragment[2] = (uint8_t)(len >> 8), fragment[3] = (uint8_t)len;
    fragment[4] = (uint8_t)(identification >> 8), fragment[5] = (uint8_t)identification;
    fragment[6] = (uint8_t)(place >> 8), fragment[7] = (uint8_t)place;
    fragment[10] = fragment[11] = 0;
    uint16_t sum = etherparse_checksum(fragment, 20);
    fragment[10] = (uint8_t)(sum >> 8), fragment[11] = (uint8_t)sum;
    return len;
}

static void print(uint32_t status, const struct etherparse_pool_answer *answer, const uint8_t *buffer) {
    printf("status %u", (unsigned)status);
    if (status == ETHERPARSE_REFUSED) printf(", refusal %u", (unsigned)answer->refusal.kind);
    if (status == ETHERPARSE_FRAGMENT_REFUSED) printf(", reason %u", (unsigned)answer->fragment_refusal);
    if (answer->len > 0) printf(", protocol %u, %zu bytes", answer->ip_number, answer->len);
    if (status == ETHERPARSE_COMPLETE) printf(": %.*s", (int)answer->len - 8, (const char *)buffer + 8);
    printf("\n");
}

int main(void) {
    const char *texts[] = {"one datagram in pieces", "and another one, whose text is longer than the buffer"};
    struct etherparse_route route = {
        .version = 4, .hop_limit = 20, .ipv4_source = {192, 168, 1, 1}, .ipv4_destination = {192, 168, 1, 2}};
    uint8_t packets[2][100], fragment[100], buffer[40], room[100];
    size_t ends[2];
    struct etherparse_pool_answer answer;
    for (int i = 0; i < 2; i++) {
        size_t written;
        if (etherparse_build_udp(&route, 21, 1234, (const uint8_t *)texts[i], strlen(texts[i]), packets[i],
                                 sizeof packets[i], &written) != ETHERPARSE_OK)
            return 1;
        ends[i] = written - 20;
    }

    struct etherparse_pool *pool;
    if (etherparse_pool_with_limit(sizeof room, &pool) != ETHERPARSE_OK) return fprintf(stderr, "out of memory\n"), 1;
    const struct { int packet; size_t from, to; } steps[] = {
        {0, 16, 99}, /* the end of the first */
        {1, 0, 32},  /* the start of the second */
        {0, 0, 12},  /* 12 bytes, though more follow: rejected */
        {0, 0, 16},  /* the first is complete */
        {1, 32, 99}, /* the second is complete, and waits */
        {0, 0, 16},  /* ignored, since a payload waits */
    };
    for (size_t i = 0; i < sizeof steps / sizeof *steps; i++) {
        int packet = steps[i].packet;
        size_t to = steps[i].to < ends[packet] ? steps[i].to : ends[packet];
        size_t len = cut(packets[packet], ends[packet], (uint16_t)packet, steps[i].from, to, fragment);
        uint32_t status = etherparse_pool_push(pool, ETHERPARSE_ENTRY_IP, 0, fragment, len, i, 0, buffer, sizeof buffer,
                                               &answer);
        print(status, &answer, buffer);
    }
    uint32_t status = etherparse_pool_take(pool, room, sizeof room, &answer);
    print(status, &answer, room);

    /* Half a datagram, which is dropped: the other half then starts a new stream. */
    for (size_t i = 0; i < 2; i++) {
        size_t len = cut(packets[0], ends[0], 7, i * 16, i == 0 ? 16 : ends[0], fragment);
        status = etherparse_pool_push(pool, ETHERPARSE_ENTRY_IP, 0, fragment, len, 10 + i, 0, buffer, sizeof buffer,
                                      &answer);
        print(status, &answer, buffer);
        etherparse_pool_drop_older(pool, 11);
    }
    etherparse_pool_free(pool);
    return 0;
}
