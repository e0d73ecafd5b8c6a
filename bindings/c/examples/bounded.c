/* Reassembles fragments with a bounded pool, and prints the streams that it evicts or discards: a forged fragment, then
 * more streams than the limits allow, then streams that are too old. */
#include <etherparse.h>
#include <stdio.h>
#include <string.h>

static const char *const causes[] = {"", "expired", "overlap", "streams", "bytes"};

static void print_evicted(struct etherparse_bounded_pool *pool) {
    struct etherparse_evicted_stream evicted;
    for (size_t i = 0; etherparse_bounded_pool_evicted(pool, i, &evicted) == ETHERPARSE_OK; i++) {
        const uint8_t *source = evicted.id.ipv4_source;
        printf("  %s: the datagram %u of %u.%u.%u.%u, which began at %u\n", causes[evicted.cause],
               (unsigned)evicted.id.identification, source[0], source[1], source[2], source[3],
               (unsigned)evicted.first);
    }
}

/* Pushes a fragment of a datagram at this time: the bytes of `text` from `offset` on. */
static int push(struct etherparse_bounded_pool *pool, uint16_t identification, uint16_t offset, int more,
                const char *text, uint64_t time) {
    const struct etherparse_tagged_route route = {
        .route = {.version = 4, .hop_limit = 20, .ipv4_source = {192, 0, 2, 1}, .ipv4_destination = {192, 0, 2, 2}}};
    const struct etherparse_fragment_fields fields = {
        .ip_number = 253, .more_fragments = (uint8_t)more, .fragment_offset = offset,
        .identification = identification};
    struct etherparse_pool_answer answer;
    uint8_t frame[100], payload[100];
    size_t len;
    if (etherparse_build_fragment(&route, &fields, (const uint8_t *)text, strlen(text), frame, sizeof frame, &len)
        != ETHERPARSE_OK)
        return 1;
    enum etherparse_status status = etherparse_bounded_pool_push(pool, ETHERPARSE_ENTRY_IP, 0, frame, len, time, 0,
                                                                 payload, sizeof payload, &answer);
    printf("%u at %u: status %u", identification, offset, (unsigned)status);
    if (status == ETHERPARSE_COMPLETE) printf(", %.*s", (int)answer.len, (const char *)payload);
    printf("\n");
    print_evicted(pool);
    return 0;
}

int main(void) {
    /* a real program takes the seed from getrandom() */
    const uint8_t seed[16] = {1, 2, 3, 4, 5, 6, 7, 8, 9, 10, 11, 12, 13, 14, 15, 16};
    struct etherparse_defrag_limits limits;
    struct etherparse_bounded_pool *pool;
    etherparse_defrag_limits_default(&limits);
    limits.streams = 2, limits.age = 60;
    if (etherparse_bounded_pool_new(&limits, seed, &pool) != ETHERPARSE_OK) return fprintf(stderr, "no pool\n"), 1;
    int failed = push(pool, 1, 0, 1, "two pay-", 0)    /* the start of a datagram */
                 || push(pool, 2, 0, 1, "another ", 1) /* the start of another one */
                 || push(pool, 1, 0, 1, "a forged", 2) /* another version of the first one: it is discarded */
                 || push(pool, 1, 8, 0, "loads", 3)    /* as its later fragments are */
                 || push(pool, 2, 8, 0, "one", 4)      /* the second one is complete */
                 || push(pool, 3, 0, 1, "flooding", 5) /* two more streams than the limits allow */
                 || push(pool, 4, 0, 1, "flooding", 6)
                 || push(pool, 5, 0, 1, "flooding", 7);
    printf("expired: %zu\n", etherparse_bounded_pool_expire(pool, 67, UINT64_MAX));
    print_evicted(pool);
    struct etherparse_defrag_statistics counted;
    etherparse_bounded_pool_statistics(pool, &counted);
    printf("begun %u, completed %u, discarded %u, expired %u, evicted %u, open %zu\n", (unsigned)counted.begun,
           (unsigned)counted.completed, (unsigned)counted.discarded, (unsigned)counted.expired,
           (unsigned)(counted.evicted_for_streams + counted.evicted_for_bytes), etherparse_bounded_pool_streams(pool));
    etherparse_bounded_pool_free(pool);
    return failed;
}
