/* Mistakes that a compiler warns of: each of them is an error with -Wall -Wextra -Werror, and without them this file
 * compiles. */
#include <etherparse.h>

int mistakes(const uint8_t *frame, size_t len, struct etherparse_packet *packet);

int mistakes(const uint8_t *frame, size_t len, struct etherparse_packet *packet) {
#if defined(NULL_PACKET)
    (void)packet;
    enum etherparse_status status = etherparse_slice(ETHERPARSE_ENTRY_IP, 0, frame, len, NULL);
#elif defined(SHORT_SEED)
    (void)frame, (void)len, (void)packet;
    const uint8_t seed[8] = {1};
    struct etherparse_bounded_pool *pool;
    enum etherparse_status status = etherparse_bounded_pool_new(NULL, seed, &pool);
#elif defined(SHORT_MATCHES)
    (void)packet;
    struct etherparse_filter *filter;
    const size_t ends[3] = {1, 2, 3};
    uint8_t matches[2];
    size_t matched;
    enum etherparse_status status = etherparse_filter_new(NULL, 0, &filter, NULL);
    if (status == ETHERPARSE_OK)
        status = etherparse_filter_matches_many(filter, 0, 0, frame, len, ends, 3, NULL, matches, &matched);
#elif defined(NULL_FRAME)
    (void)frame, (void)len;
    enum etherparse_status status = etherparse_slice(ETHERPARSE_ENTRY_IP, 0, NULL, 14, packet);
#elif defined(NULL_BYTES)
    (void)frame, (void)len;
    struct etherparse_fields fields;
    enum etherparse_status status = etherparse_fields(packet, NULL, 14, &fields);
#else
    enum etherparse_status status = etherparse_slice(ETHERPARSE_ENTRY_IP, 0, frame, len, packet);
#endif
#if defined(STATUS_IGNORED)
    etherparse_slice(ETHERPARSE_ENTRY_IP, 0, frame, len, packet);
#elif defined(STATUS_FORGOTTEN)
    switch (status) {
    case ETHERPARSE_OK:
        return 0;
    }
#endif
    return status != ETHERPARSE_OK;
}
