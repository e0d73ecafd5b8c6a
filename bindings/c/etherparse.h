/* etherparse: parses and builds network frames, reassembles fragments, and filters packets, for C and C++.
 *
 * The library is written in Rattle, where every function is proved against its contract before it is built: for any
 * input a call returns, reads no byte outside of it, writes only to the memory that it is passed, and answers by the
 * written grammar of the protocols alone (see docs/PROVED.md).
 *
 * For all calls:
 * - Null bytes, ends or buffers (also a null payload, options or text) have length 0, whatever their length parameter
 *   is. Another pointer may be null only if the documentation of the call allows it. The pointers of a call do not
 *   overlap. A pointer with a length `len` points to `len` bytes, at most PTRDIFF_MAX.
 * - Except for pools and filters, no call keeps a pointer or has state, and any call may run in many threads at once.
 *   None prints. The calls that write the text of a refusal or a filter allocate, and free the memory before they
 *   return; a pool or filter holds memory until it is freed; no other call allocates. See "Memory" below.
 * - Output structs contain only numbers. They contain no pointers, and except for pools and filters nothing has to be
 *   freed. The previous content of an output struct or buffer is never read.
 * - A call that allocates, or that uses a pool or filter, must not be used in a signal handler, nor in the forked child
 *   of a process with threads.
 * - size_t has 64 bits.
 * - A call needs at most ETHERPARSE_STACK bytes of stack (slicing about 1,700, verifying 2,000, building 1,100, a
 *   text or fields 500, the others 300; measured on x86-64), except the calls on pools and filters, which need at most
 *   ETHERPARSE_STACK_OF_POOLS (pushing 1,800, or 5,600 if the fragment connects three or more parts of its payload; to
 *   a bounded pool 4,200 or 6,900; filters 3,200), and etherparse_build_fragment, whose headers are large values: it
 *   needs at most ETHERPARSE_STACK_OF_FRAGMENTS. If functions of the C library are bound at their first call, that
 *   binding needs about 3,000 more.
 *
 * Link with the archive libetherparse_c.a or with the shared object of a release. The archive that `rt lib` leaves in
 * crates/etherparse_c/out also needs etherparse_heap.c. The calls are inline functions over exports; the names of the
 * exports contain the version number of the struct layouts, so a header does not link with an archive of another
 * layout. While the version starts with 0., a minor version may change layouts, and with them that number, and rename
 * or remove calls; a patch only adds calls and numbers. */
#ifndef ETHERPARSE_H
#define ETHERPARSE_H

#include <stddef.h>
#include <stdint.h>

/* Version of this header: 10000 times the major number, plus 100 times the minor one, plus the patch. */
#define ETHERPARSE_VERSION 200
#define ETHERPARSE_VERSION_TEXT "0.2.0"

/* Maximum stack that a call needs, in bytes. */
#define ETHERPARSE_STACK 2048
#define ETHERPARSE_STACK_OF_POOLS 8192
#define ETHERPARSE_STACK_OF_FRAGMENTS 65536

/* Compiler attributes, if supported: for results that must be used, for parameters that are never null, and for the
 * lengths of buffers. */
#if defined(__GNUC__)
#define ETHERPARSE_MUST_USE __attribute__((warn_unused_result))
#define ETHERPARSE_NONNULL(parameters) __attribute__((nonnull parameters))
#else
#define ETHERPARSE_MUST_USE
#define ETHERPARSE_NONNULL(parameters)
#endif
#if defined(__GNUC__) && !defined(__clang__) && __GNUC__ >= 10
#define ETHERPARSE_READS(bytes, len) __attribute__((access(read_only, bytes, len)))
#define ETHERPARSE_WRITES(bytes, len) __attribute__((access(write_only, bytes, len)))
#else
#define ETHERPARSE_READS(bytes, len)
#define ETHERPARSE_WRITES(bytes, len)
#endif

#ifdef __cplusplus
#define ETHERPARSE_AS_STATUS(number) static_cast<enum etherparse_status>(number)
extern "C" {
#else
#define ETHERPARSE_AS_STATUS(number) ((enum etherparse_status)(number))
#endif

/* Does not compile if size_t does not have 64 bits. */
typedef char etherparse_size_t_has_64_bits[sizeof(size_t) == 8 ? 1 : -1];

/* Status of a call. */
enum etherparse_status {
    ETHERPARSE_OK = 0,            /* success */
    ETHERPARSE_REFUSED = 1,       /* the bytes are not a frame; the refusal has the error */
    ETHERPARSE_UNKNOWN_CHOICE = 2, /* a number is not one of the allowed choices */
    ETHERPARSE_TOO_SMALL = 3,     /* the buffer is too small; the needed length is stored */
    ETHERPARSE_TOO_LONG = 4,      /* the payload or the TCP options are too long for the headers */
    ETHERPARSE_OUT_OF_MEMORY = 5, /* an allocation failed */
    ETHERPARSE_COMPLETE = 6,      /* a payload is complete, and is in the buffer */
    ETHERPARSE_FRAGMENT_REFUSED = 7, /* the fragment in a frame is rejected; the answer has the reason */
    ETHERPARSE_PAYLOAD_WAITS = 8, /* a payload waits in the pool, which takes no frame until it is taken */
    ETHERPARSE_DISCARDED = 9,     /* the stream of a fragment is discarded, since its fragments contradict each other */
    ETHERPARSE_OVER_BUDGET = 10   /* the stream of a fragment alone needs more memory than the limits allow */
};

/* First header of a frame. */
enum etherparse_entry {
    ETHERPARSE_ENTRY_ETHERNET = 0,   /* Ethernet II header */
    ETHERPARSE_ENTRY_LINUX_SLL = 1,  /* Linux cooked capture header (SLL v1) */
    ETHERPARSE_ENTRY_ETHER_TYPE = 2, /* payload of an ether type, without a link header */
    ETHERPARSE_ENTRY_IP = 3          /* IP header of either version */
};

/* ---- What is linked. The exports that the calls below use. A language that declares them itself must link an archive
 * with the same number in the names, and must not pass null pointers. */

struct etherparse_packet;
struct etherparse_fields;
struct etherparse_refusal;
struct etherparse_route;
struct etherparse_tagged_route;
struct etherparse_tcp_fields;
struct etherparse_fragment_fields;
struct etherparse_pool;
struct etherparse_pool_answer;
struct etherparse_bounded_pool;
struct etherparse_defrag_limits;
struct etherparse_defrag_statistics;
struct etherparse_stream_id;
struct etherparse_evicted_stream;
struct etherparse_filter;
struct etherparse_filter_error;

uint32_t etherparse_2_version(void);
uint32_t etherparse_2_slice(uint32_t entry, uint16_t ether_type, const uint8_t *bytes, size_t len,
                            struct etherparse_packet *packet);
uint32_t etherparse_2_slice_lax(uint32_t entry, uint16_t ether_type, const uint8_t *bytes, size_t len,
                                struct etherparse_packet *packet);
uint32_t etherparse_2_slice_many(uint32_t entry, uint16_t ether_type, const uint8_t *bytes, size_t len,
                                 const size_t *ends, size_t ends_len, struct etherparse_packet *packets,
                                 size_t packets_len, size_t *sliced);
uint32_t etherparse_2_slice_lax_many(uint32_t entry, uint16_t ether_type, const uint8_t *bytes, size_t len,
                                     const size_t *ends, size_t ends_len, struct etherparse_packet *packets,
                                     size_t packets_len, size_t *sliced);
uint32_t etherparse_2_fields(const struct etherparse_packet *packet, const uint8_t *bytes, size_t len,
                             struct etherparse_fields *fields);
uint32_t etherparse_2_checksums(uint32_t entry, uint16_t ether_type, const uint8_t *bytes, size_t len,
                                struct etherparse_fields *fields);
uint32_t etherparse_2_refusal_text(const struct etherparse_refusal *refusal, uint8_t *buffer, size_t len,
                                   size_t *written);
uint16_t etherparse_2_checksum(const uint8_t *bytes, size_t len);
uint32_t etherparse_2_build_udp(const struct etherparse_route *route, uint16_t source_port, uint16_t destination_port,
                                const uint8_t *payload, size_t payload_len, uint8_t *buffer, size_t buffer_len,
                                size_t *written);
uint32_t etherparse_2_build_tcp(const struct etherparse_route *route, const struct etherparse_tcp_fields *fields,
                                const uint8_t *payload, size_t payload_len, uint8_t *buffer, size_t buffer_len,
                                size_t *written);
uint32_t etherparse_2_build_icmp_echo(const struct etherparse_route *route, uint8_t is_reply, uint16_t id,
                                      uint16_t seq, const uint8_t *payload, size_t payload_len, uint8_t *buffer,
                                      size_t buffer_len, size_t *written);
uint32_t etherparse_2_build_tagged_udp(const struct etherparse_tagged_route *route, uint16_t source_port,
                                       uint16_t destination_port, const uint8_t *payload, size_t payload_len,
                                       uint8_t *buffer, size_t buffer_len, size_t *written);
uint32_t etherparse_2_build_tagged_tcp(const struct etherparse_tagged_route *route,
                                       const struct etherparse_tcp_fields *fields, const uint8_t *options,
                                       size_t options_len, const uint8_t *payload, size_t payload_len,
                                       uint8_t *buffer, size_t buffer_len, size_t *written);
uint32_t etherparse_2_build_tagged_icmp_echo(const struct etherparse_tagged_route *route, uint8_t is_reply,
                                             uint16_t id, uint16_t seq, const uint8_t *payload, size_t payload_len,
                                             uint8_t *buffer, size_t buffer_len, size_t *written);
uint32_t etherparse_2_build_fragment(const struct etherparse_tagged_route *route,
                                     const struct etherparse_fragment_fields *fields, const uint8_t *payload,
                                     size_t payload_len, uint8_t *buffer, size_t buffer_len, size_t *written);
uint32_t etherparse_2_pool_new(struct etherparse_pool **pool);
uint32_t etherparse_2_pool_with_limit(uint16_t limit, struct etherparse_pool **pool);
void etherparse_2_pool_free(struct etherparse_pool *pool);
uint32_t etherparse_2_pool_push(struct etherparse_pool *pool, uint32_t entry, uint16_t ether_type,
                                const uint8_t *bytes, size_t len, uint64_t timestamp, uint64_t channel,
                                uint8_t *buffer, size_t buffer_len, struct etherparse_pool_answer *answer);
uint32_t etherparse_2_pool_take(struct etherparse_pool *pool, uint8_t *buffer, size_t buffer_len,
                                struct etherparse_pool_answer *answer);
void etherparse_2_pool_discard(struct etherparse_pool *pool);
void etherparse_2_pool_drop_older(struct etherparse_pool *pool, uint64_t timestamp);
size_t etherparse_2_pool_streams(struct etherparse_pool *pool);
size_t etherparse_2_pool_bytes(struct etherparse_pool *pool);
void etherparse_2_defrag_limits_default(struct etherparse_defrag_limits *limits);
uint32_t etherparse_2_bounded_pool_new(const struct etherparse_defrag_limits *limits, const uint8_t *seed,
                                       struct etherparse_bounded_pool **pool);
void etherparse_2_bounded_pool_free(struct etherparse_bounded_pool *pool);
uint32_t etherparse_2_bounded_pool_push(struct etherparse_bounded_pool *pool, uint32_t entry, uint16_t ether_type,
                                        const uint8_t *bytes, size_t len, uint64_t timestamp, uint64_t channel,
                                        uint8_t *buffer, size_t buffer_len, struct etherparse_pool_answer *answer);
uint32_t etherparse_2_bounded_pool_take(struct etherparse_bounded_pool *pool, uint8_t *buffer, size_t buffer_len,
                                        struct etherparse_pool_answer *answer);
void etherparse_2_bounded_pool_discard(struct etherparse_bounded_pool *pool);
size_t etherparse_2_bounded_pool_expire(struct etherparse_bounded_pool *pool, uint64_t now, uint64_t idle);
size_t etherparse_2_bounded_pool_remove(struct etherparse_bounded_pool *pool, const struct etherparse_stream_id *id);
void etherparse_2_bounded_pool_clear(struct etherparse_bounded_pool *pool);
size_t etherparse_2_bounded_pool_streams(struct etherparse_bounded_pool *pool);
size_t etherparse_2_bounded_pool_discarded_streams(struct etherparse_bounded_pool *pool);
size_t etherparse_2_bounded_pool_held_bytes(struct etherparse_bounded_pool *pool);
void etherparse_2_bounded_pool_limits(struct etherparse_bounded_pool *pool, struct etherparse_defrag_limits *limits);
void etherparse_2_bounded_pool_statistics(struct etherparse_bounded_pool *pool,
                                          struct etherparse_defrag_statistics *statistics);
size_t etherparse_2_bounded_pool_evicted_count(struct etherparse_bounded_pool *pool);
uint32_t etherparse_2_bounded_pool_evicted(struct etherparse_bounded_pool *pool, size_t index,
                                           struct etherparse_evicted_stream *evicted);
uint32_t etherparse_2_filter_new(const uint8_t *text, size_t len, struct etherparse_filter **filter,
                                 struct etherparse_filter_error *error);
void etherparse_2_filter_free(struct etherparse_filter *filter);
uint32_t etherparse_2_filter_matches(struct etherparse_filter *filter, uint32_t entry, uint16_t ether_type,
                                     const uint8_t *bytes, size_t len, uint32_t wire_len, uint8_t *matches);
uint32_t etherparse_2_filter_matches_many(struct etherparse_filter *filter, uint32_t entry, uint16_t ether_type,
                                          const uint8_t *bytes, size_t len, const size_t *ends, size_t ends_len,
                                          const uint32_t *wire_lens, size_t wire_lens_len, uint8_t *matches,
                                          size_t matches_len, size_t *matched);
uint32_t etherparse_2_filter_text(struct etherparse_filter *filter, uint8_t *buffer, size_t len, size_t *written);
uint32_t etherparse_2_filter_error_text(uint32_t kind, uint8_t *buffer, size_t len, size_t *written);

/* The version of the archive that is linked, to be compared with ETHERPARSE_VERSION. */
ETHERPARSE_MUST_USE static inline uint32_t etherparse_version(void) {
    return etherparse_2_version();
}

/* ---- Slicing frames */

/* Kinds of headers, for each layer. In each layer 0 is none. */
enum etherparse_link_kind { ETHERPARSE_LINK_ETHERNET2 = 1, ETHERPARSE_LINK_LINUX_SLL = 2 };
enum etherparse_ext_kind { ETHERPARSE_EXT_VLAN = 1, ETHERPARSE_EXT_MACSEC = 2 };
enum etherparse_net_kind { ETHERPARSE_NET_ARP = 1, ETHERPARSE_NET_IPV4 = 4, ETHERPARSE_NET_IPV6 = 6 };
enum etherparse_transport_kind { /* IP protocol numbers */
    ETHERPARSE_TRANSPORT_ICMPV4 = 1,
    ETHERPARSE_TRANSPORT_TCP = 6,
    ETHERPARSE_TRANSPORT_UDP = 17,
    ETHERPARSE_TRANSPORT_ICMPV6 = 58
};

/* Length field that limits some bytes. */
enum etherparse_len_source {
    ETHERPARSE_END_SLICE = 0,        /* none: the length that was passed */
    ETHERPARSE_END_MACSEC = 1,       /* short length (SL) of a MACsec tag */
    ETHERPARSE_END_IPV4 = 2,         /* total length of an IPv4 header */
    ETHERPARSE_END_IPV6 = 3,         /* payload length of an IPv6 header */
    ETHERPARSE_END_UDP = 4,          /* length of a UDP header */
    ETHERPARSE_END_ARP = 5           /* address lengths of an ARP packet */
};

/* Kind of a header, its offset in the frame and its length, in bytes. If the frame has no such header, kind and len are
 * 0, and offset is where it would start. */
struct etherparse_part {
    uint32_t kind;
    size_t offset;
    size_t len;
};

/* Tag of a link extension. It starts after its own ether type, and ends with the ether type of its payload (for MACsec
 * only if the payload is unmodified): a VLAN tag has 4 bytes, the first two with priority and identifier. */
struct etherparse_link_ext {
    uint32_t kind;    /* enum etherparse_ext_kind */
    uint16_t vlan_id; /* VLAN identifier (VID); 0 for MACsec */
    size_t offset;
    size_t len;
};

/* Fields of an IP header and its extension headers; all 0 if the packet is not IP. */
struct etherparse_ip {
    uint8_t version;          /* 4 or 6 */
    uint8_t number;           /* IP number (protocol) of the payload after the extension headers */
    uint8_t fragmented;       /* 1 if the payload is a fragment of a longer one */
    uint8_t more_fragments;   /* 1 if "more fragments" is set; in IPv6 of the first fragment header */
    uint16_t fragment_offset; /* offset in the reassembled payload, in bytes; from the same header */
    uint32_t identification;  /* shared by all fragments of a payload; 0 in IPv6 without a fragment header */
    size_t header_len;        /* length of the IP header without extension headers, in bytes */
};

/* Payload of the last layer. It is limited by the innermost length field that counts it, with or without trailing
 * bytes: the length of UDP if it is not 0, else that of IP (in IPv6 a payload length of 0 limits nothing if bytes
 * follow), else the short length of a MACsec tag if it is not 0, else the length that was passed. After an ARP packet
 * there is no payload: len is 0, and len_source is ETHERPARSE_END_ARP. In lax slicing, a length field that is not in
 * effect does not limit the payload. */
struct etherparse_payload {
    uint32_t len_source; /* enum etherparse_len_source */
    uint32_t incomplete; /* 1 if bytes that a length field counts are missing (lax slicing only); else 0 */
    size_t offset;
    size_t len;
};

/* Kind of an error. */
enum etherparse_refusal_kind {
    ETHERPARSE_REFUSAL_NONE = 0,
    ETHERPARSE_REFUSAL_LEN = 1,              /* a layer needs another number of bytes than there are */
    ETHERPARSE_REFUSAL_SLL_PACKET_TYPE = 2,  /* packet type of a cooked capture is `number`, above 7 */
    ETHERPARSE_REFUSAL_SLL_ARP_HARDWARE = 3, /* its ARP hardware type `number` is not supported */
    ETHERPARSE_REFUSAL_MACSEC_VERSION = 4,   /* version bit of MACsec is set */
    ETHERPARSE_REFUSAL_MACSEC_SHORT_LEN = 5, /* unmodified MACsec payload is too short for its ether type */
    ETHERPARSE_REFUSAL_IP_VERSION = 6,       /* entry IP: version is `number`, neither 4 nor 6 */
    ETHERPARSE_REFUSAL_IP_IHL = 7,           /* entry IP: IPv4 header length (IHL) is `number`, below 5 */
    ETHERPARSE_REFUSAL_IPV4_VERSION = 8,     /* version after the ether type of IPv4 is `number` */
    ETHERPARSE_REFUSAL_IPV4_IHL = 9,         /* header length (IHL) after it is `number`, below 5 */
    ETHERPARSE_REFUSAL_IPV6_VERSION = 10,    /* version after the ether type of IPv6 is `number` */
    ETHERPARSE_REFUSAL_IPV4_AUTH = 11,       /* payload length of an authentication header in IPv4 is 0 */
    ETHERPARSE_REFUSAL_IPV6_HOP_BY_HOP = 12, /* hop-by-hop options come after another extension header */
    ETHERPARSE_REFUSAL_IPV6_AUTH = 13,       /* payload length of an authentication header in IPv6 is 0 */
    ETHERPARSE_REFUSAL_TCP_DATA_OFFSET = 14  /* data offset of TCP is `number`, below 5 */
};

/* Layers of errors of kind LEN. */
enum etherparse_layer {
    ETHERPARSE_LAYER_ETHERNET2_HEADER = 1,
    ETHERPARSE_LAYER_LINUX_SLL_HEADER = 2,
    ETHERPARSE_LAYER_VLAN_HEADER = 3,
    ETHERPARSE_LAYER_MACSEC_HEADER = 4,
    ETHERPARSE_LAYER_MACSEC_PACKET = 5,
    ETHERPARSE_LAYER_ARP = 6,
    ETHERPARSE_LAYER_IP_HEADER = 7,
    ETHERPARSE_LAYER_IPV4_HEADER = 8,
    ETHERPARSE_LAYER_IPV4_PACKET = 9,
    ETHERPARSE_LAYER_IP_AUTH_HEADER = 10,
    ETHERPARSE_LAYER_IPV6_HEADER = 11,
    ETHERPARSE_LAYER_IPV6_PACKET = 12,
    ETHERPARSE_LAYER_IPV6_EXT_HEADER = 13,
    ETHERPARSE_LAYER_IPV6_FRAG_HEADER = 14,
    ETHERPARSE_LAYER_UDP_HEADER = 15,
    ETHERPARSE_LAYER_UDP_PAYLOAD = 16,
    ETHERPARSE_LAYER_TCP_HEADER = 17,
    ETHERPARSE_LAYER_ICMPV4 = 18,
    ETHERPARSE_LAYER_ICMPV4_TIMESTAMP = 19,
    ETHERPARSE_LAYER_ICMPV4_TIMESTAMP_REPLY = 20,
    ETHERPARSE_LAYER_ICMPV6 = 21
};

/* Error of rejected bytes, or the error at which lax slicing stopped; all 0 for a frame. For kind LEN,
 * required_len is greater than len, except for ICMPv4 timestamps, which have exactly 20 bytes: there len may be
 * greater, so compare before you subtract. len_source is the limit of the len bytes, except that a MACsec short length
 * is reported as ETHERPARSE_END_SLICE; ETHERPARSE_END_ARP is the source of required_len. */
struct etherparse_refusal {
    uint32_t kind;             /* enum etherparse_refusal_kind */
    uint32_t layer;            /* kind LEN: enum etherparse_layer */
    uint32_t len_source;       /* kind LEN: limit of len, enum etherparse_len_source */
    uint32_t number;           /* invalid value of a field, for the kinds that name it */
    size_t required_len;       /* kind LEN: number of bytes that the layer needs */
    size_t len;                /* kind LEN: number of available bytes */
    size_t layer_start_offset; /* kind LEN: offset of the layer in the frame */
};

/* Layers of a frame, or the error if the bytes are not a frame. The headers follow one another in the order of the
 * fields, without gaps, and then comes the payload; trailing bytes, as the padding after a short IPv4 packet, come
 * after the payload. A layer of an unknown protocol is part of the payload. etherparse_fields reads the fields of the
 * headers that are not here, as the addresses. */
struct etherparse_packet {
    struct etherparse_part link;             /* enum etherparse_link_kind */
    struct etherparse_link_ext link_exts[3]; /* from the outermost on, then all 0; a fourth is payload */
    uint32_t link_ext_count;
    uint16_t source_port;      /* of UDP and TCP, else 0 */
    uint16_t destination_port; /* of UDP and TCP, else 0 */
    struct etherparse_part net; /* enum etherparse_net_kind: IP with its extension headers, or the whole ARP packet */
    struct etherparse_ip ip;
    struct etherparse_part transport; /* enum etherparse_transport_kind; none in a fragment */
    struct etherparse_payload payload;
    struct etherparse_refusal refusal;
};

/* Slices the frame in `bytes`, whose first header is `entry` (enum etherparse_entry); `ether_type` is read for
 * ETHERPARSE_ENTRY_ETHER_TYPE only. Returns
 * - ETHERPARSE_OK: the bytes are a frame, and `packet` describes its layers;
 * - ETHERPARSE_REFUSED: the bytes are not a frame; `packet->refusal` has the error, and `packet` has no layers;
 * - ETHERPARSE_UNKNOWN_CHOICE: `entry` is another number; `packet` has no layers.
 * The previous content of `packet` is never read. Checksums are not verified. */
ETHERPARSE_MUST_USE ETHERPARSE_NONNULL((5)) ETHERPARSE_READS(3, 4) static inline enum etherparse_status
etherparse_slice(uint32_t entry, uint16_t ether_type, const uint8_t *bytes, size_t len,
                 struct etherparse_packet *packet) {
    const uint8_t none = 0;
    return ETHERPARSE_AS_STATUS(etherparse_2_slice(entry, ether_type, bytes ? bytes : &none, bytes ? len : 0, packet));
}

/* Slices a packet that was truncated by the capture, or whose length fields do not match its bytes, up to the first
 * invalid layer. The parameters are those of etherparse_slice; a frame has the same description. A length field is in
 * effect if it counts at least its header and at most the available bytes: the payload is then complete. Otherwise it
 * limits nothing: the payload is all available bytes, and is incomplete if the field counts more bytes, or if the bytes
 * that contain it are incomplete. Returns
 * - ETHERPARSE_OK: the first header is valid, and `packet` describes the layers up to the first invalid one; if a layer
 *   must follow and is invalid, `packet->refusal` has its error (its kind is not 0), and the payload starts with the
 *   available bytes of that layer;
 * - ETHERPARSE_REFUSED: the first header is invalid; `packet` is filled as by etherparse_slice;
 * - ETHERPARSE_UNKNOWN_CHOICE: `entry` is another number; `packet` has no layers. */
ETHERPARSE_MUST_USE ETHERPARSE_NONNULL((5)) ETHERPARSE_READS(3, 4) static inline enum etherparse_status
etherparse_slice_lax(uint32_t entry, uint16_t ether_type, const uint8_t *bytes, size_t len,
                     struct etherparse_packet *packet) {
    const uint8_t none = 0;
    return ETHERPARSE_AS_STATUS(
        etherparse_2_slice_lax(entry, ether_type, bytes ? bytes : &none, bytes ? len : 0, packet));
}

/* Slices `count` consecutive frames in `bytes`: frame i ends at ends[i], and starts at ends[i - 1], the first one at 0.
 * packets[i] is filled as by etherparse_slice with frame i: the kind of its refusal is 0 if that returns ETHERPARSE_OK.
 * `packets` has `count` elements; `sliced` is the number of filled ones. Returns
 * - ETHERPARSE_OK: all frames are sliced;
 * - ETHERPARSE_TOO_SMALL: `packets` is null, and `ends` is not, with a `count` above 0; no frame is sliced, whatever
 *   `entry` is;
 * - ETHERPARSE_UNKNOWN_CHOICE: `entry` is another number, and no frame is sliced; or ends[*sliced] is less than the end
 *   before it or greater than `len`, and the frames before it are sliced.
 * The other packets are unchanged. */
ETHERPARSE_MUST_USE ETHERPARSE_NONNULL((8)) ETHERPARSE_READS(3, 4) ETHERPARSE_READS(5, 6)
static inline enum etherparse_status
etherparse_slice_many(uint32_t entry, uint16_t ether_type, const uint8_t *bytes, size_t len, const size_t *ends,
                      size_t count, struct etherparse_packet *packets, size_t *sliced) {
    const uint8_t none = 0;
    const size_t no_end = 0;
    struct etherparse_packet no_packet;
    return ETHERPARSE_AS_STATUS(etherparse_2_slice_many(entry, ether_type, bytes ? bytes : &none, bytes ? len : 0,
                                                        ends ? ends : &no_end, ends ? count : 0,
                                                        packets ? packets : &no_packet, packets ? count : 0, sliced));
}

/* Slices `count` consecutive packets in `bytes` laxly. The parameters and statuses are those of etherparse_slice_many,
 * and packets[i] is filled as by etherparse_slice_lax with packet i: the kind of its refusal is 0 if no layer is
 * invalid. Unless `entry` is ETHERPARSE_ENTRY_ETHER_TYPE, link.kind and net.kind are both 0 exactly if the first header
 * is invalid, for which etherparse_slice_lax returns ETHERPARSE_REFUSED. */
ETHERPARSE_MUST_USE ETHERPARSE_NONNULL((8)) ETHERPARSE_READS(3, 4) ETHERPARSE_READS(5, 6)
static inline enum etherparse_status
etherparse_slice_lax_many(uint32_t entry, uint16_t ether_type, const uint8_t *bytes, size_t len, const size_t *ends,
                          size_t count, struct etherparse_packet *packets, size_t *sliced) {
    const uint8_t none = 0;
    const size_t no_end = 0;
    struct etherparse_packet no_packet;
    return ETHERPARSE_AS_STATUS(etherparse_2_slice_lax_many(entry, ether_type, bytes ? bytes : &none, bytes ? len : 0,
                                                            ends ? ends : &no_end, ends ? count : 0,
                                                            packets ? packets : &no_packet, packets ? count : 0,
                                                            sliced));
}

/* Buffer length that is enough for the text of every error, including its zero byte. */
#define ETHERPARSE_REFUSAL_TEXT_MAX 142

/* Writes the text of an error and a zero byte to the start of `buffer`. Returns
 * - ETHERPARSE_OK: `written` is the number of bytes, including the zero byte, at most ETHERPARSE_REFUSAL_TEXT_MAX;
 * - ETHERPARSE_UNKNOWN_CHOICE: the numbers are not those of an error, as for a valid frame; `written` is 0;
 * - ETHERPARSE_TOO_SMALL: the buffer is too small, and `written` is the needed length;
 * - ETHERPARSE_OUT_OF_MEMORY: an allocation failed; `written` is 0.
 * Except for ETHERPARSE_OK the buffer is unchanged. */
ETHERPARSE_MUST_USE ETHERPARSE_NONNULL((1, 4)) ETHERPARSE_WRITES(2, 3) static inline enum etherparse_status
etherparse_refusal_text(const struct etherparse_refusal *refusal, char *buffer, size_t len, size_t *written) {
    char none;
    return ETHERPARSE_AS_STATUS(etherparse_2_refusal_text(refusal, (uint8_t *)(buffer ? buffer : &none),
                                                          buffer ? len : 0, written));
}

/* ---- Fields of headers
 *
 * Numbers are in the machine's byte order. Addresses are bytes in the order of the packet, which inet_ntop expects. */

/* Bytes of a packet, as the options of a header: their offset in the packet, and their number. */
struct etherparse_place {
    size_t offset;
    size_t len; /* 0 if there are none */
};

/* Fields of the link header. The fields of the other kind of header are 0, and all without a link header. */
struct etherparse_link_fields {
    uint8_t destination[6];  /* Ethernet II: MAC addresses */
    uint8_t source[6];
    uint16_t ether_type;     /* Ethernet II: ether type of the payload, which may be that of a tag */
    uint16_t packet_type;    /* cooked capture: 0 to 7; 0 is sent to this host, 4 is sent by this host */
    uint16_t hardware_type;  /* cooked capture: ARPHRD number of the device */
    uint16_t address_len;    /* cooked capture: length of the sender's address; may be greater than 8 */
    uint8_t address[8];      /* cooked capture: the sender's address, and its padding */
    uint16_t protocol;       /* cooked capture: an ether type for most hardware types */
};

/* Flags of a MACsec tag (SecTAG, IEEE 802.1AE), as in its first byte. */
enum etherparse_macsec_flag {
    ETHERPARSE_MACSEC_C = 4,    /* the payload's text is changed */
    ETHERPARSE_MACSEC_E = 8,    /* the payload is encrypted */
    ETHERPARSE_MACSEC_SCB = 16, /* single copy broadcast */
    ETHERPARSE_MACSEC_SC = 32,  /* the tag has a secure channel identifier (SCI) */
    ETHERPARSE_MACSEC_ES = 64   /* end station: the source MAC address identifies the secure channel */
};

/* Fields of a tag. The fields of the other kind of tag are 0, and all without a tag. */
struct etherparse_tag_fields {
    uint32_t kind;              /* enum etherparse_ext_kind, or 0 without a tag */
    uint16_t vlan_id;           /* VLAN: identifier (VID), 0 to 4095 */
    uint16_t ether_type;        /* ether type of the payload; 0 if a MACsec payload is modified or encrypted */
    uint8_t priority;           /* VLAN: priority code point (PCP), 0 to 7 */
    uint8_t drop_eligible;      /* VLAN: 1 if the drop eligible indicator (DEI) is set */
    uint8_t macsec_flags;       /* MACsec: sum of enum etherparse_macsec_flag */
    uint8_t association_number; /* MACsec: association number (AN), 0 to 3 */
    uint8_t short_len;          /* MACsec: short length (SL), 0 to 63 */
    uint32_t packet_number;     /* MACsec: packet number (PN) */
    uint64_t sci;               /* MACsec: secure channel identifier (SCI), or 0 without ETHERPARSE_MACSEC_SC */
};

/* Fields of the IP header; all 0 if the packet is not IP. */
struct etherparse_ip_fields {
    uint8_t version;          /* 4 or 6 */
    uint8_t number;           /* IP number (protocol) of the payload after the extension headers */
    uint8_t next_header;      /* IP number of the header or payload directly after the IP header */
    uint8_t hop_limit;        /* time to live (TTL) of IPv4, hop limit of IPv6 */
    uint8_t dscp;             /* differentiated services code point, 0 to 63 */
    uint8_t ecn;              /* explicit congestion notification, 0 to 3 */
    uint8_t dont_fragment;    /* IPv4: 1 if "don't fragment" (DF) is set */
    uint8_t more_fragments;   /* 1 if "more fragments" (MF) is set; in IPv6 of the first fragment header */
    uint16_t fragment_offset; /* offset in the reassembled payload, in bytes; from the same header */
    uint16_t length;          /* total length of IPv4, payload length of IPv6 */
    uint16_t checksum;        /* IPv4: header checksum */
    uint32_t identification;  /* shared by all fragments of a payload; 0 in IPv6 without a fragment header */
    uint32_t flow_label;      /* IPv6: flow label, 20 bits */
    uint8_t source[16];       /* IPv4: the address is the first 4 bytes, and the others are 0 */
    uint8_t destination[16];
    struct etherparse_place options; /* IPv4: options */
};

/* Fields of the ARP packet, and the places of its addresses; all 0 if the packet is not ARP. */
struct etherparse_arp_fields {
    uint16_t hardware_type; /* 1 is Ethernet */
    uint16_t protocol_type; /* an ether type */
    uint8_t hardware_len;   /* length of a hardware address */
    uint8_t protocol_len;   /* length of a protocol address */
    uint16_t operation;     /* 1 is a request, 2 a reply */
    struct etherparse_place sender_hardware;
    struct etherparse_place sender_protocol;
    struct etherparse_place target_hardware;
    struct etherparse_place target_protocol;
};

/* Fields of the transport header. Fields that it does not have are 0, and all without a transport header, except for
 * the ports of a truncated or invalid header of TCP or UDP (lax slicing only), if their 4 bytes are present. */
struct etherparse_transport_fields {
    uint16_t source_port;           /* UDP, TCP */
    uint16_t destination_port;      /* UDP, TCP */
    uint16_t checksum;              /* as in the header */
    uint16_t udp_length;            /* UDP: length of header and payload; 0 limits nothing */
    uint32_t sequence_number;       /* TCP */
    uint32_t acknowledgment_number; /* TCP: with ETHERPARSE_TCP_ACK */
    uint16_t tcp_flags;             /* TCP: sum of enum etherparse_tcp_flag */
    uint16_t window_size;           /* TCP */
    uint16_t urgent_pointer;        /* TCP: with ETHERPARSE_TCP_URG */
    uint8_t data_offset;            /* TCP: length of the header in units of 4 bytes */
    uint8_t icmp_type;              /* ICMP, ICMPv6 */
    uint8_t icmp_code;              /* ICMP, ICMPv6 */
    uint8_t icmp_rest[4];           /* ICMP, ICMPv6: bytes 4 to 7, whose meaning depends on the type */
    struct etherparse_place options; /* TCP: options */
};

/* Verdict on a checksum. A network card may fill in the checksums of outgoing packets after they are captured, and
 * those of such packets are then invalid. The verdict is unknown
 * - if the transport layer is a fragment or incomplete;
 * - if no length field counts it: jumbograms, a total length of 0, and, unless the checksum is 0, a UDP length of 0 or,
 *   laxly, one that is not the number of its bytes;
 * - after a source route or routing header, which may have the address that the checksum covers;
 * - for ICMPv6 over IPv4. */
enum etherparse_checksum_verdict {
    ETHERPARSE_CHECKSUM_NONE = 0,    /* there is no such header, and no fragment */
    ETHERPARSE_CHECKSUM_VALID = 1,
    ETHERPARSE_CHECKSUM_INVALID = 2, /* also UDP over IPv6 with checksum 0 */
    ETHERPARSE_CHECKSUM_ABSENT = 3,  /* UDP over IPv4 with checksum 0 */
    ETHERPARSE_CHECKSUM_UNKNOWN = 4  /* it cannot be decided */
};

/* Fields of all headers of a packet. The call has the same name, so that C++ needs the word `struct`, as for stat. */
struct etherparse_fields {
    struct etherparse_link_fields link;
    struct etherparse_tag_fields tags[3]; /* from the outermost on, then all 0 */
    struct etherparse_ip_fields ip;
    struct etherparse_arp_fields arp;
    struct etherparse_transport_fields transport;
    uint32_t header_checksum;    /* IPv4 header: enum etherparse_checksum_verdict, by etherparse_checksums */
    uint32_t transport_checksum; /* transport header: its verdict, by the same call */
};

/* Reads the fields of the headers that `packet` describes from the bytes of the packet, which were passed to
 * etherparse_slice or etherparse_slice_lax; after etherparse_slice_many, `bytes` starts at this frame. The IP number of
 * the payload, whether it is a fragment, and in IPv6 the fields of the fragment header are those of `packet`. Both
 * verdicts are set to 0; etherparse_checksums, called afterwards, sets them. Returns
 * - ETHERPARSE_OK: `fields` has the fields of the described headers; a rejected packet has none, so that all fields are
 *   0;
 * - ETHERPARSE_UNKNOWN_CHOICE: the described headers are not at their places in the bytes, as in a description of other
 *   bytes, or `packet` is null; all fields are 0.
 * No byte outside of `bytes` is read, whatever numbers `packet` has. If `fields` is null, only the status is
 * returned. */
#if defined(__cplusplus) && defined(__GNUC__)
#pragma GCC diagnostic push
#pragma GCC diagnostic ignored "-Wshadow" /* the call and the struct have the same name */
#endif
ETHERPARSE_MUST_USE ETHERPARSE_READS(2, 3) static inline enum etherparse_status
etherparse_fields(const struct etherparse_packet *packet, const uint8_t *bytes, size_t len,
                  struct etherparse_fields *fields) {
    const uint8_t none = 0;
    struct etherparse_fields unused;
    if (!packet) {
        uint8_t *const at = (uint8_t *)fields;
        size_t i;
        for (i = 0; fields && i < sizeof *fields; i++) at[i] = 0;
        return ETHERPARSE_UNKNOWN_CHOICE;
    }
    return ETHERPARSE_AS_STATUS(
        etherparse_2_fields(packet, bytes ? bytes : &none, bytes ? len : 0, fields ? fields : &unused));
}
#if defined(__cplusplus) && defined(__GNUC__)
#pragma GCC diagnostic pop
#endif

/* Verifies the checksums of the IPv4 header and of the transport header of a packet, which is sliced laxly: the
 * parameters are those of etherparse_slice_lax. It reads the payload, so it takes longer than the other calls. Returns
 * - ETHERPARSE_OK: `fields->header_checksum` and `fields->transport_checksum` are set, and the other fields unchanged;
 * - ETHERPARSE_REFUSED: the first header is invalid, and both are ETHERPARSE_CHECKSUM_NONE;
 * - ETHERPARSE_UNKNOWN_CHOICE: `entry` is another number, and both are ETHERPARSE_CHECKSUM_NONE.
 * If `fields` is null, only the status is returned. */
ETHERPARSE_MUST_USE ETHERPARSE_READS(3, 4) static inline enum etherparse_status
etherparse_checksums(uint32_t entry, uint16_t ether_type, const uint8_t *bytes, size_t len,
                     struct etherparse_fields *fields) {
    const uint8_t none = 0;
    struct etherparse_fields unused;
    return ETHERPARSE_AS_STATUS(etherparse_2_checksums(entry, ether_type, bytes ? bytes : &none, bytes ? len : 0,
                                                       fields ? fields : &unused));
}

/* Returns the Internet checksum (RFC 1071) of the bytes, as a number that is written in big-endian order. An odd last
 * byte is the upper half of a word. */
ETHERPARSE_MUST_USE ETHERPARSE_READS(1, 2) static inline uint16_t etherparse_checksum(const uint8_t *bytes,
                                                                                     size_t len) {
    const uint8_t none = 0;
    return etherparse_2_checksum(bytes ? bytes : &none, bytes ? len : 0);
}

/* ---- Building frames
 *
 * Each call writes a frame with this payload, including its lengths and checksums, to the start of `buffer`. Returns
 * - ETHERPARSE_OK: `written` is the length of the frame, and the rest of the buffer is unchanged;
 * - ETHERPARSE_UNKNOWN_CHOICE: the version of the route is neither 4 nor 6, or another number is not valid for its
 *   field;
 * - ETHERPARSE_TOO_SMALL: the buffer is too small, and `written` is the length of the frame;
 * - ETHERPARSE_TOO_LONG: the payload or the options are too long.
 * Except for ETHERPARSE_OK the buffer is unchanged, and except for ETHERPARSE_TOO_SMALL `written` is then 0.
 *
 * Fields without a parameter are 0, except that IPv4 has "don't fragment" set. A frame is not padded to the minimum
 * length of Ethernet. */

/* Headers before the transport header. The addresses of the other IP version are ignored, and those of Ethernet if
 * with_ethernet is 0. */
struct etherparse_route {
    uint8_t version;       /* 4 or 6 */
    uint8_t with_ethernet; /* 0: the frame starts with the IP header; else with an Ethernet II header */
    uint8_t hop_limit;     /* time to live (IPv4) or hop limit (IPv6) */
    uint8_t ethernet_source[6];
    uint8_t ethernet_destination[6];
    uint8_t ipv4_source[4];
    uint8_t ipv4_destination[4];
    uint8_t ipv6_source[16];
    uint8_t ipv6_destination[16];
};

/* Flags of TCP. */
enum etherparse_tcp_flag {
    ETHERPARSE_TCP_FIN = 1,
    ETHERPARSE_TCP_SYN = 2,
    ETHERPARSE_TCP_RST = 4,
    ETHERPARSE_TCP_PSH = 8,
    ETHERPARSE_TCP_ACK = 16,
    ETHERPARSE_TCP_URG = 32,
    ETHERPARSE_TCP_ECE = 64,
    ETHERPARSE_TCP_CWR = 128,
    ETHERPARSE_TCP_NS = 256 /* only in the fields of a packet, not in those of a header to build */
};

/* Fields of a TCP header without options. */
struct etherparse_tcp_fields {
    uint16_t source_port;
    uint16_t destination_port;
    uint32_t sequence_number;
    uint32_t acknowledgment_number;
    uint16_t window_size;
    uint16_t urgent_pointer;
    uint8_t flags; /* sum of enum etherparse_tcp_flag */
};

/* Builds a UDP datagram. */
ETHERPARSE_MUST_USE ETHERPARSE_NONNULL((1, 8)) ETHERPARSE_READS(4, 5) ETHERPARSE_WRITES(6, 7)
static inline enum etherparse_status
etherparse_build_udp(const struct etherparse_route *route, uint16_t source_port, uint16_t destination_port,
                     const uint8_t *payload, size_t payload_len, uint8_t *buffer, size_t buffer_len, size_t *written) {
    const uint8_t none = 0;
    uint8_t no_room;
    return ETHERPARSE_AS_STATUS(etherparse_2_build_udp(route, source_port, destination_port, payload ? payload : &none,
                                                       payload ? payload_len : 0, buffer ? buffer : &no_room,
                                                       buffer ? buffer_len : 0, written));
}

/* Builds a TCP segment. */
ETHERPARSE_MUST_USE ETHERPARSE_NONNULL((1, 2, 7)) ETHERPARSE_READS(3, 4) ETHERPARSE_WRITES(5, 6)
static inline enum etherparse_status
etherparse_build_tcp(const struct etherparse_route *route, const struct etherparse_tcp_fields *fields,
                     const uint8_t *payload, size_t payload_len, uint8_t *buffer, size_t buffer_len, size_t *written) {
    const uint8_t none = 0;
    uint8_t no_room;
    return ETHERPARSE_AS_STATUS(etherparse_2_build_tcp(route, fields, payload ? payload : &none,
                                                       payload ? payload_len : 0, buffer ? buffer : &no_room,
                                                       buffer ? buffer_len : 0, written));
}

/* Builds an echo message of ICMP, or of ICMPv6 if the version is 6: a request if is_reply is 0, else a reply. */
ETHERPARSE_MUST_USE ETHERPARSE_NONNULL((1, 9)) ETHERPARSE_READS(5, 6) ETHERPARSE_WRITES(7, 8)
static inline enum etherparse_status
etherparse_build_icmp_echo(const struct etherparse_route *route, uint8_t is_reply, uint16_t id, uint16_t seq,
                           const uint8_t *payload, size_t payload_len, uint8_t *buffer, size_t buffer_len,
                           size_t *written) {
    const uint8_t none = 0;
    uint8_t no_room;
    return ETHERPARSE_AS_STATUS(etherparse_2_build_icmp_echo(route, is_reply, id, seq, payload ? payload : &none,
                                                             payload ? payload_len : 0, buffer ? buffer : &no_room,
                                                             buffer ? buffer_len : 0, written));
}

/* A route with VLAN tags (IEEE 802.1Q) after its Ethernet II header. */
struct etherparse_tagged_route {
    struct etherparse_route route; /* with_ethernet must not be 0 if there are tags */
    uint32_t tag_count;            /* 0 to 2 */
    uint16_t vlan_ids[2];          /* VLAN identifiers, each at most 4095, from the outermost on; only the first
                                    * tag_count are read */
};

/* Builds a UDP datagram after VLAN tags. */
ETHERPARSE_MUST_USE ETHERPARSE_NONNULL((1, 8)) ETHERPARSE_READS(4, 5) ETHERPARSE_WRITES(6, 7)
static inline enum etherparse_status
etherparse_build_tagged_udp(const struct etherparse_tagged_route *route, uint16_t source_port,
                            uint16_t destination_port, const uint8_t *payload, size_t payload_len, uint8_t *buffer,
                            size_t buffer_len, size_t *written) {
    const uint8_t none = 0;
    uint8_t no_room;
    return ETHERPARSE_AS_STATUS(etherparse_2_build_tagged_udp(route, source_port, destination_port,
                                                              payload ? payload : &none, payload ? payload_len : 0,
                                                              buffer ? buffer : &no_room, buffer ? buffer_len : 0,
                                                              written));
}

/* Builds a TCP segment after VLAN tags, with these options (RFC 9293, 3.1): at most 40 bytes, padded with zero bytes to
 * a multiple of 4. */
ETHERPARSE_MUST_USE ETHERPARSE_NONNULL((1, 2, 9)) ETHERPARSE_READS(3, 4) ETHERPARSE_READS(5, 6)
ETHERPARSE_WRITES(7, 8) static inline enum etherparse_status
etherparse_build_tagged_tcp(const struct etherparse_tagged_route *route, const struct etherparse_tcp_fields *fields,
                            const uint8_t *options, size_t options_len, const uint8_t *payload, size_t payload_len,
                            uint8_t *buffer, size_t buffer_len, size_t *written) {
    const uint8_t none = 0, no_option = 0;
    uint8_t no_room;
    return ETHERPARSE_AS_STATUS(etherparse_2_build_tagged_tcp(route, fields, options ? options : &no_option,
                                                              options ? options_len : 0, payload ? payload : &none,
                                                              payload ? payload_len : 0, buffer ? buffer : &no_room,
                                                              buffer ? buffer_len : 0, written));
}

/* Builds an echo message after VLAN tags. */
ETHERPARSE_MUST_USE ETHERPARSE_NONNULL((1, 9)) ETHERPARSE_READS(5, 6) ETHERPARSE_WRITES(7, 8)
static inline enum etherparse_status
etherparse_build_tagged_icmp_echo(const struct etherparse_tagged_route *route, uint8_t is_reply, uint16_t id,
                                  uint16_t seq, const uint8_t *payload, size_t payload_len, uint8_t *buffer,
                                  size_t buffer_len, size_t *written) {
    const uint8_t none = 0;
    uint8_t no_room;
    return ETHERPARSE_AS_STATUS(etherparse_2_build_tagged_icmp_echo(
        route, is_reply, id, seq, payload ? payload : &none, payload ? payload_len : 0, buffer ? buffer : &no_room,
        buffer ? buffer_len : 0, written));
}

/* Fields of a fragment: of the IPv4 header (RFC 791, 3.1), or of the IPv6 fragment header (RFC 8200, 4.5). */
struct etherparse_fragment_fields {
    uint8_t ip_number;        /* IP number (protocol) of the reassembled payload */
    uint8_t more_fragments;   /* 0: this is the last fragment; else more follow, and a receiver rejects it unless its
                               * length is a multiple of 8 */
    uint16_t fragment_offset; /* offset in the reassembled payload, in bytes: a multiple of 8 */
    uint32_t identification;  /* shared by all fragments of a payload; in IPv4 at most 65535 */
};

/* Builds a fragment of a longer payload; `payload` is its bytes at fragment_offset. IPv4 has no "don't fragment". */
ETHERPARSE_MUST_USE ETHERPARSE_NONNULL((1, 2, 7)) ETHERPARSE_READS(3, 4) ETHERPARSE_WRITES(5, 6)
static inline enum etherparse_status
etherparse_build_fragment(const struct etherparse_tagged_route *route, const struct etherparse_fragment_fields *fields,
                          const uint8_t *payload, size_t payload_len, uint8_t *buffer, size_t buffer_len,
                          size_t *written) {
    const uint8_t none = 0;
    uint8_t no_room;
    return ETHERPARSE_AS_STATUS(etherparse_2_build_fragment(route, fields, payload ? payload : &none,
                                                            payload ? payload_len : 0, buffer ? buffer : &no_room,
                                                            buffer ? buffer_len : 0, written));
}

/* ---- Reassembling fragmented payloads
 *
 * A pool holds the fragments of the payloads that are not complete yet. Each payload is a stream of its own: fragments
 * belong together if VLAN identifiers, addresses, identification, protocol and the caller's channel are equal.
 * Fragments may overlap: the last accepted one wins. A pool allocates; etherparse_pool_free frees its memory. It must
 * be used by one call at a time. It may be passed to another thread between two calls, by a lock or by starting or
 * joining a thread; other threads may have their own pools.
 *
 * If frames may be hostile, use a bounded pool (etherparse_bounded_pool_new, below), or create the pool with a limit
 * and drop old streams: only etherparse_pool_drop_older bounds the number of incomplete streams, and without it memory
 * grows without bound. A stream holds its bytes from 0 up to
 * the greatest end of its fragments, with zeros in the gaps: so a fragment without payload at the greatest offset costs
 * up to the limit in bytes (65,528 without a limit), for the 20 to 40 bytes of its headers. etherparse_pool_streams and
 * etherparse_pool_bytes return the size of a pool. Streams are found by a hash with a fixed seed, so an attacker who
 * chooses colliding keys can make a call take time proportional to the number of streams.
 *
 * A pool slices every frame that it gets. If a frame is already sliced, push it only if packet.ip.fragmented is 1: a
 * pool ignores all other frames. */

/* Maximum payload length in a pool of etherparse_pool_new, in bytes. */
#define ETHERPARSE_MAX_PAYLOAD 65535

/* Creates an empty pool and stores its address in `pool`. Returns ETHERPARSE_OK, or ETHERPARSE_OUT_OF_MEMORY, and
 * `*pool` is unchanged. The previous value of `*pool` is neither read nor freed. */
ETHERPARSE_MUST_USE ETHERPARSE_NONNULL((1)) static inline enum etherparse_status
etherparse_pool_new(struct etherparse_pool **pool) {
    return ETHERPARSE_AS_STATUS(etherparse_2_pool_new(pool));
}

/* Creates an empty pool with payloads of at most `limit` bytes: a fragment that ends after the limit is rejected. The
 * limit bounds the memory of a stream, and a buffer of `limit` bytes is large enough for every payload. With a limit
 * below 8 no payload is ever complete. Returns as etherparse_pool_new. */
ETHERPARSE_MUST_USE ETHERPARSE_NONNULL((2)) static inline enum etherparse_status
etherparse_pool_with_limit(uint16_t limit, struct etherparse_pool **pool) {
    return ETHERPARSE_AS_STATUS(etherparse_2_pool_with_limit(limit, pool));
}

/* Frees a pool that one of these calls created. It must not be used again. Does nothing if `pool` is null. */
static inline void etherparse_pool_free(struct etherparse_pool *pool) {
    if (pool) etherparse_2_pool_free(pool);
}

/* Reason why a fragment is rejected. If several apply, TOO_BIG is reported before UNALIGNED, and UNALIGNED before
 * CONFLICTING_END. */
enum etherparse_fragment_refusal {
    ETHERPARSE_FRAGMENT_UNALIGNED = 1,      /* its length is not a multiple of 8, and more fragments follow */
    ETHERPARSE_FRAGMENT_TOO_BIG = 2,        /* it ends after the pool's limit */
    ETHERPARSE_FRAGMENT_CONFLICTING_END = 3 /* it ends after the known end, or is the last one and ends before that
                                             * or before the end of an earlier fragment */
};

/* Answer of a pool to a frame. Fields that do not belong to the status are 0. */
struct etherparse_pool_answer {
    struct etherparse_refusal refusal; /* ETHERPARSE_REFUSED: the error of the bytes */
    uint32_t fragment_refusal; /* ETHERPARSE_FRAGMENT_REFUSED: enum etherparse_fragment_refusal */
    uint32_t len_source; /* of a payload: ETHERPARSE_END_IPV4 or ETHERPARSE_END_IPV6, by the version of its fragments */
    uint8_t ip_number;   /* of a payload: its IP number (protocol) */
    size_t len;          /* of a payload: its length in bytes */
};

/* Passes a frame to a pool, with a timestamp and a channel of the caller's own. `entry` and `ether_type` are those of
 * etherparse_slice. Returns
 * - ETHERPARSE_COMPLETE: the frame completes a payload, which is at the start of `buffer`; its stream ends;
 * - ETHERPARSE_TOO_SMALL: the frame completes a payload that is longer than `buffer`: `answer->len` bytes. It is not
 *   lost: it waits in the pool for etherparse_pool_take or etherparse_pool_discard;
 * - ETHERPARSE_OK: the frame completes no payload; its fragment is stored, or it carries none;
 * - ETHERPARSE_REFUSED, ETHERPARSE_FRAGMENT_REFUSED, ETHERPARSE_OUT_OF_MEMORY (for the fragment),
 *   ETHERPARSE_UNKNOWN_CHOICE (of the entry, also if a payload waits): the streams are unchanged;
 * - ETHERPARSE_PAYLOAD_WAITS: the frame was ignored, since a payload of `answer->len` bytes waits.
 * Except for ETHERPARSE_COMPLETE the buffer is unchanged. */
ETHERPARSE_MUST_USE ETHERPARSE_NONNULL((1, 10)) ETHERPARSE_READS(4, 5) ETHERPARSE_WRITES(8, 9)
static inline enum etherparse_status
etherparse_pool_push(struct etherparse_pool *pool, uint32_t entry, uint16_t ether_type, const uint8_t *bytes,
                     size_t len, uint64_t timestamp, uint64_t channel, uint8_t *buffer, size_t buffer_len,
                     struct etherparse_pool_answer *answer) {
    const uint8_t none = 0;
    uint8_t no_room;
    return ETHERPARSE_AS_STATUS(etherparse_2_pool_push(pool, entry, ether_type, bytes ? bytes : &none, bytes ? len : 0,
                                                       timestamp, channel, buffer ? buffer : &no_room,
                                                       buffer ? buffer_len : 0, answer));
}

/* Copies the payload that waits in a pool to the start of `buffer`. Returns ETHERPARSE_COMPLETE; ETHERPARSE_TOO_SMALL,
 * and it still waits; or ETHERPARSE_OK if none waits. With the last two the buffer is unchanged. The memory of a
 * payload that is taken is freed; a waiting payload is freed with its pool, and etherparse_pool_drop_older does not
 * drop it. */
ETHERPARSE_MUST_USE ETHERPARSE_NONNULL((1, 4)) ETHERPARSE_WRITES(2, 3) static inline enum etherparse_status
etherparse_pool_take(struct etherparse_pool *pool, uint8_t *buffer, size_t buffer_len,
                     struct etherparse_pool_answer *answer) {
    uint8_t no_room;
    return ETHERPARSE_AS_STATUS(etherparse_2_pool_take(pool, buffer ? buffer : &no_room, buffer ? buffer_len : 0,
                                                       answer));
}

/* Discards the payload that waits in a pool, if any, and frees its memory. */
ETHERPARSE_NONNULL((1)) static inline void etherparse_pool_discard(struct etherparse_pool *pool) {
    etherparse_2_pool_discard(pool);
}

/* Drops the streams whose last accepted fragment came before `timestamp`. Their memory is kept for later streams, until
 * the pool is freed. Iterates over all streams (about 10 ms for a million), so call it once in a while and not for each
 * packet. */
ETHERPARSE_NONNULL((1)) static inline void etherparse_pool_drop_older(struct etherparse_pool *pool,
                                                                      uint64_t timestamp) {
    etherparse_2_pool_drop_older(pool, timestamp);
}

/* Returns the number of streams in a pool, without iterating over them. */
ETHERPARSE_MUST_USE ETHERPARSE_NONNULL((1)) static inline size_t
etherparse_pool_streams(struct etherparse_pool *pool) {
    return etherparse_2_pool_streams(pool);
}

/* Returns the number of payload bytes in a pool: of each stream up to the greatest end of its fragments, and of the
 * payload that waits. Memory kept for later streams, and the pool's own tables, are not counted. Iterates over all
 * streams. */
ETHERPARSE_MUST_USE ETHERPARSE_NONNULL((1)) static inline size_t
etherparse_pool_bytes(struct etherparse_pool *pool) {
    return etherparse_2_pool_bytes(pool);
}

/* ---- Reassembling hostile traffic within limits
 *
 * A bounded pool reassembles as a pool does, but whatever frames it gets, it stays within limits for the number of
 * streams, their memory and their age. It finds streams by a hash with a secret seed. The limits also choose what
 * happens to fragments that overlap earlier ones. The pool reports each stream that it evicts or discards, with the
 * cause, and counts streams and fragments. The rules for memory and threads are those of a pool. */

/* Rule for fragments that overlap earlier ones of their stream. */
enum etherparse_overlap {
    ETHERPARSE_OVERLAP_LAST_WINS = 0,  /* each byte is that of the last accepted fragment, as in a pool */
    ETHERPARSE_OVERLAP_FIRST_WINS = 1, /* each byte is that of the first accepted fragment */
    ETHERPARSE_OVERLAP_DISCARD = 2     /* a fragment that contradicts earlier ones discards the stream (RFC 8200, 4.5,
                                        * and RFC 5722, 4); a mere repeat of bytes is accepted */
};

/* Limits of a bounded pool. To change some of them, start with etherparse_defrag_limits_default. */
struct etherparse_defrag_limits {
    size_t streams;   /* greatest number of streams, open and discarded ones; 0 counts as 1; default 4096 */
    size_t bytes;     /* greatest memory of all streams in bytes: the capacities of their buffers; default 32 MiB */
    uint64_t age;     /* time that a stream may stay after its first accepted fragment, in the unit of the timestamps;
                       * default 60000, which are the 60 seconds of RFC 8200, 4.5, in milliseconds */
    uint32_t overlap; /* enum etherparse_overlap; default ETHERPARSE_OVERLAP_DISCARD */
    uint16_t payload; /* greatest length of a payload in bytes; default 65535 */
};

/* Stores the default limits. */
ETHERPARSE_NONNULL((1)) static inline void etherparse_defrag_limits_default(struct etherparse_defrag_limits *limits) {
    etherparse_2_defrag_limits_default(limits);
}

/* Creates an empty bounded pool and stores its address in `pool`. If `limits` is null, the pool has the default limits.
 * `seed` is the secret of the hash: 16 random bytes, from a source that a sender of frames cannot predict, as
 * getrandom(). Streams, answers and counters do not depend on it. Besides limits->bytes a pool uses about 512 bytes for
 * each stream (measured); during a call one buffer may grow beyond that, and a payload that waits does not count.
 * Returns
 * - ETHERPARSE_OK;
 * - ETHERPARSE_UNKNOWN_CHOICE: limits->overlap is another number;
 * - ETHERPARSE_OUT_OF_MEMORY.
 * Except for ETHERPARSE_OK `*pool` is unchanged. The previous value of `*pool` is neither read nor freed. */
ETHERPARSE_MUST_USE ETHERPARSE_NONNULL((2, 3)) static inline enum etherparse_status
etherparse_bounded_pool_new(const struct etherparse_defrag_limits *limits, const uint8_t seed[16],
                            struct etherparse_bounded_pool **pool) {
    struct etherparse_defrag_limits defaults;
    if (!limits) etherparse_2_defrag_limits_default(&defaults);
    return ETHERPARSE_AS_STATUS(etherparse_2_bounded_pool_new(limits ? limits : &defaults, seed, pool));
}

/* Frees a bounded pool, which must not be used again. Does nothing if `pool` is null. */
static inline void etherparse_bounded_pool_free(struct etherparse_bounded_pool *pool) {
    if (pool) etherparse_2_bounded_pool_free(pool);
}

/* Passes a frame to a bounded pool. The parameters are those of etherparse_pool_push. If the first accepted fragment of
 * the frame's stream came more than the age before `timestamp`, that stream is evicted first, whatever the status, and
 * the fragment begins a new one. An accepted fragment that does not complete its payload may evict other streams, those
 * whose last accepted fragment is oldest, until the pool is within its limits. Returns
 * - ETHERPARSE_COMPLETE, ETHERPARSE_TOO_SMALL, ETHERPARSE_OK: as etherparse_pool_push;
 * - ETHERPARSE_DISCARDED: the stream is discarded, by this fragment or an earlier one (only with
 *   ETHERPARSE_OVERLAP_DISCARD); its identifier counts as a stream until it expires, or is evicted or removed;
 * - ETHERPARSE_OVER_BUDGET: the stream alone needs more memory than limits.bytes, and is evicted with this fragment;
 * - ETHERPARSE_FRAGMENT_REFUSED, ETHERPARSE_OUT_OF_MEMORY (for the fragment): the streams are unchanged, unless the
 *   fragment's own had expired;
 * - ETHERPARSE_REFUSED, ETHERPARSE_UNKNOWN_CHOICE, ETHERPARSE_PAYLOAD_WAITS: as etherparse_pool_push, and the streams
 *   are unchanged.
 * Except for ETHERPARSE_COMPLETE the buffer is unchanged. */
ETHERPARSE_MUST_USE ETHERPARSE_NONNULL((1, 10)) ETHERPARSE_READS(4, 5) ETHERPARSE_WRITES(8, 9)
static inline enum etherparse_status
etherparse_bounded_pool_push(struct etherparse_bounded_pool *pool, uint32_t entry, uint16_t ether_type,
                             const uint8_t *bytes, size_t len, uint64_t timestamp, uint64_t channel, uint8_t *buffer,
                             size_t buffer_len, struct etherparse_pool_answer *answer) {
    const uint8_t none = 0;
    uint8_t no_room;
    return ETHERPARSE_AS_STATUS(etherparse_2_bounded_pool_push(pool, entry, ether_type, bytes ? bytes : &none,
                                                               bytes ? len : 0, timestamp, channel,
                                                               buffer ? buffer : &no_room, buffer ? buffer_len : 0,
                                                               answer));
}

/* Copies the payload that waits in a bounded pool to the start of `buffer`. Returns as
 * etherparse_pool_take. */
ETHERPARSE_MUST_USE ETHERPARSE_NONNULL((1, 4)) ETHERPARSE_WRITES(2, 3) static inline enum etherparse_status
etherparse_bounded_pool_take(struct etherparse_bounded_pool *pool, uint8_t *buffer, size_t buffer_len,
                             struct etherparse_pool_answer *answer) {
    uint8_t no_room;
    return ETHERPARSE_AS_STATUS(etherparse_2_bounded_pool_take(pool, buffer ? buffer : &no_room,
                                                               buffer ? buffer_len : 0, answer));
}

/* Discards the payload that waits in a bounded pool, if any, and frees its memory. */
ETHERPARSE_NONNULL((1)) static inline void etherparse_bounded_pool_discard(struct etherparse_bounded_pool *pool) {
    etherparse_2_bounded_pool_discard(pool);
}

/* Evicts each stream that is older than the age of the limits, or whose last accepted fragment came more than `idle`
 * before `now`, and returns their number. With UINT64_MAX for `idle` only the age counts. Iterates over all streams, so
 * call it once in a while and not for each packet: without it old streams stay, but within the limits. */
ETHERPARSE_NONNULL((1)) static inline size_t etherparse_bounded_pool_expire(struct etherparse_bounded_pool *pool,
                                                                            uint64_t now, uint64_t idle) {
    return etherparse_2_bounded_pool_expire(pool, now, idle);
}

/* Removes the stream with the identifier `id`, open or discarded, from a bounded pool. Identifiers are as
 * etherparse_bounded_pool_evicted stores them. Returns the number of removed streams: 1, or 0 if no stream has the
 * identifier, or if the numbers are not a valid one. A payload that waits stays. */
ETHERPARSE_NONNULL((1, 2)) static inline size_t
etherparse_bounded_pool_remove(struct etherparse_bounded_pool *pool, const struct etherparse_stream_id *id) {
    return etherparse_2_bounded_pool_remove(pool, id);
}

/* Removes all streams from a bounded pool. Its counters stay, and so does a payload that waits. */
ETHERPARSE_NONNULL((1)) static inline void etherparse_bounded_pool_clear(struct etherparse_bounded_pool *pool) {
    etherparse_2_bounded_pool_clear(pool);
}

/* Returns the number of open streams in a bounded pool: those that are incomplete, and not discarded. */
ETHERPARSE_MUST_USE ETHERPARSE_NONNULL((1)) static inline size_t
etherparse_bounded_pool_streams(struct etherparse_bounded_pool *pool) {
    return etherparse_2_bounded_pool_streams(pool);
}

/* Returns the number of discarded streams whose identifiers still count as streams of the limits. */
ETHERPARSE_MUST_USE ETHERPARSE_NONNULL((1)) static inline size_t
etherparse_bounded_pool_discarded_streams(struct etherparse_bounded_pool *pool) {
    return etherparse_2_bounded_pool_discarded_streams(pool);
}

/* Returns the memory of all streams in a bounded pool in bytes: the capacities of their buffers, at most limits.bytes.
 * A payload that waits does not count. */
ETHERPARSE_MUST_USE ETHERPARSE_NONNULL((1)) static inline size_t
etherparse_bounded_pool_held_bytes(struct etherparse_bounded_pool *pool) {
    return etherparse_2_bounded_pool_held_bytes(pool);
}

/* Stores the limits of a bounded pool, as they were passed to etherparse_bounded_pool_new. */
ETHERPARSE_NONNULL((1, 2)) static inline void
etherparse_bounded_pool_limits(struct etherparse_bounded_pool *pool, struct etherparse_defrag_limits *limits) {
    etherparse_2_bounded_pool_limits(pool, limits);
}

/* Counters of a bounded pool since it was created. A counter that reached UINT64_MAX stays there. `begun` is the sum
 * of the six counters after it and the number of open streams. Identifiers of discarded streams that leave the pool are
 * not counted again. */
struct etherparse_defrag_statistics {
    uint64_t begun;               /* streams that began with an accepted fragment */
    uint64_t completed;           /* streams whose payload was returned */
    uint64_t discarded;           /* streams that were discarded, since two versions of their payload came */
    uint64_t expired;             /* open streams evicted for their age, or by etherparse_bounded_pool_expire */
    uint64_t evicted_for_streams; /* open streams evicted since there were too many */
    uint64_t evicted_for_bytes;   /* open streams evicted since all, or the stream alone, used too much memory */
    uint64_t removed;             /* open streams that etherparse_bounded_pool_remove or _clear removed */
    uint64_t accepted;            /* fragments that were accepted */
    uint64_t rejected_unaligned;  /* fragments that were rejected as ETHERPARSE_FRAGMENT_UNALIGNED */
    uint64_t rejected_too_big;    /* fragments that were rejected as ETHERPARSE_FRAGMENT_TOO_BIG */
    uint64_t rejected_conflicting_end; /* fragments that were rejected as ETHERPARSE_FRAGMENT_CONFLICTING_END */
    uint64_t rejected_out_of_memory;   /* fragments for which an allocation failed */
    uint64_t rejected_discarded;       /* fragments that were rejected with ETHERPARSE_DISCARDED */
    uint64_t rejected_over_budget;     /* fragments that were rejected with ETHERPARSE_OVER_BUDGET */
};

/* Stores the counters of a bounded pool. */
ETHERPARSE_NONNULL((1, 2)) static inline void
etherparse_bounded_pool_statistics(struct etherparse_bounded_pool *pool,
                                   struct etherparse_defrag_statistics *statistics) {
    etherparse_2_bounded_pool_statistics(pool, statistics);
}

/* Cause for which a stream was evicted or discarded. */
enum etherparse_eviction_cause {
    ETHERPARSE_EVICTED_EXPIRED = 1, /* its first accepted fragment came too long ago, or for
                                     * etherparse_bounded_pool_expire its last one */
    ETHERPARSE_EVICTED_OVERLAP = 2, /* two versions of its payload came: it is discarded, and its identifier stays */
    ETHERPARSE_EVICTED_STREAMS = 3, /* there were more streams than the limits allow */
    ETHERPARSE_EVICTED_BYTES = 4    /* all streams, or this one alone, used more memory than the limits allow */
};

/* Identifier of a stream: what all its fragments share. */
struct etherparse_stream_id {
    uint64_t channel;
    uint32_t identification;
    uint32_t vlan_id_count; /* number of VLAN tags, 0 to 3 */
    uint16_t vlan_ids[3];   /* VLAN identifiers from the outermost on, then 0 */
    uint8_t version;        /* 4 or 6 */
    uint8_t ip_number;      /* IP number (protocol) of the payload */
    uint8_t ipv4_source[4]; /* addresses; those of the other version are 0 */
    uint8_t ipv4_destination[4];
    uint8_t ipv6_source[16];
    uint8_t ipv6_destination[16];
};

/* A stream that was evicted or discarded, or a discarded one whose identifier was evicted. */
struct etherparse_evicted_stream {
    struct etherparse_stream_id id;
    uint64_t first; /* timestamp of its first accepted fragment */
    uint32_t cause; /* enum etherparse_eviction_cause */
};

/* Returns the number of streams that the last push, expiry, removal or clearing of a bounded pool evicted or discarded:
 * 0 after a push that processed no fragment, and after a removal or clearing. */
ETHERPARSE_MUST_USE ETHERPARSE_NONNULL((1)) static inline size_t
etherparse_bounded_pool_evicted_count(struct etherparse_bounded_pool *pool) {
    return etherparse_2_bounded_pool_evicted_count(pool);
}

/* Stores one of the streams that the last push, expiry, removal or clearing evicted or discarded; `index` counts from
 * 0. The stream of the pushed fragment is first, if it had expired; the others are in the order of their last accepted
 * fragments. Returns ETHERPARSE_OK; or ETHERPARSE_UNKNOWN_CHOICE if there are fewer, and `evicted` is unchanged. */
ETHERPARSE_MUST_USE ETHERPARSE_NONNULL((1, 3)) static inline enum etherparse_status
etherparse_bounded_pool_evicted(struct etherparse_bounded_pool *pool, size_t index,
                                struct etherparse_evicted_stream *evicted) {
    return ETHERPARSE_AS_STATUS(etherparse_2_bounded_pool_evicted(pool, index, evicted));
}

/* ---- Filtering packets
 *
 * A filter is a parsed expression of the kind that people type for tcpdump: `tcp port 443 and not host 10.0.0.1`. The
 * manual page etherparse-filter(7) has the language, what each primitive matches, and the differences from tcpdump.
 * The rules for memory and threads are those of a pool: a filter is used by one call at a time, so each thread makes
 * its own. */

/* Reason why a text is not a filter expression. */
enum etherparse_filter_error_kind {
    ETHERPARSE_FILTER_CHARACTER = 1,       /* a character that no token contains */
    ETHERPARSE_FILTER_ARITHMETIC = 2,      /* arithmetic, which is not supported */
    ETHERPARSE_FILTER_NOT_TAKEN = 3,       /* a keyword of tcpdump that is not supported */
    ETHERPARSE_FILTER_END = 4,             /* the text ends before the expression does */
    ETHERPARSE_FILTER_MISPLACED = 5,       /* a token that is not allowed after the tokens before it */
    ETHERPARSE_FILTER_UNQUALIFIED = 6,     /* a value without `host`, `port` or the like before it */
    ETHERPARSE_FILTER_UNKNOWN = 7,         /* a word that begins no primitive */
    ETHERPARSE_FILTER_NOT_AN_ADDRESS = 8,  /* not an IPv4 or IPv6 address */
    ETHERPARSE_FILTER_NOT_A_NETWORK = 9,   /* not an address or the first numbers of an IPv4 address */
    ETHERPARSE_FILTER_NOT_A_STATION = 10,  /* not a MAC address */
    ETHERPARSE_FILTER_NOT_A_PORT = 11,     /* not a number up to 65535, and not the name of a port */
    ETHERPARSE_FILTER_NOT_A_RANGE = 12,    /* not a range of ports */
    ETHERPARSE_FILTER_NOT_A_PROTOCOL = 13, /* not a number up to 255 */
    ETHERPARSE_FILTER_NOT_AN_ETHER_TYPE = 14, /* not a number from 1536 to 65535 */
    ETHERPARSE_FILTER_NOT_A_VLAN = 15,     /* not a number up to 4095 */
    ETHERPARSE_FILTER_NOT_A_NUMBER = 16,   /* not a number up to 4294967295 */
    ETHERPARSE_FILTER_NOT_A_SIZE = 17,     /* not 1, 2 or 4 */
    ETHERPARSE_FILTER_WRONG_FAMILY = 18,   /* an address of the other IP version */
    ETHERPARSE_FILTER_NOT_A_LENGTH = 19,   /* not a prefix length of the address */
    ETHERPARSE_FILTER_NOT_A_MASK = 20,     /* not an IPv4 mask */
    ETHERPARSE_FILTER_HOST_BITS = 21,      /* a bit of the address after the prefix is 1 */
    ETHERPARSE_FILTER_NET_ONLY = 22,       /* a prefix length or mask after a host */
    ETHERPARSE_FILTER_DEEP = 23,           /* the 65th `(` or `not` that is open */
    ETHERPARSE_FILTER_LONG = 24,           /* bytes after the first 65,536, which may begin within a character */
    ETHERPARSE_FILTER_NOT_UTF8 = 25        /* the text is not UTF-8 */
};

/* Error of a filter expression: its first token that is not allowed after the tokens before it. If the text ends too
 * early, `start` and `end` are its length; if it is not UTF-8, `start` is the length of its longest start that is, and
 * `end` that of the text. */
struct etherparse_filter_error {
    uint32_t kind; /* enum etherparse_filter_error_kind, or 0 */
    size_t start;  /* offset in bytes at which the token begins */
    size_t end;    /* offset in bytes at which the token ends */
};

/* Parses a filter expression of `len` bytes (without a zero byte, at most 65,536), and stores the address of the filter
 * in `filter`. The empty text is the filter that matches every packet. Returns
 * - ETHERPARSE_OK;
 * - ETHERPARSE_REFUSED: the text is not a filter expression; `error` has the reason and the place;
 * - ETHERPARSE_OUT_OF_MEMORY.
 * Except for ETHERPARSE_OK `*filter` is unchanged; except for ETHERPARSE_REFUSED all fields of `error` are 0. The
 * previous value of `*filter` is neither read nor freed. `error` may be null. */
ETHERPARSE_MUST_USE ETHERPARSE_NONNULL((3)) ETHERPARSE_READS(1, 2) static inline enum etherparse_status
etherparse_filter_new(const char *text, size_t len, struct etherparse_filter **filter,
                      struct etherparse_filter_error *error) {
    const char none = 0;
    struct etherparse_filter_error no_error;
    return ETHERPARSE_AS_STATUS(etherparse_2_filter_new((const uint8_t *)(text ? text : &none), text ? len : 0, filter,
                                                        error ? error : &no_error));
}

/* Frees a filter, which must not be used again. Does nothing if `filter` is null. */
static inline void etherparse_filter_free(struct etherparse_filter *filter) {
    if (filter) etherparse_2_filter_free(filter);
}

/* Stores in `matches` 1 if the filter matches a packet, and 0 if not. The packet is read as by etherparse_slice_lax; if
 * its first header is invalid, it has no layers, so that `not tcp` matches it. `wire_len` is its original length, which
 * may be greater than `len`. Returns ETHERPARSE_OK; or ETHERPARSE_UNKNOWN_CHOICE if `entry` is another number, and
 * `*matches` is 0. */
ETHERPARSE_MUST_USE ETHERPARSE_NONNULL((1, 7)) ETHERPARSE_READS(4, 5) static inline enum etherparse_status
etherparse_filter_matches(struct etherparse_filter *filter, uint32_t entry, uint16_t ether_type, const uint8_t *bytes,
                          size_t len, uint32_t wire_len, uint8_t *matches) {
    const uint8_t none = 0;
    return ETHERPARSE_AS_STATUS(etherparse_2_filter_matches(filter, entry, ether_type, bytes ? bytes : &none,
                                                            bytes ? len : 0, wire_len, matches));
}

/* Matches `count` consecutive packets in `bytes`, whose ends are as in etherparse_slice_many: matches[i] is 1 if the
 * filter matches packet i, and 0 if not. wire_lens[i] is the original length of packet i; if `wire_lens` is null, that
 * is the number of its bytes. `matched` is the number of written elements of `matches`, which has `count`. Returns
 * - ETHERPARSE_OK: all packets are matched;
 * - ETHERPARSE_TOO_SMALL: `matches` is null, and `ends` is not, with a `count` above 0; no packet is matched, whatever
 *   `entry` is;
 * - ETHERPARSE_UNKNOWN_CHOICE: `entry` is another number, and no packet is matched; or ends[*matched] is less than the
 *   end before it or greater than `len`, and the packets before it are matched.
 * The other elements are unchanged. */
ETHERPARSE_MUST_USE ETHERPARSE_NONNULL((1, 10)) ETHERPARSE_READS(4, 5) ETHERPARSE_READS(6, 7) ETHERPARSE_WRITES(9, 7)
static inline enum etherparse_status
etherparse_filter_matches_many(struct etherparse_filter *filter, uint32_t entry, uint16_t ether_type,
                               const uint8_t *bytes, size_t len, const size_t *ends, size_t count,
                               const uint32_t *wire_lens, uint8_t *matches, size_t *matched) {
    const uint8_t none = 0;
    const size_t no_end = 0;
    const uint32_t no_len = 0;
    uint8_t no_match;
    return ETHERPARSE_AS_STATUS(etherparse_2_filter_matches_many(
        filter, entry, ether_type, bytes ? bytes : &none, bytes ? len : 0, ends ? ends : &no_end, ends ? count : 0,
        wire_lens ? wire_lens : &no_len, wire_lens ? count : 0, matches ? matches : &no_match, matches ? count : 0,
        matched));
}

/* Writes the expression of a filter and a zero byte to the start of `buffer`: each primitive with its qualifiers, and
 * no redundant parentheses. Parsing it gives the same filter, if it has at most 65,536 bytes. Returns
 * - ETHERPARSE_OK: `written` is the number of bytes, including the zero byte;
 * - ETHERPARSE_TOO_SMALL: the buffer is too small, and `written` is the needed length;
 * - ETHERPARSE_OUT_OF_MEMORY: an allocation failed; `written` is 0.
 * Except for ETHERPARSE_OK the buffer is unchanged. */
ETHERPARSE_MUST_USE ETHERPARSE_NONNULL((1, 4)) ETHERPARSE_WRITES(2, 3) static inline enum etherparse_status
etherparse_filter_text(struct etherparse_filter *filter, char *buffer, size_t len, size_t *written) {
    char none;
    return ETHERPARSE_AS_STATUS(etherparse_2_filter_text(filter, (uint8_t *)(buffer ? buffer : &none),
                                                         buffer ? len : 0, written));
}

/* Buffer length that is enough for the text of every reason, including its zero byte. */
#define ETHERPARSE_REASON_TEXT_MAX 80

/* Writes the text of a reason (enum etherparse_filter_error_kind) and a zero byte to the start of `buffer`. Returns
 * - ETHERPARSE_OK: `written` is the number of bytes, including the zero byte, at most ETHERPARSE_REASON_TEXT_MAX;
 * - ETHERPARSE_UNKNOWN_CHOICE: `kind` is another number; `written` is 0;
 * - ETHERPARSE_TOO_SMALL: the buffer is too small, and `written` is the needed length.
 * Except for ETHERPARSE_OK the buffer is unchanged. */
ETHERPARSE_MUST_USE ETHERPARSE_NONNULL((4)) ETHERPARSE_WRITES(2, 3) static inline enum etherparse_status
etherparse_filter_error_text(uint32_t kind, char *buffer, size_t len, size_t *written) {
    char none;
    return ETHERPARSE_AS_STATUS(etherparse_2_filter_error_text(kind, (uint8_t *)(buffer ? buffer : &none),
                                                               buffer ? len : 0, written));
}

/* ---- Memory
 *
 * The archive allocates only by these three functions, which etherparse_heap.c, a member of a release's archive,
 * defines over malloc. A program that defines all three replaces them; the shared object hides them, so there they
 * cannot be replaced. All three must come from one allocator, and may be called from each thread that calls the
 * library.
 * - A block must be aligned to each power of two up to 16 that divides its length; `align` is never greater.
 * - `is_there` is 0 if the allocation failed, else 1, and then `block` is its address. `block` is never null, also if
 *   `is_there` is 0 or `len` is 0.
 * - rattle_realloc moves a block, with its first `kept` bytes, to a block of `len` bytes; if it fails, the old block is
 *   unchanged. rattle_dealloc frees a block. */
struct etherparse_block {
    uint8_t is_there;
    void *block;
};

struct etherparse_block rattle_alloc(size_t len, size_t align);
struct etherparse_block rattle_realloc(void *block, size_t kept, size_t len, size_t align);
void rattle_dealloc(void *block);

#ifdef __cplusplus
}
#endif

#endif
