/* Reassembles IPv4 fragments in Ethernet II frames by hand, with the memory traffic of a pool of streams: a hash table,
   and for each stream a vector of bytes and one of sections, which later streams reuse.
   appends FILE ROUNDS. The file contains frames, each with its length in four bytes, little endian, then its bytes. */
#include <stdint.h>
#include <stdio.h>
#include <stdlib.h>
#include <string.h>
#include <time.h>

enum { HEADS = 1 << 18 };

struct section { uint16_t start, end; };
struct stream {
    uint8_t name[12]; /* addresses, identification, protocol */
    uint32_t next;    /* in the chain of its hash value, or of the streams that ended; 0 at the end */
    uint8_t *bytes;
    struct section *sections;
    uint32_t len, room, count, places, end; /* the end is UINT32_MAX while unknown */
};

static struct stream *streams; /* index 0 is unused */
static uint32_t n_streams, n_places, ended, *heads;

static uint32_t get16(const uint8_t *at) { return (uint32_t)at[0] << 8 | at[1]; }

static uint32_t *head_of(const uint8_t *name) {
    uint64_t front, back = 0;
    memcpy(&front, name, 8);
    memcpy(&back, name + 8, 4);
    unsigned __int128 mixed = (unsigned __int128)(front ^ 0x9e3779b97f4a7c15) * (back ^ 0xd1b54a32d192ed03);
    return &heads[((uint64_t)mixed ^ (uint64_t)(mixed >> 64)) % HEADS];
}

static struct stream *begin(uint32_t *head, const uint8_t *name) {
    uint32_t place = ended;
    if (place) {
        ended = streams[place].next;
    } else {
        if (n_streams == n_places) {
            n_places *= 2;
            streams = realloc(streams, n_places * sizeof *streams);
        }
        place = n_streams++;
        streams[place] = (struct stream){.next = 0};
    }
    struct stream *s = &streams[place];
    memcpy(s->name, name, 12);
    s->len = s->count = 0;
    s->end = UINT32_MAX;
    s->next = *head;
    *head = place;
    return s;
}

static void put(struct stream *s, uint32_t start, const uint8_t *part, uint32_t len) {
    uint32_t end = start + len;
    if (s->room < end) {
        s->room = s->room * 2 > end ? s->room * 2 : end;
        s->bytes = realloc(s->bytes, s->room);
    }
    if (s->len < start) memset(s->bytes + s->len, 0, start - s->len);
    memcpy(s->bytes + start, part, len);
    if (s->len < end) s->len = end;
}

/* The first section that ends at or after a position, or the first that starts after it. */
static uint32_t place_of(const struct stream *s, uint32_t position, int by_end) {
    uint32_t low = 0, high = s->count;
    while (low < high) {
        uint32_t middle = (low + high) / 2;
        if (by_end ? s->sections[middle].end < position : s->sections[middle].start <= position) low = middle + 1;
        else high = middle;
    }
    return low;
}

static void join(struct stream *s, uint32_t start, uint32_t end) {
    uint32_t from = place_of(s, start, 1), to = place_of(s, end, 0);
    if (from == to && s->count == s->places) {
        s->places = s->places ? s->places * 2 : 4;
        s->sections = realloc(s->sections, s->places * sizeof *s->sections);
    }
    if (from < to && s->sections[from].start < start) start = s->sections[from].start;
    if (from < to && s->sections[to - 1].end > end) end = s->sections[to - 1].end;
    memmove(s->sections + from + 1, s->sections + to, (s->count - to) * sizeof *s->sections);
    s->sections[from] = (struct section){(uint16_t)start, (uint16_t)end};
    s->count += 1 - (to - from);
}

/* The number of bytes that are reassembled with this frame. */
static uint64_t taken(const uint8_t *b, uint32_t frame) {
    if (frame < 34 || get16(b + 12) != 0x0800 || b[14] >> 4 != 4) return 0;
    uint32_t header = (b[14] & 15) * 4u, total = get16(b + 16), field = get16(b + 20);
    if (header < 20 || total < header || frame - 14 < total || !(field & 0x3fff)) return 0;
    uint32_t start = (field & 0x1fff) * 8, len = total - header, end = start + len;
    int more = (field & 0x2000) != 0;
    if (end > 65535 || (more && len % 8)) return 0;
    uint8_t name[12] = {0};
    memcpy(name, b + 26, 8);
    memcpy(name + 8, b + 18, 2);
    name[10] = b[23];
    uint32_t *link = head_of(name), *head = link;
    while (*link && memcmp(streams[*link].name, name, 12)) link = &streams[*link].next;
    int begins = !*link;
    struct stream *s = begins ? begin(head, name) : &streams[*link];
    if (s->end != UINT32_MAX ? s->end < end || (!more && end != s->end) : !more && end < s->len) return 0;
    put(s, start, b + 14 + header, len);
    join(s, start, end);
    if (!more) s->end = end;
    if (s->end == UINT32_MAX || s->count != 1 || s->sections[0].start) return 0;
    if (begins) link = head;
    *link = s->next;
    s->next = ended;
    ended = (uint32_t)(s - streams);
    return s->len;
}

int main(int argc, char **argv) {
    if (argc != 3) return fprintf(stderr, "usage: appends FILE ROUNDS\n"), 2;
    FILE *file = fopen(argv[1], "rb");
    if (!file || fseek(file, 0, SEEK_END)) return fprintf(stderr, "appends: the file can't be read\n"), 1;
    size_t size = (size_t)ftell(file);
    rewind(file);
    uint8_t *all = malloc(size);
    if (fread(all, 1, size, file) != size) return fprintf(stderr, "appends: the file can't be read\n"), 1;
    int rounds = atoi(argv[2]);
    uint64_t sum = 0, count = 0;
    clock_t before = 0;
    for (int round = -1; round < rounds; round++) { /* the first round is not timed */
        if (round == 0) before = clock();
        heads = calloc(HEADS, sizeof *heads);
        n_streams = 1, n_places = 4, ended = 0;
        streams = calloc(n_places, sizeof *streams);
        sum = count = 0;
        for (size_t at = 0; at < size; count++) {
            uint32_t len;
            memcpy(&len, all + at, 4);
            sum += taken(all + at + 4, len);
            at += 4 + len;
        }
        for (uint32_t i = 1; i < n_streams; i++) free(streams[i].bytes), free(streams[i].sections);
        free(streams);
        free(heads);
    }
    double nanos = (double)(clock() - before) / CLOCKS_PER_SEC * 1e9;
    printf("%llu frames, %d rounds: %.1f ns a frame, sum %llu\n", (unsigned long long)count, rounds,
        nanos / rounds / (double)count, (unsigned long long)sum);
}
