/* The allocation functions of libetherparse_c.a, over malloc: compile this file and link it with the archive. The call
 * that writes a text allocates while it runs, and a pool holds memory until it is freed; no other call allocates.
 *
 * malloc aligns a block to each power of two up to 16 that divides its size; no greater alignment is requested. */
#include <stdbool.h>
#include <stddef.h>
#include <stdlib.h>

struct tried {
    bool is_there;
    void *block; /* never null; not read or written if is_there is false */
};

#ifdef __cplusplus /* for a compiler that compiles every file as C++ */
extern "C" {
#endif
struct tried rattle_alloc(size_t len, size_t align);
struct tried rattle_realloc(void *block, size_t kept, size_t len, size_t align);
void rattle_dealloc(void *block);
#ifdef __cplusplus
}
#endif

static struct tried tried(void *block) {
    static char none;
    struct tried answer = {block != NULL, block != NULL ? block : &none};
    return answer;
}

/* An empty block allocates some bytes, so that null only means that the allocation failed. */
struct tried rattle_alloc(size_t len, size_t align) { return tried(malloc(len != 0 ? len : align)); }

struct tried rattle_realloc(void *block, size_t kept, size_t len, size_t align) {
    (void)kept;
    return tried(realloc(block, len != 0 ? len : align));
}

void rattle_dealloc(void *block) { free(block); }
