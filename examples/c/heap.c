/* The functions by which libdaa_toml.a takes memory, from the C library: write them anew where it is to come from another heap.
 *
 * Only daa_read takes memory. What is linked before the archive stands in place of what the archive has. A system without a
 * heap links no libdaa_toml.a, or answers "none" here. Each call gets the size and the alignment (at most 16) that are wanted;
 * it answers whether there is memory, and where. */
#include <stdbool.h>
#include <stddef.h>
#include <stdlib.h>

struct tried {
    bool ok;
    void *block;
};

static unsigned char nothing;

static struct tried tried(void *block) {
    struct tried answer = {block != NULL, block ? block : &nothing};
    return answer;
}

struct tried rattle_alloc(size_t size, size_t alignment) { return tried(malloc(size ? size : alignment)); }

struct tried rattle_realloc(void *block, size_t kept, size_t size, size_t alignment) {
    (void)kept;
    return tried(realloc(block, size ? size : alignment));
}

void rattle_dealloc(void *block) { free(block); }
