/* The memory of pcidr.wasm: `malloc` and `free`, and the three calls by which the kit's library takes memory.
 *
 * A block has a power of two of bytes, of which the first 16 say which one, so that what is handed out is aligned to 16, as
 * the kit asks at most. Blocks that are given back are kept by size in lists, and taken from there first; a new one comes from
 * the end of the memory, which grows for it. Where it cannot grow the answer is null, and all is as it was.
 */
typedef __SIZE_TYPE__ size_t;
typedef __UINT64_TYPE__ uint64_t;

#define HEAD 16u          /* bytes of a block before what is handed out */
#define LEAST 5u          /* the smallest block has 2^5 bytes */
#define SIZES 32u         /* the largest one has 2^31 */
#define PAGE 65536u       /* what memory grows by */
#define LIMIT 0xffff0000u /* no block ends behind this, so that no address of one is at 2^32, which is 0 */

typedef struct block {
    uint64_t order;     /* it has 2^order bytes */
    struct block *next; /* the next one in its list, where it is not in use */
} block;

extern unsigned char __heap_base; /* the linker's name for the end of its own data */
static uint64_t end;              /* where the blocks end; 0 before the first one */
static block *unused[SIZES];

void *malloc(uint64_t size) {
    if (size > (1u << (SIZES - 1)) - HEAD) return (void *)0;
    unsigned order = LEAST;
    while ((1u << order) - HEAD < size) order++;
    block *found = unused[order];
    if (found) {
        unused[order] = found->next;
        return (char *)found + HEAD;
    }
    uint64_t begin = end ? end : ((size_t)&__heap_base + 15u) & ~(size_t)15u, after = begin + (1u << order);
    if (after > LIMIT) return (void *)0;
    uint64_t have = (uint64_t)__builtin_wasm_memory_size(0) * PAGE;
    if (after > have && __builtin_wasm_memory_grow(0, (size_t)((after - have + PAGE - 1) / PAGE)) == (size_t)-1) return (void *)0;
    end = after;
    found = (block *)(size_t)begin;
    found->order = order;
    return (char *)found + HEAD;
}

void free(void *place) {
    if (!place) return;
    block *given = (block *)((char *)place - HEAD);
    given->next = unused[given->order];
    unused[given->order] = given;
}

/* What the kit's `libc::heap` declares: `ok` is 1 with a place, and 0 without; each alignment divides 16. */
typedef struct tried {
    uint64_t ok, place;
} tried;

static tried told(void *place) {
    return (tried){place != (void *)0, (size_t)place};
}

tried rattle_alloc(uint64_t size, uint64_t align) {
    (void)align;
    return told(malloc(size));
}

/* `kept` is how many bytes are to stay as they are; both sizes are below 2^63. */
tried rattle_realloc(void *place, uint64_t kept, uint64_t size, uint64_t align) {
    (void)align;
    block *given = (block *)((char *)place - HEAD);
    if (size <= (1u << given->order) - HEAD) return told(place);
    void *other = malloc(size);
    if (other) {
        __builtin_memcpy(other, place, (size_t)kept);
        free(place);
    }
    return told(other);
}

void rattle_dealloc(void *place) {
    free(place);
}
