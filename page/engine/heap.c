/* The heap of the engine in WebAssembly, and the calls by which the engine takes memory from it.
 *
 * Memory is a row of blocks, each with a header, from the end of the static data to the end of what memory.grow has given. Free blocks
 * are in lists, one for each power of two. Neighbouring free blocks are joined at once. A block that grows takes the free block behind
 * it, or new memory if it is the last one, before it is copied. What is freed isn't given back: the page makes an instance for each
 * call, and drops it as a whole.
 */
#include "types.h"

#define PAGE 65536ULL
#define HEADER sizeof(struct block)
#define LEAST (HEADER + 16) /* a free block has two links behind its header */
#define LARGEST (1ULL << 40)
#define LISTS 64

struct block {
    uint64_t before; /* the bytes of the block before this one if that is free, and else 0 */
    uint64_t size;   /* the bytes of this block with its header; the lowest bit is set if it is free */
};

struct links {
    struct block *next, *previous;
};

extern unsigned char __heap_base;
static struct block *lists[LISTS];
static struct block *last; /* an empty used block at the end of memory */

static uint64_t size_of(const struct block *block) { return block->size & ~1ULL; }
static struct block *behind(struct block *block) { return (struct block *)((char *)block + size_of(block)); }
static struct links *links_of(struct block *block) { return (struct links *)(block + 1); }
static unsigned list_for(uint64_t size) { return 63U - (unsigned)__builtin_clzll(size); }

static void unlink_block(struct block *block)
{
    struct links *links = links_of(block);
    if (links->previous) links_of(links->previous)->next = links->next;
    else lists[list_for(size_of(block))] = links->next;
    if (links->next) links_of(links->next)->previous = links->previous;
    block->size = size_of(block);
    behind(block)->before = 0;
}

static void link_block(struct block *block)
{
    struct block **list = &lists[list_for(block->size)];
    *links_of(block) = (struct links){*list, NULL};
    if (*list) links_of(*list)->previous = block;
    *list = block;
    behind(block)->before = block->size;
    block->size |= 1;
}

/* Frees a block, and joins it with free neighbours. */
static void release(struct block *block)
{
    struct block *next = behind(block);
    if (next->size & 1) {
        unlink_block(next);
        block->size += next->size;
    }
    if (block->before) {
        struct block *previous = (struct block *)((char *)block - block->before);
        unlink_block(previous);
        previous->size += block->size;
        block = previous;
    }
    link_block(block);
}

/* Gives back what a used block has beyond so many bytes. */
static void trim(struct block *block, uint64_t size)
{
    uint64_t rest = block->size - size;
    if (rest < LEAST) return;
    block->size = size;
    struct block *free = behind(block);
    *free = (struct block){0, rest};
    release(free);
}

/* Puts at least so many new bytes, as a free block, at the end of memory. Returns whether there were as many. */
static int extend(uint64_t size)
{
    uint64_t pages = (size + HEADER + PAGE - 1) / PAGE;
    uint64_t before = __builtin_wasm_memory_grow(0, pages);
    /* In the module for 32 bits a refusal is -1 of 32 bits. */
    if ((uint32_t)before == ~(uint32_t)0) return 0;
    struct block *fresh = last;
    uint64_t end = (before + pages) * PAGE;
    if (fresh == NULL) {
        fresh = (struct block *)(((uintptr_t)&__heap_base + 15) & ~(uintptr_t)15);
        fresh->before = 0;
    }
    fresh->size = end - HEADER - (uintptr_t)fresh;
    last = behind(fresh);
    *last = (struct block){0, 0};
    release(fresh);
    return 1;
}

static struct block *found(uint64_t size)
{
    unsigned list = list_for(size);
    for (struct block *each = lists[list]; each; each = links_of(each)->next)
        if (size_of(each) >= size) return each;
    while (++list < LISTS)
        if (lists[list]) return lists[list];
    return NULL;
}

static uint64_t whole(uint64_t bytes) { return bytes + HEADER < LEAST ? LEAST : (bytes + HEADER + 15) & ~15ULL; }

void *malloc(size_t bytes)
{
    if (bytes > LARGEST) return NULL;
    uint64_t size = whole(bytes);
    struct block *block = found(size);
    if (block == NULL && extend(size)) block = found(size);
    if (block == NULL) return NULL;
    unlink_block(block);
    trim(block, size);
    return block + 1;
}

void free(void *address)
{
    if (address) release((struct block *)address - 1);
}

/* Tries to make a used block as large without moving it. */
static int grow_in_place(struct block *block, uint64_t size)
{
    struct block *next = behind(block);
    uint64_t there = block->size + (next->size & 1 ? size_of(next) : 0);
    int is_last = next == last || (next->size & 1 && behind(next) == last);
    if (there < size && !(is_last && extend(size - there))) return 0;
    next = behind(block);
    if (block->size < size) {
        unlink_block(next);
        block->size += next->size;
    }
    trim(block, size);
    return 1;
}

void *realloc(void *address, size_t bytes)
{
    if (address == NULL) return malloc(bytes);
    if (bytes > LARGEST) return NULL;
    struct block *block = (struct block *)address - 1;
    if (grow_in_place(block, whole(bytes))) return address;
    void *moved = malloc(bytes);
    if (moved == NULL) return NULL;
    __builtin_memcpy(moved, address, block->size - HEADER);
    release(block);
    return moved;
}

/* What the engine calls. Each returns whether there is memory, and its address. No type of the engine needs more than 16 bytes of
 * alignment. */
struct tried {
    uint64_t has_memory;
    void *address;
};

static struct tried tried(void *address)
{
    static char nowhere; /* an address is never null */
    return (struct tried){address != NULL, address ? address : &nowhere};
}

struct tried rattle_alloc(size_t bytes, size_t alignment)
{
    (void)alignment;
    return tried(malloc(bytes));
}

struct tried rattle_realloc(void *address, size_t kept, size_t bytes, size_t alignment)
{
    (void)kept, (void)alignment;
    return tried(realloc(address, bytes));
}

void rattle_dealloc(void *address) { free(address); }
