/* Tries the C beside the engine, compiled for this machine: multiplication of 128 bits, comparison of bytes, and the heap. What fails is
 * printed, a line each. The last line is 'N passed, M failed'. */
#include <stdint.h>
#include <stdio.h>
#include <stdlib.h>
#include <string.h>
#include <sys/mman.h>

/* The engine's own names, and what WebAssembly gives it: the end of its static data, behind which its first block begins in the room, and
 * memory.grow. */
static unsigned char *static_end, *room;
static uint64_t grow_pages(uint64_t pages);
#define TYPES_H
#define __multi3 tried_multi3
#define memcmp tried_memcmp
#define bcmp tried_bcmp
#define malloc tried_malloc
#define free tried_free
#define realloc tried_realloc
#define __heap_base (*static_end)
#define __builtin_wasm_memory_grow(memory, pages) grow_pages(pages)
#include "called.c"
#include "heap.c"
#undef memcmp
#undef malloc
#undef free
#undef realloc

enum { MOST_PAGES = 4096, BLOCKS = 300, STEPS = 200000 };

static uint64_t pages_given, most_pages = MOST_PAGES;
static long passed, failed;

static void told(int is_so, const char *what)
{
    passed += is_so != 0;
    failed += is_so == 0;
    if (!is_so) printf("FAILED %s\n", what);
}

/* The module's memory.grow, which takes and returns 32 bits. Memory that it hasn't given can't be touched. */
static uint64_t grow_pages(uint64_t pages)
{
    uint32_t asked = (uint32_t)pages, refused = ~(uint32_t)0;
    uint64_t before = (uintptr_t)room / PAGE + pages_given;
    if (asked > most_pages - pages_given || mprotect(room + pages_given * PAGE, asked * PAGE, PROT_READ | PROT_WRITE)) return refused;
    pages_given += asked;
    return before;
}

static uint64_t next_number(void)
{
    static uint64_t state = 88172645463325252ULL;
    state ^= state << 13;
    state ^= state >> 7;
    return state ^= state << 17;
}

/* Numbers of all lengths, so that each half and each quarter is 0, small and full. */
static uint64_t some_number(void)
{
    uint64_t number = next_number() >> (next_number() % 64);
    return next_number() % 8 ? number : ~number;
}

static void try_products(void)
{
    int are_right = 1;
    for (int each = 0; each < 100000; each++) {
        wide one = (wide)some_number() << 64 | some_number(), other = (wide)some_number() << 64 | some_number();
        are_right &= tried_multi3(one, other) == one * other;
    }
    told(are_right, "products of 128 bits");
}

static int sign(int number) { return (number > 0) - (number < 0); }

static void try_comparing(void)
{
    int are_right = 1;
    unsigned char one[40], other[40];
    for (int each = 0; each < 100000; each++) {
        size_t count = next_number() % 40;
        for (size_t at = 0; at < 40; at++) one[at] = other[at] = (unsigned char)next_number();
        if (next_number() % 2) other[next_number() % 40] = (unsigned char)next_number();
        are_right &= sign(tried_memcmp(one, other, count)) == sign(memcmp(one, other, count));
        are_right &= (tried_bcmp(one, other, count) != 0) == (memcmp(one, other, count) != 0);
    }
    told(are_right, "comparison of bytes");
}

/* The blocks that a caller has, each filled with a byte of its own. */
static struct held {
    unsigned char *address, filled;
    size_t bytes;
} held[BLOCKS];

static int is_intact(const struct held *block, size_t bytes)
{
    for (size_t at = 0; at < bytes; at++)
        if (block->address[at] != block->filled) return 0;
    return 1;
}

static size_t some_size(void) { return next_number() % 100 ? next_number() % 3000 : next_number() % 300000; }

static void fill(struct held *block, unsigned char *address, size_t bytes, unsigned char filled)
{
    *block = (struct held){address, filled, bytes};
    memset(address, filled, bytes);
}

/* One call of the heap, chosen at random. Returns whether it kept what it had to keep. */
static int step(struct held *block)
{
    size_t bytes = some_size();
    unsigned char filled = (unsigned char)next_number();
    if (block->address == NULL) {
        unsigned char *address = tried_malloc(bytes);
        if (address) fill(block, address, bytes, filled);
        return address != NULL && (uintptr_t)address % 16 == 0;
    }
    if (!is_intact(block, block->bytes)) return 0;
    if (next_number() % 2) {
        tried_free(block->address);
        block->address = NULL;
        return 1;
    }
    unsigned char *moved = tried_realloc(block->address, bytes);
    if (moved == NULL || (uintptr_t)moved % 16) return 0;
    block->address = moved;
    int is_kept = is_intact(block, bytes < block->bytes ? bytes : block->bytes);
    fill(block, moved, bytes, filled);
    return is_kept;
}

/* The free blocks in the lists, or -1 if one is in a wrong list. */
static int listed_blocks(void)
{
    int count = 0;
    for (unsigned list = 0; list < LISTS; list++)
        for (struct block *each = lists[list]; each; each = links_of(each)->next, count++)
            if (!(each->size & 1) || list_for(size_of(each)) != list) return -1;
    return count;
}

/* Each block tells whether the one before it is free, no two neighbours are free, and all free ones are in lists. */
static int is_sound(void)
{
    int count = 0;
    uint64_t before = 0;
    for (struct block *each = (struct block *)room; each != last; each = behind(each)) {
        int is_free = each->size & 1;
        if (each->before != before || (is_free && before)) return 0;
        before = is_free ? size_of(each) : 0;
        count += is_free;
    }
    return last->before == before && count == listed_blocks();
}

/* All memory as one free block, behind which the heap ends. */
static int is_all_free(void)
{
    return is_sound() && listed_blocks() == 1 && behind((struct block *)room) == last &&
        (unsigned char *)last + HEADER == room + pages_given * PAGE;
}

/* No more memory is taken than is needed, from the first byte behind the static data that has the alignment. */
static void try_beginning(void)
{
    unsigned char *first = tried_malloc(PAGE - HEADER);
    told(first == room + HEADER && pages_given == 2, "a page with its header takes two pages");
    unsigned char *second = tried_malloc(PAGE - 2 * HEADER);
    told(second == first + PAGE && pages_given == 2, "a block that fits exactly is taken");
    unsigned char *third = tried_malloc(PAGE - 2 * HEADER);
    told(third == second + PAGE - HEADER && pages_given == 3, "a page less its header takes one page");
    tried_free(second);
    tried_free(third);
    tried_free(tried_malloc(2 * PAGE));
    told(is_sound(), "new memory is joined with the free block before it");
    tried_free(first);
    told(is_all_free(), "the first blocks become one");
}

/* Each block stays where it is: it takes the free block behind it, or new memory if it is the last one. */
static void try_in_place(void)
{
    uint64_t before = pages_given;
    unsigned char *one = tried_realloc(NULL, 1000), *two = tried_malloc(1000), *three = tried_malloc(1000);
    told(one < two && two < three && pages_given == before, "a block leaves the rest of memory");
    tried_free(two);
    told(tried_realloc(one, 1900) == one, "a block takes the free block behind it");
    told(tried_realloc(one, 100) == one, "a block that becomes smaller stays");
    two = tried_malloc(1500);
    told(one < two && two < three, "what a block gives back is taken again");
    told(tried_realloc(three, before * PAGE) == three && pages_given == before + 1, "a block with free memory behind it takes a page more");
    size_t all = (size_t)((unsigned char *)last - three);
    told(tried_realloc(three, all) == three && pages_given == before + 1, "a block takes all memory behind it");
    told(tried_realloc(three, all + 1) == three && pages_given == before + 2, "the last block takes a page more");
    tried_free(one);
    tried_free(two);
    tried_free(three);
    told(is_all_free(), "blocks that stayed become one");
}

/* Of a block that moves no more is read than it has. */
static void try_moving(void)
{
    unsigned char *large = tried_malloc(100 * PAGE), *small = tried_malloc(100), *other = tried_malloc(100);
    memset(small, 7, 100);
    tried_free(large);
    unsigned char *moved = tried_realloc(small, 99 * PAGE);
    told(moved == large && is_intact(&(struct held){moved, 7, 100}, 100), "a block moves before other ones");
    tried_free(moved);
    tried_free(other);
    told(is_all_free(), "after a move memory is whole");
}

static void try_heap(void)
{
    int are_kept = 1, are_sound = 1;
    for (int each = 0; each < STEPS; each++) {
        are_kept &= step(&held[next_number() % BLOCKS]);
        if (each % 500 == 0) are_sound &= is_sound();
    }
    told(are_kept, "blocks keep what is in them");
    told(are_sound, "free neighbours are joined");
    for (int each = 0; each < BLOCKS; each++) tried_free(held[each].address);
    told(is_all_free(), "what is freed becomes one block");
    uint64_t before = pages_given;
    void *again = tried_malloc((pages_given - 1) * PAGE);
    told(again != NULL && pages_given == before, "freed memory is used again");
    tried_free(again);
}

static void try_refusals(void)
{
    most_pages = pages_given + 10;
    unsigned char *block = tried_malloc(1000);
    /* The last three have fewer pages in 32 bits, or fewer bytes in 64. */
    uint64_t refused_sizes[] = {MOST_PAGES * PAGE, LARGEST + 1, 1ULL << 48, (1ULL << 48) + PAGE, ~0ULL};
    for (int each = 0; each < 5; each++) {
        told(tried_malloc(refused_sizes[each]) == NULL, "memory that isn't there is refused");
        told(tried_realloc(block, refused_sizes[each]) == NULL, "a block doesn't grow by memory that isn't there");
    }
    fill((struct held[1]){{0}}, block, 1000, 7);
    struct tried refused = rattle_realloc(block, 1000, MOST_PAGES * PAGE, 16);
    told(!refused.has_memory && refused.address != NULL && is_intact(&(struct held){block, 7, 1000}, 1000), "a block that can't grow stays");
    struct tried given = rattle_alloc(100, 8), other = rattle_alloc(100, 8);
    memset(given.address, 1, 100);
    memset(other.address, 2, 100);
    told(given.has_memory == 1 && is_intact(&(struct held){given.address, 1, 100}, 100), "memory is given with its address");
    rattle_dealloc(given.address);
    rattle_dealloc(other.address);
    tried_free(block);
    told(is_all_free(), "after a refusal memory is whole");
}

int main(void)
{
    room = mmap(NULL, (MOST_PAGES + 1) * PAGE, PROT_NONE, MAP_PRIVATE | MAP_ANONYMOUS, -1, 0);
    if (room == MAP_FAILED) return 1;
    room = (unsigned char *)(((uintptr_t)room + PAGE - 1) / PAGE * PAGE);
    static_end = room - 7;
    try_products();
    try_comparing();
    try_beginning();
    try_in_place();
    try_moving();
    try_heap();
    try_refusals();
    printf("%ld passed, %ld failed\n", passed, failed);
    return failed != 0;
}
