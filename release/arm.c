/* What the kit's C does for programs on x86-64, for programs on aarch64: memory, arguments and errno, by the contracts that the kit's
 * crates libc and os have for these calls. */
#include <errno.h>
#include <stddef.h>
#include <stdint.h>
#include <stdlib.h>
#include <sys/types.h>

struct tried {
    uint64_t has_memory;
    void *address;
};

static struct tried tried(void *address)
{
    static char nowhere; /* an address is never null */
    return (struct tried){address != NULL, address != NULL ? address : &nowhere};
}

/* No type needs more alignment than malloc gives. Nothing has a size of 0. */
struct tried rattle_alloc(size_t bytes, size_t alignment) { return tried(malloc(bytes ? bytes : alignment)); }

struct tried rattle_realloc(void *address, size_t kept, size_t bytes, size_t alignment)
{
    (void)kept;
    return tried(realloc(address, bytes ? bytes : alignment));
}

void rattle_dealloc(void *address) { free(address); }

#ifndef LIBRARY
static int count;
static char **words;

/* The C library of GNU calls this with main's arguments, before main. */
static void take(int argc, char **argv)
{
    count = argc;
    words = argv;
}
__attribute__((section(".init_array"), used)) static void (*const take_before_main)(int, char **) = take;

size_t rattle_arg_count(void) { return (size_t)count; }

ssize_t rattle_arg(size_t number, uint8_t *buffer, size_t capacity)
{
    size_t length;
    if (number >= (size_t)count || words[number] == NULL) return -1;
    for (length = 0; words[number][length] != 0; length++) {
        if (length == capacity) return -2;
        buffer[length] = (uint8_t)words[number][length];
    }
    return (ssize_t)length;
}

int rattle_errno(void) { return errno; }

void rattle_set_errno(int error) { errno = error; }
#endif
