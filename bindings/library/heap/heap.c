/* What the proved code takes memory by, for targets of which the toolchain has no such library. It is
 * no part of what is proved: the contracts that the proofs take as given stand in the toolchain's libc,
 * src/heap.rt. A call that asks for memory answers whether it got it, and an address in any case: where
 * it got none, that of a byte that nobody reads or writes. */
#include <stdbool.h>
#include <stddef.h>

void *malloc(size_t bytes);
void *realloc(void *block, size_t bytes);
void free(void *block);

/* The type Tried of the toolchain's libc. */
struct tried {
    bool ok;
    void *p;
};

static char nothing;

static struct tried tried(void *block)
{
    return (struct tried){.ok = block != NULL, .p = block != NULL ? block : &nothing};
}

/* The alignment is at most 16, as `malloc` has it. Of no bytes `malloc` may answer NULL, so then as many
 * are got as the alignment. */
struct tried rattle_alloc(size_t bytes, size_t alignment);
struct tried rattle_alloc(size_t bytes, size_t alignment)
{
    return tried(malloc(bytes != 0 ? bytes : alignment));
}

/* What is kept is as much as both blocks have; `kept` is for the proofs. */
struct tried rattle_realloc(void *block, size_t kept, size_t bytes, size_t alignment);
struct tried rattle_realloc(void *block, size_t kept, size_t bytes, size_t alignment)
{
    (void)kept;
    return tried(realloc(block, bytes != 0 ? bytes : alignment));
}

void rattle_dealloc(void *block);
void rattle_dealloc(void *block)
{
    free(block);
}
