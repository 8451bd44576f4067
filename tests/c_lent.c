/* Slices of exact length with their twins. */
#define _DEFAULT_SOURCE
#include "c_check.h"
#include "c_bytes.h"
#include <stdlib.h>
#include <string.h>
#include <sys/mman.h>
#include <unistd.h>

static void *have(void *memory)
{
    if (memory == NULL || memory == MAP_FAILED)
        mismatch("no memory");
    return memory;
}

/* Pages that end with one that can't be touched; the slice ends before it. */
static void map_pages(struct lent *slice)
{
    size_t page = (size_t)sysconf(_SC_PAGESIZE), whole = (slice->length + page - 1) / page * page;
    slice->mapped = whole + page;
    uint8_t *pages = have(mmap(NULL, slice->mapped, PROT_READ | PROT_WRITE, MAP_PRIVATE | MAP_ANONYMOUS, -1, 0));
    if (mprotect(pages + whole, page, PROT_NONE) != 0)
        mismatch("mprotect failed");
    slice->bytes = pages + whole - slice->length;
}

/*
 * Two of three are blocks of malloc's own: a copy that goes past one is seen by the sanitizer, any access by valgrind.
 * The third ends where no page is: any access past it faults.
 */
struct lent lend(size_t length, uint8_t filled)
{
    static unsigned lent_so_far;
    struct lent slice = {NULL, have(malloc(length + 1)), length, 0};
    if (lent_so_far++ % 3 == 2)
        map_pages(&slice);
    else
        slice.bytes = have(malloc(length == 0 ? 1 : length));
    memset(slice.bytes, filled, length);
    memset(slice.twin, filled, length);
    return slice;
}

struct lent lend_nothing(void)
{
    return (struct lent){NULL, NULL, 0, 0};
}

void end_lending(struct lent *slice)
{
    if (slice->mapped != 0)
        munmap(slice->bytes + slice->length - (slice->mapped - (size_t)sysconf(_SC_PAGESIZE)), slice->mapped);
    else
        free(slice->bytes);
    free(slice->twin);
    *slice = lend_nothing();
}

void put_both(struct lent *slice, size_t at, unsigned width, uint64_t value)
{
    put_number(slice->bytes + at, width, value);
    put_number(slice->twin + at, width, value);
}

void copy_both(struct lent *slice, const uint8_t *bytes)
{
    if (slice->length == 0)
        return;
    memcpy(slice->bytes, bytes, slice->length);
    memcpy(slice->twin, bytes, slice->length);
}

void expect_out(struct lent *out, const uint64_t *numbers, size_t count)
{
    if (out->length == 0)
        return;
    memset(out->bytes, 0xa5, out->length);
    memset(out->twin, 0xa5, out->length);
    for (size_t k = 0; k < count && 8 * (k + 1) <= out->length; k++)
        put_number(out->twin + 8 * k, 8, numbers[k]);
}
