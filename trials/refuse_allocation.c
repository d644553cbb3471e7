/* Refuses allocations of the program that it is loaded into (by LD_PRELOAD), as if memory were full.
 *
 * REFUSED_ALLOCATION: which one, counted from 1; 0 refuses none.
 * REFUSED_IN_A_ROW: how many from that one on.
 * ALLOCATION_REPORT: a descriptor, where `refused` and its bytes are written of each refusal, of several of one size in a row
 * once; and at the end how many allocations were asked for.
 *
 * Only what the program's own code asks for is counted: what the C library asks for itself, as at its start, is not an
 * allocation that the program could answer for. */

#define _GNU_SOURCE
#include <errno.h>
#include <link.h>
#include <stdint.h>
#include <stdio.h>
#include <stdlib.h>
#include <unistd.h>

/* The allocator of glibc under the names that the functions below don't hide. */
extern void *__libc_malloc(size_t size);
extern void *__libc_calloc(size_t count, size_t size);
extern void *__libc_realloc(void *old, size_t size);
extern void *__libc_memalign(size_t alignment, size_t size);

static uintptr_t program_start, program_end;
static unsigned long refused_allocation, in_a_row, allocations;
static size_t reported_size;
static int report = -1;

static unsigned long number_in(const char *name, unsigned long otherwise) {
    const char *text = getenv(name);
    return text ? strtoul(text, NULL, 10) : otherwise;
}

/* Takes the bounds of the program's code: it is the first of the loaded objects. */
static int take_bounds(struct dl_phdr_info *object, size_t size, void *unused) {
    (void)size, (void)unused;
    program_start = UINTPTR_MAX;
    for (int part = 0; part < object->dlpi_phnum; part++) {
        const ElfW(Phdr) *header = &object->dlpi_phdr[part];
        uintptr_t start = object->dlpi_addr + header->p_vaddr;
        if (header->p_type != PT_LOAD) continue;
        if (start < program_start) program_start = start;
        if (start + header->p_memsz > program_end) program_end = start + header->p_memsz;
    }
    return 1;
}

__attribute__((constructor)) static void begin(void) {
    refused_allocation = number_in("REFUSED_ALLOCATION", 0);
    in_a_row = number_in("REFUSED_IN_A_ROW", 1);
    report = (int)number_in("ALLOCATION_REPORT", 2);
    dl_iterate_phdr(take_bounds, NULL);
}

__attribute__((destructor)) static void end(void) { dprintf(report, "allocations %lu\n", allocations); }

/* Whether the allocation of so many bytes that the code at `caller` asks for is to be refused. */
static int is_refused(void *caller, size_t size) {
    uintptr_t at = (uintptr_t)caller;
    if (at < program_start || at >= program_end) return 0;
    allocations++;
    if (!refused_allocation || allocations < refused_allocation || allocations - refused_allocation >= in_a_row) return 0;
    if (size != reported_size && dprintf(report, "refused %zu\n", size) < 0) abort();
    reported_size = size;
    errno = ENOMEM;
    return 1;
}

#define ANSWER(size, allocation) return is_refused(__builtin_return_address(0), size) ? NULL : (allocation)

void *malloc(size_t size) { ANSWER(size, __libc_malloc(size)); }
void *calloc(size_t count, size_t size) { ANSWER(count * size, __libc_calloc(count, size)); }
void *realloc(void *old, size_t size) { ANSWER(size, __libc_realloc(old, size)); }
void *aligned_alloc(size_t alignment, size_t size) { ANSWER(size, __libc_memalign(alignment, size)); }

int posix_memalign(void **to, size_t alignment, size_t size) {
    if (is_refused(__builtin_return_address(0), size)) return ENOMEM;
    *to = __libc_memalign(alignment, size);
    return *to ? 0 : ENOMEM;
}
