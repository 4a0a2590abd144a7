/* Refuses one allocation of the program that it is preloaded into (ld.so(8)): checks/memory.py builds and uses it.
 *
 * The program's own calls of malloc, calloc and realloc are numbered from 0, in all threads together; those that a
 * library makes, as the C library does, are neither counted nor refused. The call with the number REFUSED answers NULL.
 * COUNTS names a file that is mapped, so that what stands there is true however the program ends: the count of calls,
 * and of those that were refused, each a number of 64 bits in the machine's order.
 */
#define _GNU_SOURCE
#include <errno.h>
#include <fcntl.h>
#include <link.h>
#include <stdatomic.h>
#include <stdint.h>
#include <stdlib.h>
#include <sys/mman.h>
#include <unistd.h>

extern void *__libc_malloc(size_t size);
extern void *__libc_calloc(size_t count, size_t size);
extern void *__libc_realloc(void *old, size_t size);

struct counts {
    atomic_uint_least64_t made, refused;
};

static struct counts *counts;
static uint_least64_t refused_at = UINT_LEAST64_MAX;
/* Where the program's own code stands: from the first address up to the last. */
static uintptr_t first, last;

/* The program itself comes first of all that is loaded. */
static int find_program(struct dl_phdr_info *info, size_t size, void *given) {
    (void)size;
    (void)given;
    first = UINTPTR_MAX;
    for (int i = 0; i < info->dlpi_phnum; i++) {
        if (info->dlpi_phdr[i].p_type == PT_LOAD) {
            uintptr_t begin = info->dlpi_addr + info->dlpi_phdr[i].p_vaddr;
            uintptr_t end = begin + info->dlpi_phdr[i].p_memsz;
            first = begin < first ? begin : first;
            last = end > last ? end : last;
        }
    }
    return 1;
}

/* Without the file nothing is counted, and its counts stay 0, which checks/memory.py takes for a fault. */
__attribute__((constructor)) static void begin(void) {
    const char *name = getenv("COUNTS");
    const char *number = getenv("REFUSED");
    int file = name ? open(name, O_RDWR | O_CLOEXEC) : -1;
    if (file < 0)
        return;
    void *mapped = mmap(NULL, sizeof *counts, PROT_READ | PROT_WRITE, MAP_SHARED, file, 0);
    close(file);
    if (mapped == MAP_FAILED)
        return;
    if (number)
        refused_at = strtoull(number, NULL, 10);
    dl_iterate_phdr(find_program, NULL);
    counts = mapped;
}

/* Whether this call, which goes back to that address, is the one to refuse. */
static int is_refused(const void *back) {
    uintptr_t place = (uintptr_t)back;
    if (!counts || place < first || place >= last)
        return 0;
    if (atomic_fetch_add(&counts->made, 1) != refused_at)
        return 0;
    atomic_fetch_add(&counts->refused, 1);
    errno = ENOMEM;
    return 1;
}

void *malloc(size_t size) {
    return is_refused(__builtin_return_address(0)) ? NULL : __libc_malloc(size);
}

void *calloc(size_t count, size_t size) {
    return is_refused(__builtin_return_address(0)) ? NULL : __libc_calloc(count, size);
}

void *realloc(void *old, size_t size) {
    return is_refused(__builtin_return_address(0)) ? NULL : __libc_realloc(old, size);
}
