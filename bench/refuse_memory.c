/* Refuses one call for memory of a program that is loaded with it (LD_PRELOAD): the call answers NULL, or ENOMEM, as where
 * memory is wanting. bench/refused-memory builds and uses it.
 *
 * From the environment: REFUSE_CALL, the number of the call that is refused, counted from 1 over all threads (0, or not set:
 * none); REFUSE_ALL, where it is set, refuses each call behind that one too; REFUSE_SEEN, a file of 16 bytes, where two
 * numbers of 8 bytes are kept while the program runs: the calls that were counted, and those that were refused.
 *
 * What the loader, the C library and the language's runtime ask for before `main` is no matter of the program. So calls are
 * counted from the first one on that comes from the program's own code; behind that one all are, those of libraries too, as
 * for the start of a thread. */
#define _GNU_SOURCE
#include <errno.h>
#include <fcntl.h>
#include <link.h>
#include <stdatomic.h>
#include <stdint.h>
#include <stdlib.h>
#include <sys/mman.h>
#include <unistd.h>

/* The C library's own calls, by the names that are not taken over here. */
extern void *__libc_malloc(size_t size);
extern void *__libc_calloc(size_t count, size_t size);
extern void *__libc_realloc(void *block, size_t size);
extern void *__libc_memalign(size_t alignment, size_t size);

struct seen {
    _Atomic uint64_t calls;
    _Atomic uint64_t refused;
};

static struct seen unseen;
static struct seen *seen = &unseen;
static uint64_t refused_call;
static int refuses_all;
static uintptr_t program_begin = UINTPTR_MAX;
static uintptr_t program_end;
static _Atomic int counts;

/* The first object that is told is the program: where its bytes stand in memory. */
static int find_program(struct dl_phdr_info *info, size_t size, void *unused) {
    (void)size;
    (void)unused;
    for (int part = 0; part < info->dlpi_phnum; part++) {
        const ElfW(Phdr) *header = &info->dlpi_phdr[part];
        if (header->p_type == PT_LOAD) {
            uintptr_t begin = info->dlpi_addr + header->p_vaddr;
            uintptr_t end = begin + header->p_memsz;
            program_begin = begin < program_begin ? begin : program_begin;
            program_end = end > program_end ? end : program_end;
        }
    }
    return 1;
}

__attribute__((constructor)) static void begin(void) {
    const char *call = getenv("REFUSE_CALL");
    const char *file = getenv("REFUSE_SEEN");
    refused_call = call ? strtoull(call, NULL, 10) : 0;
    refuses_all = getenv("REFUSE_ALL") != NULL;
    if (file) {
        int opened = open(file, O_RDWR | O_CLOEXEC);
        if (opened >= 0) {
            void *shared = mmap(NULL, sizeof(struct seen), PROT_READ | PROT_WRITE, MAP_SHARED, opened, 0);
            seen = shared == MAP_FAILED ? seen : shared;
            close(opened);
        }
    }
    dl_iterate_phdr(find_program, NULL);
}

/* Whether the call that comes from this place is refused. */
static int is_refused(const void *caller) {
    uintptr_t place = (uintptr_t)caller;
    if (!counts) {
        if (place < program_begin || place >= program_end) {
            return 0;
        }
        counts = 1;
    }
    uint64_t number = atomic_fetch_add(&seen->calls, 1) + 1;
    if (refused_call == 0 || number < refused_call || (number > refused_call && !refuses_all)) {
        return 0;
    }
    atomic_fetch_add(&seen->refused, 1);
    errno = ENOMEM;
    return 1;
}

#define REFUSED is_refused(__builtin_return_address(0))

void *malloc(size_t size) {
    return REFUSED ? NULL : __libc_malloc(size);
}

void *calloc(size_t count, size_t size) {
    return REFUSED ? NULL : __libc_calloc(count, size);
}

void *realloc(void *block, size_t size) {
    return REFUSED ? NULL : __libc_realloc(block, size);
}

void *reallocarray(void *block, size_t count, size_t size) {
    size_t bytes;
    if (__builtin_mul_overflow(count, size, &bytes)) {
        errno = ENOMEM;
        return NULL;
    }
    return REFUSED ? NULL : __libc_realloc(block, bytes);
}

void *memalign(size_t alignment, size_t size) {
    return REFUSED ? NULL : __libc_memalign(alignment, size);
}

void *aligned_alloc(size_t alignment, size_t size) {
    return REFUSED ? NULL : __libc_memalign(alignment, size);
}

int posix_memalign(void **block, size_t alignment, size_t size) {
    void *found = REFUSED ? NULL : __libc_memalign(alignment, size);
    if (found == NULL) {
        return ENOMEM;
    }
    *block = found;
    return 0;
}
