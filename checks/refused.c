/* A library that refuses one request for memory of the program into which it is loaded (LD_PRELOAD).
 *
 * Requests are counted from 1, and only those that the program's own code makes, in whichever thread. What the C library
 * and the loader ask for is granted and not counted. The variable REFUSE has the number of the request that is refused;
 * 0 refuses none. At its end the program writes the number of its requests to the file descriptor REPORT.
 */
#define _GNU_SOURCE
#include <errno.h>
#include <link.h>
#include <stdatomic.h>
#include <stdio.h>
#include <stdlib.h>
#include <sys/mman.h>
#include <sys/syscall.h>
#include <unistd.h>

extern void *__libc_malloc(size_t size);
extern void *__libc_calloc(size_t count, size_t size);
extern void *__libc_realloc(void *block, size_t size);
extern void *__libc_memalign(size_t alignment, size_t size);

static atomic_long requests;
static long refused;
static int report = -1;
static ElfW(Addr) low = -1, high;

/* Notes where the code of the program lies, which is the first object. */
static int note_program(struct dl_phdr_info *object, size_t size, void *data)
{
    (void)size, (void)data;
    for (int i = 0; i < object->dlpi_phnum; i++) {
        const ElfW(Phdr) *part = &object->dlpi_phdr[i];
        ElfW(Addr) start = object->dlpi_addr + part->p_vaddr;
        if (part->p_type != PT_LOAD || !(part->p_flags & PF_X))
            continue;
        if (start < low)
            low = start;
        if (start + part->p_memsz > high)
            high = start + part->p_memsz;
    }
    return 1;
}

__attribute__((constructor)) static void begin(void)
{
    const char *number = getenv("REFUSE"), *descriptor = getenv("REPORT");
    refused = number ? atol(number) : 0;
    report = descriptor ? atoi(descriptor) : -1;
    dl_iterate_phdr(note_program, NULL);
}

/* The program ends by `_exit` or by returning from `main`. */
__attribute__((destructor)) static void end(void)
{
    if (report >= 0)
        dprintf(report, "%ld\n", atomic_load(&requests));
    report = -1;
}

void _exit(int status)
{
    end();
    syscall(SYS_exit_group, status);
    __builtin_unreachable();
}

/* Counts the request if the program made it, and says whether it is the one that is refused. */
static int is_refused(const void *caller)
{
    ElfW(Addr) at = (ElfW(Addr))caller;
    return at >= low && at < high && atomic_fetch_add(&requests, 1) + 1 == refused;
}

#define IS_REFUSED is_refused(__builtin_return_address(0))

static void *no_memory(void)
{
    errno = ENOMEM;
    return NULL;
}

void *malloc(size_t size)
{
    return IS_REFUSED ? no_memory() : __libc_malloc(size);
}

void *calloc(size_t count, size_t size)
{
    return IS_REFUSED ? no_memory() : __libc_calloc(count, size);
}

void *realloc(void *block, size_t size)
{
    return IS_REFUSED ? no_memory() : __libc_realloc(block, size);
}

void *aligned_alloc(size_t alignment, size_t size)
{
    return IS_REFUSED ? no_memory() : __libc_memalign(alignment, size);
}

int posix_memalign(void **block, size_t alignment, size_t size)
{
    void *found = IS_REFUSED ? NULL : __libc_memalign(alignment, size);
    if (found)
        *block = found;
    return found ? 0 : ENOMEM;
}

void *mmap(void *at, size_t size, int protection, int flags, int file, off_t offset)
{
    if (IS_REFUSED) {
        errno = ENOMEM;
        return MAP_FAILED;
    }
    return (void *)syscall(SYS_mmap, at, size, protection, flags, file, offset);
}
