/* What tests/memory puts before the C library (LD_PRELOAD), to count the allocations of a program and to refuse some. An
   allocation is a call of malloc, calloc or realloc, from the first that the program's own code makes, by whatever thread;
   those that the C library makes meanwhile count too. One that is refused answers NULL, and errno is ENOMEM.
   The environment says what is wanted:
   NOTES=FILE         what is counted is kept in the file: see `struct notes`
   REFUSED=n          the allocation of that number, from 1, is refused
   REFUSED_FROM=n     so is each from that number on
   Programs that the program starts run without it. */
#define _GNU_SOURCE
#include <errno.h>
#include <fcntl.h>
#include <link.h>
#include <stdatomic.h>
#include <stdint.h>
#include <stdlib.h>
#include <sys/mman.h>
#include <unistd.h>

#define KEPT 8192

/* How many allocations there were, and how many of them were refused. Of the first of these: the place to which the
   call returns, the bytes of the stack above that are kept, and these. Where the program lies in memory, for all
   places. */
struct notes {
    _Atomic uint64_t count, refused;
    uint64_t base, place, kept, stack[KEPT];
};

extern void *__libc_malloc(size_t), *__libc_calloc(size_t, size_t), *__libc_realloc(void *, size_t);

static struct notes *notes;
static uint64_t only, from;
static uintptr_t begin, end;

static uint64_t number(const char *name)
{
    return getenv(name) ? strtoull(getenv(name), NULL, 10) : 0;
}

/* The first object is the program. */
static int find_program(struct dl_phdr_info *object, size_t size, void *nothing)
{
    (void)size, (void)nothing;
    notes->base = object->dlpi_addr;
    for (int place = 0; place < object->dlpi_phnum; place++) {
        const ElfW(Phdr) *part = &object->dlpi_phdr[place];
        if (part->p_type == PT_LOAD && part->p_flags & PF_X) {
            begin = object->dlpi_addr + part->p_vaddr;
            end = begin + part->p_memsz;
        }
    }
    return 1;
}

__attribute__((constructor)) static void prepare(void)
{
    int file = getenv("NOTES") ? open(getenv("NOTES"), O_RDWR | O_CREAT | O_TRUNC | O_CLOEXEC, 0600) : -1;
    void *map;

    unsetenv("LD_PRELOAD");
    if (file < 0 || ftruncate(file, sizeof *notes) != 0)
        abort();
    map = mmap(NULL, sizeof *notes, PROT_READ | PROT_WRITE, MAP_SHARED, file, 0);
    close(file);
    if (map == MAP_FAILED)
        abort();
    only = number("REFUSED");
    from = number("REFUSED_FROM");
    notes = map;
    dl_iterate_phdr(find_program, NULL);
}

static void note(const void *caller, const void *frame)
{
    int memory = open("/proc/self/mem", O_RDONLY | O_CLOEXEC);
    ssize_t kept = pread(memory, notes->stack, sizeof notes->stack, (off_t)frame);

    close(memory);
    notes->place = (uintptr_t)caller;
    notes->kept = kept < 0 ? 0 : kept;
}

/* Whether an allocation is refused that is called for from there, with this stack. */
static int refuses(const void *caller, const void *frame)
{
    int is_own = (uintptr_t)caller >= begin && (uintptr_t)caller < end;
    uint64_t count;

    if (!notes || (notes->count == 0 && !is_own))
        return 0;
    count = ++notes->count;
    if (count != only && (from == 0 || count < from))
        return 0;
    if (++notes->refused == 1)
        note(caller, frame);
    errno = ENOMEM;
    return 1;
}

#define IS_REFUSED refuses(__builtin_return_address(0), __builtin_frame_address(0))

void *malloc(size_t size)
{
    return IS_REFUSED ? NULL : __libc_malloc(size);
}

void *calloc(size_t count, size_t size)
{
    return IS_REFUSED ? NULL : __libc_calloc(count, size);
}

void *realloc(void *bytes, size_t size)
{
    return IS_REFUSED ? NULL : __libc_realloc(bytes, size);
}
