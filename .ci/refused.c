/* Refuses one allocation of a program that this is loaded before (LD_PRELOAD): the one whose number REFUSED has, counted from 1. What the C
   library takes for itself does not count. */
#define _GNU_SOURCE
#include <link.h>
#include <stddef.h>
#include <stdint.h>
#include <stdlib.h>

void *__libc_malloc(size_t size);
void *__libc_realloc(void *old, size_t size);

static uintptr_t from, to;
static unsigned long number, count;

/* The program is the first object, and its code one stretch of it. */
static int find(struct dl_phdr_info *info, size_t size, void *none)
{
    for (int i = 0; i < info->dlpi_phnum; i++) {
        const ElfW(Phdr) *part = &info->dlpi_phdr[i];
        if (part->p_type == PT_LOAD && part->p_flags & PF_X) {
            from = info->dlpi_addr + part->p_vaddr;
            to = from + part->p_memsz;
        }
    }
    return 1;
}

__attribute__((constructor)) static void begin(void)
{
    const char *word = getenv("REFUSED");
    dl_iterate_phdr(find, NULL);
    number = word ? strtoul(word, NULL, 10) : 0;
}

static int is_refused(void *caller)
{
    uintptr_t at = (uintptr_t)caller;
    return from <= at && at < to && __atomic_add_fetch(&count, 1, __ATOMIC_RELAXED) == number;
}

void *malloc(size_t size)
{
    return is_refused(__builtin_return_address(0)) ? NULL : __libc_malloc(size);
}

void *realloc(void *old, size_t size)
{
    return is_refused(__builtin_return_address(0)) ? NULL : __libc_realloc(old, size);
}
