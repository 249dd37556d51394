/* Counts the allocations of a program that it is loaded into by LD_PRELOAD, refuses one of them, and tells at the end what came.
 * An allocation is a call of malloc, calloc or realloc that stands in the program's own file: what the C library takes for itself is
 * neither counted nor refused. The environment says what to do:
 *   REFUSE=N     the Nth allocation is refused, from 1 on, and with N.. each later one too; with 0 or nothing, none is
 *   COUNT_TO     the file to which the numbers are written of allocations, of refusals, and of blocks that were not given back
 */
#define _GNU_SOURCE
#include <link.h>
#include <stdint.h>
#include <stdio.h>
#include <stdlib.h>

/* What the C library has behind the names that are taken over here. */
void *__libc_malloc(size_t size);
void *__libc_calloc(size_t count, size_t size);
void *__libc_realloc(void *block, size_t size);
void __libc_free(void *block);

static uintptr_t code_start, code_end;
static unsigned long refused_number;
static int refuses_rest;
static unsigned long allocations, refusals, blocks;

/* Notes where the program's own code stands. The program is the first that is told of. */
static int note_code(struct dl_phdr_info *info, size_t size, void *unused) {
    (void)size;
    (void)unused;
    code_start = UINTPTR_MAX;
    for (int i = 0; i < info->dlpi_phnum; i++) {
        const ElfW(Phdr) *part = &info->dlpi_phdr[i];
        if (part->p_type != PT_LOAD || !(part->p_flags & PF_X))
            continue;
        uintptr_t start = info->dlpi_addr + part->p_vaddr;
        if (start < code_start)
            code_start = start;
        if (start + part->p_memsz > code_end)
            code_end = start + part->p_memsz;
    }
    return 1;
}

__attribute__((constructor)) static void begin(void) {
    const char *number = getenv("REFUSE");
    char *rest;
    if (number) {
        refused_number = strtoul(number, &rest, 10);
        refuses_rest = *rest == '.';
    }
    dl_iterate_phdr(note_code, NULL);
}

__attribute__((destructor)) static void end(void) {
    const char *path = getenv("COUNT_TO");
    FILE *file = path ? fopen(path, "w") : NULL;
    if (file) {
        fprintf(file, "%lu %lu %lu\n", allocations, refusals, blocks);
        fclose(file);
    }
}

static int is_own(const void *caller) {
    return (uintptr_t)caller >= code_start && (uintptr_t)caller < code_end;
}

/* Counts an allocation, and tells whether it is refused. */
static int is_refused(void) {
    allocations++;
    int refused = refused_number && (allocations == refused_number || (refuses_rest && allocations > refused_number));
    refusals += refused;
    return refused;
}

/* Counts a block that was handed out, if it was. */
static void *handed_out(void *block) {
    blocks += block != NULL;
    return block;
}

void *malloc(size_t size) {
    if (!is_own(__builtin_return_address(0)))
        return __libc_malloc(size);
    return is_refused() ? NULL : handed_out(__libc_malloc(size));
}

void *calloc(size_t count, size_t size) {
    if (!is_own(__builtin_return_address(0)))
        return __libc_calloc(count, size);
    return is_refused() ? NULL : handed_out(__libc_calloc(count, size));
}

void *realloc(void *block, size_t size) {
    if (!is_own(__builtin_return_address(0)))
        return __libc_realloc(block, size);
    if (is_refused())
        return NULL;
    void *moved = __libc_realloc(block, size);
    return block ? moved : handed_out(moved);
}

void free(void *block) {
    blocks -= block && is_own(__builtin_return_address(0));
    __libc_free(block);
}
