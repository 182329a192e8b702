/* Refuses one allocation of a program, and counts those that it doesn't give back: a library to be loaded before the C library, or,
 * with LINKED, a part of a program that is compiled with checks, since such a program has a malloc of its own, which checks.
 *
 * REFUSE_AT=N refuses the Nth allocation that the program itself asks for (none at 0), and says so on standard error. At the end of
 * a program that asked for any it says how many are still held. Without REFUSE_AT it does and says nothing. What the C library asks
 * for its own use isn't counted.
 */
#define _GNU_SOURCE
#include <dlfcn.h>
#include <link.h>
#include <stdio.h>
#include <stdlib.h>
#include <unistd.h>

static void *(*real_malloc)(size_t);
static void *(*real_realloc)(void *, size_t);
static void (*real_free)(void *);
static int is_asked; /* whether REFUSE_AT is there */
static unsigned long low, high; /* where the program's own code lies */
static long left, held;
static void *kept[4096]; /* what the program holds; as many as these tests need */

static int find_program(struct dl_phdr_info *info, size_t size, void *data) {
    (void)size, (void)data;
    for (int i = 0; i < info->dlpi_phnum; i++) {
        if (info->dlpi_phdr[i].p_type != PT_LOAD) continue;
        unsigned long from = info->dlpi_addr + info->dlpi_phdr[i].p_vaddr;
        unsigned long to = from + info->dlpi_phdr[i].p_memsz;
        if (!low || from < low) low = from;
        if (to > high) high = to;
    }
    return 1; /* the program comes first, and no other is wanted */
}

#ifdef LINKED
void *__interceptor_malloc(size_t);
void *__interceptor_realloc(void *, size_t);
void __interceptor_free(void *);

static void find_real(void) {
    real_malloc = __interceptor_malloc;
    real_realloc = __interceptor_realloc;
    real_free = __interceptor_free;
}
#else
static void find_real(void) {
    real_malloc = dlsym(RTLD_NEXT, "malloc");
    real_realloc = dlsym(RTLD_NEXT, "realloc");
    real_free = dlsym(RTLD_NEXT, "free");
}
#endif

/* Runs before the program does, but not before its first allocations, which are the system's. */
__attribute__((constructor)) static void begin(void) {
    dl_iterate_phdr(find_program, NULL);
    const char *at = getenv("REFUSE_AT");
    is_asked = at != NULL;
    left = at ? atol(at) : 0;
}

static int is_own(void *caller) {
    if (!real_malloc) find_real();
    return is_asked && (unsigned long)caller >= low && (unsigned long)caller < high;
}

static int is_refused(void) {
    if (left <= 0 || --left > 0) return 0;
    (void)!write(STDERR_FILENO, "refused\n", 8);
    return 1;
}

static void *keep(void *place) {
    for (int i = 0; place && i < 4096; i++)
        if (!kept[i]) {
            kept[i] = place;
            held++;
            break;
        }
    return place;
}

static void let_go(void *place) {
    for (int i = 0; place && i < 4096; i++)
        if (kept[i] == place) {
            kept[i] = NULL;
            held--;
            break;
        }
}

void *malloc(size_t size) {
    if (!is_own(__builtin_return_address(0))) return real_malloc(size);
    return is_refused() ? NULL : keep(real_malloc(size));
}

void *realloc(void *place, size_t size) {
    if (!is_own(__builtin_return_address(0))) return real_realloc(place, size);
    if (is_refused()) return NULL;
    void *moved = real_realloc(place, size);
    if (moved) {
        let_go(place);
        keep(moved);
    }
    return moved;
}

void free(void *place) {
    if (!real_free) find_real();
    let_go(place);
    real_free(place);
}

__attribute__((destructor)) static void tell(void) {
    if (is_asked && real_malloc) fprintf(stderr, "held %ld\n", held);
}
