/* What the programs of this folder share that refuse memory to the library. They are linked with
 * -Wl,--wrap=malloc,--wrap=realloc,--wrap=free, so that the library's calls go through these. */
#include <stdbool.h>
#include <stdlib.h>

void *__real_malloc(size_t);
void *__real_realloc(void *, size_t);
void __real_free(void *);

/* how many allocations are let through before one is refused, and whether all behind it are refused too */
static unsigned long granted;
static bool counts, refuses_all, was_refused;
static long blocks;

static bool is_refused(void) {
    if (!counts) return false;
    if (granted > 0) {
        granted--;
        return false;
    }
    if (was_refused && !refuses_all) return false;
    was_refused = true;
    return true;
}

void *__wrap_malloc(size_t size) {
    if (is_refused()) return NULL;
    void *made = __real_malloc(size);
    blocks += made != NULL;
    return made;
}

void *__wrap_realloc(void *old, size_t size) {
    if (is_refused()) return NULL;
    void *made = __real_realloc(old, size);
    blocks += old == NULL && made != NULL;
    return made;
}

void __wrap_free(void *old) {
    blocks -= old != NULL;
    __real_free(old);
}
