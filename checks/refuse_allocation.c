/* Refuses one allocation of the program that this library is loaded into: the one whose number, from 1, the variable REFUSE_ALLOCATION has. It
   then writes a byte to the file descriptor that the variable REFUSE_TELLS names. */
#include <errno.h>
#include <stddef.h>
#include <stdlib.h>
#include <unistd.h>

extern void *__libc_malloc(size_t size);
extern void *__libc_realloc(void *old, size_t size);

static unsigned long refused, made;
static int tells = -1;

__attribute__((constructor)) static void begin(void) {
    const char *number = getenv("REFUSE_ALLOCATION"), *told = getenv("REFUSE_TELLS");
    if (number && told) {
        refused = strtoul(number, NULL, 10);
        tells = atoi(told);
    }
}

static int is_refused(void) {
    if (refused == 0 || __atomic_add_fetch(&made, 1, __ATOMIC_RELAXED) != refused)
        return 0;
    if (write(tells, "1", 1) != 1)
        abort();
    errno = ENOMEM;
    return 1;
}

void *malloc(size_t size) { return is_refused() ? NULL : __libc_malloc(size); }

void *realloc(void *old, size_t size) { return is_refused() ? NULL : __libc_realloc(old, size); }
