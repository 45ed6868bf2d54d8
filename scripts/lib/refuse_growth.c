/* Preloaded by scripts/check_memory: counts the calls of malloc and realloc of a program and lets call number REFUSE_GROWTH fail,
   with REFUSE_FROM_THERE all later ones too. The count is written to the file COUNT_GROWTHS. */
#include <errno.h>
#include <fcntl.h>
#include <stddef.h>
#include <stdio.h>
#include <stdlib.h>
#include <unistd.h>

extern void *__libc_malloc(size_t);
extern void *__libc_realloc(void *, size_t);

static unsigned long growths, refused;
static int from_there, begun;
static const char *counted;

__attribute__((constructor)) static void begin(void) {
    const char *number = getenv("REFUSE_GROWTH");
    refused = number ? strtoul(number, NULL, 10) : 0;
    from_there = getenv("REFUSE_FROM_THERE") != NULL;
    counted = getenv("COUNT_GROWTHS");
    begun = 1;
}

__attribute__((destructor)) static void end(void) {
    char text[24];
    begun = 0;
    if (counted) {
        int length = snprintf(text, sizeof text, "%lu\n", growths);
        int file = open(counted, O_WRONLY | O_CREAT | O_TRUNC, 0600);
        if (file < 0 || write(file, text, length) != length) _exit(70);
        close(file);
    }
}

static int is_refused(void) {
    if (!begun) return 0;
    growths++;
    if (!refused || growths < refused || (growths > refused && !from_there)) return 0;
    errno = ENOMEM;
    return 1;
}

void *malloc(size_t size) { return is_refused() ? NULL : __libc_malloc(size); }

void *realloc(void *block, size_t size) { return is_refused() ? NULL : __libc_realloc(block, size); }
