/* Loaded before a program, this library refuses one of its growths: the call of malloc, calloc or
   realloc whose number, from 1, stands in REFUSE_CALL, and with REFUSE_ON set each later one too.
   At each refusal it writes a byte to the descriptor in TELL. With a size in REFUSE_MARK, only
   calls between a first and a second one of just this size count, a third and a fourth, and so on. */
#include <errno.h>
#include <stdlib.h>
#include <unistd.h>

void *__libc_malloc(size_t size);
void *__libc_calloc(size_t count, size_t size);
void *__libc_realloc(void *block, size_t size);

static long refused_call;
static int also_later;
static int tell;
static long calls;
static size_t mark;
static long marks;

__attribute__((constructor)) static void start(void) {
    const char *call = getenv("REFUSE_CALL");
    const char *on = getenv("REFUSE_ON");
    const char *descriptor = getenv("TELL");
    also_later = on != NULL && *on != '\0';
    tell = descriptor ? atoi(descriptor) : -1;
    const char *size = getenv("REFUSE_MARK");
    mark = size ? (size_t)atol(size) : 0;
    calls = marks = 0;
    refused_call = call ? atol(call) : 0;
}

/* Whether a growth of so many bytes doesn't count. */
static int is_beside(size_t size) {
    if (mark == 0)
        return 0;
    if (size == mark)
        marks++;
    return size == mark || marks % 2 == 0;
}

static int is_refused(size_t size) {
    if (refused_call == 0 || is_beside(size))
        return 0;
    calls++;
    if (calls != refused_call && !(also_later && calls > refused_call))
        return 0;
    if (write(tell, "r", 1) != 1)
        _exit(99);
    errno = ENOMEM;
    return 1;
}

void *malloc(size_t size) {
    return is_refused(size) ? NULL : __libc_malloc(size);
}

void *calloc(size_t count, size_t size) {
    return is_refused(count * size) ? NULL : __libc_calloc(count, size);
}

void *realloc(void *block, size_t size) {
    return is_refused(size) ? NULL : __libc_realloc(block, size);
}
