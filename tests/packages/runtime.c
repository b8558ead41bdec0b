/* Compares the calls of packaging/runtime with those of the toolchain, whose names begin with kit_ here: what both answer, what
 * they ask malloc, realloc and free for, and what they leave where these refuse. */
#include <errno.h>
#include <fcntl.h>
#include <stdbool.h>
#include <stdint.h>
#include <stdio.h>
#include <stdlib.h>
#include <string.h>
#include <sys/types.h>

struct tried {
    bool ok;
    void *p;
};

#define DECLARED(name) \
    struct tried name##_alloc(size_t, size_t), name##_realloc(void *, size_t, size_t, size_t); \
    void name##_dealloc(void *); \
    size_t name##_arg_count(void); \
    ssize_t name##_arg(size_t, char *, size_t); \
    int name##_errno(void); \
    void name##_set_errno(int); \
    int name##_open_dir_at(int, const char *);
DECLARED(rattle)
DECLARED(kit)
#define OF(name) { name##_alloc, name##_realloc, name##_dealloc, name##_arg_count, name##_arg, name##_errno, name##_set_errno, \
                   name##_open_dir_at }
static const struct calls {
    struct tried (*alloc)(size_t, size_t), (*realloc)(void *, size_t, size_t, size_t);
    void (*dealloc)(void *);
    size_t (*arg_count)(void);
    ssize_t (*arg)(size_t, char *, size_t);
    int (*errno_)(void);
    void (*set_errno)(int);
    int (*open_dir_at)(int, const char *);
} ours = OF(rattle), theirs = OF(kit);

#define CHECK(claim) \
    do { \
        if (!(claim)) { \
            fprintf(stderr, "tests/packages/runtime.c:%d: not so: %s\n", __LINE__, #claim); \
            exit(1); \
        } \
    } while (0)

/* What the last call of malloc, realloc or free was for, and whether the next growth is refused. */
static size_t asked;
static void *block, *given;
static bool refuses;

void *__real_malloc(size_t), *__real_realloc(void *, size_t);
void __real_free(void *);

void *__wrap_malloc(size_t size)
{
    asked = size;
    return given = refuses ? NULL : __real_malloc(size);
}

void *__wrap_realloc(void *old, size_t size)
{
    asked = size;
    block = old;
    return given = refuses ? NULL : __real_realloc(old, size);
}

void __wrap_free(void *old)
{
    block = old;
    __real_free(old);
}

static const size_t sizes[] = { 0, 1, 7, 16, 17, 4096, 1 << 20, SIZE_MAX / 4, SIZE_MAX / 2 };
static const size_t alignments[] = { 1, 2, 4, 8, 16 };
#define EACH(index, list) size_t index = 0; index < sizeof list / sizeof *list; index++

/* The answer says whether it was done, with the block that was given, and else with none and not with null. */
static bool is_told(struct tried answer)
{
    return answer.ok == (given != NULL) && (answer.ok ? answer.p == given && (uintptr_t)answer.p % 16 == 0 : answer.p != NULL);
}

/* One call of each kind. Returns what malloc and realloc were asked for, and which were done. */
static void use(const struct calls *calls, size_t size, size_t alignment, size_t told[4])
{
    struct tried first = calls->alloc(size, alignment);
    CHECK(is_told(first));
    told[0] = asked, told[1] = first.ok;
    char *old = __real_malloc(64);
    memset(old, 'x', 64);
    struct tried second = calls->realloc(old, size < 64 ? size : 64, size, alignment);
    CHECK(is_told(second) && block == old);
    told[2] = asked, told[3] = second.ok;
    char *left = second.ok ? second.p : old;
    for (size_t i = 0; i < (second.ok && size < 64 ? size : 64); i++)
        CHECK(left[i] == 'x');
    calls->dealloc(left);
    CHECK(block == left);
    if (first.ok) {
        memset(first.p, 'y', size);
        calls->dealloc(first.p);
        CHECK(block == first.p);
    }
}

static void check_heap(void)
{
    for (int refused = 0; refused < 2; refused++) {
        for (EACH(i, sizes)) {
            for (EACH(j, alignments)) {
                size_t one[4], other[4];
                refuses = refused;
                use(&ours, sizes[i], alignments[j], one);
                use(&theirs, sizes[i], alignments[j], other);
                refuses = false;
                CHECK(memcmp(one, other, sizeof one) == 0);
                CHECK(one[1] == (!refused && sizes[i] <= 1 << 20) && one[3] == one[1]);
            }
        }
    }
}

/* The arguments, in buffers of all sizes up to two bytes too many; the bytes behind an argument stay. */
static void check_arguments(int argc, char **argv)
{
    CHECK(ours.arg_count() == (size_t)argc && theirs.arg_count() == (size_t)argc);
    for (int i = 0; i < argc + 2; i++) {
        size_t len = i < argc ? strlen(argv[i]) : 0;
        for (size_t room = 0; room <= len + 2; room++) {
            char one[room + 1], other[room + 1];
            memset(one, '-', room + 1);
            memset(other, '-', room + 1);
            ssize_t told = ours.arg(i, one, room);
            CHECK(told == theirs.arg(i, other, room) && memcmp(one, other, room + 1) == 0);
            CHECK(told == (i >= argc ? -1 : len > room ? -2 : (ssize_t)len));
            CHECK(told < 0 || memcmp(one, argv[i], len) == 0);
        }
    }
    char none;
    CHECK(ours.arg(SIZE_MAX, &none, 0) == -1 && theirs.arg(SIZE_MAX, &none, 0) == -1);
}

static void check_errors(void)
{
    for (int error = -1; error < 200; error++) {
        ours.set_errno(error);
        CHECK(errno == error && ours.errno_() == error && theirs.errno_() == error);
        theirs.set_errno(error + 1);
        CHECK(errno == error + 1 && ours.errno_() == error + 1);
    }
}

/* A directory is opened to be read, and no program that this one begins has it; anything else isn't opened. */
static void check_directories(void)
{
    static const struct {
        const char *name;
        bool is_directory;
    } names[] = { { "folder", true }, { ".", true }, { "/", true }, { "file", false }, { "link", false }, { "none", false }, { "", false } };
    int above = open("..", O_RDONLY);
    for (EACH(i, names)) {
        for (int at = AT_FDCWD; at != -1; at = at == AT_FDCWD ? above : -1) {
            int one = ours.open_dir_at(at, names[i].name), error = errno;
            int other = theirs.open_dir_at(at, names[i].name);
            CHECK((one >= 0) == (other >= 0) && (one >= 0 || error == errno));
            CHECK(at == above || (one >= 0) == names[i].is_directory);
            CHECK(fcntl(one, F_GETFL) == fcntl(other, F_GETFL) && fcntl(one, F_GETFD) == fcntl(other, F_GETFD));
            CHECK(one < 0 || fcntl(one, F_GETFD) == FD_CLOEXEC);
        }
    }
}

int main(int argc, char **argv)
{
    check_heap();
    check_arguments(argc, argv);
    check_errors();
    check_directories();
}
