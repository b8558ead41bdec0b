/* What a program asks of the system, as the toolchain's crate `os` declares it: where the toolchain has no object of it. */
#include <errno.h>
#include <fcntl.h>
#include <string.h>
#include <sys/types.h>

static int count;
static char **words;

/* glibc calls constructors with the arguments of main. */
__attribute__((constructor)) static void keep(int argc, char **argv)
{
    count = argc;
    words = argv;
}

size_t rattle_arg_count(void)
{
    return count;
}

/* Writes an argument into a buffer, and returns its length; -1 if there is none, -2 if there is more than room for. */
ssize_t rattle_arg(size_t index, char *buffer, size_t room)
{
    if (index >= (size_t)count || !words[index])
        return -1;
    size_t len = strlen(words[index]);
    memcpy(buffer, words[index], len < room ? len : room);
    return len <= room ? (ssize_t)len : -2;
}

int rattle_errno(void)
{
    return errno;
}

void rattle_set_errno(int error)
{
    errno = error;
}

/* Opens a directory that isn't a symbolic link. The numbers of these flags are of each processor. */
int rattle_open_dir_at(int folder, const char *name)
{
    return openat(folder, name, O_DIRECTORY | O_NOFOLLOW | O_CLOEXEC);
}
