/* What the toolchain's library os has in C, which the toolchain builds for x86-64 alone: for programs on another processor. */
#define _GNU_SOURCE
#include <errno.h>
#include <fcntl.h>
#include <string.h>
#include <sys/types.h>

static size_t count;
static char **words;

__attribute__((constructor)) static void keep(int argc, char **argv)
{
    count = (size_t)argc;
    words = argv;
}

int rattle_errno(void) { return errno; }
void rattle_set_errno(int error) { errno = error; }
size_t rattle_arg_count(void) { return count; }

ssize_t rattle_arg(size_t i, unsigned char *room, size_t size)
{
    size_t length;
    if (i >= count)
        return -1;
    length = strlen(words[i]);
    memcpy(room, words[i], length < size ? length : size);
    return length <= size ? (ssize_t)length : -2;
}

int rattle_open_to_read(const char *path) { return open(path, O_RDONLY | O_CLOEXEC | O_NOCTTY); }
int rattle_open_new(const char *path, unsigned mode) { return open(path, O_WRONLY | O_CREAT | O_EXCL | O_CLOEXEC | O_NOCTTY, mode); }
int rattle_open_to_append(const char *path) { return open(path, O_WRONLY | O_APPEND | O_CLOEXEC | O_NOCTTY); }
int rattle_open_to_update(const char *path) { return open(path, O_RDWR | O_CLOEXEC | O_NOCTTY); }
