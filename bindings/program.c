/* What a program asks of the system beside the C library, for a processor that the Rattle toolchain has no compiled code for: its
   arguments, memory, and errno. The toolchain's declarations of these functions are assumed, here as there; nothing proves this file. */
#include <errno.h>
#include <stdbool.h>
#include <stddef.h>
#include <stdlib.h>
#include <string.h>
#include <sys/types.h>

static size_t count;
static char **words;

/* The C library hands the arguments to what it calls before main, whose form in the module has none. */
__attribute__((constructor)) static void keep(int number, char **list)
{
    count = (size_t)number;
    words = list;
}

size_t rattle_arg_count(void);
size_t rattle_arg_count(void)
{
    return count;
}

/* Puts the argument at the start of the buffer: its length, or -1 where there is none, or -2 where it does not fit, and the buffer is full. */
ssize_t rattle_arg(size_t index, char *buffer, size_t room);
ssize_t rattle_arg(size_t index, char *buffer, size_t room)
{
    if (index >= count) return -1;
    size_t length = strlen(words[index]);
    memcpy(buffer, words[index], length < room ? length : room);
    return length <= room ? (ssize_t)length : -2;
}

/* Whether there is memory, and where; where there is none, of a byte that is nobody's. */
struct tried {
    bool ok;
    void *p;
};

static char nothing;

static struct tried tried(void *p)
{
    struct tried it = {p != NULL, p != NULL ? p : &nothing};
    return it;
}

/* Memory of this size, or of the alignment, at most 16, where the size is 0. */
struct tried rattle_alloc(size_t size, size_t alignment);
struct tried rattle_alloc(size_t size, size_t alignment)
{
    return tried(malloc(size != 0 ? size : alignment));
}

/* The block made one of this size, perhaps elsewhere; its first `kept` bytes stay as they are. Where that fails, the block is as it was. */
struct tried rattle_realloc(void *block, size_t kept, size_t size, size_t alignment);
struct tried rattle_realloc(void *block, size_t kept, size_t size, size_t alignment)
{
    (void)kept;
    return tried(realloc(block, size != 0 ? size : alignment));
}

void rattle_dealloc(void *block);
void rattle_dealloc(void *block)
{
    free(block);
}

int rattle_errno(void);
int rattle_errno(void)
{
    return errno;
}

void rattle_set_errno(int error);
void rattle_set_errno(int error)
{
    errno = error;
}
