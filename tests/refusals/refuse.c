/* A library that is loaded before the C library and makes one request of a program fail: a read, a write or an allocation. These variables
 * of the environment control it; without them, it changes nothing:
 *     REFUSE_MOST=N          each read returns at most N bytes
 *     REFUSE_READ=K:FILE     read K of this file, counted from 1, and every later one fail; each is noted
 *     REFUSE_WRITE=K:FILE    the file takes K bytes, and then writes fail; FILE is a name, the number of a descriptor, or * for all except
 *                            standard input, output and error
 *     REFUSE_EMPTY=1         such a write takes no bytes instead of failing
 *     REFUSE_MEMORY=N        allocation N fails, counted from 1
 *     REFUSE_LINES=1         each line on standard output is noted
 *     REFUSE_NOTES=FILE      the notes: a byte for each failure, 'r', 'w' or 'm', and '.' for each line */
#define _GNU_SOURCE
#include <dlfcn.h>
#include <errno.h>
#include <fcntl.h>
#include <stdlib.h>
#include <string.h>
#include <sys/stat.h>
#include <sys/syscall.h>
#include <unistd.h>

static long most, read_at, write_room, memory_at, reads, growths;
static const char *read_file, *write_file, *notes;
static int is_set_up, is_empty, has_lines;

/* The number before the colon of a setting, and the text after it. */
static long split(const char *setting, const char **rest) {
    char *end;
    long number = strtol(setting, &end, 10);
    *rest = *end == ':' ? end + 1 : end;
    return number;
}

static void set_up(void) {
    const char *setting;
    is_set_up = 1;
    if ((setting = getenv("REFUSE_MOST")))
        most = atol(setting);
    if ((setting = getenv("REFUSE_READ")))
        read_at = split(setting, &read_file);
    if ((setting = getenv("REFUSE_WRITE")))
        write_room = split(setting, &write_file);
    if ((setting = getenv("REFUSE_MEMORY")))
        memory_at = atol(setting);
    is_empty = getenv("REFUSE_EMPTY") != NULL;
    has_lines = getenv("REFUSE_LINES") != NULL;
    notes = getenv("REFUSE_NOTES");
}

static void note(char event) {
    if (!notes)
        return;
    int file = syscall(SYS_openat, AT_FDCWD, notes, O_WRONLY | O_CREAT | O_APPEND, 0600);
    if (file >= 0) {
        syscall(SYS_write, file, &event, 1);
        syscall(SYS_close, file);
    }
}

static void note_lines(const char *bytes, size_t count) {
    for (size_t i = 0; i < count; i++)
        if (bytes[i] == '\n')
            note('.');
}

/* Whether a descriptor refers to this file. */
static int is_on(int descriptor, const char *name) {
    struct stat here, there;
    if (name[0] == '*' && !name[1])
        return descriptor > 2;
    if (name[0] >= '0' && name[0] <= '9' && !name[1])
        return descriptor == name[0] - '0';
    return !fstat(descriptor, &here) && !stat(name, &there) && here.st_dev == there.st_dev && here.st_ino == there.st_ino;
}

ssize_t read(int descriptor, void *bytes, size_t count) {
    if (!is_set_up)
        set_up();
    if (read_file && is_on(descriptor, read_file) && ++reads >= read_at) {
        note('r');
        errno = EIO;
        return -1;
    }
    return syscall(SYS_read, descriptor, bytes, most && count > (size_t)most ? (size_t)most : count);
}

ssize_t write(int descriptor, const void *bytes, size_t count) {
    if (!is_set_up)
        set_up();
    if (has_lines && descriptor == 1)
        note_lines(bytes, count);
    if (!write_file || !count || !is_on(descriptor, write_file))
        return syscall(SYS_write, descriptor, bytes, count);
    if (!write_room) {
        note('w');
        errno = ENOSPC;
        return is_empty ? 0 : -1;
    }
    ssize_t taken = syscall(SYS_write, descriptor, bytes, count > (size_t)write_room ? (size_t)write_room : count);
    write_room -= taken > 0 ? taken : 0;
    return taken;
}

/* Whether this allocation must fail. */
static int is_refused(void) {
    if (!is_set_up)
        set_up();
    if (!memory_at || ++growths != memory_at)
        return 0;
    note('m');
    errno = ENOMEM;
    return 1;
}

extern void *__libc_malloc(size_t), *__libc_calloc(size_t, size_t), *__libc_realloc(void *, size_t), *__libc_memalign(size_t, size_t);

void *malloc(size_t size) { return is_refused() ? NULL : __libc_malloc(size); }
void *calloc(size_t count, size_t size) { return is_refused() ? NULL : __libc_calloc(count, size); }
void *realloc(void *place, size_t size) { return is_refused() ? NULL : __libc_realloc(place, size); }
void *aligned_alloc(size_t alignment, size_t size) { return is_refused() ? NULL : __libc_memalign(alignment, size); }

int posix_memalign(void **place, size_t alignment, size_t size) {
    if (is_refused())
        return ENOMEM;
    *place = __libc_memalign(alignment, size);
    return *place ? 0 : ENOMEM;
}
