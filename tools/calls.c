/* Notes in the file that CALLS names, in their order, which files a program writes, writes to the disk and renames, and when it sends
 * over a socket. tools/cluster builds it as a library and has the loader put it in front of the C library (LD_PRELOAD). */
#define _GNU_SOURCE
#include <dlfcn.h>
#include <fcntl.h>
#include <limits.h>
#include <stdio.h>
#include <stdlib.h>
#include <string.h>
#include <sys/socket.h>
#include <sys/stat.h>
#include <sys/uio.h>
#include <unistd.h>

#define NEXT(name) ((__typeof__(&name))dlsym(RTLD_NEXT, #name))

/* Appends a line. One write makes it whole, whichever thread calls. */
static void note(const char *call, const char *path) {
    char line[PATH_MAX + 32];
    const char *log = getenv("CALLS");
    int file = log == NULL ? -1 : open(log, O_WRONLY | O_APPEND | O_CREAT, 0600);
    if (file < 0)
        return;
    int count = snprintf(line, sizeof line, "%s %s\n", call, path);
    if (count > 0)
        NEXT(write)(file, line, (size_t)count);
    close(file);
}

/* Notes a call that is about a file or a socket. */
static void note_file(const char *call, int fd) {
    char link[64], path[PATH_MAX];
    struct stat found;
    if (fstat(fd, &found) != 0)
        return;
    if (S_ISSOCK(found.st_mode)) {
        note("send", "-");
    } else if (S_ISREG(found.st_mode) || S_ISDIR(found.st_mode)) {
        snprintf(link, sizeof link, "/proc/self/fd/%d", fd);
        ssize_t count = readlink(link, path, sizeof path - 1);
        path[count < 0 ? 0 : count] = '\0';
        note(call, path);
    }
}

ssize_t write(int fd, const void *bytes, size_t count) {
    note_file("write", fd);
    return NEXT(write)(fd, bytes, count);
}

ssize_t writev(int fd, const struct iovec *parts, int count) {
    note_file("write", fd);
    return NEXT(writev)(fd, parts, count);
}

ssize_t send(int fd, const void *bytes, size_t count, int flags) {
    note_file("write", fd);
    return NEXT(send)(fd, bytes, count, flags);
}

ssize_t sendmsg(int fd, const struct msghdr *message, int flags) {
    note_file("write", fd);
    return NEXT(sendmsg)(fd, message, flags);
}

int fsync(int fd) {
    note_file("sync", fd);
    return NEXT(fsync)(fd);
}

int fdatasync(int fd) {
    note_file("sync", fd);
    return NEXT(fdatasync)(fd);
}

int rename(const char *from, const char *to) {
    note("rename", to);
    return NEXT(rename)(from, to);
}
