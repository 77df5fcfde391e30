/* Replaces a file at once: the old file stays until the new one is on the disk. */
#include "terminal.h"

#include <fcntl.h>
#include <sys/stat.h>

/* The longest path in a link, and the maximum number of links that are followed. */
enum { LONGEST_LINK = 4096, MOST_LINKS = 40 };

static const char *path_in(const text *of) { return (const char *)of->bytes; }

/* The length of a path up to the name of the file in its folder. */
static size_t folder_length(const text *path) {
    size_t length = strlen(path_in(path));
    while (length && path->bytes[length - 1] != '/')
        length--;
    return length;
}

/* Replaces a path by another path, which is relative to the first one's folder unless it begins with a slash. */
static int take_path(text *to, size_t folder, const char *path, size_t length) {
    to->length = length && path[0] == '/' ? 0 : folder;
    add_bytes(to, path, length);
    add_bytes(to, "", 1);
    errno = to->is_short ? ENOMEM : errno;
    return !to->is_short;
}

/* Follows links from a name to the file that it leads to, which may be missing. If that fails, gives 0, with the reason
 * in errno. */
static int follow(text *path, const char *name) {
    char target[LONGEST_LINK];
    ssize_t length = 0;
    int left = MOST_LINKS, is_taken = take_path(path, 0, name, strlen(name));
    while (is_taken && left && (length = readlink(path_in(path), target, sizeof target)) >= 0) {
        is_taken = take_path(path, folder_length(path), target, (size_t)length);
        left--;
    }
    if (is_taken && !left)
        errno = ELOOP;
    return is_taken && left && (errno == EINVAL || errno == ENOENT);
}

/* Gives a new file the owner and the permissions of the old one, or those of any new file. If the group can't be the
 * same, the group gets no permissions. */
static void take_permissions(int file, const struct stat *like) {
    const mode_t mask = umask(0);
    (void)umask(mask);
    if (!like)
        (void)fchmod(file, 0666 & ~mask);
    else if (fchown(file, like->st_uid, like->st_gid) == 0 || fchown(file, (uid_t)-1, like->st_gid) == 0)
        (void)fchmod(file, like->st_mode & 0777);
    else
        (void)fchmod(file, like->st_mode & 0707);
}

/* Writes a new file to the disk and closes it. */
static int write_through(int file, const text *content) {
    int is_written = write_all(file, content->bytes, content->length);
    while (is_written && fsync(file) != 0 && errno != EINVAL)
        is_written = errno == EINTR;
    const int why = errno;
    const int is_closed = close(file) == 0;
    errno = is_written ? errno : why;
    return is_written && is_closed;
}

/* Puts a content into a new file beside the file of this path, and then replaces that file by it. */
static int put_beside(const text *path, const text *content, const struct stat *like) {
    text beside = {NULL, 0, 0, 0};
    add_bytes(&beside, path->bytes, folder_length(path));
    add_text(&beside, ".trac_terminal-XXXXXX");
    add_bytes(&beside, "", 1);
    errno = ENOMEM;
    const int file = beside.is_short ? -1 : mkstemp((char *)beside.bytes);
    int is_put = 0;
    if (file >= 0) {
        take_permissions(file, like);
        is_put = write_through(file, content) && rename(path_in(&beside), path_in(path)) == 0;
    }
    const int why = errno;
    if (file >= 0 && !is_put)
        (void)unlink(path_in(&beside));
    free(beside.bytes);
    errno = why;
    return is_put;
}

/* Writes to a file that has no content to lose: a device, a pipe. Also appends to the file that the output goes to. */
static int write_behind(const char *name, const text *content) {
    const int file = open(name, O_WRONLY | O_APPEND | O_CLOEXEC);
    if (file < 0)
        return 0;
    const int is_written = write_all(file, content->bytes, content->length), why = errno;
    const int is_closed = close(file) == 0;
    errno = is_written ? errno : why;
    return is_written && is_closed;
}

static int is_same(const struct stat *a, const struct stat *b) {
    return a->st_dev == b->st_dev && a->st_ino == b->st_ino;
}

/* Whether a file may not be written to, by nobody or by the user who runs the program. */
static int is_protected(const char *name, const struct stat *there) {
    const int is_for_nobody = !(there->st_mode & 0222);
    if (is_for_nobody)
        errno = EACCES;
    return is_for_nobody || access(name, W_OK) != 0;
}

int replace_file(const char *name, const text *content) {
    struct stat there, output, found;
    text path = {NULL, 0, 0, 0};
    const int is_there = stat(name, &there) == 0;
    if (!is_there && errno != ENOENT)
        return 0;
    if (is_there && (!S_ISREG(there.st_mode) || (fstat(STDOUT_FILENO, &output) == 0 && is_same(&there, &output))))
        return write_behind(name, content);
    int is_put = !(is_there && is_protected(name, &there)) && follow(&path, name);
    if (is_put && is_there && (lstat(path_in(&path), &found) != 0 || !is_same(&there, &found))) {
        errno = ENOENT;
        is_put = 0;
    }
    is_put = is_put && put_beside(&path, content, is_there ? &there : NULL);
    const int why = errno;
    free(path.bytes);
    errno = why;
    return is_put;
}
