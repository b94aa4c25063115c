/* store.c: files of words, big-endian. A file is written beside the old one, and takes its place
   when it is whole: a program that is stopped leaves the old one. */
#define _XOPEN_SOURCE 700
#include <errno.h>
#include <limits.h>
#include <stdlib.h>
#include <string.h>
#include <sys/stat.h>
#include <unistd.h>

#include "vrtshow.h"

/* The words of a file that is open: -2 where its bytes are no whole words, or more than so many. */
static long words_of(FILE *file, uint32_t *into, size_t most)
{
    unsigned char b[4];
    size_t n = 0, got = 4;
    while ((got = fread(b, 1, 4, file)) == 4 && n < most)
        into[n++] = (uint32_t)b[0] << 24 | (uint32_t)b[1] << 16 | (uint32_t)b[2] << 8 | b[3];
    return got == 0 ? (long)n : -2;
}

long load_words(const char *path, uint32_t *into, size_t most)
{
    struct stat there;
    int found = stat(path, &there) == 0;
    FILE *file;
    long n;
    if (!found && errno == ENOENT) {
        if (lstat(path, &there) == 0)
            wrong_file(path, "is a link to a file that is not there: give that file's name");
        return -1;
    }
    if (found && !S_ISREG(there.st_mode)) /* not opened: a pipe would wait for its other end */
        wrong_file(path, "is not a regular file");
    file = fopen(path, "rb");
    if (!file)
        trouble(path, "cannot be read");
    n = words_of(file, into, most);
    if (ferror(file))
        trouble(path, "cannot be read");
    fclose(file);
    return n;
}

/* The rights of a file that is there, or of one that is made. */
static mode_t rights_of(const char *path)
{
    struct stat there;
    mode_t masked;
    if (stat(path, &there) == 0)
        return there.st_mode & 0777;
    masked = umask(0);
    umask(masked);
    return 0666 & ~masked;
}

/* Writes words, and sees that they are on the disk: 1, or 0 where it cannot. */
static int put_words(FILE *file, const uint32_t *words, size_t n)
{
    size_t i;
    for (i = 0; i < n; i++) {
        putc((int)(words[i] >> 24), file);
        putc((int)(words[i] >> 16 & 255), file);
        putc((int)(words[i] >> 8 & 255), file);
        putc((int)(words[i] & 255), file);
    }
    return fflush(file) == 0 && !ferror(file) && fsync(fileno(file)) == 0;
}

/* Makes a file beside a path, whose name is the path's and some letters: NULL where it cannot. */
static FILE *open_beside(const char *path, char *beside, size_t room)
{
    FILE *file;
    int made;
    if (strlen(path) + 8 > room) {
        errno = ENAMETOOLONG;
        return NULL;
    }
    strcpy(beside, path);
    strcat(beside, ".XXXXXX");
    made = mkstemp(beside);
    file = made < 0 ? NULL : fdopen(made, "wb");
    if (file && fchmod(made, rights_of(path)) == 0)
        return file;
    if (made >= 0)
        unlink(beside);
    return NULL;
}

/* The file that a path leads to: a link stays one. */
static const char *real_of(const char *path, char *whole)
{
    return realpath(path, whole) ? whole : path;
}

void try_store(const char *path)
{
    char whole[PATH_MAX], beside[PATH_MAX + 8];
    FILE *file = open_beside(real_of(path, whole), beside, sizeof beside);
    if (!file)
        trouble(path, "cannot be written");
    fclose(file);
    unlink(beside);
}

void store_words(const char *path, const uint32_t *words, size_t n)
{
    char whole[PATH_MAX], beside[PATH_MAX + 8];
    const char *real = real_of(path, whole);
    FILE *file = open_beside(real, beside, sizeof beside);
    int good, why;
    if (!file)
        trouble(path, "cannot be written");
    good = put_words(file, words, n);
    why = errno;
    if (fclose(file) == 0 && good && rename(beside, real) == 0)
        return;
    why = good ? errno : why;
    unlink(beside);
    errno = why;
    trouble(path, "cannot be written");
}
