/* recording.c: the words of a recording, in a buffer that is refilled at a packet's edge. Bytes are
   taken as they come, so that a recording that is being made is shown as it grows. */
#define _POSIX_C_SOURCE 200809L
#include <errno.h>
#include <string.h>
#include <unistd.h>

#include "vrtshow.h"

/* Puts the bytes of little-endian words into the host's order. */
static void from_little(uint32_t *words, size_t n)
{
    const unsigned char *b = (const unsigned char *)words;
    size_t i;
    for (i = 0; i < n; i++, b += 4)
        words[i] = (uint32_t)b[3] << 24 | (uint32_t)b[2] << 16 | (uint32_t)b[1] << 8 | b[0];
}

/* Puts the bytes of big-endian words into the host's order. */
static void from_big(uint32_t *words, size_t n)
{
    const unsigned char *b = (const unsigned char *)words;
    size_t i;
    for (i = 0; i < n; i++, b += 4)
        words[i] = (uint32_t)b[0] << 24 | (uint32_t)b[1] << 16 | (uint32_t)b[2] << 8 | b[3];
}

/* Before more is waited for: how far it is, where it is shown, and what was printed so far. */
static void tell_progress(const recording *from)
{
    if (from->shown)
        fprintf(stderr, "\rvrtshow: %3d %% ", (int)(100 * from->bytes / from->size));
    if (from->live)
        fflush(stdout);
}

void refill(recording *from)
{
    size_t left = from->have - from->at, used;
    unsigned char *bytes = (unsigned char *)from->words;
    ssize_t got;
    if (from->at != 0)
        memmove(from->words, from->words + from->at, 4 * left + from->loose);
    from->before += from->at;
    from->at = 0;
    used = 4 * left + from->loose;
    tell_progress(from);
    do
        got = read(from->file, bytes + used, sizeof from->words - used);
    while (got < 0 && errno == EINTR);
    from->failed = got < 0 ? errno : 0;
    from->ended = got <= 0;
    used += got > 0 ? (size_t)got : 0;
    from->bytes += got > 0 ? (uint64_t)got : 0;
    if (!from->live && from->size < from->bytes)
        from->size = from->bytes; /* it has grown */
    from->have = used / 4;
    from->loose = used % 4;
    (from->little ? from_little : from_big)(from->words + left, from->have - left);
}

void seek_to(recording *from, uint64_t word)
{
    from->before = word;
    from->bytes = 4 * word;
    from->have = from->at = from->loose = 0;
    from->ended = 0;
    from->failed = 0;
    if (lseek(from->file, (off_t)(from->start + from->bytes), SEEK_SET) < 0)
        from->failed = errno;
}

size_t read_words(recording *from, uint64_t word, uint32_t *into, size_t n)
{
    unsigned char *bytes = (unsigned char *)into;
    size_t used = 0;
    ssize_t got = 1;
    while (used < 4 * n && got != 0) {
        got = pread(from->file, bytes + used, 4 * n - used,
                    (off_t)(from->start + 4 * word + used));
        if (got < 0 && errno != EINTR)
            break;
        used += got > 0 ? (size_t)got : 0;
    }
    from->failed = got < 0 ? errno : 0;
    (from->little ? from_little : from_big)(into, used / 4);
    return used / 4;
}

int tail_of(const recording *from)
{
    return (int)((from->live || from->ended ? from->bytes : from->size) % 4);
}
