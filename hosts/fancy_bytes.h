/* fancy_bytes.h: bytes that need not be UTF-8, as a text that the calls of fancy.h search, for programs in C and C++. It has
 * its code inside, and calls the C library alone.
 *
 *     struct fancy_bytes read;
 *     if (!fancy_bytes_read(&read, bytes, length, FANCY_LOSSY))
 *         ..                                                      // out of memory
 *     options.text_is_utf8 = true;
 *     outcome = fancy_find(&program, read.text, read.text_length, &options, spans, 2);
 *     start = fancy_bytes_offset(&read, spans[0]), end = fancy_bytes_offset(&read, spans[1]);
 *     fancy_bytes_free(&read);
 *
 * Nothing is copied if the bytes are such a text already. Otherwise the text is a copy, of three times the bytes at most.
 * Reading takes time linear in the bytes; each position takes time logarithmic in them. No call changes what was read, so
 * threads may share it.
 */
#ifndef FANCY_BYTES_H
#define FANCY_BYTES_H

#include <stdbool.h>
#include <stddef.h>
#include <stdint.h>
#include <stdlib.h>
#include <string.h>

#ifdef __cplusplus
extern "C" {
#endif

/* How bytes are read. */
enum fancy_bytes_as {
    /* Each byte is the character with its number, U+0000 to U+00FF. Read the bytes of a pattern so too: then a byte in it
     * matches this byte, and so does its escape, \xE9. With `ascii` of the options only ASCII letters are letters. */
    FANCY_LATIN1,
    /* UTF-8. Each sequence that is none is one U+FFFD: as much of it as a character begins with, or else one byte. That is
     * what decoders by the WHATWG's standard do, Rust's from_utf8_lossy, and Python's "replace". */
    FANCY_LOSSY
};

/* What was read. All but the text is of this file. */
struct fancy_bytes {
    const char *text; /* what to search */
    size_t text_length;
    const char *bytes;
    size_t length;
    enum fancy_bytes_as as;
    char *own;      /* the text, if it is not the bytes */
    size_t *before; /* of a long text: how many bytes are before the first character from each 128th byte of the text on */
};

enum { FANCY_BYTES_STEP = 128 };

/* How many characters begin in a part of a text: its bytes that are not 10xxxxxx. */
static inline size_t fancy_bytes_beginnings(const char *text, size_t length)
{
    const uint64_t ones = 0x0101010101010101u;
    size_t at = 0, inner = 0;

    for (; at + 8 <= length; at += 8) {
        uint64_t word;
        memcpy(&word, text + at, 8);
        inner += (size_t)((((word >> 7) & (~word >> 6) & ones) * ones) >> 56);
    }
    for (; at < length; at++)
        inner += ((unsigned char)text[at] & 0xC0) == 0x80;
    return length - inner;
}

/* How many of the first bytes are ASCII. */
static inline size_t fancy_bytes_ascii(const char *bytes, size_t length)
{
    size_t at = 0;

    for (; at + 8 <= length; at += 8) {
        uint64_t word;
        memcpy(&word, bytes + at, 8);
        if (word & 0x8080808080808080u)
            break;
    }
    while (at < length && (unsigned char)bytes[at] < 0x80)
        at++;
    return at;
}

/* How many bytes the first sequence has, of at least one byte, and whether it is a character. */
static inline size_t fancy_bytes_sequence(const char *bytes, size_t length, bool *is_character)
{
    unsigned char first = (unsigned char)bytes[0];
    unsigned char low = first == 0xE0 ? 0xA0 : first == 0xF0 ? 0x90 : 0x80;
    unsigned char high = first == 0xED ? 0x9F : first == 0xF4 ? 0x8F : 0xBF;
    size_t whole = first < 0xC2 || first > 0xF4 ? 1 : first < 0xE0 ? 2 : first < 0xF0 ? 3 : 4, at = 1;

    for (; at < whole && at < length && (unsigned char)bytes[at] >= low && (unsigned char)bytes[at] <= high; at++)
        low = 0x80, high = 0xBF;
    *is_character = at == whole && (first < 0x80 || whole > 1);
    return at;
}

/* Reads the next sequence, and writes it as a character, of at most four bytes. Returns how many bytes were read; `written`
 * is how many were written. */
static inline size_t fancy_bytes_step(const char *bytes, size_t length, enum fancy_bytes_as as, char *into, size_t *written)
{
    unsigned char first = (unsigned char)bytes[0];
    bool is_character = false;
    size_t used = as == FANCY_LATIN1 ? 1 : fancy_bytes_sequence(bytes, length, &is_character);

    if (first < 0x80 || is_character) {
        *written = used;
        memcpy(into, bytes, used);
    } else if (as == FANCY_LATIN1) {
        *written = 2;
        into[0] = (char)(0xC0 | first >> 6);
        into[1] = (char)(0x80 | (first & 0x3F));
    } else {
        *written = 3;
        memcpy(into, "\xEF\xBF\xBD", 3);
    }
    return used;
}

/* How many bytes the text has, SIZE_MAX if that is too many, and whether it is the bytes. */
static inline size_t fancy_bytes_measure(const char *bytes, size_t length, enum fancy_bytes_as as, bool *is_text)
{
    size_t at = 0, size = 0, written;

    *is_text = true;
    while (at < length) {
        size_t ascii = fancy_bytes_ascii(bytes + at, length - at);
        at += ascii;
        size += ascii;
        if (at < length) {
            char character[4];
            size_t used = fancy_bytes_step(bytes + at, length - at, as, character, &written);
            *is_text = *is_text && used == written && memcmp(character, bytes + at, used) == 0;
            at += used;
            size += written;
        }
        if (size > SIZE_MAX / 2)
            return SIZE_MAX;
    }
    return size;
}

/* Writes the text, and where its steps begin if `before` is not null. */
static inline void fancy_bytes_write(struct fancy_bytes *read)
{
    size_t at = 0, size = 0, step = 0, written;

    while (at < read->length) {
        if (read->before != NULL && size >= step * FANCY_BYTES_STEP)
            read->before[step++] = at;
        at += fancy_bytes_step(read->bytes + at, read->length - at, read->as, read->own + size, &written);
        size += written;
    }
    for (; read->before != NULL && step <= size / FANCY_BYTES_STEP; step++)
        read->before[step] = at;
}

/* Frees what was read. The bytes stay. */
static inline void fancy_bytes_free(struct fancy_bytes *read)
{
    free(read->own);
    free(read->before);
    read->own = NULL;
    read->before = NULL;
}

/* Reads bytes, which have to stay where and as they are while what was read is used. False: out of memory, and there is
 * nothing to free. */
static inline bool fancy_bytes_read(struct fancy_bytes *read, const char *bytes, size_t length, enum fancy_bytes_as as)
{
    bool is_text;
    size_t size = fancy_bytes_measure(bytes, length, as, &is_text);

    read->text = read->bytes = bytes;
    read->text_length = read->length = length;
    read->as = as;
    read->own = NULL;
    read->before = NULL;
    if (is_text)
        return true;
    if (size == SIZE_MAX)
        return false;
    read->own = (char *)malloc(size);
    if (size >= 2 * FANCY_BYTES_STEP)
        read->before = (size_t *)malloc((size / FANCY_BYTES_STEP + 1) * sizeof *read->before);
    if (read->own == NULL || (size >= 2 * FANCY_BYTES_STEP && read->before == NULL)) {
        fancy_bytes_free(read);
        return false;
    }
    read->text = read->own;
    read->text_length = size;
    fancy_bytes_write(read);
    return true;
}

/* Moves past a character of the text, and past the bytes that it stands for. */
static inline void fancy_bytes_advance(const struct fancy_bytes *read, size_t *place, size_t *offset)
{
    unsigned char first = (unsigned char)read->text[*place];
    bool is_character;

    *place += first < 0x80 ? 1 : first < 0xE0 ? 2 : first < 0xF0 ? 3 : 4;
    *offset += read->as == FANCY_LATIN1
                   ? 1 : fancy_bytes_sequence(read->bytes + *offset, read->length - *offset, &is_character);
}

static inline bool fancy_bytes_is_inner(const struct fancy_bytes *read, size_t place)
{
    return place < read->text_length && ((unsigned char)read->text[place] & 0xC0) == 0x80;
}

/* Where a place of the text, at which a character begins or the text ends, is in the bytes. */
static inline size_t fancy_bytes_offset(const struct fancy_bytes *read, size_t at)
{
    size_t place = 0, offset = 0;

    /* no sequence gets shorter, so each has its length */
    if (read->text_length == read->length)
        return at;
    if (at >= read->text_length)
        return read->length;
    if (read->before != NULL) {
        place = at / FANCY_BYTES_STEP * FANCY_BYTES_STEP;
        offset = read->before[at / FANCY_BYTES_STEP];
    }
    if (read->as == FANCY_LATIN1)
        return offset + fancy_bytes_beginnings(read->text + place, at - place);
    while (fancy_bytes_is_inner(read, place))
        place++;
    while (place < at)
        fancy_bytes_advance(read, &place, &offset);
    return offset;
}

/* Where the character is in the text that begins at a byte. Of a byte inside a sequence it is the next character. */
static inline size_t fancy_bytes_place(const struct fancy_bytes *read, size_t at)
{
    size_t place = 0, offset = 0, low = 0, high = read->before == NULL ? 0 : read->text_length / FANCY_BYTES_STEP;

    if (at >= read->length)
        return read->text_length;
    if (read->text_length == read->length)
        place = offset = at;
    /* the last step from which on the first character begins at the byte or before */
    while (low < high) {
        size_t middle = (low + high + 1) / 2;
        if (read->before[middle] <= at)
            low = middle;
        else
            high = middle - 1;
    }
    if (read->before != NULL) {
        place = low * FANCY_BYTES_STEP;
        offset = read->before[low];
    }
    /* eight bytes at once, while no more characters begin in them than are left */
    while (read->as == FANCY_LATIN1 && place + 8 <= read->text_length) {
        size_t begun = fancy_bytes_beginnings(read->text + place, 8);
        if (begun > at - offset)
            break;
        place += 8;
        offset += begun;
    }
    while (fancy_bytes_is_inner(read, place))
        place++;
    while (offset < at)
        fancy_bytes_advance(read, &place, &offset);
    return place;
}

#ifdef __cplusplus
}
#endif

#endif
