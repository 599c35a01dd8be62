/* Writes the report of a Metamath database to standard output, as the program does:
 *
 *     cc example.c $(pkg-config --cflags --libs mmdepend) -o example
 *     ./example FILE [PARTS [ROOM [OUT]]]
 *
 * It is C11, since `aligned_alloc` is; for the header C99 is enough.
 *
 * PARTS are matrix, counts, usage, citations, proofs and statements, with commas between them, or
 * all: the first three.
 * ROOM and OUT are how many bytes of memory are lent at first; where they are too few, more are. The
 * status is that of the program: 0 for a report, 1 for a refusal, 2 to 4 for what failed. */
#include "mmdepend.h"

#include <stdio.h>
#include <stdlib.h>
#include <string.h>

enum { ALIGNMENT = 16, LEAST = 1 << 20 };

static const struct {
    const char *name;
    uint32_t bits;
} parts[] = {{"all", MMDEPEND_ALL},
             {"matrix", MMDEPEND_MATRIX},
             {"counts", MMDEPEND_COUNTS},
             {"usage", MMDEPEND_USAGE},
             {"citations", MMDEPEND_CITATIONS},
             {"proofs", MMDEPEND_PROOFS},
             {"statements", MMDEPEND_STATEMENTS}};

/* The bits of a part whose name has this length; 0 if there is none. */
static uint32_t bits_of(const char *name, size_t length) {
    for (size_t k = 0; k < sizeof parts / sizeof *parts; k++)
        if (strlen(parts[k].name) == length && !memcmp(parts[k].name, name, length))
            return parts[k].bits;
    return 0;
}

/* The bits of all parts that are named, with commas between them; 0 if one of them isn't any. */
static uint32_t sections_of(const char *names) {
    uint32_t sections = 0;
    for (;;) {
        size_t length = strcspn(names, ",");
        uint32_t bits = bits_of(names, length);
        if (!bits)
            return 0;
        sections |= bits;
        if (!names[length])
            return sections;
        names += length + 1;
    }
}

static int fail(int status, const char *message) {
    fprintf(stderr, "example: %s\n", message);
    return status;
}

/* The file's bytes, and their number in `size`; NULL if it can't be read or memory runs out. */
static uint8_t *read_file(const char *name, size_t *size) {
    FILE *file = fopen(name, "rb");
    if (!file)
        return NULL;
    uint8_t *bytes = NULL;
    if (!fseek(file, 0, SEEK_END)) {
        long length = ftell(file);
        rewind(file);
        *size = length < 0 ? 0 : (size_t)length;
        /* One byte more, so that memory for an empty file is memory, too. */
        bytes = length < 0 ? NULL : malloc(*size + 1);
        if (bytes && fread(bytes, 1, *size, file) != *size) {
            free(bytes);
            bytes = NULL;
        }
    }
    fclose(file);
    return bytes;
}

/* Rounds up to whole units. */
static size_t up_to_units(size_t bytes) { return (bytes + ALIGNMENT - 1) / ALIGNMENT * ALIGNMENT; }

/* Asks for the report with so much memory, and writes it. With too little it says so, and how much
 * output there is. */
static uint32_t try_report(const uint8_t *text, size_t size, uint32_t sections, size_t room_size,
                           size_t out_size, size_t *written) {
    void *lent = aligned_alloc(ALIGNMENT, room_size);
    uint8_t *out = malloc(out_size);
    uint32_t status = MMDEPEND_NO_MEMORY;
    *written = 0;
    if (lent && out) {
        struct mmdepend_room room = {lent, room_size / ALIGNMENT};
        status = mmdepend_report(&room, text, size, (const uint8_t *)"", 0, false, sections,
                                 MMDEPEND_DIGITS, false, false, out, out_size, written);
        if (status <= MMDEPEND_REFUSED && fwrite(out, 1, *written, stdout) != *written)
            exit(fail(3, "writing failed"));
    } else {
        exit(fail(4, "out of memory"));
    }
    free(out);
    free(lent);
    return status;
}

int main(int count, char **words) {
    if (count < 2)
        return fail(2, "usage: example FILE [PARTS [ROOM [OUT]]]");
    uint32_t sections = sections_of(count > 2 ? words[2] : "all");
    if (!sections)
        return fail(2, "there is no such part of a report");
    size_t size = 0;
    uint8_t *text = read_file(words[1], &size);
    if (!text)
        return fail(3, "the file can't be read");
    size_t room = up_to_units(count > 3 ? strtoull(words[3], NULL, 10) : 6 * size + LEAST);
    size_t out = count > 4 ? strtoull(words[4], NULL, 10) : 5 * size + LEAST;
    uint32_t status;
    size_t written;
    for (;;) {
        status = try_report(text, size, sections, room, out ? out : 1, &written);
        if (status == MMDEPEND_NO_MEMORY && room <= SIZE_MAX / 4)
            room = 2 * room + ALIGNMENT;
        else if (status == MMDEPEND_OUT_TOO_SHORT)
            out = written;
        else
            break;
    }
    free(text);
    if (fflush(stdout))
        return fail(3, "writing failed");
    return (int)status;
}
