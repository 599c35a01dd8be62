/* mmdepend as a library: which axioms each theorem of a Metamath database rests on, verified.
 *
 * This header is C99, and C++98.
 *
 * Each call works on the calling thread alone, in memory that the caller lends. It calls nothing of
 * the caller's, keeps nothing between calls, and may run in several threads at once, each with
 * memory of its own.
 *
 * What the library is proved to do holds for a caller who keeps these promises. Nothing of them is
 * checked.
 *
 * - Every pointer is not null, and is valid for as many bytes as its length says; with length 0 it
 *   may point anywhere else. No object that a pointer points into is longer than PTRDIFF_MAX bytes.
 *   A bool is 0 or 1.
 * - `room.at` is a multiple of 16, and the room has at least 16 * `room.units` bytes.
 * - The room, `out`, what `written` points to, and the struct mmdepend_room itself don't
 *   overlap one another, nor a text or the typecode. So the struct doesn't lie within the memory
 *   that it names.
 * - During the call nobody else reads or writes the room, the struct that names it, `out`, or what
 *   `written` points to: no other thread, no signal handler, no other process.
 * - The calling thread has 64 kB of stack left. A call was seen to take 25.8 kB, whatever the text.
 * - During the call the texts and the typecode don't change. A file that is mapped into memory and
 *   shared (MAP_SHARED) may change when somebody writes to it: copy it first.
 */
#ifndef MMDEPEND_H
#define MMDEPEND_H

#include <stdbool.h>
#include <stddef.h>
#include <stdint.h>

#ifdef __cplusplus
extern "C" {
#endif

/* Memory that is lent for a call. What is in it before and after the call is of no meaning. Six times
 * the text's length and a megabyte is enough for the databases that there are. No multiple of it is
 * enough for every text: with MMDEPEND_NO_MEMORY lend twice as much, and call again. */
struct mmdepend_room {
    void *at;     /* a multiple of 16 */
    size_t units; /* of 16 bytes each */
};

enum mmdepend_status {
    MMDEPEND_ACCEPTED = 0,      /* the text has no fault; its report was written */
    MMDEPEND_REFUSED = 1,       /* the text has a fault; the refusal of the first was written */
    MMDEPEND_NOT_UTF8 = 2,      /* the typecode isn't UTF-8 */
    MMDEPEND_OUT_TOO_SHORT = 3, /* `out` holds the first `out_len` bytes of the output; it has as
                                   many bytes as `written` says */
    MMDEPEND_NO_MEMORY = 4,     /* the room is too small; how much would do isn't known */
    MMDEPEND_NO_SUCH_REQUEST = 5 /* no section or an unknown one is named, or no form has the number */
};

/* The sections of a report, each a bit: MMDEPEND_MATRIX | MMDEPEND_CITATIONS asks for two. They are
 * written in this order. */
enum mmdepend_section {
    /* begin sections: made by `python3 -m tables`; change crates/mm_library instead */
    MMDEPEND_MATRIX = 1,
    MMDEPEND_COUNTS = 2,
    MMDEPEND_USAGE = 4,
    MMDEPEND_ALL = 7, /* matrix, counts, usage */
    MMDEPEND_CITATIONS = 8,
    MMDEPEND_STATEMENTS = 16,
    MMDEPEND_PROOFS = 32
    /* end sections */
};

enum mmdepend_form {
    MMDEPEND_DIGITS = 1, /* the matrix has one digit for each column */
    MMDEPEND_HEXADECIMAL = 2 /* one hexadecimal digit for every four columns */
};

/* Verifies every proof of a database and writes the report that is requested, or the refusal of the
 * first fault, to the front of `out`.
 *
 * room: comes back whole; only with MMDEPEND_NO_MEMORY it may come back with no unit, and then take
 *     it as given up.
 * text: the database, `text_len` bytes. More than 2,147,483,647 are refused (E00); no more of them
 *     is read than one byte beyond that limit.
 * only: the typecode of the axioms that are columns, and of the citations and statements that are
 *     listed, in UTF-8, if `has_only`; else all are.
 * sections: one or more bits of mmdepend_section.
 * form: a number of mmdepend_form.
 * essential: whether a theorem cites only what the logical part of its proof applies.
 * with_open: whether a theorem whose proof is `?` counts as an axiom.
 * out: where the output goes, `out_len` bytes; what is behind the output stays as it was.
 * written: gets the output's length in bytes with MMDEPEND_ACCEPTED, _REFUSED and _OUT_TOO_SHORT,
 *     and else 0.
 *
 * The result is one of mmdepend_status. With _NOT_UTF8 and _NO_SUCH_REQUEST `out` stays as it was;
 * with _NO_MEMORY what is in it is of no meaning. */
uint32_t mmdepend_report(struct mmdepend_room *room, const uint8_t *text, size_t text_len,
                         const uint8_t *only, size_t only_len, bool has_only,
                         uint32_t sections, uint32_t form, bool essential, bool with_open,
                         uint8_t *out, size_t out_len, size_t *written);

/* Verifies every proof of two databases, OLD and NEW, and writes what the one has and the other hasn't
 * to the front of `out`, as `mmdepend --against OLD NEW` does; or if one has a fault, the refusal of
 * the first that has, after the word `old` or `new`.
 *
 * old_text, new_text: the databases, each as `text` of mmdepend_report. The room is for both: six times the
 *     length of both and a megabyte is enough for the databases that there are.
 * only: the typecode of the assertions and of the axioms that are told, of both, if `has_only`.
 * room, essential, with_open, out, written: as with mmdepend_report.
 *
 * The result is one of mmdepend_status, and never _NO_SUCH_REQUEST: _ACCEPTED if neither database
 * has a fault, _REFUSED if one has. */
uint32_t mmdepend_against(struct mmdepend_room *room, const uint8_t *old_text, size_t old_text_len,
                          const uint8_t *new_text, size_t new_text_len, const uint8_t *only,
                          size_t only_len, bool has_only, bool essential, bool with_open,
                          uint8_t *out, size_t out_len, size_t *written);

/* Puts the version's text at the front of `out`, as much of it as `out_len` bytes hold, and returns
 * the length of the whole text in bytes. It isn't ended by a zero byte. */
size_t mmdepend_version(uint8_t *out, size_t out_len);

#ifdef __cplusplus
}
#endif

#endif
