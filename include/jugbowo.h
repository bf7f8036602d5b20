/* The style-sheet engine as a static library: libexports.a, built by `tools/build exports`. The two functions over
 * one slice of slots stand in another, libslot_exports.a, built by `tools/build slot_exports`; a program may link
 * both.
 *
 * A lent slice is a pointer and a length, in elements; with length 0 the pointer may be anything that is not null.
 * Slices lent to one call must not overlap unless all of them are const. Nothing else is asked: any numbers, any
 * bytes, any lengths.
 *
 * An answer stands in words at the front of `reply`, and the function returns 1. Where one of the slices for the
 * answer (`reply`; `numbers` and `images` of jugbowo_read; `contents` of jugbowo_open) is too short it returns 0 and
 * changes nothing: it had no place to reply, and gives neither an answer nor a refusal. jugbowo_nearest has no `reply`
 * and returns a length. Words of `reply` behind the answer are left alone. The first word says which answer it is, the
 * others what it carries, then 0 (but for the three functions that read one entry of a certificate):
 *
 *   JUGBOWO_REFUSED        number, place      a numbered refusal (docs/REFUSALS.md); all lent slices but `reply` are
 *                                             as they were
 *   JUGBOWO_SATISFIABLE    point, distance, filled     the nearest satisfying point, of several that are as near the
 *                                                      smallest as a number (jugbowo_search), and in how many variables
 *                                                      it differs from the target
 *   JUGBOWO_UNSATISFIABLE  filled             no point satisfies the clauses; the filled slots are a stable set
 *   JUGBOWO_UNKNOWN        bound, filled      no room; every satisfying point differs from the target in at least
 *                                             `bound` variables: the depth being processed plus one, at most 65,536
 *   JUGBOWO_PARSED                            the text is read
 *   JUGBOWO_WRITTEN        bytes              the certificate, or the text, takes the first so many bytes of the output
 *   JUGBOWO_OPENED                            the file's contents are in order
 *   JUGBOWO_ACCEPTED                          the certificate is accepted: no point satisfies the clauses
 *   JUGBOWO_CERTIFIED      filled, bytes      unsatisfiable, with its certificate in the first so many bytes of the
 *                                             output, checked
 *   JUGBOWO_UNCERTIFIED    filled, needed     unsatisfiable; the output has fewer than `needed` bytes and is as it was
 *
 * A formula is four numbers and the images of its permutations, `variables` bytes each, that of variable 1 first: of
 * `images` the first 1,024 bytes count, and 0 for those that are not lent. A clause is the same place of `positive`
 * and of `negative`, sets of variables: bit i is variable i + 1. A point is such a set too: the variables that are
 * yes.
 *
 * No function keeps anything between calls or uses memory but the stack. A call takes less of it than stands at its
 * function, all that it calls included: first on small inputs, that is texts and formulas of up to 256 clauses,
 * searches that fill up to 256 slots and certificates of up to 1,024 points, then on any. So it is never 2 MiB;
 * benches/run measures both. */
#ifndef JUGBOWO_H
#define JUGBOWO_H

#include <stddef.h>
#include <stdint.h>

#ifdef __cplusplus
extern "C" {
#endif

enum {
    JUGBOWO_REFUSED = 0,
    JUGBOWO_SATISFIABLE = 1,
    JUGBOWO_UNSATISFIABLE = 2,
    JUGBOWO_UNKNOWN = 3,
    JUGBOWO_PARSED = 4,
    JUGBOWO_WRITTEN = 5,
    JUGBOWO_OPENED = 6,
    JUGBOWO_ACCEPTED = 7,
    JUGBOWO_CERTIFIED = 8,
    JUGBOWO_UNCERTIFIED = 9
};

/* Bytes of output that always suffice for jugbowo_write_sheet: no text that it writes is longer. */
enum { JUGBOWO_SHEET_ROOM = 1846470 };

/* Reads a DIMACS text, up to its end or to a line behind the problem line that begins with a percent sign and otherwise
 * holds blanks; the bytes behind it count for refusal 1 alone. Takes the text; leaves the clauses in the first places
 * of `positive` and `negative`, the formula's four numbers (variables, clauses, target, permutations) in the first
 * four words of `numbers`, its images in the first 1,024 bytes of `images`, the answer in the first four words of
 * `reply`: refusals 1 to 9, or parsed. After a refusal clause slices, numbers and images are as they were. Stack:
 * 12 KiB, 96 KiB. */
uint32_t jugbowo_read(const uint8_t *text, size_t text_len,
                      uint64_t *positive, size_t positive_len,
                      uint64_t *negative, size_t negative_len,
                      uint64_t *numbers, size_t numbers_len,
                      uint8_t *images, size_t images_len,
                      uint64_t *reply, size_t reply_len);

/* Writes a formula and its clauses as a DIMACS text, which jugbowo_read reads back: the problem line, the wish line
 * (where the target is 0 too), an exchange line for each permutation, then a line for each clause: its variables
 * ascending, one that is listed both ways yes before no, and a closing 0. Numbers have no leading zeros, one blank
 * (byte 32) stands between words, and byte 10 behind each line. Takes a formula with exactly `clauses` places in both
 * clause slices; leaves the text at the front of `out` and the bytes behind it alone, and changes nothing else but
 * `reply`. Answers: refusals 10, 11, 19 (with the bytes needed) in this order, or written.
 *
 * Read back with clause slices of `clauses` places or more, a text of at most 1,048,576 bytes gives the same four
 * numbers and clauses and the same images, 0 behind those of the permutations; a longer one is written all the same,
 * and refused by 1 when it is read. Whether the permutations keep the clauses is not tested: there is no refusal 12.
 *
 * JUGBOWO_SHEET_ROOM bytes of output always suffice, and with so many or more the text is made in one pass; with fewer
 * it is measured first, which is a second. Stack: always 8 KiB. */
uint32_t jugbowo_write_sheet(uint32_t variables, uint32_t clauses, uint64_t target, uint32_t permutations,
                             const uint8_t *images, size_t images_len,
                             const uint64_t *positive, size_t positive_len,
                             const uint64_t *negative, size_t negative_len,
                             uint8_t *out, size_t out_len,
                             uint64_t *reply, size_t reply_len);

/* Searches from the target for the nearest satisfying point. Takes a formula with exactly `clauses` places in both
 * clause slices; fills slots from the front of the three slot slices, of which the shortest counts, at most 65,536.
 * Slots beyond those filled are left alone. Answers: refusals 10 to 13, satisfiable, unsatisfiable or unknown. Stack:
 * 24 KiB, 1 MiB.
 *
 * All unprocessed points of a depth are tested before one of them is processed. Of the nearest satisfying points in the
 * slots the one smallest as a number is handed back; the slots filled so far stay filled, those of its depth with
 * clause 0. Without permutations it is the smallest of all nearest satisfying points, and so the same in whichever
 * order the clauses stand. How many slots are filled, and with that whether there is room, depends on this order, and
 * with permutations the point does too. */
uint32_t jugbowo_search(uint32_t variables, uint32_t clauses, uint64_t target, uint32_t permutations,
                        const uint8_t *images, size_t images_len,
                        const uint64_t *positive, size_t positive_len,
                        const uint64_t *negative, size_t negative_len,
                        uint64_t *points, size_t points_len,
                        uint32_t *falsified, size_t falsified_len,
                        uint32_t *depths, size_t depths_len,
                        uint64_t *reply, size_t reply_len);

/* Writes the certificate of the first `filled` slots. Takes the same formula and clauses and the slots as a search
 * left them; leaves the certificate at the front of `out` and the bytes behind it alone. Answers: refusals 10, 11,
 * 12, 16, 17, 19 (with the bytes needed), or written. Stack: 24 KiB, 1 MiB. */
uint32_t jugbowo_write(uint32_t variables, uint32_t clauses, uint64_t target, uint32_t permutations,
                       const uint8_t *images, size_t images_len,
                       const uint64_t *positive, size_t positive_len,
                       const uint64_t *negative, size_t negative_len,
                       const uint64_t *points, size_t points_len,
                       const uint32_t *falsified, size_t falsified_len,
                       const uint32_t *depths, size_t depths_len,
                       uint32_t filled,
                       uint8_t *out, size_t out_len,
                       uint64_t *reply, size_t reply_len);

/* A slot: a visited point, the number of the clause that it falsifies, from 1, or 0 while it is unprocessed, and its
 * depth. 16 bytes, no gaps. */
struct jugbowo_slot {
    uint64_t point;
    uint32_t falsified;
    uint32_t depth;
};

/* The search with its slots in one slice of structs instead of three slices: the same answers, and the same slots. It
 * works on arrays of its own and copies back the slots filled. Stack: 24 KiB, 2 MiB. */
uint32_t jugbowo_search_slots(uint32_t variables, uint32_t clauses, uint64_t target, uint32_t permutations,
                              const uint8_t *images, size_t images_len,
                              const uint64_t *positive, size_t positive_len,
                              const uint64_t *negative, size_t negative_len,
                              struct jugbowo_slot *slots, size_t slots_len,
                              uint64_t *reply, size_t reply_len);

/* The writer from such a slice: the same answers, and the same certificate. Stack: 40 KiB, 2 MiB. */
uint32_t jugbowo_write_slots(uint32_t variables, uint32_t clauses, uint64_t target, uint32_t permutations,
                             const uint8_t *images, size_t images_len,
                             const uint64_t *positive, size_t positive_len,
                             const uint64_t *negative, size_t negative_len,
                             const struct jugbowo_slot *slots, size_t slots_len,
                             uint32_t filled,
                             uint8_t *out, size_t out_len,
                             uint64_t *reply, size_t reply_len);

/* Checks a certificate for the clauses of a formula, whose target and permutations it does not look at. Changes
 * nothing but `reply`. Answers: refusals 10, 14, 15, 11, 12, 16, 17, 18 in this order, or accepted. Stack: 32 KiB,
 * 2 MiB. */
uint32_t jugbowo_check(uint32_t variables, uint32_t clauses, uint64_t target, uint32_t permutations,
                       const uint8_t *images, size_t images_len,
                       const uint64_t *positive, size_t positive_len,
                       const uint64_t *negative, size_t negative_len,
                       const uint8_t *file, size_t file_len,
                       uint64_t *reply, size_t reply_len);

/* Reads a certificate's contents without checking it: the eight numbers of its first 32 bytes, in their order, to the
 * first eight words of `contents`, which a refusal leaves alone. Answers: refusal 14, or opened. Stack:
 * always 4 KiB. */
uint32_t jugbowo_open(const uint8_t *file, size_t file_len,
                      uint64_t *contents, size_t contents_len,
                      uint64_t *reply, size_t reply_len);

/* One entry of a body of a certificate, which is lent as its own part of the file: where permutation j, of n bytes
 * each, sends variable i + 1; point i; clause number i. Indices count from 0. Two words of `reply`: 1 and the value,
 * or 0 and 0 where the entry lies outside the body. Stack: always 4 KiB. */
uint32_t jugbowo_image_at(const uint8_t *body, size_t body_len, size_t n, size_t j, size_t i, uint64_t *reply,
                          size_t reply_len);
uint32_t jugbowo_point_at(const uint8_t *body, size_t body_len, size_t i, uint64_t *reply, size_t reply_len);
uint32_t jugbowo_number_at(const uint8_t *body, size_t body_len, size_t i, uint64_t *reply, size_t reply_len);

/* Reads a text, searches and, where no point satisfies the clauses, writes and checks the certificate. Takes the
 * text; fills slots as the search does, and leaves a certificate at the front of `out`. Answers: refusals 1 to 3 and
 * 5 to 9 of the reader, 12 and 13 of the search, satisfiable, unknown, certified or uncertified. Stack: 40 KiB,
 * 2 MiB. */
uint32_t jugbowo_solve(const uint8_t *text, size_t text_len,
                       uint64_t *points, size_t points_len,
                       uint32_t *falsified, size_t falsified_len,
                       uint32_t *depths, size_t depths_len,
                       uint8_t *out, size_t out_len,
                       uint64_t *reply, size_t reply_len);

/* What the program `nearest` prints for a text, to the front of `out`; the bytes behind it are left alone. Returns
 * how many bytes that is. A result greater than `out_len` says that they did not fit: `out` is as it was, and a call
 * with so many bytes will do. Stack: 32 KiB, 320 KiB. */
size_t jugbowo_nearest(const uint8_t *text, size_t text_len, uint8_t *out, size_t out_len);

#ifdef __cplusplus
}
#endif

#endif
