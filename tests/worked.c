/* Document 01's worked cases through the C header: texts solved in one call, the certificate of case A with its
 * exchange byte for byte, texts read and written, and what the program prints. Prints a line for each that is not
 * answered as expected and a count; exit status 1 if there is one. */
#include "../include/jugbowo.h"
#include <stdio.h>
#include <string.h>

static int passed, failed;

static void expect(const char *name, int fact) {
    if (fact) {
        passed++;
    } else {
        failed++;
        printf("%s: not as expected\n", name);
    }
}

/* Solves a text with so many slots; whether the answer is these words. */
static void solved(const char *name, const char *text, size_t slots, const uint64_t wanted[4]) {
    static uint64_t points[4096];
    static uint32_t falsified[4096], depths[4096];
    static uint8_t out[65536];
    uint64_t reply[4];
    uint32_t returned = jugbowo_solve((const uint8_t *)text, strlen(text), points, slots, falsified, slots, depths,
                                      slots, out, sizeof out, reply, 4);
    expect(name, returned == 1 && memcmp(reply, wanted, sizeof reply) == 0);
}

#define CLAUSES_A "1 2 0\n-1 2 0\n1 -2 0\n-1 -2 0\n"
#define TEXT_B "p cnf 3 2\nc wish 000\n1 2 0\n-1 3 0\n"

static void answers(void) {
    const uint64_t a[] = {JUGBOWO_CERTIFIED, 4, 80, 0}, swapped[] = {JUGBOWO_CERTIFIED, 3, 70, 0},
                   room[] = {JUGBOWO_UNKNOWN, 2, 3, 0}, less[] = {JUGBOWO_UNKNOWN, 1, 2, 0};
    const uint64_t b[] = {JUGBOWO_SATISFIABLE, 2, 1, 3}, wish[] = {JUGBOWO_SATISFIABLE, 0, 0, 1},
                   empty[] = {JUGBOWO_CERTIFIED, 1, 44, 0};
    const uint64_t smallest[] = {JUGBOWO_SATISFIABLE, 1, 1, 3};
    const uint64_t large[] = {JUGBOWO_REFUSED, 3, 0, 0}, none[] = {JUGBOWO_REFUSED, 13, 0, 0};
    solved("A", "p cnf 2 4\n" CLAUSES_A, 4096, a);
    solved("A with exchange 2 1", "p cnf 2 4\nc exch 2 1\n" CLAUSES_A, 4096, swapped);
    solved("A, P = 3", "p cnf 2 4\n" CLAUSES_A, 3, room);
    solved("A, P = 4", "p cnf 2 4\n" CLAUSES_A, 4, a);
    solved("B", TEXT_B, 4096, b);
    solved("B, P = 3", TEXT_B, 3, b);
    solved("B, P = 2", TEXT_B, 2, less);
    solved("two as near", "p cnf 2 1\nc wish 11\n-1 -2 0\n", 3, smallest);
    solved("C = 0", "p cnf 1 0\n", 1, wish);
    solved("one empty rule", "p cnf 1 1\n0\n", 1, empty);
    solved("rule (1 -1)", "p cnf 1 1\n1 -1 0\n", 1, wish);
    solved("V 65", "p cnf 65 0\n", 1, large);
    solved("no slot", "p cnf 1 0\n", 0, none);
}

/* Case A with exchange 2 1, step by step: 00 10 11, rules 1 2 4, depths 0 1 2; bodies at 32, 34, 58. */
static void steps(void) {
    const uint8_t images[] = {2, 1};
    const uint64_t positive[] = {3, 2, 1, 0}, negative[] = {0, 1, 2, 3};
    const uint8_t file[70] = {2, 0, 0, 0, 4,  0, 0, 0, 1, 0, 0, 0, 32, 0, 0, 0, 3, 0, 0, 0, 34, 0, 0, 0,
                              3, 0, 0, 0, 58, 0, 0, 0, 2, 1, 0, 0, 0,  0, 0, 0, 0, 0, 1, 0, 0,  0, 0, 0,
                              0, 0, 3, 0, 0,  0, 0, 0, 0, 0, 1, 0, 0,  0, 2, 0, 0, 0, 4, 0, 0,  0};
    uint64_t points[5] = {9, 9, 9, 9, 9}, reply[4], contents[8];
    uint32_t falsified[5] = {9, 9, 9, 9, 9}, depths[5] = {9, 9, 9, 9, 9};
    uint8_t out[72];
    memset(out, 9, sizeof out);
    expect("search", jugbowo_search(2, 4, 0, 1, images, 2, positive, 4, negative, 4, points, 5, falsified, 5, depths, 5,
                                    reply, 4) == 1 &&
                         reply[0] == JUGBOWO_UNSATISFIABLE && reply[1] == 3);
    expect("slots", points[0] == 0 && points[1] == 1 && points[2] == 3 && points[3] == 9 && falsified[2] == 4 &&
                        depths[2] == 2 && depths[3] == 9);
    expect("write", jugbowo_write(2, 4, 0, 1, images, 2, positive, 4, negative, 4, points, 5, falsified, 5, depths, 5,
                                  3, out, 72, reply, 4) == 1 &&
                        reply[0] == JUGBOWO_WRITTEN && reply[1] == 70);
    expect("bytes", memcmp(out, file, 70) == 0 && out[70] == 9 && out[71] == 9);
    expect("open", jugbowo_open(file, 70, contents, 8, reply, 4) == 1 && reply[0] == JUGBOWO_OPENED &&
                       contents[3] == 32 && contents[5] == 34 && contents[7] == 58);
    expect("check", jugbowo_check(2, 4, 0, 0, images, 0, positive, 4, negative, 4, file, 70, reply, 4) == 1 &&
                        reply[0] == JUGBOWO_ACCEPTED);
    expect("no place to reply",
           jugbowo_check(2, 4, 0, 0, images, 0, positive, 4, negative, 4, file, 70, reply, 3) == 0);
}

/* The same case with its slots in one slice of structs, and case B. */
static void structs(void) {
    const uint8_t images[] = {2, 1};
    const uint64_t positive[] = {3, 2, 1, 0}, negative[] = {0, 1, 2, 3}, yes[] = {3, 4}, no[] = {0, 1};
    struct jugbowo_slot slots[5];
    uint64_t reply[4];
    uint8_t out[72];
    memset(slots, 9, sizeof slots);
    memset(out, 9, sizeof out);
    expect("size of a slot", sizeof(struct jugbowo_slot) == 16);
    expect("search_slots",
           jugbowo_search_slots(2, 4, 0, 1, images, 2, positive, 4, negative, 4, slots, 5, reply, 4) == 1 &&
               reply[0] == JUGBOWO_UNSATISFIABLE && reply[1] == 3);
    expect("slot",
           slots[2].point == 3 && slots[2].falsified == 4 && slots[2].depth == 2 && slots[3].depth == 0x09090909);
    expect("write_slots",
           jugbowo_write_slots(2, 4, 0, 1, images, 2, positive, 4, negative, 4, slots, 5, 3, out, 72, reply, 4) == 1 &&
               reply[0] == JUGBOWO_WRITTEN && reply[1] == 70 && out[66] == 4 && out[70] == 9);
    expect("check of its output",
           jugbowo_check(2, 4, 0, 0, images, 0, positive, 4, negative, 4, out, 70, reply, 4) == 1 &&
               reply[0] == JUGBOWO_ACCEPTED);
    expect("B in slots", jugbowo_search_slots(3, 2, 0, 0, images, 0, yes, 2, no, 2, slots, 5, reply, 4) == 1 &&
                             reply[0] == JUGBOWO_SATISFIABLE && reply[1] == 2 && reply[2] == 1 && reply[3] == 3);
    expect("no place to reply in slots",
           jugbowo_search_slots(3, 2, 0, 0, images, 0, yes, 2, no, 2, slots, 5, reply, 3) == 0);
}

/* Texts read: case B, and one that is refused, which changes `reply` alone. */
static void texts(void) {
    const uint64_t read[] = {JUGBOWO_PARSED, 0, 0, 0}, refused[] = {JUGBOWO_REFUSED, 6, 10, 0};
    const uint64_t nines[] = {9, 9, 9, 9}, b[] = {3, 2, 0, 0};
    const char *wrong = "p cnf 2 1\n-3 0\n";
    uint64_t positive[4], negative[4], numbers[4], reply[4];
    uint8_t images[1024];
    memcpy(positive, nines, sizeof nines);
    memcpy(negative, nines, sizeof nines);
    memcpy(numbers, nines, sizeof nines);
    memset(images, 9, sizeof images);
    expect("a refused text", jugbowo_read((const uint8_t *)wrong, strlen(wrong), positive, 4, negative, 4, numbers, 4,
                                          images, 1024, reply, 4) == 1 &&
                                 memcmp(reply, refused, sizeof reply) == 0);
    expect("slices after a refusal", memcmp(positive, nines, sizeof nines) == 0 &&
                                         memcmp(negative, nines, sizeof nines) == 0 &&
                                         memcmp(numbers, nines, sizeof nines) == 0 && images[0] == 9 &&
                                         memcmp(images, images + 1, sizeof images - 1) == 0);
    expect("B read", jugbowo_read((const uint8_t *)TEXT_B, strlen(TEXT_B), positive, 4, negative, 4, numbers, 4, images,
                                  1024, reply, 4) == 1 &&
                         memcmp(reply, read, sizeof reply) == 0);
    expect("B's clauses", positive[0] == 3 && positive[1] == 4 && positive[2] == 9 && negative[0] == 0 &&
                              negative[1] == 1 && negative[2] == 9);
    expect("B's formula",
           memcmp(numbers, b, sizeof b) == 0 && images[0] == 0 && memcmp(images, images + 1, sizeof images - 1) == 0);
}

/* Case A with exchange 2 1 and another wish, written as a text: exactly fitting, one byte short, with the room that
 * always suffices, and with a wish that has a bit above n. */
static void sheets(void) {
    static uint8_t room[JUGBOWO_SHEET_ROOM];
    const char *wanted = "p cnf 2 4\nc wish 01\nc exch 2 1\n" CLAUSES_A;
    const size_t size = strlen(wanted);
    const uint8_t images[] = {2, 1};
    const uint64_t positive[] = {3, 2, 1, 0}, negative[] = {0, 1, 2, 3};
    const uint64_t written[] = {JUGBOWO_WRITTEN, size, 0, 0}, small[] = {JUGBOWO_REFUSED, 19, size, 0},
                   wrong[] = {JUGBOWO_REFUSED, 10, 0, 0};
    uint64_t reply[4];
    uint8_t out[64], before[64];
    memset(room, 9, sizeof room);
    memset(out, 9, sizeof out);
    memset(before, 9, sizeof before);
    expect("a sheet, one byte short",
           jugbowo_write_sheet(2, 4, 2, 1, images, 2, positive, 4, negative, 4, out, size - 1, reply, 4) == 1 &&
               memcmp(reply, small, sizeof reply) == 0 && memcmp(out, before, sizeof out) == 0);
    expect("a sheet refused by 10",
           jugbowo_write_sheet(2, 4, 4, 1, images, 2, positive, 4, negative, 4, out, sizeof out, reply, 4) == 1 &&
               memcmp(reply, wrong, sizeof reply) == 0 && memcmp(out, before, sizeof out) == 0);
    expect("a sheet, no place to reply",
           jugbowo_write_sheet(2, 4, 2, 1, images, 2, positive, 4, negative, 4, out, sizeof out, reply, 3) == 0 &&
               memcmp(out, before, sizeof out) == 0);
    expect("a sheet", jugbowo_write_sheet(2, 4, 2, 1, images, 2, positive, 4, negative, 4, out, size, reply, 4) == 1 &&
                          memcmp(reply, written, sizeof reply) == 0 && memcmp(out, wanted, size) == 0 &&
                          memcmp(out + size, before, sizeof out - size) == 0);
    expect("a sheet, with room",
           jugbowo_write_sheet(2, 4, 2, 1, images, 2, positive, 4, negative, 4, room, sizeof room, reply, 4) == 1 &&
               memcmp(reply, written, sizeof reply) == 0 && memcmp(room, wanted, size) == 0 && room[size] == 9 &&
               memcmp(room + size, room + size + 1, sizeof room - size - 1) == 0);
}

/* What the program prints for case B: with no room, one byte short, and exactly fitting. */
static void printed(void) {
    const char *wanted = "s SATISFIABLE\nv -1 2 -3 0\nc changes 1 slots 3\n";
    const uint8_t *text = (const uint8_t *)TEXT_B;
    const size_t size = strlen(wanted), length = strlen(TEXT_B);
    uint8_t out[64], before[64];
    memset(out, 9, sizeof out);
    memset(before, 9, sizeof before);
    expect("printed, no room", jugbowo_nearest(text, length, out, 0) == size && memcmp(out, before, sizeof out) == 0);
    expect("printed, one byte short",
           jugbowo_nearest(text, length, out, size - 1) == size && memcmp(out, before, sizeof out) == 0);
    expect("printed", jugbowo_nearest(text, length, out, size) == size && memcmp(out, wanted, size) == 0 &&
                          memcmp(out + size, before, sizeof out - size) == 0);
}

int main(void) {
    answers();
    steps();
    structs();
    texts();
    sheets();
    printed();
    printf("worked cases in C: %d passed, %d failed\n", passed, failed);
    return failed > 0;
}
