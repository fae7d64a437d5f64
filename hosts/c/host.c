/*
 * A small host in C: builds page tables in a buffer, asks for walks of them, prints what each was
 * answered and which entries it marked, and checks that. Exits with 1 where anything differs.
 */
#include <inttypes.h>
#include <stdbool.h>
#include <stdio.h>
#include <string.h>

#include "aalbrett.h"

#define MEMORY_LENGTH 32768
#define ROOT 0x1000
#define ACCESSED 0x20
#define DIRTY 0x40

/* Registers and physical width, with a word on what is special in them. */
struct settings {
    const char *name;
    uint64_t cr0, cr3, cr4, efer, width;
};

struct question {
    uint64_t address, access, mode;
};

struct entry {
    uint64_t at, value;
};

/* A walk with its known answer; path has the entries that it marks, 0 where there is no more. */
struct exercise {
    struct settings settings;
    struct question question;
    struct aalbrett_answer known;
    uint64_t path[4];
};

/* Paging on with write protection and execute disable, 40 physical bits. */
#define PAGING {"", 0x80010001, ROOT, 0x20, 0x900, 40}
#define UNPROTECTED {" (WP = 0)", 0x80000001, ROOT, 0x20, 0x900, 40}
#define EXECUTABLE {" (NXE = 0)", 0x80010001, ROOT, 0x20, 0x100, 40}
#define WIDER {" (M = 41)", 0x80010001, ROOT, 0x20, 0x900, 41}
#define TOO_NARROW {" (M = 31)", 0x80010001, ROOT, 0x20, 0x900, 31}
#define NARROWEST {" (M = 32)", 0x80010001, ROOT, 0x20, 0x900, 32}
#define WIDEST {" (M = 52)", 0x80010001, ROOT, 0x20, 0x900, 52}
#define TOO_WIDE {" (M = 53)", 0x80010001, ROOT, 0x20, 0x900, 53}
#define LARGE_ROOT {" (CR3 = 2^M)", 0x80010001, 0x10000000000, 0x20, 0x900, 40}
#define UNPREPARED {" (PE = 0)", 0x80010000, ROOT, 0x20, 0x900, 40}
#define EXTENDED {" (CR4 bit 20)", 0x80010001, ROOT, 0x100020, 0x900, 40}
#define NO_PAGING {" (PG = 0)", 0, 0, 0, 0, 40}

#define READ AALBRETT_READ
#define WRITE AALBRETT_WRITE
#define FETCH AALBRETT_FETCH
#define SUPERVISOR AALBRETT_SUPERVISOR
#define USER AALBRETT_USER

static const struct entry tables[] = {
    {0x1000, 0x2007},     {0x1008, 0x2005},     {0x2000, 0x3007},
    {0x2008, 0x80000087}, {0x2018, 0x9007},     {0x3010, 0x4007},
    {0x3018, 0x800087},   {0x3020, 0x802087},   {0x3028, 0x801087},
    {0x4018, 0x5007},     {0x4030, 0x6005},     {0x4038, 0x8000000000007007},
    {0x4040, 0x10000008007},
};

static const struct exercise exercises[] = {
    {PAGING, {0x403abc, READ, USER}, {AALBRETT_DONE, 0x5abc, 1, 4, 0}, {0x1000, 0x2000, 0x3010, 0x4018}},
    {PAGING, {0x403abc, WRITE, USER}, {AALBRETT_DONE, 0x5abc, 1, 4, 0}, {0x1000, 0x2000, 0x3010, 0x4018}},
    {PAGING, {0x612345, READ, USER}, {AALBRETT_DONE, 0x812345, 2, 3, 0}, {0x1000, 0x2000, 0x3018}},
    {PAGING, {0x52345678, READ, USER}, {AALBRETT_DONE, 0x92345678, 3, 2, 0}, {0x1000, 0x2008}},
    {PAGING, {0x800000, READ, USER}, {AALBRETT_FAULT, 13, 2, 3, 0}, {0}},
    {PAGING, {0xa00010, READ, USER}, {AALBRETT_DONE, 0x800010, 2, 3, 4}, {0x1000, 0x2000, 0x3028}},
    {PAGING, {0x406000, WRITE, USER}, {AALBRETT_FAULT, 7, 1, 4, 0}, {0}},
    {PAGING, {0x406000, WRITE, SUPERVISOR}, {AALBRETT_FAULT, 3, 1, 4, 0}, {0}},
    {UNPROTECTED, {0x406000, WRITE, SUPERVISOR}, {AALBRETT_DONE, 0x6000, 1, 4, 0}, {0x1000, 0x2000, 0x3010, 0x4030}},
    {PAGING, {0x8080000000, WRITE, USER}, {AALBRETT_FAULT, 6, 3, 2, 0}, {0}},
    {PAGING, {0x407000, FETCH, USER}, {AALBRETT_FAULT, 21, 1, 4, 0}, {0}},
    {EXECUTABLE, {0x407000, READ, USER}, {AALBRETT_FAULT, 13, 1, 4, 0}, {0}},
    {PAGING, {0x408000, READ, SUPERVISOR}, {AALBRETT_FAULT, 9, 1, 4, 0}, {0}},
    {WIDER, {0x408000, READ, SUPERVISOR}, {AALBRETT_DONE, 0x10000008000, 1, 4, 0}, {0x1000, 0x2000, 0x3010, 0x4040}},
    {PAGING, {0xc0000000, READ, USER}, {AALBRETT_OUTSIDE, 0x9000, 2, 2, 0}, {0}},
    {PAGING, {0x0000800000000000, READ, USER}, {AALBRETT_FORM, 0, 0, 0, 0}, {0}},
    {PAGING, {0xffff800000000000, READ, SUPERVISOR}, {AALBRETT_FAULT, 0, 4, 1, 0}, {0}},
    {TOO_NARROW, {0x403abc, READ, USER}, {AALBRETT_WIDTH, 0, 0, 0, 0}, {0}},
    {NARROWEST, {0x403abc, READ, USER}, {AALBRETT_DONE, 0x5abc, 1, 4, 0}, {0x1000, 0x2000, 0x3010, 0x4018}},
    {WIDEST, {0x403abc, READ, USER}, {AALBRETT_DONE, 0x5abc, 1, 4, 0}, {0x1000, 0x2000, 0x3010, 0x4018}},
    {TOO_WIDE, {0x403abc, READ, USER}, {AALBRETT_WIDTH, 0, 0, 0, 0}, {0}},
    {LARGE_ROOT, {0x403abc, READ, USER}, {AALBRETT_ROOT, 0, 0, 0, 0}, {0}},
    {UNPREPARED, {0x403abc, READ, USER}, {AALBRETT_PAGING, 0, 0, 0, 0}, {0}},
    {EXTENDED, {0x403abc, READ, USER}, {AALBRETT_EXTENSION, 0, 0, 0, 0}, {0}},
    {PAGING, {0x403abc, 3, USER}, {AALBRETT_UNKNOWN, 0, 0, 0, 0}, {0}},
    {NO_PAGING, {0x403abc, READ, USER}, {AALBRETT_DONE, 0x403abc, 0, 0, 0}, {0}},
    {NO_PAGING, {0x100000000, READ, USER}, {AALBRETT_FORM, 0, 0, 0, 0}, {0}},
};

/* Lays the tables out in memory that is otherwise 0. */
static void lay_out(uint8_t *memory) {
    memset(memory, 0, MEMORY_LENGTH);
    for (size_t i = 0; i < sizeof tables / sizeof *tables; i++) {
        memcpy(memory + tables[i].at, &tables[i].value, sizeof tables[i].value);
    }
}

/* The number that a walk returns. */
static uint64_t walk(struct settings s, struct question q, uint8_t *memory, void *answer, size_t answer_length) {
    return aalbrett_walk(s.cr0, s.cr3, s.cr4, s.efer, s.width, q.address, q.access, q.mode, memory, MEMORY_LENGTH, answer, answer_length);
}

/* Prints a question and what is special in its settings. */
static void print_question(struct question q, struct settings s) {
    static const char *const accesses[] = {"read", "write", "fetch"};
    const char *access = q.access < 3 ? accesses[q.access] : "unknown access";
    printf("%s %s 0x%" PRIx64 "%s: ", q.mode == USER ? "user" : "supervisor", access, q.address, s.name);
}

/* Whether a physical address is one of guest memory: a host asks before it uses it. */
static bool inside(uint64_t address) {
    return address < MEMORY_LENGTH;
}

/* Prints an answer. */
static void print_answer(struct aalbrett_answer a) {
    static const char *const pages[] = {"paging off", "page of 4 KiB", "page of 2 MiB", "page of 1 GiB"};
    switch (a.answer) {
    case AALBRETT_DONE:
        printf("physical 0x%" PRIx64 "%s, %s", a.value, inside(a.value) ? "" : " (not in memory)",
               a.detail < 4 ? pages[a.detail] : "?");
        printf(", memory type index %" PRIu64, a.memory_type);
        break;
    case AALBRETT_OUTSIDE:
        printf("table entry 0x%" PRIx64 " outside memory, level %" PRIu64, a.value, a.detail);
        break;
    case AALBRETT_FAULT:
        printf("page fault, code %" PRIu64 ", level %" PRIu64, a.value, a.detail);
        break;
    case AALBRETT_UNKNOWN:
        printf("access or mode unknown");
        break;
    case AALBRETT_WIDTH:
        printf("width not served");
        break;
    case AALBRETT_ROOT:
        printf("root too large for the width");
        break;
    case AALBRETT_PAGING:
        printf("paging on without PE, PAE or LME");
        break;
    case AALBRETT_EXTENSION:
        printf("extension bit not served");
        break;
    case AALBRETT_FORM:
        printf("address form");
        break;
    default:
        printf("answer %" PRIu64, a.answer);
    }
    printf(", entries read: %" PRIu64, a.reads);
}

/* Prints the entries that a walk changed, and what they are now. */
static void print_changes(const uint8_t *before, const uint8_t *after) {
    const char *first = ";";
    for (size_t at = 0; at < MEMORY_LENGTH; at += 8) {
        if (memcmp(before + at, after + at, 8) != 0) {
            uint64_t entry;
            memcpy(&entry, after + at, sizeof entry);
            printf("%s 0x%zx becomes 0x%" PRIx64, first, at, entry);
            first = ",";
        }
    }
}

/* Makes the marks of an exercise in memory: Accessed on its path, and Dirty on the last entry of a write. */
static void mark(const struct exercise *e, uint8_t *memory) {
    for (size_t i = 0; i < 4 && e->path[i] != 0; i++) {
        bool last = i == 3 || e->path[i + 1] == 0;
        memory[e->path[i]] |= last && e->question.access == WRITE ? ACCESSED | DIRTY : ACCESSED;
    }
}

/* Runs one exercise on fresh tables; gives whether answer and memory are as known. */
static bool run(const struct exercise *e) {
    static uint8_t memory[MEMORY_LENGTH], known[MEMORY_LENGTH];
    struct aalbrett_answer answer;
    lay_out(memory);
    lay_out(known);
    uint64_t number = walk(e->settings, e->question, memory, &answer, sizeof answer);
    print_question(e->question, e->settings);
    print_answer(answer);
    print_changes(known, memory);
    mark(e, known);
    bool right = number == e->known.answer && memcmp(&answer, &e->known, sizeof answer) == 0
        && memcmp(memory, known, MEMORY_LENGTH) == 0;
    printf("%s\n", right ? "" : " -- WRONG");
    return right;
}

/* Gives whether a buffer of 39 bytes is refused with nothing written, and bytes past 40 stay. */
static bool run_buffers(void) {
    static uint8_t memory[MEMORY_LENGTH], known[MEMORY_LENGTH];
    uint8_t buffer[48], same[48];
    const struct exercise *e = &exercises[0];
    lay_out(memory);
    lay_out(known);
    memset(buffer, 0xa5, sizeof buffer);
    memset(same, 0xa5, sizeof same);
    bool refused = walk(e->settings, e->question, memory, buffer, 39) == AALBRETT_SHORT;
    bool untouched = memcmp(buffer, same, sizeof buffer) == 0 && memcmp(memory, known, MEMORY_LENGTH) == 0;
    bool served = walk(e->settings, e->question, memory, buffer, sizeof buffer) == AALBRETT_DONE;
    bool kept = memcmp(buffer, &e->known, 40) == 0 && memcmp(buffer + 40, same + 40, 8) == 0;
    bool right = refused && untouched && served && kept;
    printf("buffers of 39 and 48 bytes%s\n", right ? ": refused, and served" : " -- WRONG");
    return right;
}

int main(void) {
    bool right = run_buffers();
    for (size_t i = 0; i < sizeof exercises / sizeof *exercises; i++) {
        right &= run(&exercises[i]);
    }
    return right ? 0 : 1;
}
