/*
 * The first exercise on a machine that remembers: press, and the driver counts in its page; move the
 * page, press again, and the old page still counts; drop the page, press again, and the new one does.
 * Then one drop of a large page, and a page that is uncached. Prints each step and checks it. Exits with
 * 1 where anything differs.
 */
#include <inttypes.h>
#include <stdbool.h>
#include <stdio.h>
#include <string.h>

#include "aalbrett.h"

_Static_assert(sizeof(struct aalbrett_machine) == 1576, "the size of a machine");
_Static_assert(_Alignof(struct aalbrett_machine) == 8, "the alignment of a machine");
_Static_assert(offsetof(struct aalbrett_machine, settings.cr3) == 8, "CR3");
_Static_assert(offsetof(struct aalbrett_machine, settings.cr4) == 16, "CR4");
_Static_assert(offsetof(struct aalbrett_machine, settings.efer) == 24, "EFER");
_Static_assert(offsetof(struct aalbrett_machine, settings.width) == 32, "M");
_Static_assert(offsetof(struct aalbrett_machine, sets) == 40, "the sets");
_Static_assert(sizeof(struct aalbrett_place) == 24, "the size of a place");
_Static_assert(offsetof(struct aalbrett_place, frame) == 8, "a place's frame");
_Static_assert(offsetof(struct aalbrett_place, size) == 16, "a place's size");
_Static_assert(offsetof(struct aalbrett_place, flags) == 17, "a place's flags");
_Static_assert(offsetof(struct aalbrett_place, memory_type) == 18, "a place's memory type index");
_Static_assert(offsetof(struct aalbrett_place, number) == 20, "a place's space number");
_Static_assert(sizeof(struct aalbrett_card) == 32, "the size of a card");
_Static_assert(offsetof(struct aalbrett_card, address) == 8, "a card's address");
_Static_assert(offsetof(struct aalbrett_card, value) == 16, "a card's value");
_Static_assert(offsetof(struct aalbrett_card, width) == 24, "a card's M");
_Static_assert(sizeof(struct aalbrett_answer) == 40, "the size of an answer");
_Static_assert(offsetof(struct aalbrett_answer, memory_type) == 32, "an answer's memory type index");

#define MEMORY_LENGTH 32768
#define PAGE_LENGTH 4096

/* The driver's counter, its page's last table entry, and where the page lies before and after. */
#define COUNTER 0x403abc
#define ENTRY 0x4018
#define OLD_PAGE 0x5000
#define NEW_PAGE 0x6000

/* The emulator: a machine that remembers, and guest memory. */
static struct aalbrett_machine machine;
static uint8_t memory[MEMORY_LENGTH];

/* One card's step; its answer. */
static struct aalbrett_answer step(struct aalbrett_card card) {
    struct aalbrett_answer answer;
    aalbrett_step(&machine, memory, sizeof memory, (uint8_t *)&card, sizeof card, (uint8_t *)&answer, sizeof answer);
    return answer;
}

/* Stores a table entry. */
static void store(uint64_t at, uint64_t entry) {
    step((struct aalbrett_card){.kind = AALBRETT_CARD_STORE, .address = at, .value = entry});
}

/* The byte of guest memory at a physical address; NULL where that lies outside. */
static uint8_t *byte_at(uint64_t address) {
    return address < sizeof memory ? &memory[address] : NULL;
}

/* A press: the driver writes its counter where the machine says that it lies, if that is inside. Gives the answer. */
static struct aalbrett_answer press(void) {
    struct aalbrett_answer answer = step((struct aalbrett_card){
        .kind = AALBRETT_CARD_TRANSLATE, .access = AALBRETT_WRITE, .mode = AALBRETT_USER, .address = COUNTER});
    uint8_t *count = answer.answer == AALBRETT_DONE ? byte_at(answer.value) : NULL;
    if (count != NULL) {
        ++*count;
    }
    return answer;
}

/* Presses and prints; gives whether the press arrived where it is known to, with the counts known. */
static bool pressed(uint64_t page, uint64_t reads, uint8_t in_old, uint8_t in_new) {
    struct aalbrett_answer answer = press();
    uint64_t at = page + COUNTER % PAGE_LENGTH;
    uint8_t old_count = memory[OLD_PAGE + COUNTER % PAGE_LENGTH];
    uint8_t new_count = memory[NEW_PAGE + COUNTER % PAGE_LENGTH];
    bool right = answer.answer == AALBRETT_DONE && answer.value == at && answer.detail == 1 && answer.reads == reads
        && old_count == in_old && new_count == in_new;
    printf("press: arrived at 0x%" PRIx64 ", entries read: %" PRIu64 "; counted in the old page %u, in the new %u%s\n",
           answer.value, answer.reads, old_count, new_count, right ? "" : " -- WRONG");
    return right;
}

/* Prints what the machine remembers of the counter's page; gives whether it is the frame known, 0 for nothing. */
static bool remembered(uint64_t frame) {
    uint64_t tag = COUNTER / PAGE_LENGTH;
    const struct aalbrett_place *place = &machine.sets[tag % 16][0];
    uint8_t flags = AALBRETT_PLACE_MARKED | AALBRETT_PLACE_WRITE | AALBRETT_PLACE_USER | AALBRETT_PLACE_FETCH | AALBRETT_PLACE_DIRTY;
    bool held = (place->flags & AALBRETT_PLACE_MARKED) && place->tag == tag;
    bool right = held ? frame != 0 && place->frame == frame && place->size == 1 && place->flags == flags : frame == 0;
    if (held) {
        printf("remembered: page 0x%" PRIx64 " in frame 0x%" PRIx64 "%s\n", tag, place->frame, right ? "" : " -- WRONG");
    } else {
        printf("remembered: nothing of page 0x%" PRIx64 "%s\n", tag, right ? "" : " -- WRONG");
    }
    return right;
}

/* Whether the machine remembers the piece of an address. */
static bool holds(uint64_t address) {
    uint64_t tag = address / PAGE_LENGTH;
    for (size_t i = 0; i < 4; i++) {
        const struct aalbrett_place *place = &machine.sets[tag % 16][i];
        if ((place->flags & AALBRETT_PLACE_MARKED) && place->tag == tag) {
            return true;
        }
    }
    return false;
}

/* Reads at an address. */
static void read_at(uint64_t address) {
    step((struct aalbrett_card){
        .kind = AALBRETT_CARD_TRANSLATE, .access = AALBRETT_READ, .mode = AALBRETT_USER, .address = address});
}

/* Gives whether one drop takes all pieces of a 2 MiB page and leaves the next page. */
static bool large_page(void) {
    store(0x3018, 0x800087);
    store(0x3020, 0xa00087);
    read_at(0x600000);
    read_at(0x7ff000);
    read_at(0x800000);
    bool right = holds(0x600000) && holds(0x7ff000) && holds(0x800000);
    step((struct aalbrett_card){.kind = AALBRETT_CARD_PAGE, .address = 0x651234});
    right &= !holds(0x600000) && !holds(0x7ff000) && holds(0x800000);
    printf("one drop of a 2 MiB page%s\n", right ? ": all its pieces are gone, the next page stays" : " -- WRONG");
    return right;
}

/* Gives whether the display's page is told as uncached, by the walk and from what is remembered. */
static bool display(void) {
    const struct aalbrett_card read = {
        .kind = AALBRETT_CARD_TRANSLATE, .access = AALBRETT_READ, .mode = AALBRETT_USER, .address = 0x404000};
    store(0x4020, 0x7017);
    struct aalbrett_answer walked = step(read), held = step(read);
    bool right = walked.memory_type == 2 && walked.reads == 4 && held.memory_type == 2 && held.reads == 0;
    printf("the display's page has memory type index %" PRIu64 "%s\n", walked.memory_type, right ? ", PCD alone" : " -- WRONG");
    return right;
}

/* Gives whether short buffers, short cards and unserved settings are refused as they are known to be. */
static bool refusals(void) {
    struct aalbrett_machine other = {0};
    struct aalbrett_answer answer = {9, 9, 9, 9, 9};
    uint8_t card[32] = {AALBRETT_CARD_ALL};
    bool right = aalbrett_start(&other, 0, 0x1000, 0, 0, 31) == AALBRETT_WIDTH && other.settings.cr3 == 0
        && other.settings.width == 40;
    right &= aalbrett_start(&other, 0, 0x10000000000, 0, 0, 40) == AALBRETT_ROOT;
    right &= aalbrett_start(&other, 0x80000001, 0x1000, 0x20, 0, 40) == AALBRETT_PAGING;
    right &= aalbrett_start(&other, 0x80000001, 0x1000, 0x1020, 0x100, 40) == AALBRETT_EXTENSION && other.settings.cr3 == 0;
    right &= aalbrett_start(&other, 0x80000001, 0x1001, 0x20020, 0x100, 40) == AALBRETT_SPACES;
    right &= aalbrett_invpcid(&other, AALBRETT_INVPCID_ALL, 0, 0, (uint8_t *)&answer, 39) == AALBRETT_SHORT && answer.answer == 9;
    right &= aalbrett_step(&other, memory, sizeof memory, card, 32, (uint8_t *)&answer, 39) == AALBRETT_SHORT && answer.answer == 9;
    right &= aalbrett_step(&other, memory, sizeof memory, card, 31, (uint8_t *)&answer, sizeof answer) == AALBRETT_CARD_SHORT
        && answer.answer == AALBRETT_CARD_SHORT;
    printf("settings, a buffer and a card that are short%s\n", right ? ": refused" : " -- WRONG");
    return right;
}

int main(void) {
    bool right = refusals();
    right &= aalbrett_start(&machine, 0x80010001, 0x1000, 0x20, 0x900, 40) == AALBRETT_DONE && machine.settings.cr3 == 0x1000;
    store(0x1000, 0x2007);
    store(0x2000, 0x3007);
    store(0x3010, 0x4007);
    store(ENTRY, OLD_PAGE | 7);
    right &= remembered(0);
    right &= pressed(OLD_PAGE, 4, 1, 0);
    right &= remembered(OLD_PAGE / PAGE_LENGTH);
    printf("the page is moved: copied, and its table entry changed\n");
    memcpy(memory + NEW_PAGE, memory + OLD_PAGE, PAGE_LENGTH);
    store(ENTRY, NEW_PAGE | 7);
    right &= pressed(OLD_PAGE, 0, 2, 1);
    printf("the page is dropped\n");
    right &= step((struct aalbrett_card){.kind = AALBRETT_CARD_PAGE, .address = COUNTER}).answer == AALBRETT_DONE;
    right &= remembered(0);
    right &= pressed(NEW_PAGE, 4, 2, 2);
    right &= remembered(NEW_PAGE / PAGE_LENGTH);
    right &= large_page();
    right &= display();
    return right ? 0 : 1;
}
