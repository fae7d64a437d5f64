/*
 * What the newer board does, on a machine that remembers: two tasks with space numbers, and INVPCID.
 * Prints each lesson and checks it. Exits with 1 where anything differs.
 */
#include <inttypes.h>
#include <stdbool.h>
#include <stdio.h>
#include <string.h>

#include "aalbrett.h"

#define DROPS_NOTHING ((uint64_t)1 << 63)

static struct aalbrett_machine machine;
static uint8_t memory[32768];

/* Starts the machine on memory that is all 0; gives whether that was done. */
static bool start(uint64_t cr3, uint64_t cr4) {
    memset(memory, 0, sizeof memory);
    return aalbrett_start(&machine, 0x80010001, cr3, cr4, 0x900, 40) == AALBRETT_DONE;
}

/* One card's step; its answer. */
static struct aalbrett_answer step(struct aalbrett_card card) {
    struct aalbrett_answer answer;
    aalbrett_step(&machine, memory, sizeof memory, (uint8_t *)&card, sizeof card, (uint8_t *)&answer, sizeof answer);
    return answer;
}

/* Stores a table entry. */
static void store(uint64_t at, uint64_t entry) {
    step((struct aalbrett_card){.kind = AALBRETT_CARD_STORE, .address = at, .value = entry});
}

/* Gives whether a user read is answered with a physical address and so many entries read. */
static bool arrives(uint64_t address, uint64_t physical, uint64_t reads) {
    struct aalbrett_answer answer = step((struct aalbrett_card){
        .kind = AALBRETT_CARD_TRANSLATE, .access = AALBRETT_READ, .mode = AALBRETT_USER, .address = address});
    return answer.answer == AALBRETT_DONE && answer.value == physical && answer.reads == reads;
}

/* Loads a root; gives whether that was done. */
static bool load_root(uint64_t value) {
    return step((struct aalbrett_card){.kind = AALBRETT_CARD_ROOT, .value = value}).answer == AALBRETT_DONE;
}

/* The number that INVPCID is answered. */
static uint64_t invpcid(uint64_t kind, uint64_t number, uint64_t address) {
    struct aalbrett_answer answer;
    return aalbrett_invpcid(&machine, kind, number, address, (uint8_t *)&answer, sizeof answer);
}

/* Prints a lesson; gives whether all of it was right. */
static bool lesson(const char *text, bool right) {
    printf("%s%s\n", text, right ? "" : " -- WRONG");
    return right;
}

/* Two tasks with tables and a space number each: 1 has a page of 4 KiB, 2 one of 1 GiB at the same address. */
static bool start_tasks(void) {
    bool right = start(0x1000, 0x20020);
    store(0x1000, 0x2007);
    store(0x2000, 0x3007);
    store(0x3010, 0x4007);
    store(0x4018, 0x5007);
    store(0x6000, 0x7007);
    store(0x7000, 0x40000087);
    right &= load_root(0x1001) && arrives(0x403010, 0x5010, 4);
    right &= load_root(0x6002) && arrives(0x403010, 0x40403010, 2);
    return right;
}

/* Gives whether nothing is lost on the way back, and a number is reused rightly only after a drop. */
static bool task_switch(void) {
    bool right = start_tasks();
    right &= load_root(DROPS_NOTHING | 0x1001) && machine.settings.cr3 == 0x1001 && arrives(0x403010, 0x5010, 0);
    right &= load_root(DROPS_NOTHING | 0x6002) && arrives(0x403010, 0x40403010, 0);
    right &= lesson("two tasks: nothing is lost on the way back", right);
    right &= load_root(DROPS_NOTHING | 0x6001) && arrives(0x403010, 0x5010, 0);
    right &= load_root(0x6001) && arrives(0x403010, 0x40403010, 2);
    return lesson("a number reused without a drop shows the other task's page", right);
}

/* Gives whether INVPCID drops what its kinds name, and no more. */
static bool drop_by_number(void) {
    bool right = start_tasks();
    right &= invpcid(AALBRETT_INVPCID_ADDRESS, 1, 0x403abc) == AALBRETT_DONE && arrives(0x403010, 0x40403010, 0);
    right &= load_root(DROPS_NOTHING | 0x1001) && arrives(0x403010, 0x5010, 4);
    right &= invpcid(AALBRETT_INVPCID_NUMBER, 2, 0) == AALBRETT_DONE && arrives(0x403010, 0x5010, 0);
    right &= invpcid(AALBRETT_INVPCID_LOCAL, 0, 0) == AALBRETT_DONE && arrives(0x403010, 0x5010, 4);
    right &= invpcid(AALBRETT_INVPCID_ALL, 0, 0) == AALBRETT_DONE && arrives(0x403010, 0x5010, 4);
    right &= invpcid(4, 4096, 0) == AALBRETT_UNKNOWN;
    right &= invpcid(AALBRETT_INVPCID_ADDRESS, 4096, 0x800000000000) == AALBRETT_SPACE_NUMBER;
    right &= invpcid(AALBRETT_INVPCID_ADDRESS, 1, 0x800000000000) == AALBRETT_FORM;
    return lesson("INVPCID drops by address, by number, all but G, and all", right);
}

int main(void) {
    bool right = task_switch();
    right &= drop_by_number();
    return right ? 0 : 1;
}
