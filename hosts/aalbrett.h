/*
 * Aalbrett for a host in C: the paging part of an x86-64 board emulator.
 *
 * Link with the archive libaalbrett.a alone; it calls nothing of the host and of the C library only
 * memcpy and memset, keeps nothing of its own between calls, and allocates nothing:
 *
 *     tools/staticlib aalbrett                    writes target/staticlib/libaalbrett.a
 *     cc -I hosts host.c target/staticlib/libaalbrett.a -o host
 *
 * The archive is for x86-64, System V calling convention. Calls from several threads at once are
 * fine as long as no two of them lend the same bytes.
 *
 * aalbrett_walk translates with nothing remembered. An emulator that remembers, as a processor does,
 * owns a struct aalbrett_machine: aalbrett_start starts it, aalbrett_step makes one call on it, and
 * aalbrett_invpcid drops by space number.
 */
#ifndef AALBRETT_H
#define AALBRETT_H

#include <stddef.h>
#include <stdint.h>

#ifdef __cplusplus
extern "C" {
#endif

/* How memory is asked, and by whom. Any other number is answered AALBRETT_UNKNOWN. */
#define AALBRETT_READ 0
#define AALBRETT_WRITE 1
#define AALBRETT_FETCH 2

#define AALBRETT_SUPERVISOR 0
#define AALBRETT_USER 1

/*
 * The numbers answered, with what value and detail are then.
 *
 *   number      meaning                        value                          detail
 *   DONE        translated, or done            the physical address; 0 where  1, 2, 3: a page of 4 KiB, 2 MiB,
 *                                              no translation was asked       1 GiB; 0: paging is off, or no
 *                                                                             translation was asked
 *   UNKNOWN     access, mode, card kind or     0                              0
 *               INVPCID kind unknown
 *   WIDTH       M not from 32 to 52            0                              0
 *   FORM        address not canonical; with    0                              0
 *               paging off, not below 2^32
 *   OUTSIDE     a table entry, or a card's     the entry's physical address,  level of the table, 4 to 1; 0 for
 *               store, lies outside the        or the store's                 a store
 *               memory lent
 *   FAULT       page fault                     the error code                 level of the entry at fault, 4 to 1
 *   CARD_SHORT  a card of other than 32 bytes  0                              0
 *   SHORT       answer buffer below 40 bytes   nothing is written
 *   ROOT        CR3 not below 2^M              0                              0
 *   PAGING      CR0.PG = 1 without CR0.PE,     0                              0
 *               CR4.PAE or EFER.LME
 *   EXTENSION   CR0.PG = 1 and a bit of CR4    0                              0
 *               that is not served: 12 or
 *               20 to 24
 *   SPACES      CR4 bit 17 with CR0.PG = 0;    0                              0
 *               or turned on while CR3 bits
 *               11:0 are not 0, by a start
 *               or a settings load
 *   SPACE_NUMBER  INVPCID's space number is    0                              0
 *               above 4,095, or in kinds
 *               0 and 1 not 0 with CR4 bit
 *               17 clear
 *
 * They are tested in the order SHORT, CARD_SHORT, UNKNOWN, then the settings in the order WIDTH, ROOT,
 * PAGING, EXTENSION, SPACES, then FORM, and OUTSIDE and FAULT as the walk meets them. The first that
 * applies is answered. Settings are served where none of their five applies. INVPCID has its own order.
 *
 * A physical address may lie outside the memory lent, since table entries and remembered places may
 * name any. So a host tests that the bytes it wants are inside before it uses them.
 *
 * The error code's bits: 0 the entry was present, 1 write, 2 user, 3 reserved bit set, 4 fetch with
 * EFER.NXE = 1. For a fault of rights the level is the highest whose own entry lacks a needed right.
 */
#define AALBRETT_DONE 0
#define AALBRETT_UNKNOWN 1
#define AALBRETT_WIDTH 2
#define AALBRETT_FORM 3
#define AALBRETT_OUTSIDE 4
#define AALBRETT_FAULT 5
#define AALBRETT_CARD_SHORT 6
#define AALBRETT_SHORT 7
#define AALBRETT_ROOT 8
#define AALBRETT_PAGING 9
#define AALBRETT_EXTENSION 10
#define AALBRETT_SPACES 11
#define AALBRETT_SPACE_NUMBER 12

/*
 * The first 40 bytes of an answer buffer: five little-endian 64-bit numbers. On x86-64 they can be
 * read in place, so that a host may lend a struct aalbrett_answer as its buffer.
 *
 *   bytes   0 to  7   answer: a number of the table above, the one that the call returns
 *   bytes   8 to 15   value
 *   bytes  16 to 23   detail
 *   bytes  24 to 31   reads: the entries read; 0 where no walk was made, 1 to 4 on a walk, the entry
 *                     at fault included. An entry outside memory is not read: OUTSIDE tells 0 to 3.
 *   bytes  32 to 39   memory_type: the memory type index, 0 to 7: 4 times PAT plus 2 times PCD plus PWT
 *                     of the last entry, where PAT is bit 7 of an entry of level 1 and bit 12 of a large
 *                     page, PCD bit 4 and PWT bit 3. 0 with paging off, on a refusal, and where no
 *                     translation was asked.
 */
struct aalbrett_answer {
    uint64_t answer;
    uint64_t value;
    uint64_t detail;
    uint64_t reads;
    uint64_t memory_type;
};

/*
 * One uncached walk: translates address as a processor with these registers and with nothing
 * remembered would.
 *
 *   cr0, cr3, cr4, efer   the registers. Used are CR0.PE, WP and PG, CR4.PAE, EFER.LME and NXE, and
 *                         the root table's address in CR3, whose low 12 bits do not count.
 *   width                 the physical width M in bits.
 *                         Served: M from 32 to 52, else WIDTH; CR3 below 2^M, else ROOT; and with PG = 1
 *                         PE = PAE = LME = 1, else PAGING, and CR4 bits 12 and 20 to 24 clear, else
 *                         EXTENSION; with PG = 0 CR4 bit 17 clear, else SPACES.
 *   address               the virtual address.
 *   access, mode          AALBRETT_READ, WRITE or FETCH; AALBRETT_SUPERVISOR or USER.
 *   memory                guest memory: memory_length bytes that the call may read and write. Physical
 *                         address 0 is the first of them. Any length will do, 0 too.
 *   answer                the answer buffer: answer_length bytes. The first 40 are written, on every
 *                         answer but SHORT; later ones stay as they are.
 *
 * Returns the answer's number, whatever the numbers and the bytes are.
 *
 * memory after DONE: Accessed (bit 5) is set in every entry on the path, and for a write Dirty (bit 6)
 * in the last; not another bit is changed. After any other answer memory is as it was.
 *
 * memory and answer must not overlap, and nothing else may use them during the call. Neither pointer
 * may be null, also where its length is 0.
 */
uint64_t aalbrett_walk(
    uint64_t cr0,
    uint64_t cr3,
    uint64_t cr4,
    uint64_t efer,
    uint64_t width,
    uint64_t address,
    uint64_t access,
    uint64_t mode,
    uint8_t *memory,
    size_t memory_length,
    uint8_t *answer,
    size_t answer_length);

/* The registers and the physical width M. */
struct aalbrett_settings {
    uint64_t cr0;
    uint64_t cr3;
    uint64_t cr4;
    uint64_t efer;
    uint64_t width;
};

/*
 * A remembered translation of one 4 KiB piece of a page. A place's page is that of its tag at the
 * place's own size: a drop of an address takes every place whose page contains it, so that one drop takes
 * all pieces of a large page, and no other place.
 *
 * It counts only if marked, its tag is below 2^52 and belongs to its set, its frame is below 2^40, its
 * size is 1 to 3, its memory type index below 8 and its space number at most 4,095; every other place
 * reads as empty. Its flags are the bits named below; the other two count for nothing.
 *
 * The present space number is CR3 bits 11:0 where CR4 bit 17 is set, else 0. A place serves, and is
 * dropped with its page, under its own number, or under any where it is global.
 */
#define AALBRETT_PLACE_WRITE 1u  /* the rights that all entries of its walk gave */
#define AALBRETT_PLACE_USER 2u
#define AALBRETT_PLACE_FETCH 4u
#define AALBRETT_PLACE_DIRTY 8u  /* Dirty, as the walk left it */
#define AALBRETT_PLACE_GLOBAL 16u /* G, with CR4.PGE = 1: a root load spares it, and it counts under every space number */
#define AALBRETT_PLACE_MARKED 32u

struct aalbrett_place {
    uint64_t tag;   /* the virtual address divided by 4,096 */
    uint64_t frame; /* the physical address divided by 4,096 */
    uint8_t size;   /* 1, 2, 3: of a page of 4 KiB, 2 MiB, 1 GiB */
    uint8_t flags;
    uint8_t memory_type; /* the memory type index of the walk's last entry */
    uint16_t number;     /* the space number under which it was walked */
};

/*
 * A machine: its settings and what it remembers. A tag's set is its low 4 bits, and the place filled
 * last stands first. The host owns the record, and may copy, read and write it between calls.
 *
 * Any bytes may be lent as a machine. One of zeros remembers nothing, and its settings are not served.
 */
struct aalbrett_machine {
    struct aalbrett_settings settings;
    struct aalbrett_place sets[16][4];
};

/*
 * Starts a machine: its settings become these, and it remembers nothing.
 *
 * Returns DONE, or WIDTH, ROOT, PAGING, EXTENSION or SPACES where the settings are not served (see
 * aalbrett_walk), or turn CR4 bit 17 on with CR3 bits 11:0 not 0; the machine then has all registers 0 and
 * M = 40. Nothing of what the record held before counts.
 */
uint64_t aalbrett_start(
    struct aalbrett_machine *machine,
    uint64_t cr0,
    uint64_t cr3,
    uint64_t cr4,
    uint64_t efer,
    uint64_t width);

/* The kinds of cards. */
#define AALBRETT_CARD_TRANSLATE 0 /* access, mode, address */
#define AALBRETT_CARD_STORE 1     /* address, value: 8 bytes of guest memory, at a physical address */
#define AALBRETT_CARD_ROOT 2      /* value: CR3. All but G places are dropped; with CR4 bit 17 set those of the
                                     number loaded that are not G, or none where bit 63 of the value is set,
                                     which is then no part of CR3 */
#define AALBRETT_CARD_PAGE 3      /* address: each place whose page contains it is dropped, of the present number or G */
#define AALBRETT_CARD_ALL 4       /* everything is dropped */
#define AALBRETT_CARD_SETTINGS 5  /* address: CR0 in its low half, CR4 in its high one; value: EFER; width. CR3 stays,
                                     and everything is dropped */

/*
 * A card: one call of the machine, in 32 bytes. Numbers are little-endian, so that on x86-64 a host
 * may lend a struct aalbrett_card. What a kind does not name is ignored.
 */
struct aalbrett_card {
    uint8_t kind;
    uint8_t access;
    uint8_t mode;
    uint8_t ignored[5];
    uint64_t address;
    uint64_t value;
    uint8_t width;
    uint8_t ignored_too[7];
};

/*
 * One card's step on a machine, in place.
 *
 *   machine               changed in place.
 *   memory, answer        as in aalbrett_walk.
 *   card                  the card: card_length bytes. Other than 32 are answered CARD_SHORT.
 *
 * Returns the answer's number, whatever the four hold.
 *
 * A translation is served from what the machine remembers, its memory type index too, and reports 0
 * entries read, where the page is remembered under the present space number or as G, with the rights
 * needed, and for a write with Dirty set.
 * Otherwise it walks memory as aalbrett_walk does; a success is remembered, and OUTSIDE or FAULT drops
 * the address as AALBRETT_CARD_PAGE does.
 *
 * memory is changed by a translation that walks and is answered DONE, as in aalbrett_walk, and by a
 * store that is answered DONE. SHORT, CARD_SHORT, UNKNOWN, WIDTH, ROOT, PAGING, EXTENSION, SPACES and
 * FORM change nothing of machine or memory, and a store's OUTSIDE neither. A root or settings load is
 * judged by the settings that it would leave.
 *
 * No two of the four may overlap, and nothing else may use them during the call; the card may be read.
 * No pointer may be null, also where its length is 0.
 */
uint64_t aalbrett_step(
    struct aalbrett_machine *machine,
    uint8_t *memory,
    size_t memory_length,
    const uint8_t *card,
    size_t card_length,
    uint8_t *answer,
    size_t answer_length);

/* The kinds of INVPCID: what is dropped. */
#define AALBRETT_INVPCID_ADDRESS 0 /* each place of the number whose page contains the address, but no G place */
#define AALBRETT_INVPCID_NUMBER 1  /* each place of the number, but no G place */
#define AALBRETT_INVPCID_ALL 2     /* everything */
#define AALBRETT_INVPCID_LOCAL 3   /* all but G places */

/*
 * INVPCID on a machine, in place.
 *
 *   machine               changed in place; its settings are not judged.
 *   kind, number, address what is dropped. A kind does not look at what it does not name, but number is
 *                         at most 4,095 in every kind.
 *   answer                as in aalbrett_walk.
 *
 * Returns the answer's number: SHORT; UNKNOWN for another kind; SPACE_NUMBER; in kind 0 FORM where the
 * address is not canonical; else DONE. They are tested in this order, and all but DONE leave the machine
 * as it is.
 *
 * machine and answer must not overlap, and nothing else may use them during the call. Neither pointer may
 * be null.
 */
uint64_t aalbrett_invpcid(
    struct aalbrett_machine *machine,
    uint64_t kind,
    uint64_t number,
    uint64_t address,
    uint8_t *answer,
    size_t answer_length);

#ifdef __cplusplus
}
#endif

#endif
