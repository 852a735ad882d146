/* A TetraBFT vault for hosts in C, C++ and Rust, and for the desk that helps them: the calls of libvault_c.a (`bash scripts/build vault_c`).
 *
 * A host keeps one record of VAULT_RECORD_SIZE bytes for each vault, and lends it to every call together with an output of at least
 * VAULT_OUTPUT_SIZE bytes. A call keeps nothing between calls, allocates nothing, reads no clock and sends nothing: what is to be
 * sent or timed stands in the output. Any pointers with true lengths are fine, and any bytes: a call that can't act answers with a
 * refusal. What is lent to one call must not overlap. Calls on different records may run at the same time.
 *
 * Answers of vault_start, vault_frame, vault_timer and vault_restart
 *   1 to 19, 21, 22           a refusal, by enum vault_refusal: record and output are unchanged (vault_restart: 1, 4, 25, 26)
 *   VAULT_ACCEPTED + count    accepted: the record is the new one, and the first count bytes of the output hold the entries; count is
 *                             at most VAULT_LONGEST_OUTPUT, may be 0, and the bytes beyond it keep their contents
 *
 * Entries lie end to end, numbers are big-endian. Byte 0 is the recipient:
 *   VAULT_TO_ALL    all other vaults: a frame follows
 *   0 to 63         the vault of that number: a frame follows
 *   VAULT_TO_HOST   the host: VAULT_HOST_TIMER, view (4 bytes), milliseconds (4): let a timer of that view run out after that time, and
 *                   drop older ones; or VAULT_HOST_DECISION, view (4), plan (8): the decision, which is written once
 * A frame: kind (enum vault_kind), sender, view (4 bytes), then what its kind has. Its length follows from the kind.
 *
 * A host's duty
 *   Store    Store, then send. After an accepted call vault_write_remnant gives VAULT_REMNANT_SIZE bytes, the remnant: they go to stable
 *            storage, whole, before any entry of that call is sent or acted on, a decision too. A power cut must leave the old remnant or
 *            the new one: write a new file, sync it, and rename it over the old one. A vault that comes back with an older remnant could
 *            vote twice, and agreement is lost: it counts as one of the f. Nothing else need be stored. Several calls may be made before the
 *            remnant is stored once, if the entries of all of them wait for that. The whole record may be stored in its place.
 *   Send     Each frame as it is, to its recipients. A frame may be lost, repeated, or come late. Tell vault_frame the sender that the
 *            link stands for, and not a byte of the frame.
 *   Repeat   The vault writes each frame once. Over a link that may lose frames, keep the latest frame of each kind with its recipient,
 *            and send it again once a delay of the link class, until its view is below the current one. By itself only a view-change is
 *            repeated, by vault_timer; a proposal, vote, suggest or proof never is. A frame that comes again is refused with 16 or 17
 *            and does no harm. After a power cut the frames to repeat are gone, and those that others sent: they repeat theirs, the timer
 *            goes on, and the next view brings new ones.
 *   Timer    A timer entry replaces the timer of any earlier view. When it runs out call vault_timer with its view, and again after
 *            the same time for as long as the view lasts, also after the decision: others may need this vault's later views.
 *   Restart  vault_restart, with a blank record (all zeros will do) and the stored remnant, at any moment and any number of times: the vault
 *            goes on with its own votes and without the others' frames, and the timer entry is to be obeyed. It repeats no decision:
 *            vault_decision tells the one that was stored, and perhaps not yet acted on. A call after which the old remnant was left
 *            counts as never made, its decision too; where that was the start, nothing is stored, nothing has left the vault, and it may
 *            start again. Once a remnant is stored, never start afresh, and never take a missing or an empty file for a blank vault. A
 *            host that stores the whole record lends it again instead: vault_current tells its view, whose timer is to be set.
 *
 * The remnant's bytes: n, f, id, link class (1 each), current view (4), starting plan (8), then 17 slots as in a record: the own proposal, vote-1,
 * vote-2, vote-3, vote-4, view-change, suggest and proof; the three reports of the own suggest, and of the own proof; own previous vote-1, own
 * previous vote-2, decision.
 *
 * The record's bytes, for a desk that looks at one (only the calls write it). A slot is 13 bytes: mark (1 present, 0 absent), view (4),
 * plan (8), big-endian; 64 slots of a kind are those of vaults 0 to 63.
 *      0 to    7  n, f, id, link class (1 each), current view (4)
 *      8 to  839  view-changes, 64 slots
 *    840 to  847  starting plan
 *    848 to 6671  suggests, proofs, proposals, vote-1, vote-2, vote-3, vote-4, 64 slots each
 *   6672 to 11663 reports of the suggests (highest vote-2, previous vote-2, highest vote-3) and of the proofs (highest vote-1, previous
 *                 vote-1, highest vote-4), 64 slots each
 *  11664 to 11702 own previous vote-1, own previous vote-2, decision
 *
 * Version, targets, stack
 *   VAULT_VERSION is that of this header, vault_version() that of the library. The major number changes where frames or stored
 *   records of an earlier version are no longer understood, the minor one where something is added, the patch number where calls do
 *   something else with the same bytes.
 *   The library is for Linux on x86-64 (the C calling convention of that platform). It needs memcpy and memset, and nothing else.
 *   A call needs less than VAULT_STACK_SIZE bytes of stack; that bound is tested, not proved.
 */
#ifndef VAULT_H
#define VAULT_H

#include <stddef.h>
#include <stdint.h>

#ifdef __cplusplus
extern "C" {
#endif

#define VAULT_VERSION_MAJOR 1
#define VAULT_VERSION_MINOR 4
#define VAULT_VERSION_PATCH 0
#define VAULT_VERSION (VAULT_VERSION_MAJOR * 10000 + VAULT_VERSION_MINOR * 100 + VAULT_VERSION_PATCH)

#define VAULT_RECORD_SIZE 11703   /* bytes of a record */
#define VAULT_REMNANT_SIZE 237    /* bytes of a remnant, and of output that vault_write_remnant must be lent, or more */
#define VAULT_OUTPUT_SIZE 256     /* bytes of output that every other call must be lent, or more */
#define VAULT_ACCEPTED 256        /* the answer of an accepted call, less the bytes written */
#define VAULT_LONGEST_OUTPUT 205  /* no call writes more bytes */
#define VAULT_LONGEST_ENTRY 46    /* with the recipient byte */
#define VAULT_LONGEST_FRAME 45
#define VAULT_REPORTS_SIZE 39     /* bytes of the three reports of a suggest or proof: those behind its first 6 */
#define VAULT_LONGEST_TEXT 120    /* no text of vault_refusal_text is longer */
#define VAULT_STACK_SIZE 16384    /* no call needs more stack */
#define VAULT_FEWEST 4            /* n is at least this */
#define VAULT_MOST 64             /* and at most this */
#define VAULT_FEWEST_RECORDS 2    /* vault_equivocators takes at least so many records */
#define VAULT_MOST_RECORDS 64     /* and at most so many */

/* Refusals. They are tested in the order of their numbers, but 21 and 22 between 14 and 15. */
enum vault_refusal {
    VAULT_REFUSED_OUTPUT = 1,     /* the output has fewer than VAULT_OUTPUT_SIZE bytes, VAULT_REMNANT_SIZE for a remnant, or two numbers */
    VAULT_REFUSED_BLANK = 2,      /* not start or restart: a blank record, the vault has not been started */
    VAULT_REFUSED_UNSOUND = 3,    /* not start or restart: bytes that are no sound record, or not VAULT_RECORD_SIZE of them */
    VAULT_REFUSED_STARTED = 4,    /* start or restart on a record that is not blank */
    VAULT_REFUSED_N = 5,          /* start: n is below 4 or above 64 */
    VAULT_REFUSED_F = 6,          /* start: f is 0, or 3f is n or more */
    VAULT_REFUSED_ID = 7,         /* start: id is n or more */
    VAULT_REFUSED_CLASS = 8,      /* start: the link class is above 7 */
    VAULT_REFUSED_KIND = 9,       /* frame: no bytes, or the kind is not 1 to 8 */
    VAULT_REFUSED_LENGTH = 10,    /* frame: the length is wrong for the kind; claim_reach: not VAULT_REPORTS_SIZE bytes */
    VAULT_REFUSED_LINK = 11,      /* frame: the link's sender is n or more, or this vault itself */
    VAULT_REFUSED_SENDER = 12,    /* frame: the sender byte is not the link's sender */
    VAULT_REFUSED_VIEW_0 = 13,    /* frame: view 0 in a view-change, suggest or proof */
    VAULT_REFUSED_REPORT = 14,    /* frame, claim_reach: a report's mark is not 0 or 1, or it is absent (mark 0) and another byte of it is not 0 */
    VAULT_REFUSED_LEADER = 15,    /* frame: a proposal not from its view's leader, or a suggest for a view that this vault does not lead */
    VAULT_REFUSED_OVER = 16,      /* frame: its view is over */
    VAULT_REFUSED_KEPT = 17,      /* frame: one of the same sender and kind is kept, at this view or a higher one */
    VAULT_REFUSED_TIMER = 18,     /* timer: the view is not the current one */
    VAULT_REFUSED_LAST_VIEW = 19, /* timer: the current view is the last one, 4294967295 */
    VAULT_REFUSED_REPORT_VIEW = 21, /* frame: a report that is present, the lock too, is for the frame's view or a higher one */
    VAULT_REFUSED_PREVIOUS = 22,  /* frame, claim_reach: previous is present and highest is not, or previous is not below it or for the same plan */
    VAULT_REFUSED_RECORDS = 24,   /* equivocators: not 2 to 64 records, one is blank or no sound record, or they differ in n or f */
    VAULT_REFUSED_REMNANT_LENGTH = 25,  /* restart: the remnant has not VAULT_REMNANT_SIZE bytes */
    VAULT_REFUSED_REMNANT_UNSOUND = 26  /* restart: what the remnant says makes no sound record */
};

/* Kinds of frames, byte 0 of a frame, and what follows kind, sender and view. */
enum vault_kind {
    VAULT_PROPOSAL = 1,    /* plan (8 bytes): 14 bytes in all, as the votes */
    VAULT_VOTE_1 = 2,      /* plan (8) */
    VAULT_VOTE_2 = 3,      /* plan (8) */
    VAULT_VOTE_3 = 4,      /* plan (8) */
    VAULT_VOTE_4 = 5,      /* plan (8) */
    VAULT_VIEW_CHANGE = 6, /* nothing: 6 bytes in all */
    VAULT_SUGGEST = 7,     /* three reports (13 each): 45 bytes in all */
    VAULT_PROOF = 8        /* three reports (13 each): 45 bytes in all */
};

/* Recipients, byte 0 of an entry. Any other is a vault's number. */
enum vault_recipient {
    VAULT_TO_HOST = 0xfe,
    VAULT_TO_ALL = 0xff
};

/* Types of entries for the host, the byte after the recipient. */
enum vault_host_entry {
    VAULT_HOST_DECISION = 0x0a, /* view (4 bytes), plan (8) */
    VAULT_HOST_TIMER = 0x0b     /* view (4 bytes), milliseconds (4) */
};

/* VAULT_VERSION, as the library has it. */
uint32_t vault_version(void);

/* VAULT_RECORD_SIZE, as the library has it. */
uint32_t vault_record_size(void);

/* VAULT_REMNANT_SIZE, as the library has it. */
uint32_t vault_remnant_size(void);

/* Starts vault `id` of `n`, of which up to `f` may lie, with a starting plan. The record must be blank: all zeros will do. The link
 * class, 0 to 7, is for a delay of 20, 50, 100, 200, 500, 1000, 2000 or 5000 milliseconds; a timer is nine delays. All vaults have the
 * same n and f. Refusals: 1, 4 to 8. */
uint32_t vault_start(uint8_t *record, size_t record_length, uint8_t n, uint8_t f, uint8_t id, uint8_t link_class, uint64_t plan,
                     uint8_t *output, size_t output_length);

/* Takes one frame that came from vault `sender`. The host vouches for the sender: it is the one at the other end of the link, and not a
 * byte of the frame. Refusals: 1 to 3, 9 to 17, 21, 22. */
uint32_t vault_frame(uint8_t *record, size_t record_length, uint8_t sender, const uint8_t *frame, size_t frame_length,
                     uint8_t *output, size_t output_length);

/* The timer of a view has run out. It may be called again for the same view: the view-change is then sent once more.
 * Refusals: 1 to 3, 18, 19. */
uint32_t vault_timer(uint8_t *record, size_t record_length, uint32_t view, uint8_t *output, size_t output_length);

/* Writes the remnant of a record, which is only read: what the host stores before any entry of the call that left the record is sent. The answer is
 * VAULT_ACCEPTED + VAULT_REMNANT_SIZE, and the remnant is the first bytes of the output. Refusals: 1 where output_length is below
 * VAULT_REMNANT_SIZE, 2, 3. */
uint32_t vault_write_remnant(const uint8_t *record, size_t record_length, uint8_t *output, size_t output_length);

/* Comes back after a power cut, with the remnant that was stored last. The record must be blank: all zeros will do. It becomes the vault's, with its
 * own row and no others, and the output has one timer entry, of the current view. No frame is sent, and a stored decision is not repeated. Refusals:
 * 1, 4, 25, 26. The library cannot tell an older remnant, or another vault's: that is the host's duty. */
uint32_t vault_restart(uint8_t *record, size_t record_length, const uint8_t *remnant, size_t remnant_length,
                       uint8_t *output, size_t output_length);

/* For a host that comes back: out[0] is the record's current view, out[1] the milliseconds of its timer, and the answer is
 * VAULT_ACCEPTED. Refusals, with `out` unchanged: 1 where out_count is below 2, 2 and 3 as for a frame. */
uint32_t vault_current(const uint8_t *record, size_t record_length, uint32_t *out, size_t out_count);

/* Likewise the decision: out[0] is its view, out[1] its plan, and the answer is VAULT_ACCEPTED + 1. Where nothing is decided the answer is
 * VAULT_ACCEPTED, and `out` is unchanged. Refusals as for vault_current. */
uint32_t vault_decision(const uint8_t *record, size_t record_length, uint64_t *out, size_t out_count);

/* For the desk: names the vaults that spoke twice. The records of one agreement lie end to end in `records`, in any order, and `lengths` has the
 * length of each. A vault is named where two of the records keep, in its row, votes of one kind (vote-1 to vote-4) and one view for different
 * plans. Proposals, reports, previous votes and decisions do not count; a record's own row counts like any other. The answer is VAULT_ACCEPTED +
 * count, and the first count bytes of the output are the numbers of those named, rising, at most n. The records are only read. Where one record
 * keeps vote-4 of a view for a plan from n - f vaults, and another for another plan, n - 2f vaults or more are named. Refusals, with the
 * output unchanged: 1, then 24, which is also given where the lengths do not add up to records_length. */
uint32_t vault_equivocators(const uint8_t *records, size_t records_length, const uint32_t *lengths, size_t lengths_count,
                            uint8_t *output, size_t output_length);

/* For the desk: how high a claim reaches, the highest view at which a reporter claims a plan. `reports` are the VAULT_REPORTS_SIZE bytes of a suggest
 * or proof behind its kind, sender and view, bytes 6 to 44 of the frame: highest, previous, lock. The answer is VAULT_ACCEPTED + view: the highest
 * vote's view if that vote is for the plan, else the previous vote's view, whatever its plan, else 0. The reporter claims the plan at every view up to
 * that one, and at no later one. As there is no frame's view, 21 is not asked. Refusals: 10, then 14, then 22. */
uint64_t vault_claim_reach(const uint8_t *reports, size_t reports_length, uint64_t plan);

/* Walks the entries of an output of which output_length bytes were written (the answer less VAULT_ACCEPTED): the length of the entry
 * that begins at `at`, its recipient byte included. 0 at the end, and where no entry begins. */
uint32_t vault_entry(const uint8_t *output, size_t output_length, size_t at);

/* Writes a sentence for a refusal's number, in ASCII and without a closing 0, and answers with its length. 0, and nothing written, where
 * there is no such refusal or the sentence is longer than the output. VAULT_LONGEST_TEXT bytes are enough for each. */
uint32_t vault_refusal_text(uint32_t number, uint8_t *output, size_t output_length);

#ifdef __cplusplus
}
#endif

#endif
