/* Four vaults in one process (n = 4, f = 1): frames are passed on from the output entries until all have decided. After the first round of
 * votes the power fails at one of them, and it comes back with what was stored.
 * Build and run at the repository's top:
 *   bash scripts/build vault_c
 *   cc -std=c11 -Wall -Wextra -Iinclude examples/c/four_vaults.c target/staticlib/libvault_c.a -o target/four_vaults && target/four_vaults
 */
#include "vault.h"

#include <inttypes.h>
#include <stdio.h>
#include <string.h>

enum {
    VAULTS = 4,
    LIARS = 1,
    CLASS = 2,
    QUEUE = 4096,
    CUT = 3,                                  /* the vault whose power fails */
    FIRST_ROUND = (VAULTS - 1) * (VAULTS + 1) /* frames: the leader's proposal, and the first vote of each */
};

/* A frame on its way. */
struct message {
    uint8_t from, to, length;
    uint8_t bytes[VAULT_LONGEST_FRAME];
};

static uint8_t records[VAULTS][VAULT_RECORD_SIZE];
static uint8_t stored[VAULTS][VAULT_REMNANT_SIZE];
static struct message queue[QUEUE];
static size_t first, last;
static int decided[VAULTS];
static uint64_t decision[VAULTS];

static uint64_t number(const uint8_t *bytes, size_t count)
{
    uint64_t n = 0;
    for (size_t i = 0; i < count; i++)
        n = n << 8 | bytes[i];
    return n;
}

static int send_to(uint8_t from, uint8_t to, const uint8_t *frame, size_t length)
{
    if (last == QUEUE)
        return 0;
    struct message *m = &queue[last++];
    m->from = from;
    m->to = to;
    m->length = (uint8_t)length;
    memcpy(m->bytes, frame, length);
    return 1;
}

/* Acts on one entry. */
static int act(uint8_t id, const uint8_t *entry, size_t length)
{
    if (entry[0] == VAULT_TO_HOST && entry[1] == VAULT_HOST_TIMER) {
        printf("vault %d: timer for view %" PRIu64 " in %" PRIu64 " ms\n", id, number(entry + 2, 4), number(entry + 6, 4));
    } else if (entry[0] == VAULT_TO_HOST) {
        decided[id] = 1;
        decision[id] = number(entry + 6, 8);
        printf("vault %d: decides plan %" PRIu64 " in view %" PRIu64 "\n", id, decision[id], number(entry + 2, 4));
    } else {
        for (uint8_t to = 0; to < VAULTS; to++)
            if (to != id && (entry[0] == VAULT_TO_ALL || entry[0] == to) && !send_to(id, to, entry + 1, length - 1))
                return 0;
    }
    return 1;
}

/* Stores what must not be lost, then acts on the entries of an accepted call. A real host writes the remnant to a new file, calls fsync, and
 * renames it over the old one. */
static int store_and_act(uint8_t id, const uint8_t *output, size_t count)
{
    uint32_t length;
    if (vault_write_remnant(records[id], VAULT_RECORD_SIZE, stored[id], VAULT_REMNANT_SIZE) < VAULT_ACCEPTED)
        return 0;
    for (size_t at = 0; (length = vault_entry(output, count, at)) != 0; at += length)
        if (!act(id, output + at, length))
            return 0;
    return 1;
}

/* A power cut: the record is gone. The vault comes back with its own votes, and without the frames that others sent. */
static int cut_and_restart(uint8_t id)
{
    uint8_t output[VAULT_OUTPUT_SIZE];
    uint32_t answer;
    memset(records[id], 0, VAULT_RECORD_SIZE);
    answer = vault_restart(records[id], VAULT_RECORD_SIZE, stored[id], VAULT_REMNANT_SIZE, output, sizeof output);
    printf("vault %d: the power failed, and is back\n", id);
    return answer >= VAULT_ACCEPTED && store_and_act(id, output, answer - VAULT_ACCEPTED);
}

int main(void)
{
    uint8_t output[VAULT_OUTPUT_SIZE];
    uint32_t answer;

    if (vault_version() / 10000 != VAULT_VERSION_MAJOR)
        return 2;
    for (uint8_t id = 0; id < VAULTS; id++) {
        answer = vault_start(records[id], VAULT_RECORD_SIZE, VAULTS, LIARS, id, CLASS, 700 + id, output, sizeof output);
        if (answer < VAULT_ACCEPTED) {
            uint8_t text[VAULT_LONGEST_TEXT];
            fprintf(stderr, "vault %d does not start: %.*s\n", id, (int)vault_refusal_text(answer, text, sizeof text), (const char *)text);
            return 1;
        }
        if (!store_and_act(id, output, answer - VAULT_ACCEPTED))
            return 2;
    }
    while (first < last) {
        const struct message m = queue[first++];
        answer = vault_frame(records[m.to], VAULT_RECORD_SIZE, m.from, m.bytes, m.length, output, sizeof output);
        if (answer >= VAULT_ACCEPTED && !store_and_act(m.to, output, answer - VAULT_ACCEPTED))
            return 2;
        if (first == FIRST_ROUND && !cut_and_restart(CUT))
            return 2;
    }
    for (uint8_t id = 0; id < VAULTS; id++) {
        if (!decided[id] || decision[id] != decision[0]) {
            fprintf(stderr, "no agreement\n");
            return 1;
        }
    }
    printf("all %d vaults decided plan %" PRIu64 "\n", VAULTS, decision[0]);
    return 0;
}
