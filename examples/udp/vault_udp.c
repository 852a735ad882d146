/* A host: one vault a process, over UDP on localhost. Vault i has port PORT + i. The remnant is stored before anything is sent, so the
 * process may be killed at any moment and started again with `resume`. Build at the repository's top:
 *   bash scripts/build vault_c
 *   cc -std=c11 -Wall -Wextra -Iinclude examples/udp/vault_udp.c target/staticlib/libvault_c.a -o target/vault_udp
 * `examples/udp/run SEED` starts four of them, and kills one.
 *
 *   vault_udp start  FOLDER --id I --port PORT [--vaults N --liars F --class C --plan P] [--loss PERCENT --delay MS --repeat MS --seed S]
 *   vault_udp resume FOLDER --id I --port PORT [--vaults N] [--loss PERCENT --delay MS --repeat MS --seed S]
 *
 * It prints its decision and goes on, so that others can decide too, until it gets signal 15. */
#define _POSIX_C_SOURCE 200809L
#include "vault.h"

#include <arpa/inet.h>
#include <errno.h>
#include <fcntl.h>
#include <inttypes.h>
#include <poll.h>
#include <signal.h>
#include <stdio.h>
#include <stdlib.h>
#include <string.h>
#include <sys/socket.h>
#include <time.h>
#include <unistd.h>

enum {
    CALLS = 32,            /* at most so many calls before the remnant is stored */
    UNDERWAY = 1024,       /* at most so many frames on a slow link; more are lost */
    KINDS = VAULT_PROOF,
    DELAYS_IN_TIMER = 9
};

/* Command line. */
static const char *folder;
static uint64_t vaults = 4, liars = 1, id, link_class = 1, plan, port, loss, delay, repeat, seed;

/* The vault: its record, and the entries that wait until its remnant is stored. */
static uint8_t record[VAULT_RECORD_SIZE];
static uint8_t output[VAULT_OUTPUT_SIZE];
static uint8_t waiting[CALLS * VAULT_LONGEST_OUTPUT];
static size_t waiting_count;
static int changed;

/* The current view, its timer, and the next repetition; times in milliseconds. */
static uint32_t view;
static uint64_t timer_length, timer_end, repeat_end, began;

/* The latest frame of each kind with its recipient: what is sent again while its view lasts. */
static struct said {
    uint8_t recipient, length, frame[VAULT_LONGEST_FRAME];
} said[KINDS + 1];

/* Frames on a slow link. */
static struct underway {
    uint64_t due;
    uint8_t to, length, frame[VAULT_LONGEST_FRAME];
} underway[UNDERWAY];
static size_t underway_count;

static int links, folder_open; /* one socket for all links; the folder of the remnant */
static uint64_t sent, lost, taken, refused, stores;
static volatile sig_atomic_t ended;

static void stop(const char *why)
{
    fprintf(stderr, "vault %" PRIu64 ": %s\n", id, why);
    exit(1);
}

/* The vault refused what it must not. */
static void stop_refused(uint32_t refusal)
{
    uint8_t text[VAULT_LONGEST_TEXT];
    fprintf(stderr, "vault %" PRIu64 ": %.*s\n", id, (int)vault_refusal_text(refusal, text, sizeof text), (const char *)text);
    exit(1);
}

/* The system refused something. */
static void fail(const char *what)
{
    fprintf(stderr, "vault %" PRIu64 ": %s: %s\n", id, what, strerror(errno));
    exit(1);
}

static uint64_t now(void)
{
    struct timespec t;
    clock_gettime(CLOCK_MONOTONIC, &t);
    return (uint64_t)t.tv_sec * 1000 + (uint64_t)t.tv_nsec / 1000000;
}

/* splitmix64 */
static uint64_t random_below(uint64_t bound)
{
    uint64_t z = seed += 0x9e3779b97f4a7c15;
    z = (z ^ z >> 30) * 0xbf58476d1ce4e5b9;
    z = (z ^ z >> 27) * 0x94d049bb133111eb;
    return (z ^ z >> 31) % bound;
}

static uint64_t number(const uint8_t *bytes, size_t count)
{
    uint64_t n = 0;
    for (size_t i = 0; i < count; i++)
        n = n << 8 | bytes[i];
    return n;
}

/* ---- Links */

static void send_now(uint8_t to, const uint8_t *frame, size_t length)
{
    struct sockaddr_in address = {.sin_family = AF_INET, .sin_port = htons((uint16_t)(port + to)), .sin_addr.s_addr = htonl(INADDR_LOOPBACK)};
    /* What can't be sent is lost, as on any link. */
    (void)sendto(links, frame, length, 0, (struct sockaddr *)&address, sizeof address);
}

/* A link loses some frames, and holds up the others for some time each, so they overtake each other. */
static void send_to(uint8_t to, const uint8_t *frame, size_t length)
{
    sent++;
    if (random_below(100) < loss || underway_count == UNDERWAY) {
        lost++;
        return;
    }
    struct underway *u = &underway[underway_count++];
    u->due = now() + (delay ? random_below(delay + 1) : 0);
    u->to = to;
    u->length = (uint8_t)length;
    memcpy(u->frame, frame, length);
}

static void send_due(void)
{
    uint64_t time = now();
    for (size_t i = 0; i < underway_count;) {
        struct underway *u = &underway[i];
        if (u->due <= time) {
            send_now(u->to, u->frame, u->length);
            *u = underway[--underway_count];
        } else {
            i++;
        }
    }
}

static void send_said(const struct said *s)
{
    for (uint8_t to = 0; to < vaults; to++)
        if (to != id && (s->recipient == VAULT_TO_ALL || s->recipient == to))
            send_to(to, s->frame, s->length);
}

/* The vault says nothing of a view twice, so its host does. */
static void send_again(void)
{
    for (int kind = 1; kind <= KINDS; kind++)
        if (said[kind].length && number(said[kind].frame + 2, 4) >= view)
            send_said(&said[kind]);
}

/* ---- The stored remnant */

/* Either the old remnant or the new one is in the file, whenever the power fails; once this returns, the new one. The frames of others are not
 * stored: to have lost them is as if they had not come, and their hosts send them again while the view lasts. What the vault itself has said
 * must not be lost, or it could say something else. */
static void store(void)
{
    uint8_t remnant[VAULT_REMNANT_SIZE];
    uint32_t answer = vault_write_remnant(record, sizeof record, remnant, sizeof remnant);
    if (answer < VAULT_ACCEPTED)
        stop_refused(answer);
    int file = openat(folder_open, "remnant.new", O_WRONLY | O_CREAT | O_TRUNC, 0600);
    if (file < 0)
        fail("remnant.new");
    if (write(file, remnant, sizeof remnant) != sizeof remnant)
        fail("remnant.new");
    if (fsync(file) || close(file) || renameat(folder_open, "remnant.new", folder_open, "remnant") || fsync(folder_open))
        fail("the remnant is not stored");
    stores++;
}

/* The file must be there: a missing remnant is not a blank record. How many bytes it has; one of another length is refused. */
static size_t load(uint8_t *remnant, size_t size)
{
    int file = openat(folder_open, "remnant", O_RDONLY);
    if (file < 0)
        fail("remnant");
    ssize_t length = read(file, remnant, size);
    if (length < 0)
        fail("remnant");
    close(file);
    return (size_t)length;
}

/* ---- Calls and their entries */

static void set_timer(uint32_t of, uint64_t length)
{
    view = of;
    timer_length = length;
    timer_end = now() + length;
}

static void decide(uint64_t of, uint64_t for_plan)
{
    printf("decided plan %" PRIu64 " in view %" PRIu64 " after %" PRIu64 " ms\n", for_plan, of, now() - began);
    fflush(stdout);
}

static void act(const uint8_t *entry, size_t length)
{
    if (entry[0] == VAULT_TO_HOST && entry[1] == VAULT_HOST_TIMER) {
        set_timer((uint32_t)number(entry + 2, 4), number(entry + 6, 4));
    } else if (entry[0] == VAULT_TO_HOST) {
        decide(number(entry + 2, 4), number(entry + 6, 8));
    } else {
        struct said *s = &said[entry[1]];
        s->recipient = entry[0];
        s->length = (uint8_t)(length - 1);
        memcpy(s->frame, entry + 1, length - 1);
        send_said(s);
    }
}

/* What a call answered. Its entries wait. */
static void answered(uint32_t answer)
{
    if (answer < VAULT_ACCEPTED) {
        refused++;
        return;
    }
    taken++;
    changed = 1;
    memcpy(waiting + waiting_count, output, answer - VAULT_ACCEPTED);
    waiting_count += answer - VAULT_ACCEPTED;
}

/* First the remnant, then the entries. */
static void store_and_act(void)
{
    if (!changed)
        return;
    store();
    uint32_t length;
    for (size_t at = 0; (length = vault_entry(waiting, waiting_count, at)) != 0; at += length)
        act(waiting + at, length);
    waiting_count = 0;
    changed = 0;
}

/* Takes a frame that has come, if there is one. Whoever holds a vault's port is that vault. */
static int take(void)
{
    uint8_t frame[VAULT_LONGEST_FRAME + 1];
    struct sockaddr_in from;
    socklen_t from_size = sizeof from;
    ssize_t length = recvfrom(links, frame, sizeof frame, MSG_DONTWAIT, (struct sockaddr *)&from, &from_size);
    if (length < 0)
        return 0;
    uint64_t sender = (uint64_t)ntohs(from.sin_port) - port;
    if (from.sin_addr.s_addr == htonl(INADDR_LOOPBACK) && sender < vaults)
        answered(vault_frame(record, sizeof record, (uint8_t)sender, frame, (size_t)length, output, sizeof output));
    return 1;
}

/* ---- Running */

static void wait_for_something(void)
{
    uint64_t until = timer_end < repeat_end ? timer_end : repeat_end, time = now();
    for (size_t i = 0; i < underway_count; i++)
        if (underway[i].due < until)
            until = underway[i].due;
    struct pollfd ready = {.fd = links, .events = POLLIN};
    poll(&ready, 1, until > time ? (int)(until - time) : 0);
}

static void run(void)
{
    while (!ended) {
        /* One place is left for the timer's call. */
        for (int calls = 1; calls < CALLS && take();)
            calls++;
        if (timer_end <= now()) {
            answered(vault_timer(record, sizeof record, view, output, sizeof output));
            timer_end = now() + timer_length;
        }
        store_and_act();
        if (repeat_end <= now()) {
            send_again();
            repeat_end = now() + repeat;
        }
        send_due();
        wait_for_something();
    }
}

static void start(void)
{
    if (faccessat(folder_open, "remnant", F_OK, 0) == 0)
        stop("there is a remnant already: resume");
    uint32_t answer = vault_start(record, sizeof record, (uint8_t)vaults, (uint8_t)liars, (uint8_t)id, (uint8_t)link_class, plan, output,
                                  sizeof output);
    if (answer < VAULT_ACCEPTED)
        stop_refused(answer);
    answered(answer);
    store_and_act();
}

/* The output has the timer. The record also tells a decision that was stored, and perhaps not acted on before the process died. */
static void resume(void)
{
    uint8_t remnant[VAULT_REMNANT_SIZE + 1];
    uint64_t decision[2];
    size_t length = load(remnant, sizeof remnant);
    uint32_t answer = vault_restart(record, sizeof record, remnant, length, output, sizeof output);
    if (answer < VAULT_ACCEPTED)
        stop_refused(answer);
    /* The library can't tell whose folder this is. */
    if (remnant[2] != id)
        stop("the remnant is another vault's");
    act(output, answer - VAULT_ACCEPTED);
    if (vault_decision(record, sizeof record, decision, 2) > VAULT_ACCEPTED)
        decide(decision[0], decision[1]);
}

static void open_all(void)
{
    struct sockaddr_in own = {.sin_family = AF_INET, .sin_port = htons((uint16_t)(port + id)), .sin_addr.s_addr = htonl(INADDR_LOOPBACK)};
    /* The port comes before the remnant: while one process has it, no other can run the same vault. */
    links = socket(AF_INET, SOCK_DGRAM, 0);
    if (links < 0)
        fail("socket");
    if (bind(links, (struct sockaddr *)&own, sizeof own))
        fail("port");
    folder_open = open(folder, O_RDONLY | O_DIRECTORY);
    if (folder_open < 0)
        fail(folder);
}

static void end(int signal)
{
    (void)signal;
    ended = 1;
}

/* Sets the options; tells whether they are right. */
static int options(int count, char **words)
{
    static const struct { const char *name; uint64_t *value; uint64_t most; } known[] = {
        {"--vaults", &vaults, VAULT_MOST}, {"--liars", &liars, VAULT_MOST},   {"--id", &id, VAULT_MOST - 1},     {"--class", &link_class, 7},
        {"--plan", &plan, UINT64_MAX},     {"--port", &port, 65535},          {"--loss", &loss, 100},            {"--delay", &delay, 60000},
        {"--repeat", &repeat, 3600000},    {"--seed", &seed, UINT64_MAX},
    };
    for (int i = 0; i + 1 < count; i += 2) {
        size_t k = 0;
        while (k < sizeof known / sizeof *known && strcmp(words[i], known[k].name))
            k++;
        if (k == sizeof known / sizeof *known)
            return 0;
        char *rest;
        errno = 0;
        *known[k].value = strtoull(words[i + 1], &rest, 10);
        if (errno || rest == words[i + 1] || *rest || *known[k].value > known[k].most)
            return 0;
    }
    return count % 2 == 0 && port > 0 && port + vaults < 65536;
}

int main(int count, char **words)
{
    if (count < 3 || (strcmp(words[1], "start") && strcmp(words[1], "resume")) || !options(count - 3, words + 3)) {
        fprintf(stderr, "usage: vault_udp start|resume FOLDER --id I --port PORT [options]; see the head of vault_udp.c\n");
        return 2;
    }
    folder = words[2];
    if (vault_version() / 10000 != VAULT_VERSION_MAJOR)
        stop("vault.h is of another version than the library");
    struct sigaction action = {.sa_handler = end};
    sigaction(SIGTERM, &action, NULL);
    seed = (seed * VAULT_MOST + id) * 2 + (words[1][0] == 'r');
    began = now();
    open_all();
    if (words[1][0] == 's')
        start();
    else
        resume();
    if (!repeat)
        repeat = timer_length / DELAYS_IN_TIMER;
    repeat_end = now() + repeat;
    run();
    printf("ended: %" PRIu64 " frames sent, of them %" PRIu64 " lost; %" PRIu64 " calls accepted, %" PRIu64 " refused; stored %" PRIu64 " times\n",
           sent, lost, taken, refused, stores);
    return 0;
}
