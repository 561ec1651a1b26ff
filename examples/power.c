/*
 * Power cuts: two docks, a process each, keep their pages in files, and are killed at random moments and started again.
 * Expect: no number ever comes twice, and no block is lost, doubled or out of its order within an incarnation (power.out).
 *
 *     power [--counts] [--forget] [--late] [--hasty] [SEED [CUTS]]     power alone is power 1 300
 *     power --set-up DIRECTORY, power --start DIRECTORY                what a terminal begins with, and no more
 *
 * Each dock calls or listens, sends blocks, closes and begins again, for as long as it lives. Between the two stands a driver: it carries
 * their frames over a mesh that loses, repeats and reorders them and brings back old ones, also those of lives long over; it kills a dock
 * (SIGKILL) CUTS times in all and starts it again on what its file has; and it checks all that the docks did. SEED makes its choices, but
 * when a kill falls is up to the machine too. Standard output is the same in every run that goes well with as many CUTS; --counts tells
 * on standard error how much happened. The status is 0 only if all was as expected and enough of it happened.
 *
 * A killed process is not a dead disk: what it has written is still there. So the driver also puts back, in half of those cases, a byte
 * that a dock had written and not yet synced. What a storage does with what was synced cannot be tested here.
 *
 * Three ways to do it wrong show that the driver would see it: with --forget each life starts from a new page, with --late a byte of the
 * page is stored only after the frame that uses its number went out. Either ends by "a number came twice", and the status is 1. With
 * --hasty a block is kept only after the frame that acknowledges it went out: "a block was acknowledged before it was kept".
 *
 * With --set-up a terminal is set up, whose page is in this directory, and with --start it is started: each prints the number with which
 * its end comes back. Only --set-up makes a page, and only where there is nothing in its place. Where the end must not be used they say why
 * on standard error, and the status is 1.
 *
 * Part 1 is the dock: come_back(), store() and obey() are there to be copied. Part 2 is the mesh, Part 3 the checks, and Part 4 cuts the
 * power.
 */
#define _POSIX_C_SOURCE 200809L

#include <errno.h>
#include <fcntl.h>
#include <inttypes.h>
#include <poll.h>
#include <signal.h>
#include <stdio.h>
#include <stdlib.h>
#include <string.h>
#include <sys/socket.h>
#include <sys/stat.h>
#include <sys/types.h>
#include <sys/wait.h>
#include <time.h>
#include <unistd.h>

#include "dock.h"

/* All times are in microseconds. */
static int64_t clock_now(void) {
    struct timespec t;
    clock_gettime(CLOCK_MONOTONIC, &t);
    return (int64_t)t.tv_sec * 1000000 + t.tv_nsec / 1000;
}

static void nap(uint32_t microseconds) {
    struct timespec t = {.tv_nsec = (long)microseconds * 1000};
    nanosleep(&t, NULL);
}

/* A number below n. */
static uint32_t below(uint64_t *seed, uint32_t n) {
    *seed ^= *seed << 13;
    *seed ^= *seed >> 7;
    *seed ^= *seed << 17;
    return (uint32_t)(*seed >> 32) % n;
}

/*
 * Part 1: the dock.
 *
 * It has one socket to the driver. Frames come in over it; out go its frames and, for the checks, all that happens to it, in the order in
 * which it happened. A message is there whole or not at all: a kill cuts none in two.
 */

enum { STARTED, STORING, STORED, BEGUN, OPENED, ACCEPTED, HANDED_UP, HEALED, FRAME, TROUBLE };

struct message {
    uint8_t what;              /* one of these */
    uint8_t request;           /* of STORING, STORED and BEGUN: connect or listen */
    uint8_t len;               /* of the bytes: those of a frame or a block, or why the dock gives up */
    uint8_t bytes[DOCK_FRAME]; /* then zeros */
    uint32_t local, remote;    /* L and D then */
    uint32_t at;               /* of STORING: which byte of the page */
};

#define TIMEOUT 2000 /* until a timer call, and until a dock that has nothing to do looks around again */
#define STAY 3       /* a dock stays closed for so many TIMEOUTs at most: so that a partner who still sends hears that it is closed */
#define PATIENCE 25  /* it calls or listens, or stays open without hearing anything, for so many at most, */
#define AT_LEAST 5   /* and for so many at least */
#define DAWDLE 800   /* it dawdles for so long at most, around the store: so that many cuts fall there */
#define BLOCKS 60    /* blocks that it sends in an incarnation, at most */
#define AT_ONCE 32   /* messages that are read before the clock is looked at again */

/* Where a terminal has its page. */
struct storage {
    int directory;
    const char *name;  /* of the page's file; */
    const char *draft; /* a new page has this name until it is whole */
    int file;          /* the page's, when it is open */
};

struct dock {
    /* What the program gives it. */
    int socket;
    struct storage storage;
    int set_up;              /* it is being set up: it has never started */
    uint32_t calls;          /* so many of a hundred times it calls; else it listens */
    int forget, late, hasty; /* the three ways to do it wrong */
    uint64_t seed;

    /* How it stands. */
    dock_end end;
    uint8_t state;
    unsigned waiting;  /* how many blocks wait for their acknowledgement */
    uint32_t left;     /* blocks still to be sent in this incarnation */
    uint32_t patience; /* how often it will look around in vain; 0: it has had enough of its state */
    int64_t now;
    int64_t due; /* when it looks around, and makes a timer call if that would send something */
};

/* Tells the driver. If that is gone the dock ends too. */
static void put_message(const struct dock *d, const struct message *m) {
    if (send(d->socket, m, sizeof *m, MSG_NOSIGNAL) != (ssize_t)sizeof *m)
        _exit(1);
}

static void tell(const struct dock *d, uint8_t what, const dock_answer *a, const uint8_t *bytes, size_t len) {
    struct message m;
    memset(&m, 0, sizeof m);
    m.what = what;
    m.local = a->local;
    m.remote = a->remote;
    m.len = (uint8_t)len;
    if (len > 0)
        memcpy(m.bytes, bytes, len);
    put_message(d, &m);
}

/* Tells of a request that began an incarnation, or of the byte of the page that reserves its number. */
static void tell_request(const struct dock *d, uint8_t what, uint8_t request, const dock_answer *a) {
    struct message m;
    memset(&m, 0, sizeof m);
    m.what = what;
    m.request = request;
    m.local = a->local;
    m.at = (uint32_t)a->must_store_at;
    put_message(d, &m);
}

/* What cannot be helped, and must not happen here: the dock says so and ends. */
static void give_up(const struct dock *d, const char *why) {
    static const dock_answer nothing;
    tell(d, TROUBLE, &nothing, (const uint8_t *)why, strlen(why) < DOCK_FRAME ? strlen(why) : DOCK_FRAME);
    _exit(1);
}

static void dawdle(struct dock *d) {
    nap(below(&d->seed, DAWDLE));
}

/*
 * When a page is made: once in a terminal's life, as it is set up, which is a command of its own. A start makes none. One that finds no
 * page cannot tell a new terminal from one whose disk was lost, was changed or is not mounted yet, and a new page would bring old numbers
 * back. So it stops, and who knows more decides: a terminal that never sent a frame is set up, one that did gets its own page back, or one
 * with more 00 at its front than there ever were.
 *
 * A page that is there and cannot be read, for whatever reason, is no reason to make one, even when a terminal is set up: ENOENT alone
 * is, and not that of a link to a disk that is not mounted.
 */

/* Makes the page, where nothing of its name is there. It gets that name only when it is whole and synced: so a cut leaves either no page,
 * and no number was used yet, or a whole one. Answers why it cannot be made, or a null pointer. */
static const char *make_page(const struct storage *s) {
    uint8_t page[DOCK_PAGE];
    struct stat there;
    if (fstatat(s->directory, s->name, &there, AT_SYMLINK_NOFOLLOW) == 0 || errno != ENOENT)
        return NULL; /* whatever it is, it is left as it is */
    memset(page, DOCK_PAGE_NEW, sizeof page);
    int f = openat(s->directory, s->draft, O_WRONLY | O_CREAT | O_TRUNC, 0600);
    if (f < 0 || write(f, page, sizeof page) != (ssize_t)sizeof page || fsync(f) != 0 || close(f) != 0 ||
        renameat(s->directory, s->draft, s->directory, s->name) != 0 || fsync(s->directory) != 0)
        return "its page cannot be made";
    return NULL;
}

/* Every start: the end comes back from its page alone. Where the terminal is being set up, the page is made before. Answers why the end
 * must not be used, or a null pointer. */
static const char *come_back(struct storage *s, dock_end *end, int set_up) {
    const char *trouble = set_up ? make_page(s) : NULL;
    if (trouble != NULL)
        return trouble;
    s->file = openat(s->directory, s->name, O_RDWR);
    if (s->file < 0)
        return errno == ENOENT ? "it has no page: it was never set up, or its page is lost" : "its page cannot be opened";
    if (pread(s->file, end->page, sizeof end->page, 0) != (ssize_t)sizeof end->page)
        return "its page cannot be read";
    return dock_restore(end) == DOCK_OK ? NULL : "its page is damaged";
}

/* A call has set a byte of the page: it is written where it outlives a cut, and the dock waits until it is there. Until then nothing that
 * has the new number may go out. If it cannot be stored, nothing may go out at all. */
static void store(struct dock *d, uint8_t request, const dock_answer *a) {
    tell_request(d, STORING, request, a);
    dawdle(d);
    if (pwrite(d->storage.file, d->end.page + a->must_store_at, a->must_store, (off_t)a->must_store_at) != (ssize_t)a->must_store)
        give_up(d, "its page cannot be written");
    dawdle(d);
    if (fsync(d->storage.file) != 0)
        give_up(d, "its page cannot be synced");
    dawdle(d);
    tell_request(d, STORED, request, a);
    dawdle(d);
}

/* How long it will stay in its state. It counts its own looks, not the time: so it is as patient as the machine is busy. */
static void have_patience(struct dock *d) {
    if (d->state == DOCK_CLOSED)
        d->patience = below(&d->seed, 1 + STAY);
    else
        d->patience = AT_LEAST + below(&d->seed, 1 + PATIENCE - AT_LEAST);
}

/* When the end has got into another state: how long it stays there, and how much it will send. */
static void enter(struct dock *d, uint8_t state) {
    d->state = state;
    have_patience(d);
    if (state == DOCK_OPEN)
        d->left = 1 + below(&d->seed, BLOCKS);
}

/* Does what the answer to an accepted call asks for. The order is what counts: the page is stored before anything goes out, and a block is
 * kept, which here is to tell the driver, before the frame goes out that acknowledges it. Whenever the state or the number of waiting
 * blocks is another than before, something has moved, and the time until the timer call begins again. */
static void obey(struct dock *d, uint8_t request, const dock_answer *a) {
    unsigned waiting = dock_waiting(&d->end);
    int stores = a->must_store > 0 && !d->forget;
    if (stores && !d->late)
        store(d, request, a);
    if (request == DOCK_CONNECT || request == DOCK_LISTEN)
        tell_request(d, BEGUN, request, a);
    if (a->notice == DOCK_CONNECTED)
        tell(d, OPENED, a, NULL, 0);
    if (a->block > 0 && !d->hasty)
        tell(d, HANDED_UP, a, a->block_at, a->block);
    if (a->sent > 0)
        tell(d, FRAME, a, a->sent_at, a->sent);
    if (a->block > 0 && d->hasty)
        tell(d, HANDED_UP, a, a->block_at, a->block);
    if (stores && d->late)
        store(d, request, a);
    if (a->state != d->state || waiting != d->waiting)
        d->due = d->now + TIMEOUT;
    if (a->state != d->state)
        enter(d, a->state);
    d->waiting = waiting;
}

/* A request that the state allows; so a refusal is the dock's own fault. */
static void ask(struct dock *d, uint8_t request) {
    dock_answer a = dock_ask_kind(&d->end, request);
    if (a.number != DOCK_OK)
        give_up(d, dock_number_name(a.number));
    obey(d, request, &a);
}

/* A frame came. After a block come those that are held for their turn. */
static void hear(struct dock *d, const uint8_t *frame, size_t len) {
    dock_answer a = dock_hear(&d->end, frame, len);
    if (a.number != DOCK_OK)
        give_up(d, dock_number_name(a.number));
    if (d->state == DOCK_OPEN && frame[0] == DOCK_REJ && a.notice == DOCK_CLOSED_BY_PARTNER)
        tell(d, HEALED, &a, NULL, 0);
    if (d->state == DOCK_OPEN)
        have_patience(d);
    obey(d, 0, &a);
    while (a.block > 0) {
        a = dock_collect(&d->end);
        obey(d, DOCK_COLLECT, &a);
    }
}

static void hear_all(struct dock *d) {
    uint8_t frame[DOCK_FRAME + 1];
    for (int i = 0; i < AT_ONCE; i++) {
        ssize_t len = recv(d->socket, frame, sizeof frame, MSG_DONTWAIT);
        if (len == 0) /* the driver is gone */
            _exit(1);
        if (len < 0)
            return;
        hear(d, frame, (size_t)len);
    }
}

/* Sends as many blocks as there is room for. A block is told of before its frame goes out: so whatever a partner may hand up, the driver
 * knows of. */
static void send_more(struct dock *d) {
    uint8_t block[DOCK_BLOCK];
    while (d->left > 0 && d->waiting < 8) {
        size_t len = 1 + below(&d->seed, DOCK_BLOCK);
        for (size_t i = 0; i < len; i++)
            block[i] = (uint8_t)below(&d->seed, 256);
        dock_answer a = dock_send(&d->end, block, len);
        if (a.number != DOCK_OK)
            give_up(d, dock_number_name(a.number));
        d->left--;
        tell(d, ACCEPTED, &a, block, len);
        obey(d, DOCK_SEND, &a);
    }
}

/* Looks around: nothing has moved for a while. In some states a timer call sends something then, and it does no harm in the others. */
static void look_around(struct dock *d) {
    if (d->now < d->due)
        return;
    d->due = d->now + TIMEOUT;
    d->patience -= d->patience > 0;
    ask(d, DOCK_TIMER);
}

/* What a dock does by itself. An end that is open and hears nothing for long has a partner who may have restarted and begun something
 * new, without a word about it: so it closes. One that is answering or closing needs no patience: its partner, restarted or not,
 * ends it. (Where a partner may be gone for good, only a restart does. And a terminal whose call was rejected waits longer than a dock
 * here, so that its numbers last: docs/PROTOCOL.md, "What a host does".) */
static void act(struct dock *d) {
    if (d->state == DOCK_OPEN)
        send_more(d);
    if (d->state == DOCK_OPEN && (d->patience == 0 || (d->left == 0 && d->waiting == 0)))
        ask(d, DOCK_CLOSE);
    else if (d->state == DOCK_CALLING && d->patience == 0)
        ask(d, DOCK_CLOSE);
    else if (d->state == DOCK_LISTENING && d->patience == 0)
        ask(d, DOCK_END_LISTENING);
    else if (d->state == DOCK_CLOSED && d->patience == 0)
        ask(d, below(&d->seed, 100) < d->calls ? DOCK_CONNECT : DOCK_LISTEN);
}

/* Sleeps until a frame is there, or it is time to look around. */
static void wait_for_frame(const struct dock *d) {
    struct pollfd p = {.fd = d->socket, .events = POLLIN};
    int64_t left = d->due - clock_now();
    (void)poll(&p, 1, left > 0 ? (int)((left + 999) / 1000) : 0);
}

/* A life, from one cut to the next. A closed end does nothing in a timer call, but tells its number. */
static void live(struct dock *d) {
    const char *trouble = come_back(&d->storage, &d->end, d->set_up);
    if (trouble != NULL)
        give_up(d, trouble);
    if (d->forget)
        dock_init(&d->end);
    dock_answer a = dock_ask_kind(&d->end, DOCK_TIMER);
    tell(d, STARTED, &a, NULL, 0);
    d->now = clock_now();
    enter(d, DOCK_CLOSED);
    for (;;) {
        act(d);
        wait_for_frame(d);
        d->now = clock_now();
        hear_all(d);
        look_around(d);
    }
}

/*
 * Part 2: the mesh.
 */

#define LOST 20   /* of a hundred frames */
#define AGAIN 25  /* after so many of a hundred frames comes an earlier one, whether it was lost or not */
#define RECENT 8  /* half of these are of the last so many, */
#define PAST 1024 /* the others of so many: old enough to be of other lives */

struct frame {
    size_t len;
    uint8_t bytes[DOCK_FRAME];
};

/* One direction. */
struct mesh {
    struct frame past[PAST];
    size_t count; /* frames taken */
};

/* To a dock that is off nothing comes through, nor to one that has too much to read. */
static void deliver(int socket, const struct frame *f) {
    if (socket >= 0)
        (void)send(socket, f->bytes, f->len, MSG_DONTWAIT | MSG_NOSIGNAL);
}

static void carry(struct mesh *mesh, uint64_t *seed, const uint8_t *bytes, size_t len, int to) {
    struct frame *f = &mesh->past[mesh->count++ % PAST];
    f->len = len;
    memcpy(f->bytes, bytes, len);
    if (below(seed, 100) >= LOST)
        deliver(to, f);
    if (below(seed, 100) < AGAIN) {
        size_t among = below(seed, 2) == 0 ? RECENT : PAST;
        among = among < mesh->count ? among : mesh->count;
        deliver(to, &mesh->past[(mesh->count - 1 - below(seed, (uint32_t)among)) % PAST]);
    }
}

/*
 * Part 3: the checks.
 *
 * They go by what came out of the docks, in the order in which it came.
 *
 * Numbers: every frame of an end carries its L. A restarted end is closed, with an L that is not below any number used before; it may be
 * the last of them, where that was the last one reserved. It says so in REJ and DRACK, which a closed end sends. All other frames are of
 * an incarnation begun in this life, and its number is above all that came before.
 *
 * Blocks: what an incarnation hands up is, block by block, what its partner accepted for it. A dock tells of a block before the frame
 * goes out that has it, so the driver has heard of it before it can come up; what was accepted and not told went to nobody. What was
 * handed up and not told is the last thing of its life, and of its incarnation, and was not acknowledged.
 */

#define NUMBERS (DOCK_PAGE * DOCK_NUMBERS_EACH)

struct block {
    uint8_t len;
    uint8_t bytes[DOCK_BLOCK];
};

/* An incarnation of an end. Its blocks stand together in what the end accepted. */
struct incarnation {
    uint8_t request;    /* that it was begun by; 0: it was not */
    uint32_t remote;    /* the partner's incarnation as it opened; 0: it has not opened */
    size_t first;       /* of its blocks */
    uint32_t accepted;  /* how many it accepted, */
    uint32_t handed_up; /* and handed up */
};

/* What was seen of one end. */
struct history {
    const char *name;
    uint32_t before;                  /* the highest number that came in its earlier lives, */
    uint32_t highest;                 /* and in all */
    uint32_t begun;                   /* the incarnation begun last in this life, 0: none was */
    struct incarnation *incarnations; /* by number */
    struct block *blocks;
    size_t blocks_len, blocks_room;
    unsigned long opened, handed_up, healed;
    unsigned long fell_back; /* how often a closed end named a number below one that came before */
};

/* What is wrong, if something is; the first finding counts. */
static const char *wrong;

static void find(const struct history *h, const char *what, uint32_t number) {
    if (wrong != NULL)
        return;
    wrong = what;
    fprintf(stderr, "%s: %s: number %" PRIu32 ", this life's is %" PRIu32 ", the highest was %" PRIu32 ", in earlier lives %" PRIu32 "\n",
            h->name, what, number, h->begun, h->highest, h->before);
}

static const char came_twice[] = "a number came twice";

/* An end has restarted: its number is the last one reserved. */
static void check_started(struct history *h, const struct message *m) {
    h->fell_back += m->local < h->highest;
    if (m->local % DOCK_NUMBERS_EACH != 0)
        find(h, "an end restarted with a number that is not the last of sixteen", m->local);
}

/* An incarnation begins. */
static void check_begun(struct history *h, const struct message *m) {
    if (m->local <= h->highest || m->local > NUMBERS) {
        find(h, came_twice, m->local);
        return;
    }
    h->highest = h->begun = m->local;
    h->incarnations[m->local].request = m->request;
}

/* The number of four bytes. */
static uint32_t number_at(const uint8_t *bytes) {
    return (uint32_t)bytes[0] << 24 | (uint32_t)bytes[1] << 16 | (uint32_t)bytes[2] << 8 | bytes[3];
}

/* A frame went out. That a closed end fell back is kept for the end: if it then begins anew, that is what counts. */
static void check_frame(struct history *h, const uint8_t *frame) {
    uint32_t s = number_at(frame + 1);
    if (frame[0] == DOCK_REJ || frame[0] == DOCK_DRACK)
        h->fell_back += s < h->highest;
    else if (s < h->highest || s <= h->before)
        find(h, came_twice, s);
    else if (s != h->begun)
        find(h, "a frame came from an incarnation that was not begun", s);
    else if (frame[0] == DOCK_ACK && number_at(frame + 9) > h->incarnations[s].handed_up)
        find(h, "a block was acknowledged before it was kept", s);
    h->highest = s > h->highest ? s : h->highest;
}

/* The partner's incarnation was begun, one of the two by a call, and if that one has opened too, it was toward this one. */
static void check_opened(struct history *h, const struct history *partner, const struct message *m) {
    const struct incarnation *other = &partner->incarnations[m->remote <= NUMBERS ? m->remote : 0];
    struct incarnation *own = &h->incarnations[h->begun];
    if (h->begun == 0 || m->local != h->begun)
        find(h, "an incarnation opened that was not begun", m->local);
    else if (other->request == 0 || (other->request == DOCK_LISTEN && own->request == DOCK_LISTEN) ||
             (other->remote != 0 && other->remote != m->local))
        find(h, "an end opened without its partner", m->remote);
    own->remote = m->remote;
    own->first = h->blocks_len;
    h->opened++;
}

/* Is this an open incarnation of this life, with this partner? */
static int is_open(const struct history *h, const struct message *m) {
    return h->begun != 0 && m->local == h->begun && m->remote != 0 && h->incarnations[h->begun].remote == m->remote;
}

static void take_accepted(struct history *h, const struct message *m) {
    if (!is_open(h, m)) {
        find(h, "a block was accepted by an end that is not open", m->local);
        return;
    }
    if (h->blocks_len == h->blocks_room) {
        size_t room = 2 * h->blocks_room + 1024;
        struct block *blocks = (struct block *)realloc(h->blocks, room * sizeof *blocks);
        if (blocks == NULL) {
            find(h, "no room is left for the blocks", m->local);
            return;
        }
        h->blocks = blocks;
        h->blocks_room = room;
    }
    struct block *b = &h->blocks[h->blocks_len++];
    b->len = m->len;
    memcpy(b->bytes, m->bytes, DOCK_BLOCK);
    h->incarnations[m->local].accepted++;
}

/* The prefix rule: a block handed up is the next one that the partner accepted for this incarnation. */
static void check_handed_up(struct history *h, const struct history *partner, const struct message *m) {
    if (!is_open(h, m)) {
        find(h, "a block was handed up by an end that is not open", m->local);
        return;
    }
    struct incarnation *own = &h->incarnations[m->local];
    const struct incarnation *other = &partner->incarnations[m->remote];
    if (other->remote != m->local || own->handed_up >= other->accepted) {
        find(h, "a block was handed up that was not accepted", m->local);
        return;
    }
    const struct block *b = &partner->blocks[other->first + own->handed_up];
    if (b->len != m->len || memcmp(b->bytes, m->bytes, m->len) != 0)
        find(h, "a block handed up was not the next one accepted", m->local);
    own->handed_up++;
    h->handed_up++;
}

/* One message of a dock. When something is wrong already, nothing that comes after it can be relied on. */
static void check(struct history *h, const struct history *partner, const struct message *m) {
    if (wrong != NULL)
        return;
    if (m->what == STARTED)
        check_started(h, m);
    else if (m->what == BEGUN)
        check_begun(h, m);
    else if (m->what == FRAME)
        check_frame(h, m->bytes);
    else if (m->what == OPENED)
        check_opened(h, partner, m);
    else if (m->what == ACCEPTED)
        take_accepted(h, m);
    else if (m->what == HANDED_UP)
        check_handed_up(h, partner, m);
    else if (m->what == HEALED)
        h->healed++;
}

/* The power is cut: what comes now is of another life. */
static void end_life(struct history *h) {
    h->before = h->highest;
    h->begun = 0;
}

/*
 * Part 4: the power.
 *
 * A life lasts for some number of messages, so that it gets equally far on a busy machine, and then for a moment more. Many cuts fall
 * near a store, where they matter most.
 */

#define LIFE 600             /* messages of a long life, at most, */
#define SHORT_LIFE 12        /* and of a short one; one in four is short */
#define LIFE_TIME 500000     /* no life lasts longer */
#define MOMENT 400           /* until the cut, at most */
#define STORE (3 * DAWDLE)   /* a store takes so long, or longer */
#define DURING_STORE 4       /* one in so many stores is cut, */
#define AFTER_STORE 3        /* and one in so many others just after it */
#define OFF 8000             /* the power is off for so long, at most */
#define AFTERWARDS 20000000  /* after the last cut both have to connect again within so long */
#define LIMIT_TIME 240000000 /* and all of it must not take longer */

/* How the program was called. */
struct options {
    int counts, forget, late, hasty;
    uint64_t seed, cuts;
};

struct side {
    struct history seen;
    struct mesh mesh; /* what takes its frames */
    const char *page, *draft;
    uint32_t calls;
    int is_set_up;     /* its dock has started once, so its page was made */
    pid_t pid;         /* 0: its power is off */
    int socket;        /* to the dock, -1: none */
    int64_t starts_at; /* when the power comes back */
    int64_t ends_at;
    uint32_t messages, life; /* of this life, and how many it is to have */
    int storing;             /* the dock is about to store a byte of its page, */
    uint32_t at;             /* this one */
    int unsent;              /* it has stored one, and the frame of its call has not come */
};

struct test {
    const struct options *options;
    struct side sides[2];
    char directory_name[256];
    int directory;
    uint64_t seed;
    int64_t limit;
    unsigned long cuts, cuts_storing, cuts_unsent, put_back, lives, frames;
};

static void close_file(int *f) {
    if (*f >= 0)
        close(*f);
    *f = -1;
}

/* What the child does, until it is killed. It keeps no socket of the driver's: so it ends when the driver does. */
static void be_dock(struct test *t, const struct side *s, int socket, uint64_t seed) {
    static struct dock d;
    close_file(&t->sides[0].socket);
    close_file(&t->sides[1].socket);
    d.socket = socket;
    d.storage = (struct storage){.directory = t->directory, .name = s->page, .draft = s->draft, .file = -1};
    d.set_up = !s->is_set_up;
    d.calls = s->calls;
    d.forget = t->options->forget;
    d.late = t->options->late;
    d.hasty = t->options->hasty;
    d.seed = seed;
    live(&d);
}

/* The power comes back. */
static void start(struct test *t, struct side *s) {
    int pair[2];
    uint64_t seed = t->seed + 0x9e3779b97f4a7c15;
    s->life = below(&t->seed, below(&t->seed, 4) == 0 ? SHORT_LIFE : LIFE);
    if (socketpair(AF_UNIX, SOCK_SEQPACKET, 0, pair) != 0) {
        find(&s->seen, "no socket is left", 0);
        return;
    }
    s->pid = fork();
    if (s->pid == 0) {
        close(pair[0]);
        be_dock(t, s, pair[1], seed != 0 ? seed : 1);
        _exit(1);
    }
    close(pair[1]);
    s->socket = pair[0];
    s->messages = 0;
    s->ends_at = clock_now() + LIFE_TIME;
    t->lives++;
    if (s->pid < 0) {
        s->pid = 0;
        find(&s->seen, "no process is left", 0);
    }
}

/* A message of a dock, also of one that has been killed since. */
static void take_message(struct test *t, struct side *s, const struct message *m) {
    struct side *other = &t->sides[s == &t->sides[0]];
    s->messages++;
    if (m->what == STARTED) {
        s->is_set_up = 1;
    } else if (m->what == STORING) {
        s->storing = 1;
        s->at = m->at;
    } else if (m->what == STORED) {
        s->storing = 0;
        s->unsent = m->request == DOCK_CONNECT;
    } else if (m->what == TROUBLE) {
        fprintf(stderr, "%s: %.*s\n", s->seen.name, (int)m->len, (const char *)m->bytes);
        find(&s->seen, "a dock gave up", m->local);
    }
    check(&s->seen, &other->seen, m);
    if (m->what == FRAME && wrong == NULL) {
        s->unsent = 0;
        t->frames++;
        carry(&s->mesh, &t->seed, m->bytes, m->len, other->socket);
    }
}

/* The next message of a dock: 1, or 0 where none is there yet, or -1 where none will come any more. */
static int next_message(const struct side *s, struct message *m) {
    ssize_t len = recv(s->socket, m, sizeof *m, MSG_DONTWAIT);
    if (len == (ssize_t)sizeof *m)
        return 1;
    return len < 0 && (errno == EAGAIN || errno == EWOULDBLOCK || errno == EINTR) ? 0 : -1;
}

/* What was written and not synced may be lost with the power: the byte is FF again. */
static void put_back(struct test *t, const struct side *s) {
    const uint8_t unused = DOCK_PAGE_NEW;
    uint8_t byte;
    int f = openat(t->directory, s->page, O_RDWR);
    if (f >= 0 && pread(f, &byte, 1, (off_t)s->at) == 1 && byte != unused) {
        t->put_back++;
        if (pwrite(f, &unused, 1, (off_t)s->at) != 1)
            find(&s->seen, "a page cannot be written", s->at);
    }
    close_file(&f);
}

/* Kills a dock, and hears the rest of what it said. */
static void stop(struct test *t, struct side *s) {
    struct message m;
    int status = 0;
    kill(s->pid, SIGKILL);
    while (waitpid(s->pid, &status, 0) < 0 && errno == EINTR)
        continue;
    s->pid = 0;
    while (next_message(s, &m) > 0)
        take_message(t, s, &m);
    if (!WIFSIGNALED(status) || WTERMSIG(status) != SIGKILL)
        find(&s->seen, "a dock ended by itself", 0);
    close_file(&s->socket);
}

/* Cuts the power, within this moment. */
static void cut(struct test *t, struct side *s, uint32_t moment) {
    nap(below(&t->seed, moment));
    stop(t, s);
    t->cuts++;
    t->cuts_storing += s->storing != 0;
    t->cuts_unsent += s->unsent != 0;
    if (s->storing && below(&t->seed, 2) == 0)
        put_back(t, s);
    s->storing = s->unsent = 0;
    end_life(&s->seen);
    s->starts_at = clock_now() + below(&t->seed, OFF);
}

/* Is it time to cut this dock's power, after this message? The moment within which that is, or 0. */
static uint32_t moment_after(struct test *t, const struct side *s, const struct message *m) {
    if (t->cuts == t->options->cuts)
        return 0;
    if (m->what == STORING && below(&t->seed, DURING_STORE) == 0)
        return STORE;
    if (m->what == STORED && below(&t->seed, AFTER_STORE) == 0)
        return MOMENT;
    return s->messages > s->life ? MOMENT : 0;
}

/* Hears a dock, as far as it has said something, and cuts its power when it is time. */
static void attend(struct test *t, struct side *s) {
    struct message m;
    int came = 1;
    for (int i = 0; i < AT_ONCE && wrong == NULL && s->pid > 0 && (came = next_message(s, &m)) > 0; i++) {
        take_message(t, s, &m);
        uint32_t moment = moment_after(t, s, &m);
        if (moment > 0)
            cut(t, s, moment);
    }
    if (wrong == NULL && s->pid > 0 && (came < 0 || (t->cuts < t->options->cuts && clock_now() > s->ends_at)))
        cut(t, s, MOMENT);
    if (wrong == NULL && s->pid == 0 && clock_now() >= s->starts_at)
        start(t, s);
}

/* Sleeps until a dock has said something, but not for long. */
static void wait_for_messages(const struct test *t) {
    struct pollfd p[2];
    for (int i = 0; i < 2; i++)
        p[i] = (struct pollfd){.fd = t->sides[i].socket, .events = POLLIN};
    (void)poll(p, 2, 1);
}

/* Whoever stops the program shall leave no dock and no file behind. */
static volatile sig_atomic_t is_stopped;

static void stop_soon(int signal_number) {
    (void)signal_number;
    is_stopped = 1;
}

static void turn(struct test *t) {
    wait_for_messages(t);
    for (int i = 0; i < 2; i++)
        attend(t, &t->sides[i]);
    if (is_stopped)
        find(&t->sides[0].seen, "it was stopped", 0);
    if (clock_now() > t->limit)
        find(&t->sides[0].seen, "it took too long", 0);
}

/* The cuts; then both live on until they have connected once more, and each has heard something of the other. */
static void run_lives(struct test *t) {
    while (wrong == NULL && t->cuts < t->options->cuts)
        turn(t);
    unsigned long handed_up[2] = {t->sides[0].seen.handed_up, t->sides[1].seen.handed_up};
    t->limit = t->limit < clock_now() + AFTERWARDS ? t->limit : clock_now() + AFTERWARDS;
    while (wrong == NULL && (t->sides[0].seen.handed_up == handed_up[0] || t->sides[1].seen.handed_up == handed_up[1]))
        turn(t);
    for (int i = 0; i < 2; i++) {
        if (t->sides[i].pid > 0)
            stop(t, &t->sides[i]);
        if (t->sides[i].seen.fell_back > 0)
            find(&t->sides[i].seen, "a closed end fell back to an earlier number", 0);
    }
}

/* A test in which little happened would say little. */
static int is_enough(const struct test *t) {
    const struct history *a = &t->sides[0].seen, *b = &t->sides[1].seen;
    if (t->options->counts || wrong != NULL)
        fprintf(stderr,
                "%lu cuts: %lu during a store, %lu between a store and its frame; %lu bytes put back\n"
                "%lu lives, the last numbers %" PRIu32 " and %" PRIu32 ", %lu times opened, %lu times closed by a restarted partner\n"
                "%lu frames, %zu blocks accepted, %lu handed up\n",
                t->cuts, t->cuts_storing, t->cuts_unsent, t->put_back, t->lives, a->highest, b->highest, a->opened + b->opened,
                a->healed + b->healed, t->frames, a->blocks_len + b->blocks_len, a->handed_up + b->handed_up);
    return 6 * (a->opened + b->opened) >= t->cuts && 3 * (a->handed_up + b->handed_up) >= 10 * t->cuts &&
           (t->cuts < 100 || (t->cuts_storing > 0 && t->cuts_unsent > 0 && a->healed + b->healed > 0));
}

/* Says how it went. */
static int judge(const struct test *t) {
    int enough = is_enough(t);
    if (wrong == NULL) {
        printf("%lu power cuts, at either dock, and each came back\n", t->cuts);
        puts("no number came twice");
        puts("every block handed up was the next one that the partner had accepted");
        puts("whoever opened had a partner, who named it back");
        puts("after the last cut both connected again");
    } else {
        puts(wrong);
    }
    if (wrong == NULL && !enough)
        puts("but too little happened");
    puts(wrong == NULL && enough ? "all went well" : "something went wrong");
    return wrong == NULL && enough && fflush(stdout) == 0 && !ferror(stdout);
}

/* A directory for the two pages, and room for what will be seen. */
static int prepare(struct test *t) {
    const char *place = getenv("TMPDIR");
    int len = snprintf(t->directory_name, sizeof t->directory_name, "%s/power-XXXXXX", place != NULL ? place : "/tmp");
    if (len < 0 || (size_t)len >= sizeof t->directory_name || mkdtemp(t->directory_name) == NULL) {
        t->directory_name[0] = '\0';
        return 0;
    }
    t->directory = open(t->directory_name, O_RDONLY | O_DIRECTORY);
    for (int i = 0; i < 2; i++)
        t->sides[i].seen.incarnations = (struct incarnation *)calloc(NUMBERS + 1, sizeof(struct incarnation));
    return t->directory >= 0 && t->sides[0].seen.incarnations != NULL && t->sides[1].seen.incarnations != NULL;
}

static void release(struct test *t) {
    for (int i = 0; i < 2; i++) {
        struct side *s = &t->sides[i];
        free(s->seen.incarnations);
        free(s->seen.blocks);
        if (t->directory >= 0) {
            (void)unlinkat(t->directory, s->page, 0);
            (void)unlinkat(t->directory, s->draft, 0);
        }
    }
    close_file(&t->directory);
    if (t->directory_name[0] != '\0')
        (void)rmdir(t->directory_name);
}

/* A number of decimal digits from low to high. */
static int read_number(const char *text, uint64_t low, uint64_t high, uint64_t *number) {
    *number = 0;
    for (const char *c = text; *c != '\0'; c++) {
        if (*c < '0' || *c > '9' || *number > high)
            return 0;
        *number = *number * 10 + (uint64_t)(*c - '0');
    }
    return *text != '\0' && *number >= low && *number <= high;
}

static int read_options(int argc, char **argv, struct options *o) {
    int i = 1;
    for (; i < argc && argv[i][0] == '-'; i++) {
        int counts = strcmp(argv[i], "--counts") == 0, forget = strcmp(argv[i], "--forget") == 0;
        int late = strcmp(argv[i], "--late") == 0, hasty = strcmp(argv[i], "--hasty") == 0;
        o->counts |= counts;
        o->forget |= forget;
        o->late |= late;
        o->hasty |= hasty;
        if (!counts && !forget && !late && !hasty)
            return 0;
    }
    return argc - i <= 2 && (argc - i < 1 || read_number(argv[i], 0, UINT32_MAX, &o->seed)) &&
           (argc - i < 2 || read_number(argv[i + 1], 1, 2000, &o->cuts));
}

/* What a terminal's own program does first, as it is started or set up: it says which number its end has, or why it has none. */
static int start_terminal(const char *directory, int set_up) {
    static dock_end end;
    struct storage s = {.directory = open(directory, O_RDONLY | O_DIRECTORY), .name = "dock.page", .draft = "dock.new", .file = -1};
    const char *trouble = s.directory < 0 ? "its directory cannot be opened" : come_back(&s, &end, set_up);
    if (trouble == NULL)
        printf("closed, with the number %" PRIu32 "\n", dock_ask_kind(&end, DOCK_TIMER).local);
    else
        fprintf(stderr, "power: %s\n", trouble);
    close_file(&s.file);
    close_file(&s.directory);
    return trouble == NULL;
}

int main(int argc, char **argv) {
    static struct test t = {
        .sides = {{.seen = {.name = "dock"}, .page = "dock.page", .draft = "dock.new", .calls = 75, .socket = -1},
                  {.seen = {.name = "stock room"}, .page = "stock.page", .draft = "stock.new", .calls = 25, .socket = -1}},
        .directory = -1};
    struct options o = {.seed = 1, .cuts = 300};
    int well = 0;
    if (argc == 3 && strcmp(argv[1], "--set-up") == 0)
        return start_terminal(argv[2], 1) ? 0 : 1;
    if (argc == 3 && strcmp(argv[1], "--start") == 0)
        return start_terminal(argv[2], 0) ? 0 : 1;
    if (!read_options(argc, argv, &o)) {
        fprintf(stderr, "usage: power [--counts] [--forget] [--late] [--hasty] [SEED [CUTS]], CUTS from 1 to 2000\n"
                        "       power --set-up DIRECTORY, or power --start DIRECTORY\n");
        return 2;
    }
    /* Whoever started this may have set it to be ignored: then the end of a child would not be told. */
    signal(SIGCHLD, SIG_DFL);
    signal(SIGINT, stop_soon);
    signal(SIGTERM, stop_soon);
    t.options = &o;
    t.seed = (2 * o.seed + 1) * 0x9e3779b97f4a7c15; /* far apart for numbers that are near each other, and never 0 */
    t.limit = clock_now() + LIMIT_TIME;
    if (prepare(&t)) {
        run_lives(&t);
        well = judge(&t);
    } else {
        perror("power");
    }
    release(&t);
    return well ? 0 : 1;
}
