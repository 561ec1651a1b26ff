/*
 * Two ends in one program, over a mesh that loses, repeats and reorders frames. What comes early is held, and collected in its turn.
 * Expect: both connect, each hears the other's whole text, and both close (host.out). The mesh is the same in every run. The ends live no
 * longer than the program, so their pages are stored nowhere; examples/power.c stores them.
 */
#include <stdio.h>
#include <stdlib.h>
#include <string.h>

#include "dock.h"

#define FLIGHT 64    /* frames under way in one direction */
#define TURNS 200000 /* the mesh gives up after so many */

struct frame {
    size_t len;
    uint8_t bytes[DOCK_FRAME];
};

/* One end, the text that it has to send and the text that it has heard, and the frames on their way to it. */
struct host {
    const char *name;
    dock_end end;
    uint8_t state;
    const char *text;
    size_t queued;
    char heard[1024];
    size_t heard_len;
    struct frame coming[FLIGHT];
    size_t coming_len;
};

static uint32_t seed = 20260401;

/* A number below n. */
static uint32_t below(uint32_t n) {
    seed ^= seed << 13;
    seed ^= seed >> 17;
    seed ^= seed << 5;
    return seed % n;
}

/* The mesh takes a frame; one in four is lost, and one that finds no room is lost too. */
static void carry(struct host *to, const uint8_t *bytes, size_t len) {
    if (len == 0 || below(4) == 0 || to->coming_len == FLIGHT)
        return;
    to->coming[to->coming_len].len = len;
    memcpy(to->coming[to->coming_len].bytes, bytes, len);
    to->coming_len++;
}

/* What every call is followed by: the notice is told, a block is kept, and then the frame goes to the other end, which forgets a block
 * when it hears that it was handed up. */
static void follow(struct host *h, struct host *other, const dock_answer *a) {
    h->state = a->state;
    if (a->notice == DOCK_CONNECTED)
        printf("%s: connected, incarnation %u with %u\n", h->name, (unsigned)a->local, (unsigned)a->remote);
    else if (a->notice != DOCK_NONE && a->notice != DOCK_HANDED_UP)
        printf("%s: %s\n", h->name, dock_notice_name(a->notice));
    if (h->heard_len + a->block > sizeof h->heard) {
        printf("%s: no room for a block\n", h->name);
        exit(1);
    }
    if (a->block > 0)
        memcpy(h->heard + h->heard_len, a->block_at, a->block);
    h->heard_len += a->block;
    carry(other, a->sent_at, a->sent);
}

static void ask(struct host *h, struct host *other, uint8_t kind) {
    dock_answer a = dock_ask_kind(&h->end, kind);
    follow(h, other, &a);
}

/* Some frame on its way arrives, in no order; one in three stays and will arrive again. After a block come those held for their turn. */
static void arrive(struct host *h, struct host *other) {
    if (h->coming_len == 0)
        return;
    size_t at = below((uint32_t)h->coming_len);
    struct frame f = h->coming[at];
    if (below(3) != 0)
        h->coming[at] = h->coming[--h->coming_len];
    dock_answer a = dock_hear(&h->end, f.bytes, f.len);
    if (a.number != DOCK_OK) {
        printf("%s: a frame was refused: %s\n", h->name, dock_number_name(a.number));
        exit(1);
    }
    follow(h, other, &a);
    while (a.block > 0) {
        a = dock_collect(&h->end);
        follow(h, other, &a);
    }
}

/* The next part of the text, as long as there is room for it. */
static void talk(struct host *h, struct host *other) {
    size_t left = strlen(h->text) - h->queued;
    if (h->state != DOCK_OPEN || left == 0)
        return;
    size_t len = left < DOCK_BLOCK ? left : DOCK_BLOCK;
    dock_answer a = dock_send(&h->end, (const uint8_t *)h->text + h->queued, len);
    if (a.number == DOCK_OK)
        h->queued += len;
    follow(h, other, &a);
}

static void turn(struct host *h, struct host *other) {
    arrive(h, other);
    talk(h, other);
    if (below(5) == 0)
        ask(h, other, DOCK_TIMER);
}

static int heard_all(const struct host *h, const struct host *other) {
    return h->heard_len == strlen(other->text);
}

int main(void) {
    static struct host dock = {.name = "dock",
                               .text = "Pallet 17: rice, 40 bags, best before June. "
                                       "Pallet 18: beans, 60 tins. Pallet 19: oil, 24 bottles, two of them open. "
                                       "Pallet 20: apples, use today."};
    static struct host stock = {.name = "stock room",
                                .text = "Take 20 to the counter at once, 17 to aisle 3, 18 to aisle 4; leave 19 where it is."};
    dock_init(&dock.end);
    dock_init(&stock.end);
    ask(&stock, &dock, DOCK_LISTEN);
    ask(&dock, &stock, DOCK_CONNECT);
    int closing = 0;
    for (long i = 0; i < TURNS; i++) {
        turn(&dock, &stock);
        turn(&stock, &dock);
        if (!closing && heard_all(&dock, &stock) && heard_all(&stock, &dock)) {
            closing = 1;
            ask(&dock, &stock, DOCK_CLOSE);
        }
        if (closing && dock.state == DOCK_CLOSED && stock.state == DOCK_CLOSED) {
            printf("%s heard: %.*s\n", dock.name, (int)dock.heard_len, dock.heard);
            printf("%s heard: %.*s\n", stock.name, (int)stock.heard_len, stock.heard);
            return 0;
        }
    }
    printf("the mesh was too bad\n");
    return 1;
}
