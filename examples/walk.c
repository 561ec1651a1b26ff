/*
 * Benches are walked: the first frame of the book that still matters is delivered, again and again, until none does. First two ends
 * connect and send text over a mesh that loses most of their frames; then a call is hung up before its answer arrives.
 * Expect: each end has heard the other's whole text; the call that was hung up is answered until the book is full; both walks end in
 * time, and no frame of the book would change anything any more (walk.out).
 */
#include <stdio.h>
#include <stdlib.h>
#include <string.h>

#include "dock.h"

/* The text that an end has heard. */
struct text {
    char bytes[1024];
    size_t len;
};

struct bench {
    dock_pair pair;
    struct text heard[2];
};

static const unsigned dock = DOCK_A, stock = DOCK_B;
static const char *const names[] = {"dock", "stock room"};

/* The answer to a line, which must not be refused; what its end is told is told on. */
static void tell(struct bench *bench, dock_answer a) {
    if (a.number != DOCK_OK) {
        printf("refused: %s\n", dock_number_name(a.number));
        exit(1);
    }
    if (a.notice == DOCK_CONNECTED)
        printf("%s: connected, incarnation %u with %u\n", names[a.end], (unsigned)a.local, (unsigned)a.remote);
    struct text *heard = &bench->heard[a.end];
    if (a.block > 0 && heard->len + a.block < sizeof heard->bytes) {
        memcpy(heard->bytes + heard->len, a.block_at, a.block);
        heard->len += a.block;
    }
}

static void say(struct bench *bench, const char *line) {
    tell(bench, dock_pair_line(&bench->pair, line, strlen(line)));
}

static void deliver(struct bench *bench, size_t frame) {
    tell(bench, dock_pair_deliver(&bench->pair, frame));
}

/* A request without a block. */
static void request(struct bench *bench, unsigned end, unsigned kind) {
    char line[2 * DOCK_FRAME + 1];
    snprintf(line, sizeof line, "%02x%02x", DOCK_REQUEST_A + end, kind);
    say(bench, line);
}

/* The end sends a text as one block. */
static void send_text(struct bench *bench, unsigned end, const char *text) {
    char line[2 * DOCK_FRAME + 1];
    size_t len = strlen(text);
    int at = snprintf(line, sizeof line, "%02x%02x%02zx", DOCK_REQUEST_A + end, DOCK_SEND, len);
    for (size_t i = 0; i < len && i < DOCK_BLOCK; i++)
        at += snprintf(line + at, sizeof line - (size_t)at, "%02x", (unsigned char)text[i]);
    say(bench, line);
}

/* The frame sent last arrives. */
static void arrive(struct bench *bench) {
    deliver(bench, bench->pair.count - 1);
}

/*
 * Delivers the first frame that matters, again and again, and counts. The walk ends: a delivery that sends takes a place of the book, and
 * one that sends nothing brings its end down, from calling or answering (2) or from open with w blocks waiting (1 + w), to closing (1), to
 * listening or closed (0). One that sends may lift its end, by two at the most. So there are at most three deliveries for each place left,
 * and 18 more. That is proved (crates/bench_walk).
 */
static size_t walk(struct bench *bench) {
    size_t deliveries = 0, frame;
    while ((frame = dock_pair_first_frame(&bench->pair)) != DOCK_NO_FRAME) {
        if (dock_pair_first_frame(&bench->pair) != frame) {
            printf("asked again, another frame is named\n");
            exit(1);
        }
        deliver(bench, frame);
        deliveries++;
    }
    return deliveries;
}

/* Is it true that no frame of the book changes a record any more? */
static int nothing_left(const dock_pair *pair) {
    static dock_pair after;
    for (size_t frame = 0; frame < pair->count; frame++) {
        after = *pair;
        (void)dock_pair_deliver(&after, frame); /* in a full book some are refused */
        if (memcmp(after.record, pair->record, sizeof pair->record) != 0)
            return 0;
    }
    return 1;
}

/* Walks to the end, which has to come in time, and tells how it went. */
static void finish(struct bench *bench) {
    const size_t places = DOCK_PLACES - bench->pair.count, most = 3 * places + 18;
    printf("the book holds %zu frames: at most 3 * %zu + 18 = %zu deliveries\n", bench->pair.count, places, most);
    const size_t deliveries = walk(bench);
    if (deliveries > most || !nothing_left(&bench->pair)) {
        printf("%zu deliveries: too many, or a frame is left\n", deliveries);
        exit(1);
    }
    printf("%zu deliveries, no more: the book holds %zu frames, nothing left\n", deliveries, bench->pair.count);
}

/* Text over a mesh that loses most frames. */
static void bad_mesh(struct bench *bench) {
    dock_pair_init(&bench->pair);
    request(bench, stock, DOCK_LISTEN);
    request(bench, dock, DOCK_CONNECT); /* the call is lost */
    request(bench, dock, DOCK_TIMER);
    arrive(bench); /* the answer is lost */
    request(bench, stock, DOCK_TIMER);
    arrive(bench);
    arrive(bench);

    /* All blocks are lost too, and those that are sent again. */
    send_text(bench, dock, "Pallet 17: rice, 40 bags. ");
    send_text(bench, dock, "Pallet 18: beans, 60 tins. ");
    send_text(bench, stock, "Take 17 to aisle 3, ");
    send_text(bench, dock, "Pallet 20: apples, use today.");
    request(bench, dock, DOCK_TIMER);
    send_text(bench, stock, "18 to aisle 4, 20 to the counter at once.");
    request(bench, stock, DOCK_TIMER);
    finish(bench);
    for (int end = DOCK_A; end <= DOCK_B; end++)
        printf("%s heard: %.*s\n", names[end], (int)bench->heard[end].len, bench->heard[end].bytes);
}

/* A call that was hung up: the stock room answers it, and the dock refuses the answer. From then on the call and the refusal matter in
 * turns: the stock room answers, and listens again, until there is no place left for an answer. */
static void hung_up(struct bench *bench) {
    dock_pair_init(&bench->pair);
    request(bench, stock, DOCK_LISTEN);
    request(bench, dock, DOCK_CONNECT); /* frame 0, the call */
    request(bench, dock, DOCK_CLOSE);   /* there is nobody to tell */
    arrive(bench);                      /* frame 1, the answer */
    arrive(bench);                      /* frame 2, the refusal */
    finish(bench);
}

int main(void) {
    static struct bench bench;
    bad_mesh(&bench);
    printf("a call that was hung up\n");
    hung_up(&bench);
    return 0;
}
