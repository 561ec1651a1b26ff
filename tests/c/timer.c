/*
 * When a host makes its timer calls. The rule: in calling, answering, closing, and open with blocks waiting, whenever neither the state nor
 * w has changed for one timeout. A rule that looks as good, "whenever nothing was heard for one timeout", starves: an end that hears its
 * partner all the time never sends again what was lost. In each case here a frame of A's, or the one that A waits for, is lost, and B sends
 * blocks all the time. By the rule it comes to its end in time, by the other one never. There is no clock: time is a count of steps.
 */
#include "dock.h"
#include "expect.h"

#define TIMEOUT_A 8 /* in steps; longer than B's, so that A always hears B sooner */
#define TIMEOUT_B 5
#define IN_TIME (2 * TIMEOUT_A)
#define NEVER 10000 /* steps after which a case is given up */
#define FLIGHT 16   /* frames under way to one host */

struct frame {
    size_t len;
    uint8_t bytes[DOCK_FRAME];
};

struct host {
    dock_end end;
    unsigned timeout;
    int by_silence; /* it goes by the other rule */
    int talks;      /* it sends a block in every step, if there is room for it */
    unsigned lost;  /* so many of its next frames are lost */

    uint8_t state;
    unsigned waiting;
    unsigned since;                       /* when the time until its timer call began */
    unsigned timer_calls, frames, blocks; /* timer calls made, frames heard, blocks handed up */
    struct frame coming[FLIGHT];
    size_t coming_len;
};

static struct host a, b;
static unsigned now;
static int surprised; /* something was refused, or found no room */

static void carry(struct host *from, struct host *to, const dock_answer *answer) {
    if (answer->sent == 0)
        return;
    if (from->lost > 0) {
        from->lost--;
        return;
    }
    if (to->coming_len == FLIGHT) {
        surprised = 1;
        return;
    }
    struct frame *f = &to->coming[to->coming_len++];
    f->len = answer->sent;
    memcpy(f->bytes, answer->sent_at, answer->sent);
}

/* After every call: where the state or w is another than before, the time until the timer call begins again. */
static void obey(struct host *h, struct host *other, const dock_answer *answer) {
    unsigned waiting = dock_waiting(&h->end);
    surprised |= answer->number != DOCK_OK;
    if (answer->state != h->state || waiting != h->waiting)
        h->since = now;
    h->state = answer->state;
    h->waiting = waiting;
    h->blocks += answer->block > 0;
    carry(h, other, answer);
}

static void ask(struct host *h, struct host *other, uint8_t kind) {
    dock_answer answer = dock_ask_kind(&h->end, kind);
    obey(h, other, &answer);
}

static void send_block(struct host *h, struct host *other) {
    dock_answer answer = dock_send(&h->end, (const uint8_t *)"rice", 4);
    obey(h, other, &answer);
}

/* By the other rule a frame heard begins the time again, too. */
static void hear_all(struct host *h, struct host *other) {
    for (size_t i = 0; i < h->coming_len; i++) {
        h->frames++;
        if (h->by_silence)
            h->since = now;
        dock_answer answer = dock_hear(&h->end, h->coming[i].bytes, h->coming[i].len);
        obey(h, other, &answer);
        while (answer.block > 0) {
            answer = dock_collect(&h->end);
            obey(h, other, &answer);
        }
    }
    h->coming_len = 0;
}

/* In these states a timer call sends something. */
static int needs_timer(const struct host *h) {
    return h->state == DOCK_CALLING || h->state == DOCK_ANSWERING || h->state == DOCK_CLOSING || h->waiting > 0;
}

static void look_at_time(struct host *h, struct host *other) {
    if (!needs_timer(h) || now - h->since < h->timeout)
        return;
    h->since = now;
    h->timer_calls++;
    ask(h, other, DOCK_TIMER);
}

static void turn(struct host *h, struct host *other) {
    hear_all(h, other);
    look_at_time(h, other);
    if (h->talks && h->state == DOCK_OPEN && h->waiting < 8)
        send_block(h, other);
}

static void step(void) {
    now++;
    turn(&a, &b);
    turn(&b, &a);
}

/* Two fresh ends, and no frame under way. */
static void begin(int by_silence) {
    memset(&a, 0, sizeof a);
    memset(&b, 0, sizeof b);
    dock_init(&a.end);
    dock_init(&b.end);
    a.timeout = TIMEOUT_A;
    b.timeout = TIMEOUT_B;
    a.by_silence = b.by_silence = by_silence;
    now = 0;
    surprised = 0;
}

/* B calls, A answers. Of B's frames after its call so many are lost. */
static void answer_call(unsigned lost) {
    ask(&a, &b, DOCK_LISTEN);
    ask(&b, &a, DOCK_CONNECT);
    hear_all(&a, &b);
    b.lost = lost;
    hear_all(&b, &a);
}

static void open_both(void) {
    answer_call(0);
    hear_all(&a, &b);
    expect(a.state == DOCK_OPEN && b.state == DOCK_OPEN, "both are open");
}

/* Open: A's only block is lost. */
static void lose_block(void) {
    open_both();
    a.lost = 1;
    send_block(&a, &b);
}

static int has_block(void) {
    return b.blocks == 1 && a.waiting == 0;
}

/* Answering: B has opened, and what says so is lost. */
static void lose_opening(void) {
    answer_call(1);
    expect(a.state == DOCK_ANSWERING && b.state == DOCK_OPEN, "B alone is open");
}

/* Calling: both call, and each hears the other. B opens; its call that quotes A's and what says that it is open are lost. */
static void lose_call(void) {
    ask(&a, &b, DOCK_CONNECT);
    ask(&b, &a, DOCK_CONNECT);
    hear_all(&a, &b);
    b.lost = 2;
    hear_all(&b, &a);
    expect(a.state == DOCK_CALLING && b.state == DOCK_OPEN, "B alone is open");
}

static int hears_blocks(void) {
    return a.state == DOCK_OPEN && a.blocks > 0;
}

/* Closing: A hangs up, and what says so is lost. */
static void lose_close(void) {
    open_both();
    a.lost = 1;
    ask(&a, &b, DOCK_CLOSE);
}

static int are_closed(void) {
    return a.state == DOCK_CLOSED && b.state == DOCK_CLOSED;
}

/* One case by one rule, until it has come to its end. */
static void play(void (*lose)(void), int (*has_ended)(void), int by_silence) {
    begin(by_silence);
    lose();
    expect(a.lost == 0 && b.lost == 0 && !has_ended(), "it is lost");
    b.talks = 1;
    while (!has_ended() && now < NEVER)
        step();
}

/* One case by both rules. */
static void test_case(void (*lose)(void), int (*has_ended)(void), const char *what) {
    play(lose, has_ended, 0);
    expect(has_ended() && now <= IN_TIME && a.timer_calls == 1 && !surprised, what);
    play(lose, has_ended, 1);
    expect(!has_ended() && a.timer_calls == 0 && !surprised, "by silence, never");
    expect(a.frames > NEVER / TIMEOUT_B - TIMEOUT_B, "since A hears B all the time");
}

/* Each new block of its own puts a timer call off, but eight at most wait: so the oldest is sent again before eight timeouts are over. */
static void test_new_blocks(void) {
    begin(0);
    lose_block();
    while (b.blocks == 0 && now < NEVER) {
        if (a.waiting < 8 && now - a.since == TIMEOUT_A - 1)
            send_block(&a, &b);
        step();
    }
    expect(a.timer_calls == 1 && now > 7 * (TIMEOUT_A - 1) && now < 8 * TIMEOUT_A, "new blocks put it off for less than eight timeouts");
    expect(!surprised, "and nothing is refused");
    expect(b.blocks == 8, "then all eight come up");
}

int main(void) {
    test_case(lose_block, has_block, "open: the block comes up");
    test_case(lose_opening, hears_blocks, "answering: A opens too");
    test_case(lose_call, hears_blocks, "calling: A opens too");
    test_case(lose_close, are_closed, "closing: both are closed");
    test_new_blocks();
    return counted();
}
