/*
 * The inline functions of include/dock.h: each makes its call with the right buffers, and tells what the call answered. What the calls
 * themselves answer is proved and compared elsewhere. Written in what C99, C11 and C++17 have in common, and built as each.
 */
#include "dock.h"
#include "expect.h"

static int same_text(const char *found, const char *right) {
    return strcmp(found, right) == 0;
}

/* An answer without a notice, a frame and a block. */
static int is_silent(const dock_answer *a) {
    return a->notice == DOCK_NONE && a->sent == 0 && a->block == 0 && a->block_at == NULL;
}

static int is_open(const dock_answer *a) {
    return a->number == DOCK_OK && a->state == DOCK_OPEN && a->notice == DOCK_CONNECTED && a->local == 1 && a->remote == 1;
}

/* Both fresh ends open: the first calls, the second listens. */
static void test_opening(dock_end *caller, dock_end *listener) {
    dock_init(caller);
    dock_init(listener);
    dock_answer a = dock_collect(listener);
    expect(a.number == DOCK_WRONG_STATE && a.state == DOCK_CLOSED && is_silent(&a), "a closed end does not collect");
    a = dock_ask_kind(listener, DOCK_LISTEN);
    expect(a.number == DOCK_OK && a.state == DOCK_LISTENING && a.local == 1 && is_silent(&a), "a fresh end listens");
    expect(a.must_store == 1 && a.must_store_at == 0, "it has reserved its number");
    a = dock_ask_kind(caller, DOCK_CONNECT);
    expect(a.state == DOCK_CALLING && a.sent == 9 && a.sent_at == caller->out && a.sent_at[0] == DOCK_CRAO, "a fresh end calls");
    a = dock_hear(listener, a.sent_at, a.sent);
    expect(a.state == DOCK_ANSWERING && a.remote == 1 && a.sent_at == listener->out && a.sent_at[0] == DOCK_CRPO, "the call is answered");
    a = dock_hear(caller, a.sent_at, a.sent);
    expect(is_open(&a) && a.sent_at[0] == DOCK_CRACK && a.block_at == NULL, "the caller opens");
    a = dock_hear(listener, a.sent_at, a.sent);
    expect(is_open(&a) && a.sent == 0, "the listener opens");
}

/* Calls are hung up: one that has heard of nobody, then one that has heard the partner's own call. */
static void test_hanging_up(dock_end *caller, dock_end *partner) {
    uint8_t call[DOCK_FRAME];
    dock_init(caller);
    dock_init(partner);
    dock_answer a = dock_ask_kind(caller, DOCK_CLOSE);
    expect(a.number == DOCK_WRONG_STATE && a.state == DOCK_CLOSED && is_silent(&a), "a closed end has nothing to hang up");
    dock_ask_kind(caller, DOCK_CONNECT);
    a = dock_ask_kind(caller, DOCK_CLOSE);
    expect(a.state == DOCK_CLOSED && a.notice == DOCK_CLOSE_FINISHED && a.sent == 0, "a call to nobody is closed at once");
    expect(a.number == DOCK_OK && a.local == 1 && a.remote == 0, "it keeps its number");
    a = dock_ask_kind(partner, DOCK_CONNECT);
    memcpy(call, a.sent_at, a.sent);
    dock_ask_kind(caller, DOCK_CONNECT);
    a = dock_hear(caller, call, a.sent);
    expect(a.state == DOCK_CALLING && a.local == 2 && a.remote == 1, "the partner calls too");
    a = dock_ask_kind(caller, DOCK_CLOSE);
    expect(a.number == DOCK_OK && a.state == DOCK_CLOSING && a.notice == DOCK_NONE && a.remote == 1, "a call that was heard is closing");
    expect(a.sent == 9 && a.sent_at == caller->out && a.sent_at[0] == DOCK_DR, "the partner is told");
    a = dock_hear(partner, a.sent_at, a.sent);
    expect(a.state == DOCK_CLOSED && a.notice == DOCK_REJECTED && a.sent_at[0] == DOCK_DRACK, "the partner's call is over");
    a = dock_hear(caller, a.sent_at, a.sent);
    expect(a.state == DOCK_CLOSED && a.notice == DOCK_CLOSE_FINISHED && a.sent == 0, "the caller is closed");
}

/* A block of each length that is allowed comes up as it was sent, and is acknowledged. */
static void test_blocks(dock_end *from, dock_end *to) {
    uint8_t block[DOCK_BLOCK], frame[DOCK_FRAME];
    for (size_t i = 0; i < sizeof block; i++)
        block[i] = (uint8_t)(200 + i);
    for (size_t len = 1; len <= sizeof block; len++) {
        dock_answer a = dock_send(from, block, len);
        expect(a.number == DOCK_OK && a.sent == DOCK_BLOCK_AT + len && dock_waiting(from) == 1, "a block is sent");
        size_t sent = a.sent;
        memcpy(frame, a.sent_at, sent);
        a = dock_hear(to, frame, sent);
        expect(a.notice == DOCK_HANDED_UP && a.block == len && a.block_at == frame + DOCK_BLOCK_AT, "a block is handed up");
        expect(a.block == len && memcmp(a.block_at, block, len) == 0, "it has the same bytes");
        a = dock_hear(from, a.sent_at, a.sent);
        expect(a.number == DOCK_OK && is_silent(&a) && dock_waiting(from) == 0, "it is acknowledged");
    }
}

/* The eight blocks that wait arrive in some order: one comes up as it arrives, and the others are held, and collected. */
static void test_overtaking(dock_end *from, dock_end *to) {
    static const size_t order[] = {3, 7, 1, 0, 6, 2, 5, 4};
    uint8_t block[DOCK_BLOCK], frame[8][DOCK_FRAME];
    size_t sent[8];
    for (size_t i = 0; i < 8; i++) {
        memset(block, (int)(100 + i), sizeof block);
        dock_answer a = dock_send(from, block, 1 + 9 * i);
        expect(a.number == DOCK_OK && a.block == 0, "a block is sent");
        sent[i] = a.sent;
        memcpy(frame[i], a.sent_at, a.sent);
    }
    dock_answer a = dock_collect(to);
    expect(a.number == DOCK_OK && is_silent(&a), "nothing is held");
    for (size_t i = 0; i < 8; i++) {
        a = dock_hear(to, frame[order[i]], sent[order[i]]);
        expect(a.number == DOCK_OK && (a.block > 0) == (order[i] == 0), "the next one is handed up, the others are held");
    }
    for (size_t i = 1; i < 8; i++) {
        memset(block, (int)(100 + i), sizeof block);
        memset(to->up, 0, sizeof to->up);
        a = dock_collect(to);
        expect(a.notice == DOCK_HANDED_UP && a.block == 1 + 9 * i && a.block_at == to->up, "a held block is collected");
        expect(memcmp(to->up, block, a.block) == 0, "it has the same bytes");
        expect(a.block == sizeof to->up || to->up[a.block] == 0, "and no others are written");
        expect(a.sent == 13 && a.sent_at == to->out && a.sent_at[0] == DOCK_ACK, "its acknowledgement is to be sent");
    }
    a = dock_hear(from, a.sent_at, a.sent);
    expect(dock_waiting(from) == 0, "all eight are acknowledged");
    a = dock_collect(to);
    expect(a.number == DOCK_OK && is_silent(&a), "no more is held");
}

/* A refusal tells its number and how the end stands, and changes nothing. */
static void expect_refused(dock_end *end, const dock_end *before, dock_answer a, unsigned number, const char *what) {
    expect(a.number == number && a.state == DOCK_OPEN && a.local == 1 && a.remote == 1 && is_silent(&a), what);
    expect(memcmp(end, before, sizeof *end) == 0 && a.must_store == 0, "a refusal changes nothing");
}

static void test_refusals(dock_end *end) {
    static const size_t lengths[] = {0, 65, 254, 255, 256, 257, 320, 1000};
    static const uint8_t bytes[1000] = {0};
    const dock_end before = *end;
    for (size_t i = 0; i < sizeof lengths / sizeof lengths[0]; i++)
        expect_refused(end, &before, dock_send(end, bytes, lengths[i]), DOCK_BAD_COUNT, "a block has 1 to 64 bytes");
    expect_refused(end, &before, dock_send(end, NULL, 0), DOCK_BAD_COUNT, "no block is no block");
    expect_refused(end, &before, dock_ask(end, bytes, 0), DOCK_UNKNOWN_KIND, "no bytes are no request");
    expect_refused(end, &before, dock_ask_kind(end, 0x3f), DOCK_UNKNOWN_KIND, "3f is no request");
    expect_refused(end, &before, dock_ask_kind(end, DOCK_SEND), DOCK_BAD_SIZE, "a send has a count");
    expect_refused(end, &before, dock_ask_kind(end, DOCK_CONNECT), DOCK_WRONG_STATE, "an open end does not call");
    expect_refused(end, &before, dock_hear(end, bytes, sizeof bytes), DOCK_UNKNOWN_KIND, "00 is no frame");
    expect_refused(end, &before, dock_hear(end, bytes, 0), DOCK_UNKNOWN_KIND, "no bytes are no frame");
}

/* The eighth block waits, the ninth is refused. */
static void test_window(dock_end *end) {
    static const uint8_t block[] = {1, 2, 3};
    for (unsigned waiting = 1; waiting <= 8; waiting++)
        expect(dock_send(end, block, sizeof block).number == DOCK_OK && dock_waiting(end) == waiting, "a block waits");
    const dock_end before = *end;
    expect_refused(end, &before, dock_send(end, block, sizeof block), DOCK_QUEUE_FULL, "eight blocks wait");
    dock_answer a = dock_ask_kind(end, DOCK_TIMER);
    expect(a.number == DOCK_OK && a.sent == DOCK_BLOCK_AT + sizeof block, "the oldest is sent again");
}

/* A record that is not sound is refused, and told as it stands. */
static void test_unsound(dock_end *end) {
    end->record[0] = 6;
    dock_answer a = dock_ask_kind(end, DOCK_TIMER);
    expect(a.number == DOCK_UNSOUND && a.state == 6 && is_silent(&a), "a state of 6 is not sound");
}

/* The page with so many bytes used. */
static void make_page(uint8_t *page, size_t used) {
    memset(page, DOCK_PAGE_NEW, DOCK_PAGE);
    memset(page, 0, used);
}

static int is_page(const uint8_t *page, size_t used) {
    uint8_t right[DOCK_PAGE];
    make_page(right, used);
    return memcmp(page, right, DOCK_PAGE) == 0;
}

/* A closed end's timer call does nothing: is it closed, with this number? */
static int is_closed(dock_end *end, uint32_t local) {
    dock_answer a = dock_ask_kind(end, DOCK_TIMER);
    return a.number == DOCK_OK && a.state == DOCK_CLOSED && a.local == local && a.remote == 0 && is_silent(&a) && a.must_store == 0;
}

/* A call, hung up at once, or listening, ended at once: does it begin with this number, and set this byte of the page, or none (-1)? */
static int begins(dock_end *end, uint8_t request, uint32_t local, int at) {
    dock_answer a = dock_ask_kind(end, request);
    int right = a.number == DOCK_OK && a.local == local && a.must_store == (at >= 0 ? 1U : 0U);
    right = right && a.must_store_at == (at >= 0 ? (size_t)at : 0U);
    dock_answer again = dock_ask_kind(end, request);
    right = right && again.number == DOCK_WRONG_STATE && again.must_store == 0;
    a = dock_ask_kind(end, request == DOCK_CONNECT ? DOCK_CLOSE : DOCK_END_LISTENING);
    return right && a.number == DOCK_OK && a.state == DOCK_CLOSED && a.must_store == 0;
}

/* Sixteen numbers are reserved by each byte, with the first of them. */
static void test_reserving(dock_end *end) {
    dock_init(end);
    expect(is_page(end->page, 0) && is_closed(end, 0), "a fresh end has a new page");
    for (uint32_t local = 1; local <= 50; local++) {
        int at = local % 16 == 1 ? (int)(local / 16) : -1;
        expect(begins(end, local % 3 == 0 ? DOCK_LISTEN : DOCK_CONNECT, local, at), "one in sixteen numbers sets a byte");
        expect(is_page(end->page, (local + 15) / 16), "and no other byte is set");
    }
}

/* An end restarts from its page alone. */
static void test_restoring(dock_end *end) {
    static const size_t used[] = {0, 1, 2, 3, 100, 4094, 4095};
    for (size_t i = 0; i < sizeof used / sizeof used[0]; i++) {
        memset(end->record, 0xee, sizeof end->record);
        make_page(end->page, used[i]);
        expect(dock_restore(end) == DOCK_OK && is_closed(end, (uint32_t)(16 * used[i])), "an end restarts from its page");
        expect(is_page(end->page, used[i]), "which stays as it is");
        expect(begins(end, i % 2 == 0 ? DOCK_CONNECT : DOCK_LISTEN, (uint32_t)(16 * used[i] + 1), (int)used[i]), "its next number is new");
        expect(dock_restore(end) == DOCK_OK && is_closed(end, (uint32_t)(16 * used[i] + 16)), "a restart skips what was reserved");
    }
    make_page(end->page, DOCK_PAGE - 1);
    expect(dock_restore(end) == DOCK_OK && begins(end, DOCK_CONNECT, 65521, DOCK_PAGE - 1), "the last byte is set");
    for (uint32_t local = 65522; local <= 65536; local++)
        expect(begins(end, DOCK_LISTEN, local, -1), "and has sixteen numbers too");
    expect(dock_ask_kind(end, DOCK_CONNECT).number == DOCK_NO_NUMBER_LEFT && is_closed(end, 65536), "then the page is used up");
    expect(dock_restore(end) == DOCK_OK && is_closed(end, 65536), "a used up page is a page");
    expect(dock_ask_kind(end, DOCK_LISTEN).number == DOCK_NO_NUMBER_LEFT, "without a number left");
}

/* A page that is none: the restart is refused, and leaves the record. */
static void expect_damaged(dock_end *end, size_t used, size_t at, uint8_t byte) {
    uint8_t record[DOCK_RECORD];
    memset(record, 0xee, sizeof record);
    memset(end->record, 0xee, sizeof end->record);
    make_page(end->page, used);
    end->page[at] = byte;
    expect(dock_restore(end) == DOCK_WRONG_PAGE && memcmp(end->record, record, sizeof record) == 0, "a damaged page is refused");
}

static void test_damaged(dock_end *end) {
    expect_damaged(end, 0, 1, 0);
    expect_damaged(end, 0, 0, 0x7f);
    expect_damaged(end, 0, DOCK_PAGE - 1, 0);
    expect_damaged(end, 3, 1, 0xff);
    expect_damaged(end, 3, 3, 0xfe);
    expect_damaged(end, 3, 2, 1);
    expect_damaged(end, DOCK_PAGE, 0, 0xff);
    expect_damaged(end, DOCK_PAGE, DOCK_PAGE - 1, 1);
}

/* A page that does not go with the record: every call is refused, and tells how the end stands. */
static void test_wrong_page(dock_end *end) {
    static const uint8_t call[] = {DOCK_CRAO, 0, 0, 0, 1, 0, 0, 0, 0};
    static const size_t used[] = {0, 2, DOCK_PAGE};
    dock_init(end);
    (void)dock_ask_kind(end, DOCK_CONNECT);
    for (size_t i = 0; i < sizeof used / sizeof used[0]; i++) {
        make_page(end->page, used[i]);
        const dock_end before = *end;
        dock_answer a = dock_ask_kind(end, DOCK_TIMER);
        expect(a.number == DOCK_WRONG_PAGE && a.state == DOCK_CALLING && a.local == 1 && is_silent(&a), "the timer call is refused");
        a = dock_hear(end, call, sizeof call);
        expect(a.number == DOCK_WRONG_PAGE && a.state == DOCK_CALLING && a.local == 1 && is_silent(&a), "a frame is refused");
        a = dock_ask(end, call, 0);
        expect(a.number == DOCK_WRONG_PAGE && a.must_store == 0, "what is no request is not looked at");
        expect(memcmp(end, &before, sizeof before) == 0, "and nothing is changed");
    }
    end->record[0] = 6;
    expect(dock_ask_kind(end, DOCK_TIMER).number == DOCK_UNSOUND, "the record is asked for first");
}

/* The plain calls ask for the lengths of what is lent. */
static void test_short_buffers(dock_end *end) {
    static const uint8_t timer[] = {DOCK_TIMER};
    uint8_t state, notice;
    uint32_t local, remote;
    size_t sent, block;
    make_page(end->page, 1);
    end->page[0] = 1;
    expect(dock_restart(end->record, DOCK_RECORD - 1, end->page, DOCK_PAGE) == DOCK_SHORT_BUFFER, "a restart needs a whole record");
    expect(dock_restart(end->record, DOCK_RECORD, end->page, DOCK_PAGE - 1) == DOCK_SHORT_BUFFER, "and a whole page");
    dock_init(end);
    expect(dock_request(end->record, DOCK_RECORD, end->page, DOCK_PAGE - 1, timer, sizeof timer, end->out, DOCK_FRAME, end->up, DOCK_BLOCK,
                        &state, &notice, &local, &remote, &sent, &block) == DOCK_SHORT_BUFFER,
           "so does a request");
    expect(dock_receive(end->record, DOCK_RECORD, end->page, DOCK_PAGE - 1, timer, sizeof timer, end->out, DOCK_FRAME, &state, &notice,
                        &local, &remote, &sent, &block) == DOCK_SHORT_BUFFER,
           "and a frame");
}

/* One of two open ends loses power, and stays closed: its partner is told so by the answer to the first thing that it sends. */
static void test_healing(dock_end *caller, dock_end *listener) {
    test_opening(caller, listener);
    expect(dock_restore(listener) == DOCK_OK && is_closed(listener, 16), "an open end restarts");
    dock_answer a = dock_send(caller, (const uint8_t *)"rice", 4);
    a = dock_hear(listener, a.sent_at, a.sent);
    expect(a.number == DOCK_OK && a.state == DOCK_CLOSED && a.block == 0 && a.sent == 9 && a.sent_at[0] == DOCK_REJ, "it refuses a block");
    expect(a.sent_at[4] == 16 && a.sent_at[8] == 1, "with its new number");
    a = dock_hear(caller, a.sent_at, a.sent);
    expect(a.state == DOCK_CLOSED && a.notice == DOCK_CLOSED_BY_PARTNER && a.sent == 0, "its partner is closed");
    expect(dock_waiting(caller) == 0 && is_closed(caller, 1), "and keeps its number, and no block");
}

/* One that listens at once says nothing: its partner stays open, until its user closes. */
static void test_not_healing(dock_end *caller, dock_end *listener) {
    test_opening(caller, listener);
    expect(dock_restore(listener) == DOCK_OK && dock_ask_kind(listener, DOCK_LISTEN).local == 17, "a restarted end listens");
    dock_answer a = dock_send(caller, (const uint8_t *)"rice", 4);
    a = dock_hear(listener, a.sent_at, a.sent);
    expect(a.number == DOCK_OK && a.state == DOCK_LISTENING && is_silent(&a), "it passes a block over");
    a = dock_ask_kind(caller, DOCK_CLOSE);
    a = dock_hear(listener, a.sent_at, a.sent);
    expect(a.state == DOCK_LISTENING && a.sent_at[0] == DOCK_DRACK && a.notice == DOCK_NONE, "it hears a close");
    a = dock_hear(caller, a.sent_at, a.sent);
    expect(a.state == DOCK_CLOSED && a.notice == DOCK_CLOSE_FINISHED, "and its partner is closed");
}

static dock_answer line(dock_pair *pair, const char *text) {
    return dock_pair_line(pair, text, strlen(text));
}

static void test_bench(void) {
    static dock_pair pair;
    dock_pair_init(&pair);
    expect(dock_pair_first_frame(&pair) == DOCK_NO_FRAME, "an empty book has nothing to deliver");
    dock_answer a = line(&pair, "5141");
    expect(a.number == DOCK_OK && a.end == DOCK_B && a.state == DOCK_LISTENING && is_silent(&a), "B listens");
    a = line(&pair, "5040");
    expect(a.end == DOCK_A && a.state == DOCK_CALLING && a.sent == 9 && a.sent_at == pair.out && pair.count == 1, "A calls");
    expect(dock_pair_first_frame(&pair) == 0, "the call matters");
    expect(line(&pair, "520000").state == DOCK_ANSWERING && line(&pair, "520001").state == DOCK_OPEN, "B answers, A opens");
    a = line(&pair, "520002");
    expect(a.end == DOCK_B && is_open(&a), "B opens");
    expect(line(&pair, "50440361626").number == DOCK_BAD_LENGTH, "a line has an even number of digits");
    expect(line(&pair, "5044036162zz").number == DOCK_BAD_DIGIT, "z is no digit");
    expect(line(&pair, "52FFfF").number == DOCK_NO_SUCH_FRAME, "letters are digits in either case");
    expect(line(&pair, "504403616263").number == DOCK_OK && pair.count == 4, "A sends a block");
    a = line(&pair, "520003");
    expect(a.end == DOCK_B && a.notice == DOCK_HANDED_UP && a.block == 3 && memcmp(a.block_at, "abc", 3) == 0, "B has it");
    expect(a.block_at == pair.book + 3 * DOCK_PLACE + 2 + DOCK_BLOCK_AT, "it stands in the book");
    expect(line(&pair, "50440164").number == DOCK_OK && line(&pair, "50440165").number == DOCK_OK, "A sends two more");
    expect(dock_pair_first_frame(&pair) == 4, "what B has is not acknowledged yet");
    a = dock_pair_deliver(&pair, 4);
    expect(a.number == DOCK_OK && a.end == DOCK_A && is_silent(&a), "its acknowledgement is delivered");
    expect(dock_pair_first_frame(&pair) == 5, "of the two others the first is named");
    a = line(&pair, "520006");
    expect(a.end == DOCK_B && a.block == 0 && a.sent == 13, "the second arrives first, and is held");
    a = line(&pair, "5146");
    expect(a.number == DOCK_OK && a.end == DOCK_B && is_silent(&a), "it is not collected yet");
    a = line(&pair, "520005");
    expect(a.block == 1 && a.block_at == pair.book + 5 * DOCK_PLACE + 2 + DOCK_BLOCK_AT, "the first comes up from the book");
    a = line(&pair, "5146");
    expect(a.notice == DOCK_HANDED_UP && a.block == 1 && a.block_at == pair.up && pair.up[0] == 'e', "the second is collected");
    expect(a.sent == 13 && a.sent_at == pair.out && pair.count == 10, "and acknowledged");
    a = line(&pair, "520200");
    expect(a.number == DOCK_NO_SUCH_FRAME && a.end == DOCK_A && is_silent(&a), "the book holds no frame 512");
}

/* Every frame that the book holds is delivered by its number, and the first that matters is named. Each is a call with another number. */
static void test_bench_deliveries(void) {
    static const size_t beyond[] = {DOCK_PLACES - 1, DOCK_PLACES, 0xffff, 0x10000, SIZE_MAX};
    static dock_pair pair, after;
    dock_pair_init(&pair);
    (void)line(&pair, "5141");
    for (pair.count = 0; pair.count < DOCK_PLACES - 1; pair.count++) {
        size_t s = pair.count + 1;
        const uint8_t place[] = {DOCK_A, 9, DOCK_CRAO, 0, 0, (uint8_t)(s >> 8), (uint8_t)s, 0, 0, 0, 0};
        memcpy(pair.book + pair.count * DOCK_PLACE, place, sizeof place);
    }
    for (size_t frame = 0; frame < pair.count; frame++) {
        after = pair;
        dock_answer a = dock_pair_deliver(&after, frame);
        expect(a.end == DOCK_B && a.state == DOCK_ANSWERING && a.remote == frame + 1, "the frame of that number is delivered");
        expect(dock_pair_first_frame(&pair) == frame, "the first that is left is named");
        memset(pair.book + frame * DOCK_PLACE, 0, DOCK_PLACE);
    }
    expect(dock_pair_first_frame(&pair) == DOCK_NO_FRAME, "none is left");
    for (size_t i = 0; i < sizeof beyond / sizeof beyond[0]; i++)
        expect(dock_pair_deliver(&pair, beyond[i]).number == DOCK_NO_SUCH_FRAME, "the book holds no such frame");
}

/* The pages of a bench, and its restarts. */
static void test_bench_restarts(void) {
    static dock_pair pair, before;
    dock_pair_init(&pair);
    expect(is_page(pair.page[DOCK_A], 0) && is_page(pair.page[DOCK_B], 0), "both have new pages");
    dock_answer a = line(&pair, "5141");
    expect(a.local == 1 && is_page(pair.page[DOCK_B], 1) && is_page(pair.page[DOCK_A], 0), "B reserves numbers on its own page");
    a = line(&pair, "5040");
    expect(a.local == 1 && is_page(pair.page[DOCK_A], 1) && a.must_store == 0, "and A on its own");
    expect(line(&pair, "520000").state == DOCK_ANSWERING && line(&pair, "520001").state == DOCK_OPEN, "B answers, A opens");
    expect(line(&pair, "53").number == DOCK_BAD_SIZE && line(&pair, "535150").number == DOCK_BAD_SIZE, "a restart names one end");
    expect(line(&pair, "5352").number == DOCK_UNKNOWN_KIND && line(&pair, "5300").number == DOCK_UNKNOWN_KIND, "A or B");
    pair.record[DOCK_B][0] = 6;
    expect(line(&pair, "5350").number == DOCK_UNSOUND && dock_pair_first_frame(&pair) == DOCK_NO_FRAME, "the other end has to be sound");
    before = pair;
    a = line(&pair, "5351");
    expect(a.number == DOCK_OK && a.end == DOCK_B && is_silent(&a), "B restarts");
    expect(a.state == DOCK_CLOSED && a.local == 16 && a.remote == 0, "from its page");
    expect(memcmp(pair.record[DOCK_A], before.record[DOCK_A], DOCK_RECORD) == 0 && pair.count == before.count, "A stays as it is");
    expect(memcmp(pair.page, before.page, sizeof pair.page) == 0, "and so do the pages");
    a = line(&pair, "520002");
    expect(a.end == DOCK_B && a.state == DOCK_CLOSED && a.sent == 9 && a.sent_at[0] == DOCK_REJ, "B refuses what A sent to it");
    expect(dock_pair_first_frame(&pair) == 3, "that matters to A");
    a = line(&pair, "520003");
    expect(a.end == DOCK_A && a.state == DOCK_CLOSED && a.notice == DOCK_CLOSED_BY_PARTNER, "which is closed");
    pair.page[DOCK_B][1] = 0;
    expect(line(&pair, "5045").number == DOCK_WRONG_PAGE && dock_pair_first_frame(&pair) == DOCK_NO_FRAME, "a page goes with its record");
    expect(line(&pair, "5350").number == DOCK_WRONG_PAGE, "also where the other end restarts");
    a = line(&pair, "5351");
    expect(a.number == DOCK_OK && a.local == 32, "but any page will do for the end that restarts");
    expect(line(&pair, "5041").local == 2 && is_page(pair.page[DOCK_A], 1), "A listens, on the page that it has");
    expect(line(&pair, "5140").local == 33 && is_page(pair.page[DOCK_B], 3), "and B calls, with a number that it never used");
    expect(dock_pair_first_frame(&pair) == 0, "A's old call matters to B");
    a = dock_pair_deliver(&pair, 0);
    expect(a.end == DOCK_B && a.state == DOCK_CALLING && a.remote == 1 && a.sent == 9, "which quotes it");
    expect(dock_pair_first_frame(&pair) == 4, "then B's call matters to A");
    pair.page[DOCK_B][0] = 1;
    expect(line(&pair, "5351").number == DOCK_WRONG_PAGE, "if it is one");
}

/* The plain calls of the bench ask for the lengths of the pages. */
static void test_bench_short_pages(void) {
    static dock_pair pair;
    uint8_t end, state, notice;
    uint32_t local, remote;
    size_t sent, at, block, frame;
    dock_pair_init(&pair);
    for (size_t i = 0; i < 2; i++) {
        size_t a_len = i == 0 ? DOCK_PAGE - 1 : DOCK_PAGE, b_len = i == 1 ? DOCK_PAGE - 1 : DOCK_PAGE;
        expect(dock_bench(pair.record[DOCK_A], DOCK_RECORD, pair.record[DOCK_B], DOCK_RECORD, pair.page[DOCK_A], a_len, pair.page[DOCK_B],
                          b_len, pair.book, DOCK_BOOK, &pair.count, (const uint8_t *)"5045", 4, pair.out, DOCK_FRAME, pair.up, DOCK_BLOCK,
                          &end, &state, &notice, &local, &remote, &sent, &at, &block) == DOCK_SHORT_BUFFER,
               "a line needs both pages whole");
        expect(dock_first_frame(pair.record[DOCK_A], DOCK_RECORD, pair.record[DOCK_B], DOCK_RECORD, pair.page[DOCK_A], a_len,
                                pair.page[DOCK_B], b_len, pair.book, DOCK_BOOK, pair.count, &frame) == DOCK_SHORT_BUFFER &&
                   frame == DOCK_NO_FRAME,
               "so does the question for a frame");
    }
}

static void test_names(void) {
    expect(same_text(dock_number_name(DOCK_OK), "ok"), "number 0");
    expect(same_text(dock_number_name(DOCK_WRONG_STATE), "request not allowed in this state"), "number 8");
    expect(same_text(dock_number_name(DOCK_SHORT_BUFFER), "buffer too small"), "number 11");
    expect(same_text(dock_number_name(DOCK_BOOK_FULL), "book full"), "number 14");
    expect(same_text(dock_number_name(DOCK_WRONG_PAGE), "page that does not go with the record"), "number 15");
    expect(same_text(dock_number_name(16), "unknown"), "no number 16");
    expect(same_text(dock_state_name(DOCK_CLOSED), "closed") && same_text(dock_state_name(DOCK_CLOSING), "closing"), "the states");
    expect(same_text(dock_state_name(6), "unknown"), "no state 6");
    expect(same_text(dock_notice_name(DOCK_NONE), "none") && same_text(dock_notice_name(DOCK_HANDED_UP), "block handed up"), "the notices");
    expect(same_text(dock_notice_name(6), "unknown"), "no notice 6");
    expect(same_text(dock_kind_name(DOCK_CRAO), "CRAO") && same_text(dock_kind_name(DOCK_ACK), "ACK"), "the frames");
    expect(same_text(dock_kind_name(DOCK_CONNECT), "connect") && same_text(dock_kind_name(DOCK_COLLECT), "collect"), "the requests");
    expect(same_text(dock_kind_name(0), "unknown") && same_text(dock_kind_name(0x0a), "unknown"), "the neighbours of the frames");
    expect(same_text(dock_kind_name(0x3f), "unknown") && same_text(dock_kind_name(0x47), "unknown"), "the neighbours of the requests");
}

int main(void) {
    static dock_end caller, listener;
    test_hanging_up(&caller, &listener);
    test_opening(&caller, &listener);
    test_blocks(&caller, &listener);
    test_blocks(&listener, &caller);
    test_overtaking(&caller, &listener);
    test_overtaking(&listener, &caller);
    test_refusals(&caller);
    test_window(&caller);
    test_unsound(&caller);
    test_reserving(&caller);
    test_restoring(&caller);
    test_damaged(&caller);
    test_wrong_page(&caller);
    test_short_buffers(&caller);
    test_healing(&caller, &listener);
    test_not_healing(&caller, &listener);
    test_bench();
    test_bench_deliveries();
    test_bench_restarts();
    test_bench_short_pages();
    test_names();
    return counted();
}
