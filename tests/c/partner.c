/*
 * What docs/PROTOCOL.md tells a host about its numbers and about a partner that is gone ("What a host does"), tried with the library.
 */
#include "dock.h"
#include "expect.h"

#define NUMBERS (DOCK_PAGE * DOCK_NUMBERS_EACH)

static dock_end a, b;

/* A frame of two numbers, both below 256, is heard. */
static dock_answer hear(dock_end *end, uint8_t kind, uint8_t s, uint8_t r) {
    const uint8_t frame[] = {kind, 0, 0, 0, s, 0, 0, 0, r};
    return dock_hear(end, frame, sizeof frame);
}

static int sends(const dock_answer *answer, uint8_t kind) {
    return answer->number == DOCK_OK && answer->sent == 9 && answer->sent_at[0] == kind;
}

/* B is closed, and rejects every call of A's. */
static int is_rejected(void) {
    dock_answer answer = dock_ask_kind(&a, DOCK_CONNECT);
    if (!sends(&answer, DOCK_CRAO))
        return 0;
    answer = dock_hear(&b, answer.sent_at, answer.sent);
    if (!sends(&answer, DOCK_REJ))
        return 0;
    answer = dock_hear(&a, answer.sent_at, answer.sent);
    return answer.state == DOCK_CLOSED && answer.notice == DOCK_REJECTED;
}

/* Each rejected call takes a number, until there are no more. */
static void test_rejections(void) {
    uint32_t calls = 0;
    dock_init(&a);
    dock_init(&b);
    while (is_rejected())
        calls++;
    expect(calls == NUMBERS, "a page has 65,536 calls");
    dock_answer answer = dock_ask_kind(&a, DOCK_CONNECT);
    expect(answer.number == DOCK_NO_NUMBER_LEFT && answer.local == NUMBERS, "then none is left");
    expect(dock_restore(&a) == DOCK_OK && dock_ask_kind(&a, DOCK_LISTEN).number == DOCK_NO_NUMBER_LEFT, "a restart brings none back");
}

/* Waiting takes none: neither a call that nobody answers, nor listening, also where calls come to nothing. */
static void test_waiting(void) {
    dock_init(&a);
    dock_init(&b);
    dock_ask_kind(&a, DOCK_CONNECT);
    dock_ask_kind(&b, DOCK_LISTEN);
    for (unsigned i = 0; i < 100; i++) {
        dock_answer answer = dock_ask_kind(&a, DOCK_TIMER);
        expect(sends(&answer, DOCK_CRAO) && answer.state == DOCK_CALLING && answer.local == 1, "a call goes on with its number");
        answer = hear(&b, DOCK_CRAO, (uint8_t)(i + 1), 0);
        expect(sends(&answer, DOCK_CRPO) && answer.state == DOCK_ANSWERING && answer.local == 1, "a call is answered");
        answer = hear(&b, i % 2 == 0 ? DOCK_REJ : DOCK_RESET, (uint8_t)(i + 1), 1);
        expect(answer.state == DOCK_LISTENING && answer.local == 1, "and listening goes on with its number");
    }
}

/* The partner is gone: no request leads out of this state, and a restart does. The number that comes next is the first of sixteen. */
static void expect_stuck(uint8_t state, uint8_t again) {
    static const uint8_t requests[] = {DOCK_CONNECT, DOCK_LISTEN, DOCK_END_LISTENING, DOCK_CLOSE, DOCK_COLLECT};
    for (size_t i = 0; i < sizeof requests; i++)
        expect(dock_ask_kind(&a, requests[i]).number == DOCK_WRONG_STATE, "the state allows no such request");
    expect(dock_send(&a, requests, 1).number == DOCK_WRONG_STATE, "nor a send");
    dock_answer answer = dock_ask_kind(&a, DOCK_TIMER);
    expect(sends(&answer, again) && answer.state == state && dock_waiting(&a) == 0, "a timer call sends the same again");
    expect(dock_restore(&a) == DOCK_OK, "a restart leads out");
    answer = dock_ask_kind(&a, DOCK_TIMER);
    expect(answer.state == DOCK_CLOSED && answer.local == 16, "and skips what is left of sixteen numbers");
    answer = dock_ask_kind(&a, DOCK_CONNECT);
    expect(answer.local == 17 && answer.must_store == 1 && answer.must_store_at == 1, "the next one is the first of sixteen");
}

static void test_gone(void) {
    dock_init(&a);
    dock_ask_kind(&a, DOCK_LISTEN);
    hear(&a, DOCK_CRAO, 1, 0);
    expect_stuck(DOCK_ANSWERING, DOCK_CRPO);
    dock_init(&a);
    dock_ask_kind(&a, DOCK_CONNECT);
    hear(&a, DOCK_CRPO, 1, 1);
    dock_ask_kind(&a, DOCK_CLOSE);
    expect_stuck(DOCK_CLOSING, DOCK_DR);
}

/* An end that answers a caller who is gone takes the next call, as one that listens does. */
static void test_next_call(void) {
    dock_init(&a);
    dock_ask_kind(&a, DOCK_LISTEN);
    hear(&a, DOCK_CRAO, 1, 0);
    dock_answer answer = hear(&a, DOCK_CRAO, 2, 0);
    expect(sends(&answer, DOCK_CRPO) && answer.state == DOCK_ANSWERING && answer.remote == 2, "the next call is answered");
    answer = hear(&a, DOCK_CRACK, 2, 1);
    expect(answer.state == DOCK_OPEN && answer.notice == DOCK_CONNECTED, "and opens");
}

/* A restart after each number: a page has 4,096. Restarts in a row cost no more than one. */
static void test_restarts(void) {
    uint32_t starts = 0;
    dock_init(&a);
    for (; dock_ask_kind(&a, DOCK_CONNECT).number == DOCK_OK; starts++)
        for (int i = 0; i < 3; i++)
            (void)dock_restore(&a);
    expect(starts == DOCK_PAGE, "a page has 4,096 restarts after which a number was begun");
}

/* A partner that has not heard that its close was heard sends it again, and is answered in each of these states. */
static void test_late_close(void) {
    static const uint8_t requests[] = {DOCK_TIMER, DOCK_CONNECT, DOCK_LISTEN, DOCK_LISTEN};
    static const uint8_t states[] = {DOCK_CLOSED, DOCK_CALLING, DOCK_LISTENING, DOCK_ANSWERING};
    for (size_t i = 0; i < sizeof requests; i++) {
        dock_init(&a);
        dock_ask_kind(&a, DOCK_LISTEN);
        hear(&a, DOCK_CRAO, 1, 0);
        hear(&a, DOCK_CRACK, 1, 1);
        dock_answer answer = hear(&a, DOCK_DR, 1, 1);
        expect(sends(&answer, DOCK_DRACK) && answer.notice == DOCK_CLOSED_BY_PARTNER, "the partner closes");
        dock_ask_kind(&a, requests[i]);
        if (i == 3)
            hear(&a, DOCK_CRAO, 1, 0); /* its old call comes once more */
        answer = hear(&a, DOCK_DR, 1, 1);
        expect(sends(&answer, DOCK_DRACK) && answer.state == states[i], "it asks again, and is answered");
    }
}

int main(void) {
    test_rejections();
    test_waiting();
    test_gone();
    test_next_call();
    test_restarts();
    test_late_close();
    return counted();
}
