/*
 * The dock link: one end of a connection, and a bench of two, for programs in C and C++.
 *
 * An end is a record of 1,058 bytes and a page of 4,096 that the host keeps and lends to each call. Frames come and go as bytes: the
 * host carries them to the other end, over a mesh that may lose, repeat and reorder them, and decides when to make a timer call. Nothing
 * is allocated, and nothing is kept between calls but the record and the page; on a bench, those of both ends, the book and its count.
 * docs/PROTOCOL.md says what an end does.
 *
 * The page is what an end still knows after a loss of power. No incarnation number may ever be used twice, so they are reserved on it:
 * a new page is FF throughout, and each byte set to 00, in order from the front, reserves sixteen numbers more. A call sets one byte at
 * most, before it stores anything else, and only where the number that a connect or listen begins with is not reserved yet: that is one
 * in sixteen of them, and the first one after each restart. An end that comes back restarts from its page alone (dock_restore): it is
 * closed, with the last number reserved as its own, and the next one that it begins with was never used. 4,096 bytes are 65,536 numbers;
 * then connect and listen are refused by 9.
 *
 * What a host must do for it: write each byte that a call has set (must_store and must_store_at of its answer say which) to storage that
 * outlives a loss of power, and wait until it is there, AFTER the call and BEFORE its frame, or that of a later call, goes out. A cut
 * before that does no harm, since nobody has seen the number yet, and a cut after it only skips numbers. If the byte cannot be stored,
 * nothing may go out: read back the page that the storage has, and restore. Make the page of a terminal new once in its life (dock_init),
 * as it is set up, and never at a start: a second new page would bring old numbers back, and a start that finds no page cannot tell a new
 * terminal from a lost disk. examples/power.c is such a host.
 *
 * What a restart heals, and what not. A connection does not outlive it, nor do blocks that waited or were held. While the restarted end
 * is closed it answers what a partner still open sends by REJ, and that partner is closed too, by DOCK_CLOSED_BY_PARTNER. One that calls
 * or listens at once sends no such REJ, and its partner may stay open toward the incarnation that is gone until its user closes. So let a
 * restarted end stay closed for as long as a partner takes to send again; and let a host that is open, sends, and hears nothing for long,
 * close.
 *
 * There are two ways to call it. The inline functions (dock_init, dock_ask, dock_hear and those after them) take a struct that holds the
 * buffers of an end, and answer a struct: start there. Below them are the plain calls, which take numbers and byte buffers alone.
 * Whatever bytes they get, both refuse what is wrong and never stop. The inline functions check nothing that the calls check, and neither
 * can check what C does not tell: a null pointer, a length that is not the buffer's, and buffers of one call that overlap are the host's
 * fault.
 *
 * Link with lib/libdock.a (built by bin/build library), which has every call.
 */
#ifndef DOCK_H
#define DOCK_H

#include <stddef.h>
#include <stdint.h>
#include <string.h>

#ifdef __cplusplus
extern "C" {
#endif

#define DOCK_RECORD 1058   /* bytes of a record */
#define DOCK_WAITING_AT 17 /* where a record has w, the number of blocks that wait for their acknowledgement */
#define DOCK_FRAME 78      /* bytes of the longest frame, and of the buffer for a frame out */
#define DOCK_BLOCK 64      /* bytes of the longest block, and of the buffer for a collected one */
#define DOCK_BLOCK_AT 14   /* where the block of a received DATA frame starts */

#define DOCK_PAGE 4096       /* bytes of a page */
#define DOCK_PAGE_NEW 0xff   /* each byte of a new page */
#define DOCK_NUMBERS_EACH 16 /* incarnation numbers that a byte of it reserves when it is set to 00 */

#define DOCK_BOOK 40960   /* bytes of a book */
#define DOCK_PLACES 512   /* places of a book */
#define DOCK_PLACE 80     /* bytes of a place: sender, length, frame, zeros */
#define DOCK_NO_FRAME 512 /* the number that names no frame of a book */

/* What a call answers: 0, or the number of the first question whose answer was no. A refused call writes nothing but the numbers
 * that tell how the end stands: no byte of a record, of a page, of the book or of the buffers for a frame and a block. 1 and 2, 13 and 14
 * are the bench's. 11 is asked first, then 12, then 15. */
enum {
    DOCK_OK = 0,
    DOCK_BAD_LENGTH = 1,     /* the line has not 2 to 156 characters, an even number */
    DOCK_BAD_DIGIT = 2,      /* a character of the line is none of 0-9, A-F, a-f */
    DOCK_UNKNOWN_KIND = 3,   /* the kind is not known to this call */
    DOCK_BAD_SIZE = 4,       /* the fixed part is missing, or more follows where there is no block */
    DOCK_BAD_COUNT = 5,      /* the count byte is not 1 to 64 */
    DOCK_BAD_BLOCK = 6,      /* not exactly that many bytes after the count */
    DOCK_BAD_NUMBER = 7,     /* s, r or the number of a DATA is out of range */
    DOCK_WRONG_STATE = 8,    /* the state does not allow the request */
    DOCK_NO_NUMBER_LEFT = 9, /* no number is left: of connect and listen, the page is used up (L is 65,536) */
    DOCK_QUEUE_FULL = 10,    /* eight blocks wait already */
    DOCK_SHORT_BUFFER = 11,  /* a lent buffer is too small */
    DOCK_UNSOUND = 12,       /* a record is not sound, or the book's count is above 512 */
    DOCK_NO_SUCH_FRAME = 13, /* the book does not hold that frame */
    DOCK_BOOK_FULL = 14,     /* the book has no place left for the frame to send */
    DOCK_WRONG_PAGE = 15     /* a page is not a run of 00 followed only by FF, or its count of 00 is not L/16 rounded up */
};

/* The states. */
enum { DOCK_CLOSED, DOCK_LISTENING, DOCK_CALLING, DOCK_ANSWERING, DOCK_OPEN, DOCK_CLOSING };

/* The notices. */
enum { DOCK_NONE, DOCK_CONNECTED, DOCK_REJECTED, DOCK_CLOSED_BY_PARTNER, DOCK_CLOSE_FINISHED, DOCK_HANDED_UP };

/* The first byte of a frame. */
enum { DOCK_CRAO = 0x01, DOCK_CRPO, DOCK_CRACK, DOCK_REJ, DOCK_RESET, DOCK_DR, DOCK_DRACK, DOCK_DATA, DOCK_ACK };

/*
 * The first byte of a request. A send has a count byte and its block after it, the others are that byte alone. The reasons for what is said
 * here to a host are in docs/PROTOCOL.md, "What a host does".
 *
 * A connect and a listen take a number each, also a call that is rejected. After a rejection wait before the next call: for a second, then
 * twice as long each time, up to a minute or longer. A host that calls again each millisecond has used its page up in 65 seconds.
 *
 * A timer call is due in DOCK_CALLING, DOCK_ANSWERING, DOCK_CLOSING, and DOCK_OPEN with blocks waiting, whenever neither the state nor w
 * (dock_waiting: the byte of the record at DOCK_WAITING_AT) has changed for one timeout. Look after each call whether one of them has. Do
 * not go by whether something was heard: a partner that is heard all the time would put the timer call off for ever.
 *
 * A close hangs up, in an open connection or while calling. Its end is DOCK_CLOSING then, and DOCK_CLOSE_FINISHED is told when the
 * partner has heard it, or is found to have left by itself. But where the end calls and knows no partner yet (remote is 0) it is
 * DOCK_CLOSED at once, with that notice and nothing to send. In every other state a close is refused: DOCK_WRONG_STATE.
 *
 * Where the partner is gone for good, no request leads out of DOCK_CLOSING or DOCK_ANSWERING. dock_restore does, at the cost of a restart:
 * what is left of sixteen numbers is skipped. And a closed end still has to hear frames, and to answer them, until its partner has been
 * silent for several timeouts: one that missed the DRACK sends its DR again.
 */
enum { DOCK_CONNECT = 0x40, DOCK_LISTEN, DOCK_END_LISTENING, DOCK_CLOSE, DOCK_SEND, DOCK_TIMER, DOCK_COLLECT };

/* The ends of a bench, and the sender byte of a place. */
enum { DOCK_A, DOCK_B };

/* The first byte of a bench line: a request of A, of B, the delivery of a frame, or a restart. */
enum { DOCK_REQUEST_A = 0x50, DOCK_REQUEST_B, DOCK_DELIVER, DOCK_RESTART };

/*
 * The plain calls.
 */

/*
 * Restarts an end, from its page alone: the record becomes that of a closed end whose L is 16 times the count of 00 bytes. With a new
 * page that is a fresh end, both numbers 0: every end starts so.
 *
 * Takes a buffer of at least 1,058 bytes for the record, and the page, of at least 4,096. What the record was is not looked at, and the
 * page is only read. Answers 0; 11 where a buffer is too small; 15 where the page is not a run of 00 followed only by FF. A refused
 * restart leaves the record as it was.
 */
uint8_t dock_restart(uint8_t *record, size_t record_len, const uint8_t *page, size_t page_len);

/*
 * A request, the timer call among them.
 *
 * Takes the record, its page, the request's bytes, a buffer of at least 78 bytes for a frame out and one, up, of at least 64 bytes for a
 * block that is collected; all are asked for whatever the request is. On success the record is the new one, the frame to send, if there
 * is one, stands at the start of out, and the block handed up, if there is one, at the start of up; no other byte is written, but for one
 * of the page: a connect or listen whose new L is not reserved yet (then L is one more than a multiple of 16) sets byte (L - 1) / 16 from
 * FF to 00. That store comes before all others of the call. It has to be lasting before the frame goes out, as said above; a host that
 * lends lasting memory as the page has it there already.
 * state, local and remote tell how the end stands after the call (0 where the record's buffer is too small), notice is the notice
 * (0 after a refusal), sent the length of the frame to send and block that of the block handed up (0 for none).
 */
uint8_t dock_request(uint8_t *record, size_t record_len, uint8_t *page, size_t page_len, const uint8_t *request, size_t request_len,
                     uint8_t *out, size_t out_len, uint8_t *up, size_t up_len, uint8_t *state, uint8_t *notice, uint32_t *local,
                     uint32_t *remote, size_t *sent, size_t *block);

/*
 * Receives a frame. As dock_request, but for the page, which is only read, as no frame begins an incarnation, and for up: a block handed
 * up is not copied, it stands in the caller's own frame, from DOCK_BLOCK_AT on. A block that comes before its turn, by seven at most, is
 * held in the record, and handed up by a collect when it is its turn.
 */
uint8_t dock_receive(uint8_t *record, size_t record_len, const uint8_t *page, size_t page_len, const uint8_t *frame, size_t frame_len,
                     uint8_t *out, size_t out_len, uint8_t *state, uint8_t *notice, uint32_t *local, uint32_t *remote, size_t *sent,
                     size_t *block);

/*
 * A bench line: text in hexadecimal, its letters in either case, without its line feed. 50 or 51 and a request: end A or B. 52 and a
 * number of 2 bytes: delivers that frame of the book, counted from 0, to the end that did not send it. 53 and 50 or 51: restarts end A
 * or B from its page, without a look at its record; the book and the other end stay as they are.
 *
 * Takes the records of A and B, their pages, a book of at least 40,960 bytes, how many of its places are in use (0 for an empty book),
 * the line, a buffer of at least 78 bytes for a frame out and one, up, of at least 64 bytes for a block that is collected. On success the
 * record of one end is the new one, and that end's page has one byte set at most, by a request, as dock_request does it; the frame sent,
 * if there is one, stands at the start of out and in the next place of the book, and the count is one more; a collected block stands at
 * the start of up; no other byte is written.
 * end is the end that the answer is about, and state, local and remote tell how it stands after the line (0 where its record's buffer
 * is too small). notice and sent are as those of dock_request. block is the length of the block handed up (0 for none). One that was
 * delivered is not copied, but stands in the book, from at on; for a collected one, and for none, at is 0.
 */
uint8_t dock_bench(uint8_t *a, size_t a_len, uint8_t *b, size_t b_len, uint8_t *a_page, size_t a_page_len, uint8_t *b_page,
                   size_t b_page_len, uint8_t *book, size_t book_len, size_t *count, const uint8_t *line, size_t line_len, uint8_t *out,
                   size_t out_len, uint8_t *up, size_t up_len, uint8_t *end, uint8_t *state, uint8_t *notice, uint32_t *local,
                   uint32_t *remote, size_t *sent, size_t *at, size_t *block);

/*
 * Names the first frame of the book, the lowest numbered one, whose delivery now would be accepted and change the receiver's record:
 * frame is its number, counted from 0, or DOCK_NO_FRAME where there is none or the question is refused. Answers 0, 11, 12 or 15, and
 * writes nothing else.
 */
uint8_t dock_first_frame(const uint8_t *a, size_t a_len, const uint8_t *b, size_t b_len, const uint8_t *a_page, size_t a_page_len,
                         const uint8_t *b_page, size_t b_page_len, const uint8_t *book, size_t book_len, size_t count, size_t *frame);

/*
 * What a host writes: an end with its buffers, and one answer for every call. Later editions add fields to both.
 */

/* What a call answers. The frame to send stands in the end's own buffer until that end's next call; the block handed up stands in the
 * frame that was received, on a bench in the book, and one that is collected in the end's own buffer, until its next call too.
 *
 * A host does what an answer asks for in this order: it stores the byte of the page, keeps the block, and then sends the frame. The frame
 * that comes with a block is its acknowledgement, and the partner forgets the block when it hears it: so the block has to be kept before,
 * and to be lasting where the host promises that. */
typedef struct dock_answer {
    uint8_t number;          /* 0, or the number of the refusal (DOCK_UNKNOWN_KIND, ..) */
    uint8_t end;             /* on a bench the end that the answer is about, DOCK_A or DOCK_B; else 0 */
    uint8_t state;           /* how the end stands now (DOCK_OPEN, ..) */
    uint8_t notice;          /* what happened (DOCK_CONNECTED, ..), 0 for nothing */
    uint32_t local;          /* L, the end's own incarnation number */
    uint32_t remote;         /* D, its partner's; 0: not known */
    size_t sent;             /* the length of the frame to send, 0 for none */
    const uint8_t *sent_at;  /* where it stands */
    size_t block;            /* the length of the block handed up, 0 for none */
    const uint8_t *block_at; /* where it stands, a null pointer for none */
    size_t must_store;       /* 1: the call has set a byte of the page, to be stored before anything goes out; else, and on a bench, 0 */
    size_t must_store_at;    /* where in the page it stands, counted from 0 */
} dock_answer;

/* One end: its record, its page, the buffer for the frame that it sends, and the one for a block that is collected. */
typedef struct dock_end {
    uint8_t record[DOCK_RECORD];
    uint8_t page[DOCK_PAGE];
    uint8_t out[DOCK_FRAME];
    uint8_t up[DOCK_BLOCK];
} dock_end;

/* Makes it a fresh end, with a new page. That is for once in a terminal's life, as it is set up: store the page then, before the first
 * call. */
static inline void dock_init(dock_end *end) {
    memset(end->page, DOCK_PAGE_NEW, sizeof end->page);
    (void)dock_restart(end->record, sizeof end->record, end->page, sizeof end->page);
}

/* Restarts it on the page that the host has read from its storage into end->page: for whenever the terminal comes back. Answers 0, or 15
 * where that is no page. Then the end must not be used: which numbers it has used is not known any more, and a new page could bring them
 * back. The way out is a page with more 00 at its front than there ever were. */
static inline uint8_t dock_restore(dock_end *end) {
    return dock_restart(end->record, sizeof end->record, end->page, sizeof end->page);
}

/* A request, of these bytes. */
static inline dock_answer dock_ask(dock_end *end, const uint8_t *request, size_t request_len) {
    dock_answer a;
    a.number = dock_request(end->record, sizeof end->record, end->page, sizeof end->page, request, request_len, end->out,
                            sizeof end->out, end->up, sizeof end->up, &a.state, &a.notice, &a.local, &a.remote, &a.sent, &a.block);
    a.end = DOCK_A;
    a.sent_at = end->out;
    a.block_at = a.block > 0 ? end->up : NULL;
    /* A request that was not refused has a first byte. The one that begins with the first of sixteen numbers has reserved them. */
    a.must_store = a.number == DOCK_OK && (request[0] == DOCK_CONNECT || request[0] == DOCK_LISTEN) && a.local % DOCK_NUMBERS_EACH == 1;
    a.must_store_at = a.must_store > 0 ? (a.local - 1) / DOCK_NUMBERS_EACH : 0;
    return a;
}

/* A frame that arrived. */
static inline dock_answer dock_hear(dock_end *end, const uint8_t *frame, size_t frame_len) {
    dock_answer a;
    a.number = dock_receive(end->record, sizeof end->record, end->page, sizeof end->page, frame, frame_len, end->out, sizeof end->out,
                            &a.state, &a.notice, &a.local, &a.remote, &a.sent, &a.block);
    a.end = DOCK_A;
    a.sent_at = end->out;
    a.block_at = a.block > 0 ? frame + DOCK_BLOCK_AT : NULL;
    a.must_store = a.must_store_at = 0;
    return a;
}

/* A request that is its first byte alone: DOCK_CONNECT, DOCK_LISTEN, DOCK_END_LISTENING, DOCK_CLOSE, DOCK_TIMER or DOCK_COLLECT. */
static inline dock_answer dock_ask_kind(dock_end *end, uint8_t kind) {
    return dock_ask(end, &kind, 1);
}

/* Sends a block of 1 to 64 bytes; a block of another length is refused by 5. */
static inline dock_answer dock_send(dock_end *end, const uint8_t *block, size_t block_len) {
    uint8_t request[2 + DOCK_BLOCK];
    size_t kept = block_len < DOCK_BLOCK ? block_len : DOCK_BLOCK;
    request[0] = DOCK_SEND;
    request[1] = (uint8_t)(block_len < UINT8_MAX ? block_len : UINT8_MAX);
    if (kept > 0)
        memcpy(request + 2, block, kept);
    return dock_ask(end, request, 2 + kept);
}

/* Collects the next block, if it came before its turn and is held. An end does not hand up what it holds by itself: whenever an answer
 * has a block, collect until one has none. An answer with a block has its acknowledgement to send, one without sends nothing. */
static inline dock_answer dock_collect(dock_end *end) {
    return dock_ask_kind(end, DOCK_COLLECT);
}

/* How many of its blocks wait for their acknowledgement. With none left the partner has heard all. */
static inline unsigned dock_waiting(const dock_end *end) {
    return end->record[DOCK_WAITING_AT];
}

/* A bench: two ends, and the book of every frame that they sent. */
typedef struct dock_pair {
    uint8_t record[2][DOCK_RECORD]; /* of DOCK_A and of DOCK_B */
    uint8_t page[2][DOCK_PAGE];     /* likewise */
    uint8_t book[DOCK_BOOK];
    size_t count; /* places of the book in use */
    uint8_t out[DOCK_FRAME];
    uint8_t up[DOCK_BLOCK];
} dock_pair;

/* Makes both fresh ends with new pages, and the book empty. */
static inline void dock_pair_init(dock_pair *pair) {
    memset(pair->page, DOCK_PAGE_NEW, sizeof pair->page);
    (void)dock_restart(pair->record[DOCK_A], sizeof pair->record[DOCK_A], pair->page[DOCK_A], sizeof pair->page[DOCK_A]);
    (void)dock_restart(pair->record[DOCK_B], sizeof pair->record[DOCK_B], pair->page[DOCK_B], sizeof pair->page[DOCK_B]);
    pair->count = 0;
}

/* A bench line, of these characters. */
static inline dock_answer dock_pair_line(dock_pair *pair, const char *line, size_t line_len) {
    dock_answer a;
    size_t at;
    a.number = dock_bench(pair->record[DOCK_A], sizeof pair->record[DOCK_A], pair->record[DOCK_B], sizeof pair->record[DOCK_B],
                          pair->page[DOCK_A], sizeof pair->page[DOCK_A], pair->page[DOCK_B], sizeof pair->page[DOCK_B], pair->book,
                          sizeof pair->book, &pair->count, (const uint8_t *)line, line_len, pair->out, sizeof pair->out, pair->up,
                          sizeof pair->up, &a.end, &a.state, &a.notice, &a.local, &a.remote, &a.sent, &at, &a.block);
    a.sent_at = pair->out;
    a.block_at = a.block == 0 ? NULL : at > 0 ? pair->book + at : pair->up;
    a.must_store = a.must_store_at = 0;
    return a;
}

/* Delivers the frame of this number, counted from 0: the line 52 with that number. One that the book does not hold is refused by 13. */
static inline dock_answer dock_pair_deliver(dock_pair *pair, size_t frame) {
    static const char digits[] = "0123456789abcdef";
    const size_t number = frame < UINT16_MAX ? frame : UINT16_MAX;
    const char line[] = {'5', '2', digits[number >> 12], digits[number >> 8 & 15], digits[number >> 4 & 15], digits[number & 15]};
    return dock_pair_line(pair, line, sizeof line);
}

/* The first frame of the book, the lowest numbered one, whose delivery now would be accepted and change the receiver's record, or
 * DOCK_NO_FRAME. Delivering what it names, again and again, ends: after at most three deliveries for each place that the book has left,
 * and 18 more, there is none. */
static inline size_t dock_pair_first_frame(const dock_pair *pair) {
    size_t frame;
    (void)dock_first_frame(pair->record[DOCK_A], sizeof pair->record[DOCK_A], pair->record[DOCK_B], sizeof pair->record[DOCK_B],
                           pair->page[DOCK_A], sizeof pair->page[DOCK_A], pair->page[DOCK_B], sizeof pair->page[DOCK_B], pair->book,
                           sizeof pair->book, pair->count, &frame);
    return frame;
}

/*
 * Names for messages. A number that means nothing is "unknown".
 */

/* What a call answered: a short phrase. */
static inline const char *dock_number_name(unsigned number) {
    static const char *const names[] = {"ok",
                                        "line of a wrong length",
                                        "character that is no digit",
                                        "unknown kind",
                                        "fixed part of a wrong size",
                                        "count that is not 1 to 64",
                                        "block of another length than its count",
                                        "number out of range",
                                        "request not allowed in this state",
                                        "no number left",
                                        "eight blocks wait already",
                                        "buffer too small",
                                        "record not sound",
                                        "no such frame in the book",
                                        "book full",
                                        "page that does not go with the record"};
    return number < sizeof names / sizeof names[0] ? names[number] : "unknown";
}

/* How an end stands. */
static inline const char *dock_state_name(unsigned state) {
    static const char *const names[] = {"closed", "listening", "calling", "answering", "open", "closing"};
    return state < sizeof names / sizeof names[0] ? names[state] : "unknown";
}

/* What happened. */
static inline const char *dock_notice_name(unsigned notice) {
    static const char *const names[] = {"none", "connected", "rejected", "closed by partner", "close finished", "block handed up"};
    return notice < sizeof names / sizeof names[0] ? names[notice] : "unknown";
}

/* The first byte of a frame or a request. */
static inline const char *dock_kind_name(unsigned kind) {
    static const char *const frames[] = {"CRAO", "CRPO", "CRACK", "REJ", "RESET", "DR", "DRACK", "DATA", "ACK"};
    static const char *const requests[] = {"connect", "listen", "end listening", "close", "send", "timer", "collect"};
    if (kind - DOCK_CRAO < sizeof frames / sizeof frames[0])
        return frames[kind - DOCK_CRAO];
    if (kind - DOCK_CONNECT < sizeof requests / sizeof requests[0])
        return requests[kind - DOCK_CONNECT];
    return "unknown";
}

#ifdef __cplusplus
}
#endif

#endif
