/*
 * A host over a real network: two processes, one end each, speak UDP with each other and make their timer calls by a clock.
 * Expect: both connect, each hears the other's whole file as it was sent, and both close (udp.out), whatever the network does.
 *
 *     udp [--forget] [--steps] [SEED [BLOCKS [LOSS]]]     udp alone is udp 1 1000 20
 *
 * The stock room listens and the dock connects. Then each sends the other a file, both at the same time, with up to eight blocks on
 * their way; when both have heard all of it the dock closes. Between them, on the loopback address, stands a relay that loses, repeats
 * and reorders their frames. SEED makes the files and the relay's choices, BLOCKS is the length of each file in blocks (the last is a
 * short one), LOSS says how many frames of a hundred are lost. Standard output is the same in every run with as many BLOCKS; the counts
 * go to standard error. The status is 0 only if all was as expected.
 *
 * An end holds the blocks that come before their turn. What that is worth is seen from the blocks sent again, with and without
 * --forget: with it, ends forget such blocks, as they once did. With --steps there is no network, but one process in which the hosts
 * and the relay take turns, and time is the number of turns: so the counts are the same in every run too, however busy the machine is.
 *
 * Part 1 is the host: it is there to be copied. Part 2 is the relay, for which a terminal has its network, and Part 3 starts them and
 * compares the files.
 */
#define _POSIX_C_SOURCE 200809L

#include <arpa/inet.h>
#include <errno.h>
#include <fcntl.h>
#include <inttypes.h>
#include <netinet/in.h>
#include <poll.h>
#include <signal.h>
#include <stdio.h>
#include <stdlib.h>
#include <string.h>
#include <sys/socket.h>
#include <sys/types.h>
#include <sys/wait.h>
#include <time.h>
#include <unistd.h>

#include "dock.h"

/*
 * Part 1: the host.
 *
 * A datagram is exactly one frame. What goes wrong with a datagram (the partner is not there yet or no more, no room in a buffer) is a
 * frame lost, and the link mends it: so no error of send or recv ends a host. Only its limits do.
 */

/* All times are in milliseconds (with --steps, in steps). */
#define TIMEOUT 4            /* until a timer call: longer than a frame and its acknowledgement take, even if both are delayed */
#define LINGER 1000          /* one whom its partner closed goes on answering until it has heard nothing for so long */
#define SILENCE 30000        /* the partner is gone if nothing was heard for so long */
#define CLOSE_TRIES 5000     /* timer calls of a closing end; then it gives up, and that is a failure */
#define LIMIT_TIME 300000    /* a host gives up after so long, */
#define LIMIT_FRAMES 4000000 /* or after so many frames sent */
#define AT_ONCE 32           /* datagrams that are read before the clock is looked at again */

struct host {
    /* What the program gives it. */
    const char *name;
    int calls;   /* it connects, and closes when all is done; else it listens, and its partner closes */
    int socket;  /* UDP, connected to the partner, and not blocking */
    FILE *file;  /* what it has to send */
    FILE *heard; /* where goes what it hears */
    FILE *told;  /* where it tells its notices */
    dock_answer (*hear)(dock_end *end, const uint8_t *frame, size_t len); /* dock_hear; Part 3 has another one, for comparison */

    /* How it stands. */
    dock_end end;
    uint8_t state;
    unsigned waiting; /* how many blocks wait for their acknowledgement */
    uint8_t next[DOCK_BLOCK];
    size_t next_len;     /* the block to be sent next; length 0: none is left */
    uint64_t due, bytes; /* the length of the partner's file, and how much of it was heard */
    uint64_t blocks;     /* blocks heard; the first one tells the length */
    int64_t now, began;
    int64_t deadline;    /* of the timer call */
    int64_t heard_at;    /* when a frame was heard last */
    int finished;        /* the connection ended as it should */
    const char *trouble; /* or else, why the host gives up */

    /* For those who want to know. */
    unsigned long frames, first, again; /* frames sent; blocks among them that were sent for the first time, and again */
    unsigned long collected, close_tries, refused;
};

static int64_t clock_now(void) {
    struct timespec t;
    clock_gettime(CLOCK_MONOTONIC, &t);
    return (int64_t)t.tv_sec * 1000 + t.tv_nsec / 1000000;
}

/* A socket on the loopback address, at a port that the system chooses. A terminal binds to an address and a port of its own. */
static int open_socket(struct sockaddr_in *name) {
    socklen_t len = sizeof *name;
    int s = socket(AF_INET, SOCK_DGRAM, 0);
    memset(name, 0, sizeof *name);
    name->sin_family = AF_INET;
    name->sin_addr.s_addr = htonl(INADDR_LOOPBACK);
    if (s >= 0 && (fcntl(s, F_SETFL, O_NONBLOCK) != 0 || bind(s, (const struct sockaddr *)name, sizeof *name) != 0 ||
                   getsockname(s, (struct sockaddr *)name, &len) != 0)) {
        close(s);
        return -1;
    }
    return s;
}

/* The socket speaks to this partner from now on, and hears no other: what a stranger sends never reaches the end. */
static int face(int s, const struct sockaddr_in *partner) {
    return connect(s, (const struct sockaddr *)partner, sizeof *partner);
}

/* The next block of the file. */
static void read_next(struct host *h) {
    h->next_len = fread(h->next, 1, DOCK_BLOCK, h->file);
    if (ferror(h->file))
        h->trouble = "its file cannot be read";
}

/* An end hands up blocks and knows of no files. So the first block tells how long the file is: 8 bytes, big-endian. */
static void start_file(struct host *h) {
    long len = fseek(h->file, 0, SEEK_END) == 0 ? ftell(h->file) : -1;
    if (len < 0 || fseek(h->file, 0, SEEK_SET) != 0)
        h->trouble = "the length of its file is not known";
    for (unsigned i = 0; i < 8; i++)
        h->next[i] = (uint8_t)((uint64_t)len >> (56 - 8 * i));
    h->next_len = 8;
}

/* A block was handed up. It comes up once and in its order: the link sees to that, and the host need not. */
static void keep_block(struct host *h, const uint8_t *block, size_t len) {
    if (h->blocks++ > 0) {
        h->bytes += len;
        if (h->bytes > h->due)
            h->trouble = "the partner's file is longer than told";
        else if (fwrite(block, 1, len, h->heard) != len)
            h->trouble = "what was heard cannot be written";
    } else if (len == 8) {
        for (unsigned i = 0; i < 8; i++)
            h->due = h->due << 8 | block[i];
    } else {
        h->trouble = "the first block is no length";
    }
}

static int heard_all(const struct host *h) {
    return h->blocks > 0 && h->bytes == h->due;
}

/* What a notice means to this host. Its partner closes when it has heard all (see close_if_done), and so may a listening host be
 * closed with blocks still waiting: only their acknowledgement was lost. */
static void take_notice(struct host *h, const dock_answer *a) {
    if (a->notice == DOCK_CONNECTED)
        fprintf(h->told, "%s: connected, incarnation %" PRIu32 " with %" PRIu32 "\n", h->name, a->local, a->remote);
    else
        fprintf(h->told, "%s: %s\n", h->name, dock_notice_name(a->notice));
    if (a->notice == DOCK_CLOSE_FINISHED)
        h->finished = 1;
    if (a->notice == DOCK_REJECTED)
        h->trouble = "the partner does not listen";
    if (a->notice == DOCK_CLOSED_BY_PARTNER && !(heard_all(h) && h->next_len == 0))
        h->trouble = "closed too early";
}

/* Does what an answer asks for. Every call's answer comes here; that of a refused call asks for nothing.
 *
 * A block is kept first, then the frame goes out: it has the acknowledgement, and when the partner hears that, it forgets the block. So
 * where one could not be kept nothing is acknowledged any more. A host that promises to keep blocks through a loss of power waits until
 * the block is lasting, before it sends. (So it does with the byte of the page that a call has set: must_store.)
 *
 * Whenever the end's state or the number of waiting blocks is another than before, something has moved, and the time until the timer call
 * begins again. Nothing else begins it again, and above all no frame heard: what the partner says may be about its own blocks, all the
 * time, while the only block of this host was lost. */
static void obey(struct host *h, const dock_answer *a) {
    unsigned waiting = dock_waiting(&h->end);
    if (a->block > 0)
        keep_block(h, a->block_at, a->block);
    if (a->sent > 0 && h->trouble == NULL) {
        (void)send(h->socket, a->sent_at, a->sent, 0);
        h->frames++;
    }
    if (a->block == 0 && a->notice != DOCK_NONE)
        take_notice(h, a);
    if (a->state != h->state || waiting != h->waiting)
        h->deadline = h->now + TIMEOUT;
    h->state = a->state;
    h->waiting = waiting;
}

/* A request that the state allows; so a refusal is the host's own fault. */
static void ask(struct host *h, uint8_t kind) {
    dock_answer a = dock_ask_kind(&h->end, kind);
    if (a.number != DOCK_OK)
        h->trouble = dock_number_name(a.number);
    obey(h, &a);
}

/*
 * When to send again.
 *
 * When the deadline has passed and nothing moved, a timer call. In the open state that sends the oldest waiting block again, and no
 * other; and no other is needed: what came after it is held at the partner's end. When the oldest arrives they all come up with it, as
 * far as the next one that was lost. So a block lost costs one block sent again, and a host need not hold back new ones meanwhile.
 *
 * A timer call that comes too early does no harm: it costs a frame.
 */

/* In these states a timer call sends something. */
static int needs_timer(const struct host *h) {
    return h->state == DOCK_CALLING || h->state == DOCK_ANSWERING || h->state == DOCK_CLOSING || h->waiting > 0;
}

static void look_at_clock(struct host *h) {
    if (!needs_timer(h) || h->now < h->deadline)
        return;
    h->deadline = h->now + TIMEOUT;
    h->again += h->state == DOCK_OPEN;
    h->close_tries += h->state == DOCK_CLOSING;
    ask(h, DOCK_TIMER);
}

/* A datagram arrived. One that is no frame is refused and changes nothing: a host counts it, and goes on. A block that was handed up
 * may have been what held ones waited for; the end does not hand them up by itself, so they are collected until there are no more. */
static void hear(struct host *h, const uint8_t *frame, size_t len) {
    dock_answer a = h->hear(&h->end, frame, len);
    h->refused += a.number != DOCK_OK;
    obey(h, &a);
    while (a.block > 0) {
        a = dock_collect(&h->end);
        h->collected += a.block > 0;
        obey(h, &a);
    }
}

/* Sends as much of the file as there is room for. A block that finds none stays the next one. */
static void send_more(struct host *h) {
    while (h->state == DOCK_OPEN && h->next_len > 0 && h->trouble == NULL) {
        dock_answer a = dock_send(&h->end, h->next, h->next_len);
        if (a.number == DOCK_QUEUE_FULL)
            return;
        if (a.number != DOCK_OK)
            h->trouble = dock_number_name(a.number);
        h->first++;
        obey(h, &a);
        read_next(h);
    }
}

/* The dock closes when both files have arrived: it has heard all of its partner's, and none of its own blocks is left or waits. */
static void close_if_done(struct host *h) {
    if (h->calls && h->state == DOCK_OPEN && heard_all(h) && h->next_len == 0 && h->waiting == 0)
        ask(h, DOCK_CLOSE);
}

/* Sleeps until a frame is there or the timer call is due. */
static void wait_for_frame(const struct host *h) {
    struct pollfd p = {.fd = h->socket, .events = POLLIN};
    int64_t left = needs_timer(h) ? h->deadline - clock_now() : LINGER / 4;
    (void)poll(&p, 1, left > 0 ? (int)left : 0);
}

/* Reads the frames that have come. The buffer has one byte more than a frame, so that a datagram that is too long is not taken for a
 * frame, cut short. */
static void hear_all(struct host *h) {
    uint8_t frame[DOCK_FRAME + 1];
    for (int i = 0; i < AT_ONCE; i++) {
        ssize_t len = recv(h->socket, frame, sizeof frame, 0);
        if (len < 0) /* no more is there, or the partner is not */
            return;
        h->heard_at = h->now;
        hear(h, frame, (size_t)len);
    }
}

/* Whoever was closed by its partner has to stay a while: the partner may not have heard the DRACK, and will ask again. When it has been
 * silent for long enough, it has ended. Any other silence is too long only if the partner cannot be there any more. */
static void look_at_limits(struct host *h) {
    int64_t silence = h->now - h->heard_at;
    if (h->state == DOCK_CLOSED && silence > LINGER)
        h->finished = 1;
    if (silence > SILENCE)
        h->trouble = "the partner is gone";
    if (h->close_tries > CLOSE_TRIES)
        h->trouble = "the partner does not answer the close";
    if (h->now - h->began > LIMIT_TIME)
        h->trouble = "it took too long";
    if (h->frames > LIMIT_FRAMES)
        h->trouble = "it took too many frames";
}

/* A host begins with a fresh end. Both of these live for one connection, and nothing of them is kept. A terminal makes its end fresh once
 * in its life, as it is set up, stores every byte of the page that a call sets, and restores the end from its page whenever it comes back:
 * the numbers reserved there are what keeps old frames out. examples/power.c does that. */
static void start_host(struct host *h, int64_t now) {
    dock_init(&h->end);
    h->now = h->began = h->heard_at = now;
    start_file(h);
    ask(h, h->calls ? DOCK_CONNECT : DOCK_LISTEN);
}

/* What a host does again and again. */
static void host_turn(struct host *h, int64_t now) {
    h->now = now;
    hear_all(h);
    look_at_clock(h);
    send_more(h);
    close_if_done(h);
    look_at_limits(h);
}

static int is_done(const struct host *h) {
    return h->finished || h->trouble != NULL;
}

/* A whole connection. */
static void run_host(struct host *h) {
    start_host(h, clock_now());
    while (!is_done(h)) {
        wait_for_frame(h);
        host_turn(h, clock_now());
    }
}

/*
 * Part 2: the relay.
 *
 * It has a socket for each host and passes on to the other what the one sends, badly.
 */

#define REPEATED 5  /* of a hundred frames that are not lost */
#define DELAYED 25  /* of a hundred of them, too */
#define PASSED_BY 7 /* a delayed frame goes after so many later ones at most, */
#define DELAY 1     /* or after so long: nothing is delayed for ever */
#define NAP 20      /* the longest time that the relay sleeps */

struct delayed {
    uint8_t bytes[DOCK_FRAME + 1];
    size_t len;
    uint32_t after; /* how many later ones have still to come */
    int64_t deadline;
    int overtaken; /* a later one has passed it */
};

/* From one host to the other. What is delayed stands in the order in which it came: those of the last PASSED_BY frames, and one. */
struct direction {
    int from, to;
    uint64_t seed;
    struct delayed delayed[PASSED_BY + 1];
    size_t delayed_len;
};

struct relay {
    struct direction directions[2];
    uint32_t loss;
    int64_t now;
    unsigned long taken, lost, repeated, reordered;
};

/* A number below n. */
static uint32_t below(uint64_t *seed, uint32_t n) {
    *seed ^= *seed << 13;
    *seed ^= *seed >> 7;
    *seed ^= *seed << 17;
    return (uint32_t)(*seed >> 32) % n;
}

/* Sends a frame on. It overtakes those that came before it and are delayed: the first so many. */
static void pass_on(struct direction *d, const uint8_t *bytes, size_t len, size_t before) {
    for (size_t i = 0; i < before; i++)
        d->delayed[i].overtaken = 1;
    (void)send(d->to, bytes, len, 0);
}

static void delay(struct direction *d, const uint8_t *bytes, size_t len, uint32_t after, int64_t deadline) {
    struct delayed *f = &d->delayed[d->delayed_len++];
    memcpy(f->bytes, bytes, len);
    f->len = len;
    f->after = after;
    f->deadline = deadline;
    f->overtaken = 0;
}

/* Those whose time has come go. */
static void let_go(struct relay *r, struct direction *d) {
    size_t kept = 0;
    for (size_t i = 0; i < d->delayed_len; i++) {
        struct delayed f = d->delayed[i];
        if (f.after > 0 && r->now < f.deadline) {
            d->delayed[kept++] = f;
            continue;
        }
        pass_on(d, f.bytes, f.len, kept);
        r->reordered += f.overtaken != 0;
    }
    d->delayed_len = kept;
}

/* A frame came from one host: it is lost, or goes to the other once or twice, now or later. Its fate is drawn whole, also where it is
 * lost, so that the nth frame of a direction has the same fate in every run with this SEED, whatever the hosts do otherwise. */
static void take_frame(struct relay *r, struct direction *d, const uint8_t *bytes, size_t len) {
    int lost = below(&d->seed, 100) < r->loss;
    int repeated = below(&d->seed, 100) < REPEATED;
    int delayed = below(&d->seed, 100) < DELAYED;
    uint32_t after = 1 + below(&d->seed, PASSED_BY);
    r->taken++;
    for (size_t i = 0; i < d->delayed_len; i++)
        d->delayed[i].after--;
    if (lost) {
        r->lost++;
    } else {
        if (repeated) {
            r->repeated++;
            pass_on(d, bytes, len, d->delayed_len);
        }
        if (delayed)
            delay(d, bytes, len, after, r->now + DELAY);
        else
            pass_on(d, bytes, len, d->delayed_len);
    }
    let_go(r, d);
}

/* Sleeps until a frame is there, but not for long. */
static void wait_for_frames(const struct relay *r) {
    struct pollfd p[2];
    int delays = 0;
    for (int i = 0; i < 2; i++) {
        p[i] = (struct pollfd){.fd = r->directions[i].from, .events = POLLIN};
        delays |= r->directions[i].delayed_len > 0;
    }
    (void)poll(p, 2, delays ? DELAY : NAP);
}

/* Takes the frames that have come, and lets go what was delayed for long enough. */
static void relay_turn(struct relay *r, int64_t now) {
    uint8_t bytes[DOCK_FRAME + 1];
    r->now = now;
    for (int i = 0; i < 2; i++) {
        struct direction *d = &r->directions[i];
        for (int k = 0; k < AT_ONCE; k++) {
            ssize_t len = recv(d->from, bytes, sizeof bytes, 0);
            if (len < 0) /* no more is there, or the host has ended */
                break;
            take_frame(r, d, bytes, (size_t)len);
        }
        let_go(r, d);
    }
}

/*
 * Part 3: the test.
 */

#define GRACE 10000 /* beyond a host's own limit; then it is stopped */
#define ENOUGH 4000 /* frames from which on the share of those lost is near what was asked for */
#define NEAR 5      /* so many of a hundred */
#define MANY 500    /* blocks of which some come before their turn */

/* How the program was called. */
struct options {
    int forget, steps;
    uint64_t seed, blocks, loss;
};

/* One host, and what the test has of it. */
struct side {
    const char *name;
    int calls;
    uint64_t seed;   /* of its file, and of what the relay does with its frames */
    int host, relay; /* the sockets, of the host and of the relay that faces it */
    FILE *sent, *heard, *told;
    pid_t pid; /* 0: it has ended, or was never started */
    int well;  /* and has answered that all went well */
};

/* A number of decimal digits from low to high. */
static int read_number(const char *text, uint64_t low, uint64_t high, uint64_t *number) {
    *number = 0;
    for (const char *c = text; *c != '\0'; c++) {
        if (*c < '0' || *c > '9' || *number > high)
            return 0;
        *number = *number * 10 + (uint64_t)(*c - '0');
    }
    return *text != '\0' && *number >= low && *number <= high;
}

/* The last block is 17 bytes shorter than the others. */
static int fill_file(FILE *f, uint64_t blocks, uint64_t *seed) {
    for (uint64_t left = blocks * DOCK_BLOCK - 17; left > 0; left--)
        if (putc((int)below(seed, 256), f) == EOF)
            return 0;
    return fflush(f) == 0;
}

/* The two sockets of a side, over the network. */
static int join_by_network(struct side *s) {
    struct sockaddr_in host, relay;
    s->host = open_socket(&host);
    s->relay = open_socket(&relay);
    return s->host >= 0 && s->relay >= 0 && face(s->host, &relay) == 0 && face(s->relay, &host) == 0;
}

/* The same without a network: what is sent is there at once, so that nothing depends on how busy the machine is. */
static int join_by_pair(struct side *s) {
    int pair[2];
    if (socketpair(AF_UNIX, SOCK_DGRAM, 0, pair) != 0)
        return 0;
    s->host = pair[0];
    s->relay = pair[1];
    return fcntl(s->host, F_SETFL, O_NONBLOCK) == 0 && fcntl(s->relay, F_SETFL, O_NONBLOCK) == 0;
}

/* Sockets and files of one side. All are there before a process is started, so that both know the ports of the relay. */
static int prepare(struct side *s, const struct options *o) {
    s->sent = tmpfile();
    s->heard = tmpfile();
    s->told = tmpfile();
    return s->sent != NULL && s->heard != NULL && s->told != NULL && fill_file(s->sent, o->blocks, &s->seed) &&
           (o->steps ? join_by_pair(s) : join_by_network(s));
}

static void close_socket(int *s) {
    if (*s >= 0)
        close(*s);
    *s = -1;
}

static void release(struct side *s) {
    FILE *const files[] = {s->sent, s->heard, s->told};
    close_socket(&s->host);
    close_socket(&s->relay);
    for (int i = 0; i < 3; i++)
        if (files[i] != NULL)
            fclose(files[i]);
}

/* For comparison: hears as an end did before ends held blocks. It acknowledged a block that came before its turn, and forgot it. The
 * acknowledgement is still the same; so that stays, and the record of an end that was handed such a block is put back as it was. (Any
 * other DATA that hands up nothing changes no record.) */
static dock_answer hear_and_forget(dock_end *end, const uint8_t *frame, size_t len) {
    uint8_t record[DOCK_RECORD];
    memcpy(record, end->record, sizeof record);
    dock_answer a = dock_hear(end, frame, len);
    if (a.number == DOCK_OK && frame[0] == DOCK_DATA && a.block == 0)
        memcpy(end->record, record, sizeof record);
    return a;
}

static struct host make_host(const struct side *s, const struct options *o) {
    return (struct host){.name = s->name,
                         .calls = s->calls,
                         .socket = s->host,
                         .file = s->sent,
                         .heard = s->heard,
                         .told = s->told,
                         .hear = o->forget ? hear_and_forget : dock_hear};
}

/* A host has ended, and tells its counts. Was it as it should be? All blocks came up, over this relay nothing but frames arrived, and
 * some blocks were collected, unless the ends forget them. */
static int judge(struct host *h, const struct options *o) {
    fprintf(h->told, "%s: heard %" PRIu64 " bytes in %" PRIu64 " blocks\n", h->name, h->bytes, h->blocks);
    if (fflush(h->heard) != 0 || fflush(h->told) != 0)
        h->trouble = "what was heard cannot be written";
    fprintf(stderr, "%s: %lu frames sent, %lu blocks among them, %lu of these again; %lu blocks collected; time %" PRId64 "%s%s\n",
            h->name, h->frames, h->first + h->again, h->again, h->collected, h->now - h->began, h->trouble ? "; gave up: " : "",
            h->trouble ? h->trouble : "");
    return h->trouble == NULL && h->blocks == o->blocks + 1 && h->refused == 0 &&
           (o->forget ? h->collected == 0 : h->collected > 0 || o->blocks < MANY);
}

/* What the child does. It keeps none of the relay's sockets and not the other host's: a socket is gone when its one owner ends. */
static int be_host(struct side *sides, int mine, const struct options *o) {
    struct host h = make_host(&sides[mine], o);
    close_socket(&sides[0].relay);
    close_socket(&sides[1].relay);
    close_socket(&sides[1 - mine].host);
    run_host(&h);
    int well = judge(&h, o);
    release(&sides[0]);
    release(&sides[1]);
    return well;
}

static void start(struct side *sides, int which, const struct options *o) {
    pid_t pid = fork();
    if (pid == 0)
        exit(be_host(sides, which, o) ? 0 : 1);
    if (pid < 0)
        perror("fork");
    else
        sides[which].pid = pid;
}

/* A process has ended. */
static void ended(struct side *s, int status) {
    s->pid = 0;
    s->well = WIFEXITED(status) && WEXITSTATUS(status) == 0;
    if (WIFSIGNALED(status))
        fprintf(stderr, "%s: ended by signal %d\n", s->name, WTERMSIG(status));
}

static void stop(struct side *s) {
    kill(s->pid, SIGKILL);
    while (waitpid(s->pid, NULL, 0) < 0 && errno == EINTR)
        continue;
    s->pid = 0;
    fprintf(stderr, "%s: stopped\n", s->name);
}

/* Sees who has ended, and answers whether anyone still runs. Where one is late or has failed, the other is not waited for. */
static int anyone_runs(struct side *sides, int64_t limit) {
    int failed = clock_now() > limit, runs = 0;
    for (int i = 0; i < 2; i++) {
        int status;
        if (sides[i].pid > 0 && waitpid(sides[i].pid, &status, WNOHANG) == sides[i].pid)
            ended(&sides[i], status);
        failed |= sides[i].pid == 0 && !sides[i].well;
    }
    for (int i = 0; i < 2; i++) {
        if (failed && sides[i].pid > 0)
            stop(&sides[i]);
        runs |= sides[i].pid > 0;
    }
    return runs;
}

/* Prints what a host told. */
static void print_told(FILE *told) {
    int c;
    rewind(told);
    while ((c = getc(told)) != EOF)
        putchar(c);
}

static int same_files(FILE *a, FILE *b) {
    int c;
    rewind(a);
    rewind(b);
    do {
        c = getc(a);
        if (c != getc(b))
            return 0;
    } while (c != EOF);
    return !ferror(a) && !ferror(b);
}

/* Did the relay do what it should? A test over a good network would say little. */
static int bad_enough(const struct relay *r) {
    double lost = r->taken > 0 ? 100.0 * (double)r->lost / (double)r->taken : 0;
    fprintf(stderr, "relay: %lu frames taken, %lu lost (%.1f of a hundred), %lu repeated, %lu reordered\n", r->taken, r->lost, lost,
            r->repeated, r->reordered);
    return r->taken < ENOUGH || (lost > (double)r->loss - NEAR && lost < (double)r->loss + NEAR && r->repeated > 0 && r->reordered > 0);
}

/* Starts both hosts, and is the relay until both have ended. */
static void run_processes(struct side *sides, struct relay *relay, const struct options *o) {
    int64_t limit = clock_now() + LIMIT_TIME + GRACE;
    for (int i = 0; i < 2; i++)
        start(sides, i, o);
    for (int i = 0; i < 2; i++)
        close_socket(&sides[i].host);
    while (anyone_runs(sides, limit)) {
        wait_for_frames(relay);
        relay_turn(relay, clock_now());
    }
}

/* Both hosts and the relay in turns. A turn of all three is a step, and nobody sleeps. */
static void run_steps(struct side *sides, struct relay *relay, const struct options *o) {
    struct host hosts[2] = {make_host(&sides[0], o), make_host(&sides[1], o)};
    for (int i = 0; i < 2; i++)
        start_host(&hosts[i], 0);
    for (int64_t now = 1; !is_done(&hosts[0]) || !is_done(&hosts[1]); now++) {
        for (int i = 0; i < 2; i++)
            if (!is_done(&hosts[i]))
                host_turn(&hosts[i], now);
        relay_turn(relay, now);
    }
    for (int i = 0; i < 2; i++)
        sides[i].well = judge(&hosts[i], o);
}

/* Runs it all, and says how it went. */
static int run_test(struct side *sides, const struct options *o) {
    struct relay relay = {.loss = (uint32_t)o->loss};
    int well = 1;
    for (int i = 0; i < 2; i++) {
        relay.directions[i].from = sides[i].relay;
        relay.directions[i].to = sides[1 - i].relay;
        relay.directions[i].seed = sides[i].seed;
    }
    if (o->steps)
        run_steps(sides, &relay, o);
    else
        run_processes(sides, &relay, o);
    for (int i = 0; i < 2; i++)
        print_told(sides[i].told);
    for (int i = 0; i < 2; i++) {
        int same = same_files(sides[i].heard, sides[1 - i].sent);
        printf("what the %s heard is %s the %s sent\n", sides[i].name, same ? "what" : "NOT what", sides[1 - i].name);
        well &= same && sides[i].well;
    }
    if (!bad_enough(&relay)) {
        fprintf(stderr, "the relay was not as bad as it should be\n");
        well = 0;
    }
    puts(well ? "all went well" : "something went wrong");
    return well && fflush(stdout) == 0 && !ferror(stdout);
}

static int read_options(int argc, char **argv, struct options *o) {
    int i = 1;
    for (; i < argc && argv[i][0] == '-'; i++) {
        int forget = strcmp(argv[i], "--forget") == 0, steps = strcmp(argv[i], "--steps") == 0;
        o->forget |= forget;
        o->steps |= steps;
        if (!forget && !steps)
            return 0;
    }
    return argc - i <= 3 && (argc - i < 1 || read_number(argv[i], 0, UINT32_MAX, &o->seed)) &&
           (argc - i < 2 || read_number(argv[i + 1], 1, 1000000, &o->blocks)) &&
           (argc - i < 3 || read_number(argv[i + 2], 0, 90, &o->loss));
}

int main(int argc, char **argv) {
    struct side sides[2] = {{.name = "dock", .calls = 1, .host = -1, .relay = -1}, {.name = "stock room", .host = -1, .relay = -1}};
    struct options o = {.seed = 1, .blocks = 1000, .loss = 20};
    int well = 0;
    if (!read_options(argc, argv, &o)) {
        fprintf(stderr, "usage: udp [--forget] [--steps] [SEED [BLOCKS [LOSS]]], BLOCKS from 1 to 1000000, LOSS from 0 to 90\n");
        return 2;
    }
    /* Whoever started this may have set it to be ignored: then the end of a child would not be told. */
    signal(SIGCHLD, SIG_DFL);
    /* Far apart for numbers that are near each other, and never 0. */
    for (uint64_t i = 0; i < 2; i++)
        sides[i].seed = (2 * o.seed + 1 + i) * 0x9e3779b97f4a7c15;
    if (prepare(&sides[0], &o) && prepare(&sides[1], &o))
        well = run_test(sides, &o);
    else
        perror("udp");
    release(&sides[0]);
    release(&sides[1]);
    return well ? 0 : 1;
}
