/* Publishers and consumers that never pause, in one process, so that the server is what limits them.

     busy PORT SECONDS PUBLISHERS WINDOW CONSUMERS PREFETCH SIZE STYLE [EXCHANGE KEY QUEUE]

   Each publisher writes WINDOW confirmed publishes of SIZE bytes to EXCHANGE under KEY at once (default: `direct` and `new`), and
   the next WINDOW once all are acked or nacked. Each consumer takes from QUEUE (default: `one`): with a prefetch it acknowledges
   each delivery by an ack of its own, and with prefetch 0 it takes without acks. If STYLE is `awaited`, the publishers also wait
   for the deliveries of their windows; if it is `free`, they don't; if it is `returned`, neither, and the consumers give each
   delivery back by a nack.

   Prints `began` after half a second in which nothing is counted, and then the publishes acked or nacked and the deliveries taken,
   each a second, over SECONDS. If SECONDS is 0, it prints both for each line on standard input, counted since the line before, and
   ends with standard input. */
#include <arpa/inet.h>
#include <errno.h>
#include <fcntl.h>
#include <netinet/tcp.h>
#include <stdint.h>
#include <stdio.h>
#include <stdlib.h>
#include <string.h>
#include <sys/epoll.h>
#include <sys/socket.h>
#include <time.h>
#include <unistd.h>

enum { ROOM = 1 << 18, WARM = 500000, MOST = 131072 - 8 };

typedef struct {
    int socket;
    int is_consumer;
    /* a publisher's window, and how much of it was written; a consumer's acks that wait to be written */
    unsigned char *words;
    size_t written, length;
    /* what came and is not yet a whole frame */
    unsigned char *unread;
    size_t kept;
    /* a publisher: publishes sent and acked */
    uint64_t sent, acked;
} Client;

static uint64_t published, taken;
static int window_size, prefetch, is_awaited, is_returned;
static const char *exchange = "direct", *key = "new", *queue = "one";

static void fail(const char *what) {
    fprintf(stderr, "busy: %s\n", what);
    exit(1);
}

static uint64_t number(const unsigned char *at, int bytes) {
    uint64_t it = 0;
    while (bytes--) it = it << 8 | *at++;
    return it;
}

static unsigned char *put(unsigned char *at, uint64_t it, int bytes) {
    while (bytes--) *at++ = (unsigned char)(it >> 8 * bytes);
    return at;
}

static unsigned char *put_short(unsigned char *at, const char *text) {
    size_t length = strlen(text);
    *at++ = (unsigned char)length;
    memcpy(at, text, length);
    return at + length;
}

/* the beginning of a method frame, whose length is put by `end_frame` */
static unsigned char *method(unsigned char *at, int channel, int class_id, int method_id) {
    at = put(put(put(at, 1, 1), channel, 2), 0, 4);
    return put(put(at, class_id, 2), method_id, 2);
}

static unsigned char *end_frame(unsigned char *start, unsigned char *at) {
    put(start + 3, at - start - 7, 4);
    return put(at, 0xce, 1);
}

static void say(int socket, const unsigned char *from, const unsigned char *to) {
    while (from < to) {
        ssize_t some = write(socket, from, to - from);
        if (some <= 0) fail("the server ended a connection");
        from += some;
    }
}

/* Reads one method, and wants it to be this one. */
static void expect(int socket, uint64_t class_id, uint64_t method_id) {
    static unsigned char frame[1 << 17];
    if (recv(socket, frame, 7, MSG_WAITALL) != 7) fail("the server ended a connection");
    ssize_t size = number(frame + 3, 4) + 1;
    if (size > (ssize_t)sizeof frame || recv(socket, frame, size, MSG_WAITALL) != size) fail("a frame is not whole");
    if (number(frame, 2) != class_id || number(frame + 2, 2) != method_id) fail("another method was to come");
}

static void log_in(int socket) {
    unsigned char out[256], *at;
    say(socket, (unsigned char *)"AMQP\0\0\x09\x01", (unsigned char *)"AMQP\0\0\x09\x01" + 8);
    expect(socket, 10, 10);
    at = put_short(put(method(out, 0, 10, 11), 0, 4), "PLAIN");
    at = put(at, 10, 4);
    memcpy(at, "\0till\0till", 10);
    at = end_frame(out, put_short(at + 10, "en_US"));
    say(socket, out, at);
    expect(socket, 10, 30);
    at = end_frame(out, put(put(put(method(out, 0, 10, 31), 255, 2), 131072, 4), 0, 2));
    unsigned char *open = at;
    at = end_frame(open, put(put_short(method(open, 0, 10, 40), "/"), 0, 2));
    say(socket, out, at);
    expect(socket, 10, 41);
    at = end_frame(out, put(method(out, 1, 20, 10), 0, 1));
    say(socket, out, at);
    expect(socket, 20, 11);
}

static void select_confirms(int socket) {
    unsigned char out[32];
    say(socket, out, end_frame(out, put(method(out, 1, 85, 10), 0, 1)));
    expect(socket, 85, 11);
}

static void consume(int socket) {
    unsigned char out[128], *at;
    if (prefetch > 0) {
        say(socket, out, end_frame(out, put(put(put(method(out, 1, 60, 10), 0, 4), prefetch, 2), 0, 1)));
        expect(socket, 60, 11);
    }
    at = put_short(put_short(put(method(out, 1, 60, 20), 0, 2), queue), "busy");
    at = put(put(at, prefetch > 0 ? 0 : 2, 1), 0, 4);
    say(socket, out, end_frame(out, at));
    expect(socket, 60, 21);
}

/* How many bytes a publish takes, at most. */
static size_t room_for(int size) {
    return size + 8 * (size / MOST) + 128;
}

/* One publish, as its frames. */
static unsigned char *publish(unsigned char *at, int size) {
    unsigned char *start = at;
    at = put_short(put_short(put(method(at, 1, 60, 40), 0, 2), exchange), key);
    at = end_frame(start, put(at, 0, 1));
    start = at;
    at = put(put(put(put(at, 2, 1), 1, 2), 0, 4), 60, 2);
    at = end_frame(start, put(put(put(at, 0, 2), size, 8), 0, 2));
    for (int some; size > 0; size -= some) {
        some = size < MOST ? size : MOST;
        start = at;
        at = put(put(put(at, 3, 1), 1, 2), 0, 4);
        memset(at, 'x', some);
        at = end_frame(start, at + some);
    }
    return at;
}

static Client *client(int port, int is_consumer, int size) {
    Client *it = calloc(1, sizeof *it);
    struct sockaddr_in to = {.sin_family = AF_INET, .sin_port = htons(port), .sin_addr.s_addr = htonl(INADDR_LOOPBACK)};
    int yes = 1;
    it->socket = socket(AF_INET, SOCK_STREAM, 0);
    if (connect(it->socket, (struct sockaddr *)&to, sizeof to)) fail("no server is at this port");
    setsockopt(it->socket, IPPROTO_TCP, TCP_NODELAY, &yes, sizeof yes);
    it->is_consumer = is_consumer;
    it->unread = malloc(ROOM);
    log_in(it->socket);
    if (is_consumer) {
        it->words = malloc(ROOM);
        return it;
    }
    select_confirms(it->socket);
    unsigned char *at = it->words = malloc(window_size * room_for(size));
    for (int i = 0; i < window_size; i++) at = publish(at, size);
    it->length = it->written = at - it->words;
    return it;
}

static void flush(Client *it) {
    while (it->written < it->length) {
        ssize_t some = write(it->socket, it->words + it->written, it->length - it->written);
        if (some < 0 && errno == EAGAIN) return;
        if (some <= 0) fail("the server ended a connection");
        it->written += some;
    }
    if (it->is_consumer) it->written = it->length = 0;
}

/* The next window, once the one before is acked, and taken where that is awaited. */
static void go_on(Client *it) {
    if (it->written == it->length && it->acked == it->sent && (!is_awaited || taken >= published)) {
        it->sent += window_size;
        it->written = 0;
        flush(it);
    }
}

static void acked(Client *it, const unsigned char *arguments) {
    uint64_t up_to = number(arguments, 8), before = it->acked;
    it->acked = arguments[8] & 1 ? up_to : it->acked + 1;
    published += it->acked - before;
}

static void delivered(Client *it, const unsigned char *arguments) {
    taken++;
    if (prefetch == 0) return;
    unsigned char *start = it->words + it->length;
    if (it->length + 32 > ROOM) fail("the server reads no acks");
    unsigned char *at = method(start, 1, 60, is_returned ? 120 : 80);
    memcpy(at, arguments + 1 + arguments[0], 8);
    it->length = end_frame(start, put(at + 8, is_returned ? 2 : 0, 1)) - it->words;
}

/* What is done for the whole frames that came; what is left of another is kept. */
static void take_frames(Client *it) {
    size_t at = 0;
    while (at + 7 <= it->kept) {
        unsigned char *frame = it->unread + at;
        size_t whole = number(frame + 3, 4) + 8;
        if (at + whole > it->kept) break;
        uint64_t named = frame[0] == 1 ? number(frame + 7, 4) : 0;
        if (named == (60 << 16 | 80) || named == (60 << 16 | 120)) acked(it, frame + 11);
        else if (named == (60 << 16 | 60)) delivered(it, frame + 11);
        else if (named) fail("another method was to come");
        at += whole;
    }
    memmove(it->unread, it->unread + at, it->kept -= at);
}

/* Reads until nothing is left, since an event comes once. */
static void hear(Client *it) {
    size_t room;
    ssize_t some;
    do {
        room = ROOM - it->kept;
        some = read(it->socket, it->unread + it->kept, room);
        if (some < 0 && errno == EAGAIN) return;
        if (some <= 0) fail("the server ended a connection");
        it->kept += some;
        take_frames(it);
        flush(it);
    } while ((size_t)some == room);
}

static uint64_t microseconds(void) {
    struct timespec it;
    clock_gettime(CLOCK_MONOTONIC, &it);
    return it.tv_sec * 1000000 + it.tv_nsec / 1000;
}

/* What an event of a client asks for: reads, writes what waits, and goes on. */
static void attend(Client *it, uint32_t events) {
    if (events & EPOLLIN) hear(it);
    if (it->written < it->length) flush(it);
    if (!it->is_consumer) go_on(it);
}

/* Reads a line from standard input. Returns whether one came. */
static int line_came(void) {
    char line[64];
    return read(0, line, sizeof line) > 0;
}

/* Serves the clients until END, or, if END is 0, until a line comes on standard input. Returns whether one came, or the end is over.
   Each event comes once, so those that came with a line are attended to before this returns. */
static int serve_until(int poll, Client **all, int count, uint64_t end) {
    struct epoll_event came[1024];
    while (end == 0 || microseconds() < end) {
        int some = epoll_wait(poll, came, 1024, 20), is_line = 0;
        for (int i = 0; i < some; i++) {
            if (came[i].data.ptr == NULL) is_line = 1;
            else attend(came[i].data.ptr, came[i].events);
        }
        for (int i = 0; is_awaited && i < count; i++)
            if (!all[i]->is_consumer) go_on(all[i]);
        if (is_line) return line_came();
    }
    return 1;
}

/* Serves the clients until END, as above, and prints what was published and taken a second meanwhile. */
static int counted(int poll, Client **all, int count, uint64_t span) {
    uint64_t published_before = published, taken_before = taken, began = microseconds();
    int goes_on = serve_until(poll, all, count, span ? began + span : 0);
    double seconds = (microseconds() - began + 1) / 1e6;
    if (goes_on) printf("%.0f %.0f\n", (published - published_before) / seconds, (taken - taken_before) / seconds);
    fflush(stdout);
    return goes_on;
}

int main(int words, char **word) {
    if (words != 9 && words != 12) fail("busy PORT SECONDS PUBLISHERS WINDOW CONSUMERS PREFETCH SIZE free|awaited|returned [EXCHANGE KEY QUEUE]");
    int port = atoi(word[1]), publishers = atoi(word[3]), consumers = atoi(word[5]), size = atoi(word[7]);
    uint64_t span = 1e6 * atof(word[2]);
    window_size = atoi(word[4]), prefetch = atoi(word[6]), is_awaited = !strcmp(word[8], "awaited") && consumers > 0;
    is_returned = !strcmp(word[8], "returned");
    if (words == 12) exchange = word[9], key = word[10], queue = word[11];
    int count = publishers + consumers, poll = epoll_create1(0);
    Client **all = calloc(count, sizeof *all);
    for (int i = 0; i < count; i++) {
        all[i] = client(port, i < consumers, size);
        if (all[i]->is_consumer) consume(all[i]->socket);
        fcntl(all[i]->socket, F_SETFL, O_NONBLOCK);
        struct epoll_event wanted = {.events = EPOLLIN | EPOLLOUT | EPOLLET, .data.ptr = all[i]};
        epoll_ctl(poll, EPOLL_CTL_ADD, all[i]->socket, &wanted);
    }
    serve_until(poll, all, count, microseconds() + WARM);
    printf("began\n");
    fflush(stdout);
    if (span > 0) {
        counted(poll, all, count, span);
        return 0;
    }
    struct epoll_event line = {.events = EPOLLIN, .data.ptr = NULL};
    epoll_ctl(poll, EPOLL_CTL_ADD, 0, &line);
    while (counted(poll, all, count, 0)) {
    }
    return 0;
}
