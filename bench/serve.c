// The load of bench/serve: one thread over epoll, with raw frames whose mask is 0. Each use prints one line NAME=NUMBER ..
//
//   load write KIND PORT CLIENTS SECONDS   clients with one write in flight each; KIND: presence, redis, mqtt,
//                                          etcd, loop_append, loop_page or loop_place
//   load make KIND PORT CLIENTS WRITES     so many writes by clients with one write in flight each
//   load live KIND PORT CLIENTS WRITES STEP so many writes by clients with one write in flight each, some of which close their connection
//                                          behind a write and come back, and of some writes a stale transaction in their place, beside
//                                          sessions that listen; a line for each STEP of them, and one at the end, which comes early
//                                          where the server ends; KIND: presence, or redis without the sessions
//   load sync FILE append|page|place SECONDS
//                                          the disk alone: 200 bytes or 4 KiB behind the file's end, or 2 KiB over old bytes
//                                          in the three writes of a commit, synced
//   load loop FILE append|page|place       says its port, and serves one connection after the other: each message is written
//                                          so, synced, and then answered
//   load ends FILE                         says its port, and serves who watches and, behind it, one connection after the other:
//                                          at each one's end 4 KiB are written, synced, and its line goes out to who watches
//   load push LISTENERS WRITES SERVER=PORT ..
//                                          writes at random moments, to one server after the other: how long until each
//                                          listener has them; SERVER: presence, mqtt or redis
//   load flood PORT LISTENERS SECONDS      one writer, one write in flight: how many pushes came, and in order
//   load killed ROUNDS process|reset SERVER=PORT ..
//                                          how long until a watcher knows that a client was killed, of one server after the
//                                          other; SERVER: presence, mqtt or ends
//   load fill PORT BATCHES                 makes so many batches, several writes in flight
//   load hold SERVER PORT CONNECTIONS PATHS
//                                          opens sessions that listen to so many paths each, says so, and waits for the end of
//                                          its input; SERVER: presence, mqtt or redis
//   load listen PORT PATHS ROUNDS          a session listens to so many paths, then to none of them, and ends: how long each takes
//   load leave PORT ROWS ROUNDS            how long the end of a session takes that left so many writes, of values and of increments
#define _GNU_SOURCE
#include <arpa/inet.h>
#include <errno.h>
#include <fcntl.h>
#include <netinet/tcp.h>
#include <signal.h>
#include <stdarg.h>
#include <stdint.h>
#include <stdio.h>
#include <stdlib.h>
#include <string.h>
#include <sys/epoll.h>
#include <sys/socket.h>
#include <sys/wait.h>
#include <time.h>
#include <unistd.h>

#define PLACES 1000  // how many places are written to
#define SILENCE 5    // how many seconds an answer or a push may take
#define WINDOW 16    // how many writes of a connection are in flight where a file is filled

typedef struct { const char *at; size_t len; } Text;

typedef struct News News;

// A connection: what was read and not looked at yet stands in in[at..have].
typedef struct {
    int fd;
    char *in;
    size_t at, have, room;
    int port;       // of its server
    const News *news; // how it speaks to that, where it listens
    char id[32];    // the client
    long attempt;   // its sessions
    long q, n;      // its last message, its last write
    long seen;      // the value that it was told last
    double sent;    // when its last write went out
} Conn;

static int port;          // of the server that connections are made for
static int watch;         // the epoll of the connections that are looked at together
static long incarnation;  // of all clients of this run

// ---- times

static double now(void) {
    struct timespec t;
    clock_gettime(CLOCK_MONOTONIC, &t);
    return t.tv_sec + t.tv_nsec / 1e9;
}

// Waits for some time between two numbers of milliseconds.
static void pause_for(int least, int most) { usleep(1000 * least + rand() % (1000 * (most - least))); }

typedef struct { double *all; size_t count, room; } Times;

static void note(Times *times, double seconds) {
    if (times->count == times->room) {
        times->room = times->room ? 2 * times->room : 1 << 16;
        times->all = realloc(times->all, times->room * sizeof(double));
    }
    times->all[times->count++] = seconds;
}

static int by_value(const void *a, const void *b) {
    double x = *(const double *)a, y = *(const double *)b;
    return x < y ? -1 : x > y;
}

static void print_times(const char *name, Times *times) {
    qsort(times->all, times->count, sizeof(double), by_value);
    size_t last = times->count ? times->count - 1 : 0;
    double none = 0, *all = times->count ? times->all : &none;
    printf("%sp50=%.4f %sp99=%.4f ", name, all[last / 2] * 1e3, name, all[last * 99 / 100] * 1e3);
    printf("%smax=%.4f ", name, all[last] * 1e3);
}

// ---- connections

static void (*at_end)(void); // what is done, if anything, where the server ends the connection

// A call of the system failed.
static void die(const char *what) {
    if (at_end && (errno == EPIPE || errno == ECONNRESET || errno == ECONNREFUSED)) at_end();
    fprintf(stderr, "load: %s: %s\n", what, strerror(errno));
    exit(1);
}

// Something else came than was asked for.
static void refuse(const char *what, Text text) {
    fprintf(stderr, "load: no %s, but %.*s\n", what, (int)text.len, text.at);
    exit(1);
}

static const Text silence = {"silence", 7}, the_end = {"the end of the connection", 25};

static void dial(Conn *c) {
    struct sockaddr_in to = {.sin_family = AF_INET, .sin_port = htons(c->port), .sin_addr.s_addr = htonl(INADDR_LOOPBACK)};
    struct timeval most = {.tv_sec = SILENCE};
    int one = 1;
    if (!c->in) c->in = malloc(c->room = 16384);
    c->at = c->have = 0;
    c->fd = socket(AF_INET, SOCK_STREAM, 0);
    if (c->fd < 0 || connect(c->fd, (struct sockaddr *)&to, sizeof to)) die("connect");
    setsockopt(c->fd, IPPROTO_TCP, TCP_NODELAY, &one, sizeof one);
    setsockopt(c->fd, SOL_SOCKET, SO_RCVTIMEO, &most, sizeof most);
}

static void send_all(Conn *c, const void *bytes, size_t len) {
    for (const char *at = bytes; len;) {
        ssize_t sent = send(c->fd, at, len, MSG_NOSIGNAL);
        if (sent < 0) die("send");
        at += sent;
        len -= sent;
    }
}

// Reads what is there, or waits for something.
static void receive(Conn *c, int flags) {
    memmove(c->in, c->in + c->at, c->have - c->at);
    c->have -= c->at;
    c->at = 0;
    if (c->room - c->have < 4096) c->in = realloc(c->in, c->room *= 2);
    ssize_t got = recv(c->fd, c->in + c->have, c->room - c->have, flags);
    if (got < 0 && errno != EAGAIN) die("recv");
    if (got < 0 && flags == 0) refuse("message", silence);
    if (got < 0) return;
    if (got == 0 && at_end) at_end();
    if (got == 0) refuse("message", the_end);
    c->have += got;
}

// ---- messages

// The next text that was read whole, where there is one.
static int next(Conn *c, Text *text) {
    const unsigned char *p = (const unsigned char *)c->in + c->at;
    size_t left = c->have - c->at, head = 2;
    if (left < 2) return 0;
    uint64_t len = p[1] & 127;
    head += len == 126 ? 2 : len == 127 ? 8 : 0;
    if (left < head) return 0;
    if (head > 2) len = 0;
    for (size_t i = 2; i < head; i++) len = len << 8 | p[i];
    if (left < head + len) return 0;
    *text = (Text){c->in + c->at + head, len};
    c->at += head + len;
    if ((p[0] & 15) == 8) refuse("message", the_end);
    return 1;
}

static const char *find(Text text, const char *what) { return memmem(text.at, text.len, what, strlen(what)); }

static int is(Text text, const char *word) {
    char what[32];
    snprintf(what, sizeof what, "\"m\":\"%s\"", word);
    return find(text, what) != NULL;
}

// The number behind the name. A number of JSON has something behind it.
static long number(Text text, const char *name) {
    const char *at = find(text, name);
    if (!at) refuse(name, text);
    return strtol(at + strlen(name), NULL, 10);
}

__attribute__((format(printf, 2, 3))) static void say(Conn *c, const char *form, ...) {
    unsigned char out[1024];
    va_list given;
    va_start(given, form);
    size_t len = vsnprintf((char *)out + 8, sizeof out - 8, form, given), head = len < 126 ? 6 : 8;
    va_end(given);
    unsigned char *at = out + 8 - head;
    at[0] = 0x81;
    at[1] = 0x80 | (len < 126 ? len : 126);
    if (head == 8) at[2] = len >> 8, at[3] = len;
    memset(out + 4, 0, 4); // the mask
    send_all(c, at, head + len);
}

// Waits for the next message, which has to be of this kind.
static Text hear(Conn *c, const char *word) {
    Text text;
    while (!next(c, &text)) receive(c, 0);
    if (!is(text, word)) refuse(word, text);
    return text;
}

static void upgrade(Conn *c) {
    const char *ask = "GET / HTTP/1.1\r\nHost: presence\r\nUpgrade: websocket\r\nConnection: Upgrade\r\n"
                      "Sec-WebSocket-Key: dGhlIHNhbXBsZSBub25jZQ==\r\nSec-WebSocket-Version: 13\r\n\r\n";
    send_all(c, ask, strlen(ask));
    const char *end;
    while (!(end = memmem(c->in, c->have, "\r\n\r\n", 4))) receive(c, 0);
    if (strncmp(c->in, "HTTP/1.1 101", 12)) refuse("upgrade", (Text){c->in, 12});
    c->at = end + 4 - c->in;
}

#define SESSION "\"s\":[\"%s\",%ld,%ld]"
#define OF(c) (c)->id, incarnation, (c)->attempt

static void open_session(Conn *c) {
    dial(c);
    upgrade(c);
    c->attempt++;
    c->q = 0;
    say(c, "{\"m\":\"hello\"," SESSION "}", OF(c));
    c->n = number(hear(c, "welcome"), "\"ops\":");
}

static void listen_to(Conn *c, const char *path) {
    say(c, "{\"m\":\"on\",\"path\":\"%s\",\"q\":%ld," SESSION "}", path, ++c->q, OF(c));
    hear(c, "snap");
}

// Says that it is there.
static void presence_stay(Conn *c) { say(c, "{\"m\":\"beat\"," SESSION "}", OF(c)); }

static void leave_path(Conn *c, const char *path) {
    say(c, "{\"m\":\"off\",\"path\":\"%s\",\"q\":%ld," SESSION "}", path, ++c->q, OF(c));
    hear(c, "offdone");
}

static void set(Conn *c, const char *path, const char *value) {
    c->q++, c->n++;
    c->sent = now();
    say(c, "{\"m\":\"op\",\"n\":%ld,\"op\":{\"op\":\"set\",\"path\":\"%s\",\"value\":%s},\"q\":%ld," SESSION "}",
        c->n, path, value, c->q, OF(c));
}

// Connections that are looked at together. The clients of one run have the names WORD0, WORD1, ..
static Conn *conns_of(int count, const char *word) {
    Conn *conns = calloc(count, sizeof(Conn));
    for (int i = 0; i < count; i++) {
        conns[i].port = port;
        snprintf(conns[i].id, sizeof conns[i].id, "%s%d", word, i);
    }
    return conns;
}

static void look_at(Conn *c) {
    struct epoll_event event = {.events = EPOLLIN, .data.ptr = c};
    if (epoll_ctl(watch, EPOLL_CTL_ADD, c->fd, &event)) die("epoll");
}

static void look_away(Conn *c) {
    if (epoll_ctl(watch, EPOLL_CTL_DEL, c->fd, NULL)) die("epoll");
}

// ---- writes in a closed loop, over four protocols

typedef struct {
    const char *name;
    void (*open)(Conn *c);
    void (*ask)(Conn *c);      // sends the next write
    int (*answered)(Conn *c);  // whether the answer was read whole
} Kind;

static int place_of(Conn *c) { return (c->n * 7919 + atoi(c->id + 1) * 131) % PLACES; }

// A value of 64 bytes.
static const char *value_of(Conn *c) {
    static char value[65];
    snprintf(value, sizeof value, "%064ld", c->n);
    return value;
}

static void presence_ask(Conn *c) {
    char path[32], value[80];
    snprintf(path, sizeof path, "/place/%d", place_of(c));
    snprintf(value, sizeof value, "\"%s\"", value_of(c));
    set(c, path, value);
}

static int presence_answered(Conn *c) {
    Text text;
    if (!next(c, &text)) return 0;
    if (!is(text, "reply") || number(text, "\"q\":") != c->q) refuse("reply", text);
    return 1;
}

// Whether so many bytes are there, of which the first ones are these; then they are passed.
static int has(Conn *c, const char *first, size_t known, size_t len) {
    if (c->have - c->at < len) return 0;
    if (memcmp(c->in + c->at, first, known)) refuse("answer", (Text){c->in + c->at, len});
    c->at += len;
    return 1;
}

static void redis_ask(Conn *c) {
    char out[256], key[32];
    c->n++;
    int len = snprintf(key, sizeof key, "place:%d", place_of(c));
    len = snprintf(out, sizeof out, "*3\r\n$3\r\nSET\r\n$%d\r\n%s\r\n$64\r\n%s\r\n", len, key, value_of(c));
    c->sent = now();
    send_all(c, out, len);
}

static int redis_answered(Conn *c) { return has(c, "+OK", 3, 5); }

// Opens a session that leaves this behind as a retained message about the news, or nothing.
static void mqtt_open_with(Conn *c, const char *left) {
    char out[96], *at = out + 14;
    int id = strlen(c->id);
    memcpy(out, "\x10\x00\x00\x04MQTT\x04\x02\x00\x00\x00", 13);
    out[13] = id;
    at = mempcpy(at, c->id, id);
    if (left) {
        out[9] |= 0x24;
        at = mempcpy(at, "\x00\x04news\x00", 7);
        *at++ = strlen(left);
        at = mempcpy(at, left, strlen(left));
    }
    out[1] = at - out - 2;
    dial(c);
    send_all(c, out, at - out);
    while (!has(c, "\x20\x02\x00\x00", 4, 4)) receive(c, 0);
}

static void mqtt_open(Conn *c) { mqtt_open_with(c, NULL); }

// A publish of quality 1, retained.
static void mqtt_publish(Conn *c, const char *topic, const char *value) {
    char out[128] = {0x33}, *at = out + 2;
    int id = ++c->n % 65535 + 1;
    *at++ = 0;
    *at++ = strlen(topic);
    at = mempcpy(at, topic, strlen(topic));
    *at++ = id >> 8;
    *at++ = id;
    at = mempcpy(at, value, strlen(value));
    out[1] = at - out - 2;
    c->sent = now();
    send_all(c, out, at - out);
}

static void mqtt_ask(Conn *c) {
    char topic[32];
    snprintf(topic, sizeof topic, "place/%d", place_of(c));
    mqtt_publish(c, topic, value_of(c));
}

static int mqtt_answered(Conn *c) { return has(c, "\x40\x02", 2, 4); }

static const char *base64(const char *text) {
    static char out[2][128];
    static int turn;
    const char *digits = "ABCDEFGHIJKLMNOPQRSTUVWXYZabcdefghijklmnopqrstuvwxyz0123456789+/";
    char *to = out[turn = !turn];
    for (size_t len = strlen(text), i = 0; i < len; i += 3) {
        uint32_t bits = text[i] << 16 | (i + 1 < len ? text[i + 1] << 8 : 0) | (i + 2 < len ? text[i + 2] : 0);
        *to++ = digits[bits >> 18];
        *to++ = digits[bits >> 12 & 63];
        *to++ = i + 1 < len ? digits[bits >> 6 & 63] : '=';
        *to++ = i + 2 < len ? digits[bits & 63] : '=';
    }
    *to = 0;
    return out[turn];
}

static void etcd_ask(Conn *c) {
    char out[512], body[256], key[32];
    c->n++;
    snprintf(key, sizeof key, "place/%d", place_of(c));
    int len = snprintf(body, sizeof body, "{\"key\":\"%s\",\"value\":\"%s\"}", base64(key), base64(value_of(c)));
    len = snprintf(out, sizeof out, "POST /v3/kv/put HTTP/1.1\r\nHost: etcd\r\nContent-Length: %d\r\n\r\n%s", len, body);
    c->sent = now();
    send_all(c, out, len);
}

static int etcd_answered(Conn *c) {
    Text text = {c->in + c->at, c->have - c->at};
    const char *end = find(text, "\r\n\r\n");
    if (!end) return 0;
    Text head = {text.at, end + 2 - text.at};
    size_t len = end + 4 - text.at + number(head, "Content-Length: ");
    return has(c, "HTTP/1.1 200", 12, len);
}

static const Kind kinds[] = {
    {"presence", open_session, presence_ask, presence_answered},
    {"redis", dial, redis_ask, redis_answered},
    {"mqtt", mqtt_open, mqtt_ask, mqtt_answered},
    {"etcd", dial, etcd_ask, etcd_answered},
    {"loop_append", dial, redis_ask, redis_answered},
    {"loop_page", dial, redis_ask, redis_answered},
    {"loop_place", dial, redis_ask, redis_answered},
};

static const Kind *kind_of(const char *name) {
    for (size_t i = 0; i < sizeof kinds / sizeof *kinds; i++)
        if (!strcmp(name, kinds[i].name)) return &kinds[i];
    refuse("kind", (Text){name, strlen(name)});
    return NULL;
}

static void time_writes(const Kind *kind, int clients, double seconds) {
    Conn *conns = conns_of(clients, "w");
    struct epoll_event events[64];
    Times times = {0};
    for (int i = 0; i < clients; i++) kind->open(&conns[i]), look_at(&conns[i]);
    for (int i = 0; i < clients; i++) kind->ask(&conns[i]);
    double start = now(), spent;
    while ((spent = now() - start) < seconds) {
        int ready = epoll_wait(watch, events, 64, SILENCE * 1000);
        if (ready == 0) refuse("answer", silence);
        for (int i = 0; i < ready; i++) {
            Conn *c = events[i].data.ptr;
            receive(c, MSG_DONTWAIT);
            if (!kind->answered(c)) continue;
            note(&times, now() - c->sent);
            kind->ask(c);
        }
    }
    printf("count=%zu rate=%.1f ", times.count, times.count / spent);
    print_times("", &times);
    puts("");
}

// Makes so many writes, and waits for all their answers.
static void make_writes(const Kind *kind, int clients, long writes) {
    Conn *conns = conns_of(clients, "m");
    struct epoll_event events[64];
    long asked = 0, answered = 0;
    for (int i = 0; i < clients; i++) kind->open(&conns[i]), look_at(&conns[i]);
    for (; asked < clients; asked++) kind->ask(&conns[asked]);
    double start = now();
    while (answered < writes) {
        int ready = epoll_wait(watch, events, 64, SILENCE * 1000);
        if (ready == 0) refuse("answer", silence);
        for (int i = 0; i < ready; i++) {
            Conn *c = events[i].data.ptr;
            receive(c, MSG_DONTWAIT);
            if (!kind->answered(c)) continue;
            answered++;
            if (asked < writes) kind->ask(c), asked++;
        }
    }
    printf("count=%ld rate=%.1f\n", answered, answered / (now() - start));
}

// The rate of one client that makes so many writes, each after the answer to the one before, and then as many before it waits.
static void time_ahead(long writes) {
    Conn *c = conns_of(1, "a");
    open_session(c);
    double start = now();
    for (long i = 0; i < writes; i++) {
        presence_ask(c);
        hear(c, "reply");
    }
    double waited = now() - start;
    start = now();
    for (long i = 0; i < writes; i++) presence_ask(c);
    for (long i = 0; i < writes; i++) hear(c, "reply");
    printf("waiting=%.1f ahead=%.1f\n", writes / waited, writes / (now() - start));
}

// ---- clients that live with a server

#define STALE 100     // of how many writes of a client one is a stale transaction, which redis is asked a key for
#define CLOSED 5000   // behind how many writes of a client it closes its connection
#define HEARERS 8     // how many sessions listen
#define HEARD 16      // to how many places each of them
#define STAYS 10      // after how many seconds they say that they are there
#define PATIENCE 60   // how many seconds no answer may come

// What was asked, and what was answered.
typedef struct { long asked, answered, pushes; } Lived;

static Lived lived;

static void print_lived(void) {
    printf("asked=%ld answered=%ld pushes=%ld\n", lived.asked, lived.answered, lived.pushes);
    exit(0);
}

static int is_stale(Conn *c, long n) { return (n + atoi(c->id + 1)) % STALE == 0; }

static void live_ask(const Kind *kind, Conn *c) {
    int is_presence = !strcmp(kind->name, "presence");
    lived.asked++;
    if (!is_stale(c, c->n + 1)) {
        kind->ask(c);
        return;
    }
    c->n++, c->q++;
    c->sent = now();
    char out[64], key[32];
    int len = snprintf(key, sizeof key, "place:%d", place_of(c));
    if (is_presence)
        say(c, "{\"m\":\"op\",\"n\":%ld,\"op\":{\"expect\":0,\"op\":\"tx\",\"path\":\"/place/%d\",\"value\":1},\"q\":%ld," SESSION "}",
            c->n, place_of(c), c->q, OF(c));
    else send_all(c, out, snprintf(out, sizeof out, "*2\r\n$6\r\nEXISTS\r\n$%d\r\n%s\r\n", len, key));
}

static int live_answered(const Kind *kind, Conn *c) {
    if (!is_stale(c, c->n) || !strcmp(kind->name, "presence")) return kind->answered(c);
    return has(c, ":", 1, 4);
}

// Closes the connection, and makes the last write, whose answer isn't waited for, once more over a new one.
static void come_back(const Kind *kind, Conn *c) {
    long n = c->n;
    close(c->fd);
    kind->open(c);
    if (!strcmp(kind->name, "presence") && c->n != n && c->n != n - 1) refuse("last write", (Text){c->id, strlen(c->id)});
    c->n = n - 1;
    look_at(c);
    lived.asked--;
    live_ask(kind, c);
}

// A session that listens to its places.
static void hear_places(Conn *c) {
    char path[32];
    open_session(c);
    for (int k = 0; k < HEARD; k++) {
        snprintf(path, sizeof path, "/place/%d", (atoi(c->id + 1) * HEARD + k) * (PLACES / HEARERS / HEARD) % PLACES);
        listen_to(c, path);
    }
    look_at(c);
}

static void take_places(Conn *c) {
    receive(c, MSG_DONTWAIT);
    for (Text text; next(c, &text);) {
        long z = number(text, "\"z\":");
        if (!is(text, "push") || z <= c->seen) refuse("push", text);
        c->seen = z;
        lived.pushes++;
    }
}

static void live(const Kind *kind, int clients, long writes, long step) {
    int hearers = strcmp(kind->name, "presence") ? 0 : HEARERS;
    Conn *conns = conns_of(clients, "y"), *heard = conns_of(hearers, "h");
    struct epoll_event events[64];
    double longest = 0, start, stayed;
    long had = 0, made = 0;
    for (int i = 0; i < clients; i++) kind->open(&conns[i]), had += conns[i].n, look_at(&conns[i]);
    for (int i = 0; i < hearers; i++) hear_places(&heard[i]);
    printf("had=%ld\n", had);
    fflush(stdout);
    at_end = print_lived;
    start = stayed = now();
    for (int i = 0; i < clients; i++) live_ask(kind, &conns[i]);
    while (lived.answered < writes) {
        int ready = epoll_wait(watch, events, 64, PATIENCE * 1000);
        if (ready == 0) refuse("answer", silence);
        for (int i = 0; i < ready; i++) {
            Conn *c = events[i].data.ptr;
            if (*c->id == 'h') {
                take_places(c);
                continue;
            }
            receive(c, MSG_DONTWAIT);
            if (!live_answered(kind, c)) continue;
            double spent = now() - c->sent;
            longest = spent > longest ? spent : longest;
            lived.answered++;
            live_ask(kind, c);
            if (c->n % CLOSED == 0) come_back(kind, c);
            if (lived.answered % step) continue;
            printf("made=%ld rate=%.1f longest=%.3f\n", made += step, step / (now() - start), longest * 1e3);
            fflush(stdout);
            longest = 0;
            start = now();
        }
        if (now() - stayed < STAYS) continue;
        for (int i = 0; i < hearers; i++) presence_stay(&heard[i]);
        stayed = now();
    }
    print_lived();
}

// ---- the disk alone

// A file that is written to and synced: behind its end, or in turn over old places.
typedef struct {
    int fd;
    size_t len, length, at; // of a write, of all places, of the next write
} Kept;

// What a commit of one row writes: two pages, each with its header. Eight bytes before them and one behind them are written apart.
#define COMMITTED (2 * (24 + 1024))

static char kept_bytes[4096];

static Kept kept_in(const char *file, const char *way) {
    int is_place = !strcmp(way, "place");
    size_t len = is_place ? COMMITTED : strcmp(way, "page") ? 200 : sizeof kept_bytes;
    Kept kept = {open(file, O_RDWR | O_CREAT | O_TRUNC, 0600), len, 0, 0};
    if (kept.fd < 0) die(file);
    for (int i = 0; is_place && i < 512; i++, kept.length += kept.len)
        if (write(kept.fd, kept_bytes, kept.len) < 0) die("write");
    if (fsync(kept.fd)) die("fsync");
    return kept;
}

static void put_at(Kept *kept, size_t len, size_t at) {
    if (pwrite(kept->fd, kept_bytes, len, at) < 0) die("write");
}

static void keep(Kept *kept) {
    if (kept->length) put_at(kept, 8, kept->at);
    put_at(kept, kept->len, kept->at);
    if (kept->length) put_at(kept, 1, kept->at);
    if (fdatasync(kept->fd)) die("fdatasync");
    kept->at += kept->len;
    if (kept->length) kept->at %= kept->length;
}

static void time_syncs(const char *file, const char *way, double seconds) {
    Kept kept = kept_in(file, way);
    Times times = {0};
    double start = now(), spent;
    while ((spent = now() - start) < seconds) {
        double sent = now();
        keep(&kept);
        note(&times, now() - sent);
    }
    printf("count=%zu rate=%.1f ", times.count, times.count / spent);
    print_times("", &times);
    puts("");
    unlink(file);
}

// ---- the least that a server does

static void serve_connection(int peer, Kept *kept) {
    static char asked[4096];
    while (recv(peer, asked, sizeof asked, 0) > 0) {
        keep(kept);
        if (send(peer, "+OK\r\n", 5, MSG_NOSIGNAL) < 0) break;
    }
    close(peer);
}

// A socket that listens at a port of its own, which it says.
static int listening(void) {
    struct sockaddr_in own = {.sin_family = AF_INET, .sin_addr.s_addr = htonl(INADDR_LOOPBACK)};
    socklen_t len = sizeof own;
    int listener = socket(AF_INET, SOCK_STREAM, 0);
    if (bind(listener, (struct sockaddr *)&own, len) || listen(listener, 8)) die("listen");
    if (getsockname(listener, (struct sockaddr *)&own, &len)) die("getsockname");
    printf("port=%d\n", ntohs(own.sin_port));
    fflush(stdout);
    return listener;
}

static int accepted_by(int listener) {
    int peer = accept(listener, NULL, NULL), yes = 1;
    if (peer < 0) die("accept");
    setsockopt(peer, IPPROTO_TCP, TCP_NODELAY, &yes, sizeof yes);
    return peer;
}

static void serve_in_a_loop(const char *file, const char *way) {
    Kept kept = kept_in(file, way);
    for (int listener = listening();;) serve_connection(accepted_by(listener), &kept);
}

// What the next connection's line says, once the connection has ended. The line is answered when it comes.
static Text line_left(int listener) {
    static char line[64];
    char more;
    int peer = accepted_by(listener);
    ssize_t len = recv(peer, line, sizeof line, 0);
    if (len <= 0 || send(peer, "+OK\r\n", 5, MSG_NOSIGNAL) < 0) die("a line that is left");
    while (recv(peer, &more, 1, 0) > 0) {}
    close(peer);
    return (Text){line, len};
}

static void serve_ends(const char *file) {
    Kept kept = kept_in(file, "page");
    int listener = listening(), watcher = accepted_by(listener);
    for (;;) {
        Text left = line_left(listener);
        keep(&kept);
        if (send(watcher, left.at, left.len, MSG_NOSIGNAL) < 0) die("send");
    }
}

// ---- news

#define GONE -1

// How the clients of a server listen to the news, tell some, and leave some behind. News are numbered 1, 2, ..
struct News {
    const char *name;
    void (*open)(Conn *c);
    void (*listen)(Conn *c, const char *place);
    void (*stay)(Conn *c);                      // says that it is there; none where a silent client may stay
    void (*tell)(Conn *c, const char *news);
    int (*answered)(Conn *c);                   // whether the answer to a tell was read whole
    void (*leave)(Conn *c, const char *news);   // opens a session that leaves them behind
    long (*heard)(Conn *c);                     // the next ones that were read whole, 0 where there are none, or GONE
};

static void presence_listen(Conn *c, const char *place) {
    char path[40];
    snprintf(path, sizeof path, "/%s", place);
    listen_to(c, path);
}

static void presence_tell(Conn *c, const char *news) { set(c, "/news", news); }

static void presence_leave(Conn *c, const char *news) {
    open_session(c);
    say(c, "{\"m\":\"left\",\"op\":{\"op\":\"set\",\"path\":\"/news\",\"value\":%s},\"q\":%ld," SESSION "}",
        news, ++c->q, OF(c));
    hear(c, "armed");
}

static long presence_heard(Conn *c) {
    for (Text text; next(c, &text);) {
        if (is(text, "gone")) return GONE;
        if (is(text, "push")) return number(text, "[\"/news\",");
    }
    return 0;
}

static void mqtt_listen(Conn *c, const char *place) {
    char out[64] = {0x82, 0, 0, 1, 0};
    int len = strlen(place);
    out[1] = len + 5;
    out[5] = len;
    memcpy(out + 6, place, len); // and quality 0
    send_all(c, out, len + 7);
    while (!has(c, "\x90\x03", 2, 5)) receive(c, 0);
}

static void mqtt_tell(Conn *c, const char *news) { mqtt_publish(c, "news", news); }

static long mqtt_heard(Conn *c) {
    const unsigned char *p = (const unsigned char *)c->in + c->at;
    size_t left = c->have - c->at, len = left < 2 ? 0 : 2 + p[1];
    if (left < 2 || left < len) return 0;
    if (p[0] >> 4 != 3 || memcmp(p + 2, "\x00\x04news", 6)) refuse("news", (Text){(const char *)p, len});
    c->at += len;
    long news = 0;
    for (size_t i = 8; i < len; i++) news = 10 * news + p[i] - '0';
    return news;
}

// The last of so many lines, once they were read whole; then they are passed.
static const char *last_of(Conn *c, int lines) {
    const char *at = c->in + c->at, *last = NULL;
    for (int i = 0; i < lines; i++) {
        const char *end = memmem(at, c->in + c->have - at, "\r\n", 2);
        if (!end) return NULL;
        last = at;
        at = end + 2;
    }
    c->at = at - c->in;
    return last;
}

static void redis_say(Conn *c, const char *form, const char *place, const char *news) {
    char out[128];
    send_all(c, out, snprintf(out, sizeof out, form, strlen(place), place, strlen(news), news));
}

static void redis_listen(Conn *c, const char *place) {
    redis_say(c, "*2\r\n$9\r\nSUBSCRIBE\r\n$%zu\r\n%s\r\n", place, "");
    while (!last_of(c, 6)) receive(c, 0);
}

static void redis_tell(Conn *c, const char *news) {
    c->sent = now();
    redis_say(c, "*3\r\n$7\r\nPUBLISH\r\n$%zu\r\n%s\r\n$%zu\r\n%s\r\n", "news", news);
}

static int redis_told(Conn *c) { return last_of(c, 1) != NULL; }

static long redis_heard(Conn *c) {
    const char *news = last_of(c, 7);
    return news ? strtol(news, NULL, 10) : 0;
}

static void ends_listen(Conn *c, const char *place) { (void)c, (void)place; } // the first connection does

static void ends_leave(Conn *c, const char *news) {
    char line[32];
    dial(c);
    send_all(c, line, snprintf(line, sizeof line, "%s\r\n", news));
    while (!last_of(c, 1)) receive(c, 0);
}

static long ends_heard(Conn *c) {
    const char *news = last_of(c, 1);
    return news ? strtol(news, NULL, 10) : 0;
}

static const News presence = {"presence", open_session, presence_listen, presence_stay, presence_tell, presence_answered,
                              presence_leave, presence_heard};

static const News all_news[] = {
    presence,
    {"mqtt", mqtt_open, mqtt_listen, NULL, mqtt_tell, mqtt_answered, mqtt_open_with, mqtt_heard},
    {"redis", dial, redis_listen, NULL, redis_tell, redis_told, NULL, redis_heard},
    {"ends", dial, ends_listen, NULL, NULL, NULL, ends_leave, ends_heard},
};

static const News *news_of(Text name) {
    for (size_t i = 0; i < sizeof all_news / sizeof *all_news; i++)
        if (strlen(all_news[i].name) == name.len && !memcmp(all_news[i].name, name.at, name.len)) return &all_news[i];
    refuse("server", name);
    return NULL;
}

// Connections that listen to the news of the server at the port, and are looked at.
static Conn *listeners_of(const News *news, int count) {
    Conn *conns = conns_of(count, "l");
    for (int i = 0; i < count; i++) {
        conns[i].news = news;
        news->open(&conns[i]);
        news->listen(&conns[i], "news");
        look_at(&conns[i]);
    }
    return conns;
}

// What listeners have seen once they have read what is there.
typedef struct { long pushes, gone, out_of_order; } Seen;

static void take_pushes(Conn *c, Seen *seen) {
    receive(c, MSG_DONTWAIT);
    for (long news; (news = c->news->heard(c));) {
        if (news == GONE) {
            seen->gone++;
            look_away(c);
            return;
        }
        seen->out_of_order += news != c->seen + 1;
        seen->pushes++;
        c->seen = news;
    }
}

static const char *text_of(long news) {
    static char text[24];
    snprintf(text, sizeof text, "%ld", news);
    return text;
}

// A server whose listeners are timed, and one client of it that isn't.
typedef struct {
    const News *news;
    Conn *listeners, *other;
    int count; // of its listeners
    Seen seen;
    Times times, whole;
} Timed;

// The servers that words tell, each with so many listeners.
static Timed *timed_by(char **words, int count, int listeners, const char *other) {
    Timed *all = calloc(count, sizeof(Timed));
    for (int i = 0; i < count; i++) {
        char *equals = strchr(words[i], '=');
        if (!equals) refuse("SERVER=PORT", (Text){words[i], strlen(words[i])});
        port = atoi(equals + 1);
        all[i].news = news_of((Text){words[i], equals - words[i]});
        all[i].listeners = listeners_of(all[i].news, listeners);
        all[i].count = listeners;
        all[i].other = conns_of(1, other);
    }
    return all;
}

#define ROUNDS 50 // of two clients or three, within which a silent listener stays

// Waits for a random moment of a round. A silent session would end, so its listeners say from time to time that they are there.
static void pause_in(Timed *timed, long round) {
    pause_for(40, 120);
    if (!timed->news->stay || round % ROUNDS) return;
    for (int i = 0; i < timed->count; i++) timed->news->stay(&timed->listeners[i]);
    pause_for(40, 120);
}

static void print_timed(Timed *timed) {
    char name[32];
    const char *word = timed->news->name;
    printf("%s_pushes=%ld %s_out_of_order=%ld %s_gone=%ld ", word, timed->seen.pushes, word, timed->seen.out_of_order,
           word, timed->seen.gone);
    snprintf(name, sizeof name, "%s_", word);
    print_times(name, &timed->times);
    snprintf(name, sizeof name, "%s_all_", word);
    if (timed->whole.count) print_times(name, &timed->whole);
}

// Looks at the listeners until all have seen the value, and for no longer than it may take.
static void time_one(int listeners, double sent, long value, Seen *seen, Times *times) {
    struct epoll_event events[512];
    int left = listeners;
    while (left && now() < sent + SILENCE) {
        int ready = epoll_wait(watch, events, 512, 100);
        for (int i = 0; i < ready; i++) {
            Conn *c = events[i].data.ptr;
            long before = c->seen;
            take_pushes(c, seen);
            if (before < value && c->seen == value) note(times, now() - sent), left--;
        }
    }
}

static void time_pushes(int listeners, int writes, char **words, int count) {
    Timed *all = timed_by(words, count, listeners, "p");
    for (int i = 0; i < count; i++) all[i].news->open(all[i].other);
    for (long value = 1; value <= writes; value++) {
        for (Timed *timed = all; timed < all + count; timed++) {
            pause_in(timed, value);
            timed->news->tell(timed->other, text_of(value));
            time_one(timed->count, timed->other->sent, value, &timed->seen, &timed->times);
            note(&timed->whole, now() - timed->other->sent);
            while (!timed->news->answered(timed->other)) receive(timed->other, 0);
        }
    }
    for (int i = 0; i < count; i++) print_timed(&all[i]);
    puts("");
}

// One write after the other, with the listeners read in between: how many writes were answered.
static long flood(Conn *writer, double seconds, Seen *seen, double *rate) {
    struct epoll_event events[512];
    double start = now(), spent = 0;
    long writes = 0, asked = 1;
    presence_tell(writer, text_of(asked));
    while (writes < asked) {
        int ready = epoll_wait(watch, events, 512, SILENCE * 1000);
        if (ready == 0) refuse("answer", silence);
        for (int i = 0; i < ready; i++) {
            Conn *c = events[i].data.ptr;
            if (c != writer) {
                take_pushes(c, seen);
                continue;
            }
            receive(c, MSG_DONTWAIT);
            writes += presence_answered(c);
            spent = now() - start;
            if (writes == asked && spent < seconds) presence_tell(writer, text_of(++asked));
        }
    }
    *rate = writes / spent;
    return writes;
}

static void time_flood(int listeners, double seconds) {
    Seen seen = {0};
    Conn *conns = listeners_of(&presence, listeners), *writer = conns_of(1, "p");
    Times none = {0};
    double rate;
    open_session(writer);
    look_at(writer);
    long writes = flood(writer, seconds, &seen, &rate);
    look_away(writer);
    int late = 0;
    for (int i = 0; i < listeners; i++) late += conns[i].seen < writes;
    time_one(late, now(), writes, &seen, &none);
    printf("writes=%ld rate=%.1f pushes=%ld of=%ld out_of_order=%ld gone=%ld\n", writes, rate, seen.pushes, writes * listeners,
           seen.out_of_order, seen.gone);
}

// ---- killed clients

// A process with a session that leaves news behind, and with nothing else to do.
static pid_t leave_in_process(const News *news, Conn *c, long value) {
    int pipes[2];
    char said;
    if (pipe(pipes)) die("pipe");
    pid_t child = fork();
    if (child < 0) die("fork");
    if (child == 0) {
        news->leave(c, text_of(value));
        if (write(pipes[1], "!", 1) != 1) exit(1);
        for (;;) pause();
    }
    close(pipes[1]);
    if (read(pipes[0], &said, 1) != 1) die("a client that is to be killed");
    close(pipes[0]);
    c->attempt++;
    return child;
}

// Kills its process, or resets its connection: when that was.
static double kill_client(Conn *c, pid_t child) {
    struct linger at_once = {1, 0};
    if (!child) setsockopt(c->fd, SOL_SOCKET, SO_LINGER, &at_once, sizeof at_once);
    double killed = now();
    if (child) kill(child, SIGKILL);
    else close(c->fd);
    return killed;
}

static void time_killed(int rounds, int is_process, char **words, int count) {
    Timed *all = timed_by(words, count, 1, "v");
    for (long value = 1; value <= rounds; value++) {
        for (Timed *timed = all; timed < all + count; timed++) {
            pid_t child = is_process ? leave_in_process(timed->news, timed->other, value) : 0;
            if (!child) timed->news->leave(timed->other, text_of(value));
            pause_in(timed, value);
            time_one(1, kill_client(timed->other, child), value, &timed->seen, &timed->times);
            if (child) waitpid(child, NULL, 0);
        }
    }
    for (int i = 0; i < count; i++) print_timed(&all[i]);
    puts("");
}

// ---- listens

static void time_listens(int paths, int rounds) {
    Times ons = {0}, offs = {0}, ends = {0};
    Conn *c = conns_of(1, "l");
    char path[32];
    for (int round = 0; round < rounds; round++) {
        open_session(c);
        for (int k = 0; k < 2 * paths; k++) {
            double asked = now();
            snprintf(path, sizeof path, "/heard/%d", k % paths);
            if (k < paths) listen_to(c, path);
            else leave_path(c, path);
            note(k < paths ? &ons : &offs, now() - asked);
        }
        for (int k = 0; k < paths; k++) snprintf(path, sizeof path, "/heard/%d", k), listen_to(c, path);
        double asked = now();
        say(c, "{\"m\":\"bye\",\"q\":%ld," SESSION "}", ++c->q, OF(c));
        hear(c, "gone");
        note(&ends, now() - asked);
        close(c->fd);
    }
    print_times("on_", &ons);
    print_times("off_", &offs);
    print_times("end_", &ends);
    puts("");
}

// ---- what ends

static void time_left(int rows, int rounds) {
    Times values = {0}, increments = {0};
    Conn *c = conns_of(1, "e");
    for (int round = 0; round < 2 * rounds; round++) {
        const char *value = round % 2 ? "{\".sv\":{\"increment\":1}}" : "1";
        open_session(c);
        for (int k = 0; k < rows; k++) {
            say(c, "{\"m\":\"left\",\"op\":{\"op\":\"set\",\"path\":\"/left/%d\",\"value\":%s},\"q\":%ld," SESSION "}", k,
                value, ++c->q, OF(c));
            hear(c, "armed");
        }
        double asked = now();
        say(c, "{\"m\":\"bye\",\"q\":%ld," SESSION "}", ++c->q, OF(c));
        hear(c, "gone");
        note(round % 2 ? &increments : &values, now() - asked);
        close(c->fd);
    }
    print_times("values_", &values);
    print_times("increments_", &increments);
    puts("");
}

// ---- a file of many batches, and connections that wait

// Makes its share of the batches by writes, apart from its opening and its end.
static void fill_by(Conn *c, long batches) {
    long answered = 0, writes = batches - 2;
    open_session(c);
    for (long asked = 0; answered < writes;) {
        while (asked < writes && asked - answered < WINDOW) presence_ask(c), asked++;
        Text text = hear(c, "reply");
        if (number(text, "\"q\":") != ++answered) refuse("reply", text);
    }
    say(c, "{\"m\":\"bye\",\"q\":%ld," SESSION "}", ++c->q, OF(c));
    hear(c, "gone");
    close(c->fd);
}

static void fill(long batches) {
    int clients = 100; // each makes three batches at least
    Conn *conns = conns_of(clients, "f");
    double start = now();
    for (int i = 0; i < clients; i++) fill_by(&conns[i], batches / clients + (i < batches % clients));
    printf("seconds=%.3f\n", now() - start);
}

static void hold(const News *news, int count, int paths) {
    Conn *conns = conns_of(count, "h");
    char place[32], said;
    for (int i = 0; i < count; i++) {
        news->open(&conns[i]);
        for (int k = 0; k < paths; k++) {
            snprintf(place, sizeof place, "idle/%d/%d", i, k);
            news->listen(&conns[i], place);
        }
    }
    puts("held=1");
    fflush(stdout);
    while (read(0, &said, 1) > 0) {}
    int ended = 0; // nothing is told to a session that goes on
    for (int i = 0; i < count; i++) ended += recv(conns[i].fd, &said, 1, MSG_DONTWAIT | MSG_PEEK) >= 0;
    printf("ended=%d\n", ended);
}

int main(int count, char **words) {
    struct timespec t;
    clock_gettime(CLOCK_REALTIME, &t);
    incarnation = t.tv_sec * 1000 + t.tv_nsec / 1000000; // greater than those of earlier runs
    srand(t.tv_nsec);
    watch = epoll_create1(0);
    if (count < 3) return 2;
    const char *use = words[1];
    int has_kind = ((!strcmp(use, "write") || !strcmp(use, "make") || !strcmp(use, "hold")) && count == 6) || !strcmp(use, "live");
    Text kind = {words[2], strlen(words[2])};
    port = atoi(words[has_kind ? 3 : 2]);
    if (!strcmp(use, "write") && count == 6) time_writes(kind_of(words[2]), atoi(words[4]), atof(words[5]));
    else if (!strcmp(use, "make") && count == 6) make_writes(kind_of(words[2]), atoi(words[4]), atol(words[5]));
    else if (!strcmp(use, "live") && count == 7) live(kind_of(words[2]), atoi(words[4]), atol(words[5]), atol(words[6]));
    else if (!strcmp(use, "ahead") && count == 4) time_ahead(atol(words[3]));
    else if (!strcmp(use, "sync") && count == 5) time_syncs(words[2], words[3], atof(words[4]));
    else if (!strcmp(use, "loop") && count == 4) serve_in_a_loop(words[2], words[3]);
    else if (!strcmp(use, "ends") && count == 3) serve_ends(words[2]);
    else if (!strcmp(use, "push") && count > 4) time_pushes(atoi(words[2]), atoi(words[3]), words + 4, count - 4);
    else if (!strcmp(use, "flood") && count == 5) time_flood(atoi(words[3]), atof(words[4]));
    else if (!strcmp(use, "killed") && count > 4)
        time_killed(atoi(words[2]), !strcmp(words[3], "process"), words + 4, count - 4);
    else if (!strcmp(use, "fill") && count == 4) fill(atol(words[3]));
    else if (!strcmp(use, "hold") && count == 6) hold(news_of(kind), atoi(words[4]), atoi(words[5]));
    else if (!strcmp(use, "listen") && count == 5) time_listens(atoi(words[3]), atoi(words[4]));
    else if (!strcmp(use, "leave") && count == 5) time_left(atoi(words[3]), atoi(words[4]));
    else return 2;
    return 0;
}
