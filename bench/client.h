/* Clients of a bus on its Unix socket: messages, the talk that lets a client in, and calls. See README.md. */
#ifndef CLIENT_H
#define CLIENT_H

#include <errno.h>
#include <stdint.h>
#include <stdio.h>
#include <stdlib.h>
#include <string.h>
#include <sys/socket.h>
#include <sys/un.h>
#include <unistd.h>

enum { CALL = 1, RETURN = 2, FAULT = 3, SIGNAL = 4 };
enum { NO_REPLY_EXPECTED = 1 };
enum { PATH = 1, INTERFACE = 2, MEMBER = 3, ERROR_NAME = 4, REPLY_SERIAL = 5, DESTINATION = 6, SENDER = 7, SIGNATURE = 8 };
enum { FIXED = 16, ROOM = 1 << 16 };

#define BUS_NAME "org.freedesktop.DBus"
#define BUS_OBJECT "/org/freedesktop/DBus"

struct message {
    unsigned char bytes[2048];
    size_t len;
};

struct client {
    int fd;
    uint32_t serial;
    unsigned char unread[ROOM];
    size_t len;
    uint64_t signals, answers;
    char name[64];
};

static const char *path; /* of the bus's socket */

static void fail(const char *what) {
    fprintf(stderr, "%s: %s: %s\n", program_invocation_short_name, what, strerror(errno));
    exit(1);
}

static void pad(struct message *m, size_t to) {
    while (m->len % to) m->bytes[m->len++] = 0;
}

static void word(struct message *m, uint32_t n) {
    memcpy(m->bytes + m->len, &n, 4);
    m->len += 4;
}

static void text(struct message *m, const char *s) {
    word(m, strlen(s));
    memcpy(m->bytes + m->len, s, strlen(s) + 1);
    m->len += strlen(s) + 1;
}

static void begin_field(struct message *m, int code, char type) {
    pad(m, 8);
    m->bytes[m->len++] = code;
    m->bytes[m->len++] = 1;
    m->bytes[m->len++] = type;
    m->bytes[m->len++] = 0;
}

static void field(struct message *m, int code, const char *type, const char *value) {
    if (!value) return;
    begin_field(m, code, type[0]);
    if (type[0] == 'g') {
        m->bytes[m->len++] = strlen(value);
        memcpy(m->bytes + m->len, value, strlen(value) + 1);
        m->len += strlen(value) + 1;
    } else {
        text(m, value);
    }
}

static struct message begun(int kind, int flags, uint32_t serial) {
    struct message m = {.bytes = {'l', kind, flags, 1}, .len = 4};
    word(&m, 0);
    word(&m, serial);
    word(&m, 0);
    return m;
}

/* Ends the fields and adds the body. */
static void add_body(struct message *m, const struct message *body) {
    uint32_t fields = m->len - FIXED, len = body->len;
    memcpy(m->bytes + 4, &len, 4);
    memcpy(m->bytes + 12, &fields, 4);
    pad(m, 8);
    memcpy(m->bytes + m->len, body->bytes, body->len);
    m->len += body->len;
}

/* A message with at most one argument, a text. */
static struct message made(int kind, uint32_t serial, const char *to, const char *object, const char *interface,
                           const char *member, const char *argument) {
    struct message m = begun(kind, kind == SIGNAL ? NO_REPLY_EXPECTED : 0, serial), body = {.len = 0};
    if (argument) text(&body, argument);
    field(&m, PATH, "o", object);
    field(&m, INTERFACE, "s", interface);
    field(&m, MEMBER, "s", member);
    field(&m, DESTINATION, "s", to);
    field(&m, SIGNATURE, "g", argument ? "s" : NULL);
    add_body(&m, &body);
    return m;
}

static void put(struct client *c, const void *bytes, size_t len) {
    const char *at = bytes;
    while (len) {
        ssize_t n = write(c->fd, at, len);
        if (n < 0 && errno == EINTR) continue;
        if (n <= 0) fail("write");
        at += n;
        len -= n;
    }
}

/* The length of the message that begins there, or 0 where it isn't whole. */
static size_t whole_len(const unsigned char *bytes, size_t len) {
    uint32_t body, fields;
    if (len < FIXED) return 0;
    memcpy(&body, bytes + 4, 4);
    memcpy(&fields, bytes + 12, 4);
    size_t whole = FIXED + ((fields + 7) & ~7u) + body;
    return len < whole ? 0 : whole;
}

/* Counts the whole messages that were read. */
static void count(struct client *c) {
    size_t at = 0, whole;
    while ((whole = whole_len(c->unread + at, c->len - at))) {
        if (c->unread[at + 1] == SIGNAL) c->signals++;
        else {
            if (c->unread[at + 1] == FAULT) fprintf(stderr, "%s: an error came\n", program_invocation_short_name);
            c->answers++;
        }
        at += whole;
    }
    memmove(c->unread, c->unread + at, c->len - at);
    c->len -= at;
}

static void receive(struct client *c) {
    ssize_t n = read(c->fd, c->unread + c->len, ROOM - c->len);
    if (n < 0 && errno == EINTR) return;
    if (n <= 0) fail("read");
    c->len += n;
}

static void fill(struct client *c) {
    receive(c);
    count(c);
}

static void await_answer(struct client *c, uint64_t answers) {
    while (c->answers < answers) fill(c);
}

/* Sends a call under the next serial, and waits for its answer. */
static void call(struct client *c, struct message m) {
    uint64_t before = c->answers;
    uint32_t serial = ++c->serial;
    memcpy(m.bytes + 8, &serial, 4);
    put(c, m.bytes, m.len);
    await_answer(c, before + 1);
}

/* A call of the bus with at most one argument, a text. */
static struct message bus_call(const char *interface, const char *member, const char *argument) {
    return made(CALL, 1, BUS_NAME, BUS_OBJECT, interface, member, argument);
}

static inline void ping(struct client *c) { call(c, bus_call("org.freedesktop.DBus.Peer", "Ping", NULL)); }

static void add(struct client *c, const char *rule) { call(c, bus_call(BUS_NAME, "AddMatch", rule)); }

/* Has the client say Hello. The answer, which comes first, and NameAcquired alike have the name as their argument. */
static void say_hello(struct client *c) {
    struct message hello = made(CALL, ++c->serial, BUS_NAME, BUS_OBJECT, BUS_NAME, "Hello", NULL);
    size_t whole;
    uint32_t body;
    put(c, hello.bytes, hello.len);
    while (!(whole = whole_len(c->unread, c->len))) receive(c);
    memcpy(&body, c->unread + 4, 4);
    snprintf(c->name, sizeof c->name, "%s", (char *)c->unread + whole - body + 4);
    count(c);
    while (!c->signals || !c->answers) fill(c);
    c->signals = 0;
}

static void join(struct client *c) {
    struct sockaddr_un to = {.sun_family = AF_UNIX};
    strncpy(to.sun_path, path, sizeof to.sun_path - 1);
    memset(c, 0, sizeof *c);
    c->fd = socket(AF_UNIX, SOCK_STREAM, 0);
    if (c->fd < 0 || connect(c->fd, (struct sockaddr *)&to, sizeof to)) fail("connect");
    char line[128], hex[32] = "", user[16];
    snprintf(user, sizeof user, "%d", getuid());
    for (char *p = user; *p; p++) sprintf(hex + strlen(hex), "%02x", *p);
    int len = snprintf(line + 1, sizeof line - 1, "AUTH EXTERNAL %s\r\n", hex);
    line[0] = 0;
    put(c, line, len + 1);
    char answer[128];
    size_t got = 0;
    while (got < 2 || answer[got - 1] != '\n') {
        ssize_t n = read(c->fd, answer + got, sizeof answer - got);
        if (n <= 0) fail("talk");
        got += n;
    }
    if (strncmp(answer, "OK ", 3)) fail("talk");
    put(c, "BEGIN\r\n", 7);
    say_hello(c);
}

#endif
