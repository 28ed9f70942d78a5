/* A bus that checks nothing and does only what a broadcast needs, in one thread: the floor for run_server. See README.md. */
#define _GNU_SOURCE
#include <errno.h>
#include <stdbool.h>
#include <stddef.h>
#include <stdint.h>
#include <stdio.h>
#include <stdlib.h>
#include <string.h>
#include <sys/epoll.h>
#include <sys/socket.h>
#include <sys/uio.h>
#include <sys/un.h>
#include <unistd.h>

enum { RETURN = 2, FAULT = 3, SIGNAL = 4, NO_REPLY_EXPECTED = 1 };

/* The codes of the header's fields, and one for argument 0. */
enum { PATH = 1, INTERFACE, MEMBER, ERROR_NAME, REPLY_SERIAL, DESTINATION, SENDER, SIGNATURE, ARG0, TEXTS };

/* ROOM is for what is read of one connection, so no message is longer. PARTS are sent at once. SPARE is more than the bus adds to a
   message, or says itself. */
enum { FIXED = 16, ROOM = 1 << 16, PARTS = 64, SPARE = 1024, MAX_CONNECTIONS = 1 << 16, MAX_EVENTS = 64 };
enum { TABLE = 1024, KEYS = 7, MAX_STAMP = 48, BACKLOG = 4096 };

#define BUS_NAME "org.freedesktop.DBus"
#define BUS_OBJECT "/org/freedesktop/DBus"
#define GUID "0123456789abcdef0123456789abcdef"
#define FLAGS (MSG_NOSIGNAL | MSG_DONTWAIT)

/* A text within a message or a rule. Its address is NULL if it isn't there. */
struct text {
    const char *at;
    size_t len;
};

struct connection {
    int fd;
    uint32_t number;
    bool has_begun, is_broken;
    char name[16];
    unsigned char stamp[MAX_STAMP]; /* the field SENDER, and zeros up to a multiple of 8 */
    size_t stamp_len;               /* without these zeros */
    struct iovec parts[PARTS];      /* of `stamped`: what it gets with the next send */
    int part_count;
    bool is_touched;
    unsigned char *late; /* what its socket had no room for */
    size_t late_begin, late_end;
    uint64_t walk; /* the last walk over all rules that found it */
    size_t unread_len;
    unsigned char unread[ROOM];
};

struct message {
    struct connection *from;
    const unsigned char *bytes;
    size_t len, body; /* `body` is where that begins */
    struct text texts[TEXTS];
};

/* A rule's key is for the text with this code: that is the key's value or, if there is a separator, is in this namespace. */
static const struct {
    const char *name;
    int code;
    char separator;
} keys[KEYS] = {
    {"interface", INTERFACE, 0}, {"member", MEMBER, 0}, {"path", PATH, 0}, {"sender", SENDER, 0}, {"arg0", ARG0, 0},
    {"path_namespace", PATH, '/'}, {"arg0namespace", ARG0, '.'},
};

struct rule {
    struct connection *owner;
    char *text;
    struct text values[KEYS]; /* in `text` */
};

/* Who gets messages with the texts of this key. */
struct entry {
    uint64_t hash;
    char *key;
    size_t key_len;
    int count;
    struct connection *recipients[];
};

static int poll;
static struct connection *connections[MAX_CONNECTIONS]; /* by the numbers of their names */
static uint32_t connection_count;
static struct connection *broken[MAX_CONNECTIONS];
static int broken_count;

static struct rule *rules;
static size_t rule_count;
static unsigned asked; /* a bit for each code of a key that some rule has had */
static struct entry *table[TABLE];
static int entry_count;

/* The messages of one read, as they are sent: their recipients share these bytes. */
static unsigned char stamped[2 * ROOM];
static size_t stamped_len;
static struct connection *touched[MAX_CONNECTIONS]; /* those who get some of them */
static int touched_count;

static void fail(const char *what) {
    fprintf(stderr, "floor: %s: %s\n", what, strerror(errno));
    exit(1);
}

static void *grown(void *old, size_t bytes) {
    void *room = realloc(old, bytes);
    if (!room) fail("memory");
    return room;
}

static size_t to_8(size_t len) { return (len + 7) & ~(size_t)7; }

static uint32_t number_at(const unsigned char *bytes) {
    uint32_t number;
    memcpy(&number, bytes, 4);
    return number;
}

static void put_number(unsigned char *to, uint32_t number) { memcpy(to, &number, 4); }

static bool is_same(struct text a, struct text b) { return a.at && b.at && a.len == b.len && !memcmp(a.at, b.at, a.len); }

static bool is(struct text text, const char *word) { return is_same(text, (struct text){word, strlen(word)}); }

/* A connection is closed once nothing of this turn can name it any more. */
static void break_off(struct connection *c) {
    if (!c->is_broken) broken[broken_count++] = c;
    c->is_broken = true;
}

static void watch(struct connection *c, uint32_t what) {
    struct epoll_event event = {.events = what, .data.ptr = c};
    if (epoll_ctl(poll, EPOLL_CTL_MOD, c->fd, &event)) fail("epoll");
}

static void keep_late(struct connection *c, const unsigned char *bytes, size_t len) {
    if (!c->late_end) watch(c, EPOLLIN | EPOLLOUT);
    c->late = grown(c->late, c->late_end + len);
    memcpy(c->late + c->late_end, bytes, len);
    c->late_end += len;
}

static void send_late(struct connection *c) {
    ssize_t n = send(c->fd, c->late + c->late_begin, c->late_end - c->late_begin, FLAGS);
    if (n < 0 && errno != EAGAIN) return break_off(c);
    if (n > 0) c->late_begin += n;
    if (c->late_begin < c->late_end) return;
    free(c->late);
    c->late = NULL;
    c->late_begin = c->late_end = 0;
    watch(c, EPOLLIN);
}

/* Sends all parts at once. What doesn't go out waits, and so does all after it. */
static void send_parts(struct connection *c) {
    struct msghdr all = {.msg_iov = c->parts, .msg_iovlen = c->part_count};
    ssize_t n;
    if (c->late_end || c->is_broken) n = 0;
    else if (c->part_count == 1) n = send(c->fd, c->parts[0].iov_base, c->parts[0].iov_len, FLAGS);
    else n = sendmsg(c->fd, &all, FLAGS);
    if (n < 0 && errno != EAGAIN) break_off(c);
    size_t sent = n > 0 ? n : 0;
    for (int i = 0; i < c->part_count && !c->is_broken; i++) {
        size_t len = c->parts[i].iov_len, gone = sent < len ? sent : len;
        if (gone < len) keep_late(c, (unsigned char *)c->parts[i].iov_base + gone, len - gone);
        sent -= gone;
    }
    c->part_count = 0;
}

static void send_all(void) {
    for (int i = 0; i < touched_count; i++) {
        if (touched[i]->part_count) send_parts(touched[i]);
        touched[i]->is_touched = false;
    }
    touched_count = 0;
    stamped_len = 0;
}

/* Gives a recipient bytes of `stamped`. If they follow what it has, its last part grows. */
static void give(struct connection *to, unsigned char *bytes, size_t len) {
    struct iovec *next = to->parts + to->part_count;
    if (to->part_count && (unsigned char *)next[-1].iov_base + next[-1].iov_len == bytes) {
        next[-1].iov_len += len;
        return;
    }
    if (to->part_count == PARTS) send_parts(to);
    if (!to->is_touched) touched[touched_count++] = to;
    to->is_touched = true;
    to->parts[to->part_count++] = (struct iovec){bytes, len};
}

/* Writes a message with its sender as the last field, and gives it to these recipients. */
static void stamp_and_give(const struct message *m, struct connection *const *recipients, int count) {
    const struct connection *from = m->from;
    unsigned char *to = stamped + stamped_len;
    size_t stamp_len = to_8(from->stamp_len), len = m->len + stamp_len;
    memcpy(to, m->bytes, m->body);
    put_number(to + 12, m->body - FIXED + from->stamp_len);
    memcpy(to + m->body, from->stamp, stamp_len);
    memcpy(to + m->body + stamp_len, m->bytes + m->body, m->len - m->body);
    stamped_len += len;
    for (int i = 0; i < count; i++) give(recipients[i], to, len);
}

static size_t put_text(unsigned char *to, const char *text) {
    size_t len = strlen(text);
    put_number(to, len);
    memcpy(to + 4, text, len + 1);
    return 4 + len + 1;
}

/* Writes a field with its text, and zeros up to a multiple of 8. Returns the bytes without these zeros. */
static size_t put_field(unsigned char *to, int code, char type, const char *text) {
    memcpy(to, (unsigned char[]){code, 1, type, 0}, 4);
    size_t len = 4 + put_text(to + 4, text);
    memset(to + len, 0, to_8(len) - len);
    return len;
}

/* Sends a message of the bus whose argument is a text, if there is one. `name` is that of an error or of a signal. */
static void say(struct connection *to, int kind, uint32_t answered, const char *name, const char *argument) {
    static uint32_t serial;
    unsigned char *bytes = stamped + stamped_len;
    size_t at = FIXED, body, last;
    memcpy(bytes, (unsigned char[]){'l', kind, NO_REPLY_EXPECTED, 1}, 4);
    put_number(bytes + 8, ++serial);
    if (kind == SIGNAL) {
        at += to_8(put_field(bytes + at, PATH, 'o', BUS_OBJECT));
        at += to_8(put_field(bytes + at, INTERFACE, 's', BUS_NAME));
        at += to_8(put_field(bytes + at, MEMBER, 's', name));
    } else {
        memcpy(bytes + at, (unsigned char[]){REPLY_SERIAL, 1, 'u', 0}, 4);
        put_number(bytes + at + 4, answered);
        at += 8;
        if (kind == FAULT) at += to_8(put_field(bytes + at, ERROR_NAME, 's', name));
    }
    if (argument) {
        memcpy(bytes + at, (unsigned char[]){SIGNATURE, 1, 'g', 0, 1, 's', 0, 0}, 8);
        at += 8;
    }
    at += to_8(put_field(bytes + at, DESTINATION, 's', to->name));
    last = put_field(bytes + at, SENDER, 's', BUS_NAME);
    put_number(bytes + 12, at + last - FIXED);
    at += to_8(last);
    body = argument ? put_text(bytes + at, argument) : 0;
    put_number(bytes + 4, body);
    stamped_len += at + body;
    give(to, bytes, at + body);
}

static void forget_recipients(void) {
    for (int i = 0; i < TABLE && entry_count; i++) {
        if (!table[i]) continue;
        free(table[i]->key);
        free(table[i]);
        table[i] = NULL;
        entry_count--;
    }
}

static bool add_condition(struct rule *rule, struct text key, struct text value) {
    for (int i = 0; i < KEYS; i++) {
        if (!is(key, keys[i].name)) continue;
        rule->values[i] = value;
        asked |= 1u << keys[i].code;
        return true;
    }
    return is(key, "type") && is(value, "signal");
}

/* Reads `key='value',..`. False if it has another form, or a key that isn't known here. */
static bool read_rule(struct rule *rule) {
    const char *at = rule->text;
    while (*at) {
        const char *equals = strchr(at, '='), *end = equals && equals[1] == '\'' ? strchr(equals + 2, '\'') : NULL;
        if (!end || !add_condition(rule, (struct text){at, equals - at}, (struct text){equals + 2, end - equals - 2})) return false;
        at = end[1] == ',' ? end + 2 : end + 1;
    }
    return true;
}

static bool add_rule(struct connection *owner, struct text text) {
    struct rule rule = {.owner = owner, .text = strndup(text.at, text.len)};
    if (!rule.text || !read_rule(&rule)) return free(rule.text), false;
    rules = grown(rules, (rule_count + 1) * sizeof rule);
    rules[rule_count++] = rule;
    forget_recipients();
    return true;
}

static void remove_at(size_t i) {
    free(rules[i].text);
    rules[i] = rules[--rule_count];
    forget_recipients();
}

static bool remove_rule(const struct connection *owner, struct text text) {
    for (size_t i = 0; i < rule_count; i++)
        if (rules[i].owner == owner && is(text, rules[i].text)) return remove_at(i), true;
    return false;
}

static bool is_within(struct text text, struct text namespace, char separator) {
    if (!text.at || text.len < namespace.len || memcmp(text.at, namespace.at, namespace.len)) return false;
    return text.len == namespace.len || text.at[namespace.len] == separator || is(namespace, "/");
}

static bool is_for(const struct rule *rule, const struct message *m) {
    for (int i = 0; i < KEYS; i++) {
        struct text text = m->texts[keys[i].code], value = rule->values[i];
        if (value.at && !(keys[i].separator ? is_within(text, value, keys[i].separator) : is_same(text, value))) return false;
    }
    return true;
}

/* Asks all rules who gets a message. This happens once for each key, until a rule comes or goes. */
static struct entry *ask_all(const struct message *m, const char *key, size_t key_len, uint64_t hash) {
    static uint64_t walk;
    struct entry *found = grown(NULL, sizeof *found);
    *found = (struct entry){.hash = hash, .key = grown(NULL, key_len + 1), .key_len = key_len};
    memcpy(found->key, key, key_len);
    walk++;
    for (size_t i = 0; i < rule_count; i++) {
        struct connection *owner = rules[i].owner;
        if (owner->walk == walk || !is_for(&rules[i], m)) continue;
        owner->walk = walk;
        found = grown(found, sizeof *found + (found->count + 1) * sizeof owner);
        found->recipients[found->count++] = owner;
    }
    return found;
}

/* Eight bytes at a time. */
static uint64_t hash_of(const char *key, size_t len) {
    uint64_t hash = len, word;
    for (; len; key += 8, len -= len < 8 ? len : 8) {
        word = 0;
        memcpy(&word, key, len < 8 ? len : 8);
        hash = (hash ^ word) * 0x9e3779b97f4a7c15;
        hash ^= hash >> 32;
    }
    return hash;
}

/* The texts that rules ask for, each with its byte 0. The byte 255, which no text has, stands for one that isn't there. */
static size_t write_key(const struct message *m, char *key) {
    static const int codes[] = {INTERFACE, MEMBER, PATH, SENDER, ARG0};
    size_t len = 0;
    for (size_t i = 0; i < sizeof codes / sizeof codes[0]; i++) {
        struct text text = m->texts[codes[i]];
        if (!(asked & 1u << codes[i])) continue;
        if (text.at) memcpy(key + len, text.at, text.len + 1);
        else key[len] = (char)255;
        len += text.at ? text.len + 1 : 1;
    }
    return len;
}

static const struct entry *find_recipients(const struct message *m) {
    static char key[ROOM + SPARE];
    size_t len = write_key(m, key);
    uint64_t hash = hash_of(key, len);
    size_t at = hash % TABLE;
    for (; table[at]; at = (at + 1) % TABLE)
        if (table[at]->hash == hash && table[at]->key_len == len && !memcmp(table[at]->key, key, len)) return table[at];
    if (entry_count == TABLE / 2) {
        forget_recipients();
        at = hash % TABLE;
    }
    entry_count++;
    return table[at] = ask_all(m, key, len, hash);
}

static void broadcast(const struct message *m) {
    const struct entry *found = find_recipients(m);
    if (found->count) stamp_and_give(m, found->recipients, found->count);
}

/* Sends to the owner of a unique name. To one that is gone, or to another name, nothing goes. */
static void unicast(const struct message *m) {
    unsigned number;
    if (sscanf(m->texts[DESTINATION].at, ":1.%u", &number) != 1 || number >= connection_count) return;
    if (connections[number]) stamp_and_give(m, &connections[number], 1);
}

static struct text text_at(const unsigned char *bytes) { return (struct text){(const char *)bytes + 4, number_at(bytes)}; }

/* Whether a call of the bus, which isn't Hello, is one that can be answered here. */
static bool does(struct connection *c, struct text member, struct text argument) {
    if (is(member, "AddMatch")) return add_rule(c, argument);
    if (is(member, "RemoveMatch")) return remove_rule(c, argument);
    return is(member, "Ping");
}

static void answer(const struct message *m) {
    struct connection *to = m->from;
    uint32_t serial = number_at(m->bytes + 8);
    if (is(m->texts[MEMBER], "Hello")) {
        say(to, RETURN, serial, NULL, to->name);
        say(to, SIGNAL, 0, "NameAcquired", to->name);
    } else if (does(to, m->texts[MEMBER], m->texts[ARG0])) {
        say(to, RETURN, serial, NULL, NULL);
    } else {
        say(to, FAULT, serial, "org.freedesktop.DBus.Error.NotSupported", NULL);
    }
}

static void read_fields(struct message *m, size_t end) {
    for (size_t at = FIXED; at < end; at = to_8(at)) {
        const unsigned char *field = m->bytes + at;
        struct text text = {NULL, 0};
        if (field[2] == 'u') at += 8;
        else if (field[2] == 'g') {
            text = (struct text){(const char *)field + 5, field[4]};
            at += 5 + text.len + 1;
        } else {
            text = text_at(field + 4);
            at += 8 + text.len + 1;
        }
        if (field[0] <= SIGNATURE) m->texts[field[0]] = text;
    }
}

static void treat(struct connection *from, const unsigned char *bytes, size_t len, size_t fields_end) {
    struct message m = {.from = from, .bytes = bytes, .len = len, .body = to_8(fields_end)};
    read_fields(&m, fields_end);
    m.texts[SENDER] = (struct text){from->name, strlen(from->name)};
    if (m.texts[SIGNATURE].at && m.texts[SIGNATURE].at[0] == 's') m.texts[ARG0] = text_at(bytes + m.body);
    if (sizeof stamped - stamped_len < len + SPARE) send_all();
    if (!m.texts[DESTINATION].at) broadcast(&m);
    else if (is(m.texts[DESTINATION], BUS_NAME)) answer(&m);
    else unicast(&m);
}

/* The talk: every user is let in. Returns the bytes of whole lines. */
static size_t talk(struct connection *c) {
    size_t at = 0;
    while (!c->has_begun) {
        const unsigned char *line = c->unread + at, *end = memchr(line, '\n', c->unread_len - at);
        if (!end) break;
        if (!*line) line++;
        at = end + 1 - c->unread;
        const char *said = !strncmp((const char *)line, "AUTH EXTERNAL ", 14) ? "OK " GUID "\r\n" : "ERROR\r\n";
        if (!strncmp((const char *)line, "BEGIN", 5)) c->has_begun = true;
        else if (send(c->fd, said, strlen(said), MSG_NOSIGNAL) < 0) break_off(c);
    }
    return at;
}

static void receive(struct connection *c) {
    ssize_t n = read(c->fd, c->unread + c->unread_len, ROOM - c->unread_len);
    if (n < 0 && errno == EAGAIN) return;
    /* a message that is longer than the room ends here too */
    if (n <= 0) return break_off(c);
    c->unread_len += n;
    size_t at = talk(c);
    while (c->has_begun && c->unread_len - at >= FIXED) {
        const unsigned char *bytes = c->unread + at;
        size_t fields_end = FIXED + (size_t)number_at(bytes + 12), len = to_8(fields_end) + number_at(bytes + 4);
        if (c->unread_len - at < len) break;
        treat(c, bytes, len, fields_end);
        at += len;
    }
    send_all();
    memmove(c->unread, c->unread + at, c->unread_len - at);
    c->unread_len -= at;
}

static void let_in(int listener) {
    int fd = accept4(listener, NULL, NULL, SOCK_NONBLOCK | SOCK_CLOEXEC);
    if (fd < 0) fail("accept");
    if (connection_count == MAX_CONNECTIONS) fail("there were too many connections");
    struct connection *c = grown(NULL, sizeof *c);
    memset(c, 0, offsetof(struct connection, unread)); /* the room is no memory yet */
    c->fd = fd;
    c->number = connection_count;
    snprintf(c->name, sizeof c->name, ":1.%u", c->number);
    c->stamp_len = put_field(c->stamp, SENDER, 's', c->name);
    connections[connection_count++] = c;
    struct epoll_event event = {.events = EPOLLIN, .data.ptr = c};
    if (epoll_ctl(poll, EPOLL_CTL_ADD, fd, &event)) fail("epoll");
}

static void close_broken(void) {
    while (broken_count) {
        struct connection *c = broken[--broken_count];
        for (size_t i = rule_count; i--;)
            if (rules[i].owner == c) remove_at(i);
        connections[c->number] = NULL;
        close(c->fd);
        free(c->late);
        free(c);
    }
}

static int listening(const char *path) {
    struct sockaddr_un at = {.sun_family = AF_UNIX};
    struct epoll_event event = {.events = EPOLLIN};
    int listener = socket(AF_UNIX, SOCK_STREAM | SOCK_CLOEXEC, 0);
    strncpy(at.sun_path, path, sizeof at.sun_path - 1);
    if (listener < 0 || bind(listener, (struct sockaddr *)&at, sizeof at) || listen(listener, BACKLOG)) fail("listen");
    poll = epoll_create1(EPOLL_CLOEXEC);
    if (poll < 0 || epoll_ctl(poll, EPOLL_CTL_ADD, listener, &event)) fail("epoll");
    return listener;
}

int main(int words, char **word) {
    struct epoll_event events[MAX_EVENTS];
    if (words != 2) return fprintf(stderr, "usage: floor SOCKET\n"), 2;
    int listener = listening(word[1]);
    printf("listening unix:path=%s\n", word[1]);
    fflush(stdout);
    for (;;) {
        int count = epoll_wait(poll, events, MAX_EVENTS, -1);
        if (count < 0 && errno != EINTR) fail("epoll");
        for (int i = 0; i < count; i++) {
            struct connection *c = events[i].data.ptr;
            if (!c) let_in(listener);
            if (!c || c->is_broken) continue;
            if (events[i].events & EPOLLOUT) send_late(c);
            if (events[i].events & ~EPOLLOUT) receive(c);
        }
        close_broken();
    }
}
