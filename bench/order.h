/* What order.c and names.c share: fields of messages, requests for names, time and threads. See README.md. */
#ifndef ORDER_H
#define ORDER_H

#include "client.h"
#include <pthread.h>
#include <stdatomic.h>
#include <stdbool.h>
#include <time.h>

enum { ALLOW_REPLACEMENT = 1, REPLACE_EXISTING = 2 };

/* How many messages wait for a client at most: an outbox holds 1,024. */
enum { MAX_BEHIND = 400, MAX_BETWEEN = 248 };

/* The microseconds between two looks, and those between two reads of all clients between. */
enum { PAUSE = 10, SWEEP = 1000 };

/* How many seconds without a message end a round. */
#define PATIENCE 10

#define BIT(n) (1u << (n))

static void pause_for(int microseconds) { nanosleep(&(struct timespec){.tv_nsec = microseconds * 1000L}, NULL); }

static uint32_t lesser(uint32_t a, uint32_t b) { return a < b ? a : b; }

static uint32_t number_at(const unsigned char *bytes) {
    uint32_t number;
    memcpy(&number, bytes, 4);
    return number;
}

/* The value of a field of a message, or NULL. */
static const unsigned char *field_of(const unsigned char *message, int code) {
    uint32_t end = FIXED + number_at(message + 12);
    for (uint32_t at = FIXED; at < end; at = (at + 7) & ~7u) {
        const unsigned char *field = message + at;
        char type = field[2];
        if (field[0] == code) return field + 4;
        at += type == 'g' ? 4 + 1 + field[4] + 1u : type == 'u' ? 4 + 4u : 4 + 4 + number_at(field + 4) + 1;
    }
    return NULL;
}

/* A field of a message that is a text, or an empty one. */
static const char *text_of(const unsigned char *message, int code) {
    const unsigned char *value = field_of(message, code);
    return value ? (const char *)value + (code == SIGNATURE ? 1 : 4) : "";
}

static struct message request_name(const char *name, uint32_t flags) {
    struct message m = begun(CALL, 0, 1), body = {.len = 0};
    text(&body, name);
    pad(&body, 4);
    word(&body, flags);
    field(&m, PATH, "o", BUS_OBJECT);
    field(&m, INTERFACE, "s", BUS_NAME);
    field(&m, MEMBER, "s", "RequestName");
    field(&m, DESTINATION, "s", BUS_NAME);
    field(&m, SIGNATURE, "g", "su");
    add_body(&m, &body);
    return m;
}

static void drop_read(struct client *c, size_t len) {
    memmove(c->unread, c->unread + len, c->len - len);
    c->len -= len;
}

static void begin(pthread_t *thread, void *(*run)(void *), void *given) {
    if (pthread_create(thread, NULL, run, given)) fail("thread");
}

#endif
