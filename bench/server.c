/* What a bus costs in one mode: clients on its Unix socket, and the processor time of its process. See README.md. */
#define _GNU_SOURCE
#include "client.h"
#include <poll.h>
#include <pthread.h>
#include <stdatomic.h>
#include <stdbool.h>
#include <time.h>

enum { WINDOW = 32, USUAL = 250, CROWD = 2000, MAX_CLIENTS = CROWD + 8, MAX_TIMES = 1 << 18 };

/* The seconds that are measured at least, of the bus's processor time and of the clock alike, and those that go before them. */
#define MEASURED 0.1
#define WARMING 0.05

static struct client clients[MAX_CLIENTS], sender;
static int readers;   /* the first clients: each signal is for each of these */
static uint64_t sent; /* signals */
static clockid_t bus_clock;

static double seconds(clockid_t clock) {
    struct timespec t;
    if (clock_gettime(clock, &t)) fail("clock");
    return t.tv_sec + t.tv_nsec / 1e9;
}

/* Waits until each reader has this many signals. */
static void await_signals(uint64_t signals) {
    struct pollfd fds[MAX_CLIENTS];
    for (;;) {
        int waiting = 0;
        for (int i = 0; i < readers; i++)
            if (clients[i].signals < signals) fds[waiting++] = (struct pollfd){.fd = clients[i].fd, .events = POLLIN};
        if (!waiting) return;
        if (poll(fds, waiting, 10000) <= 0) fail("a delivery is missing");
        for (int i = 0, k = 0; i < readers && k < waiting; i++)
            if (fds[k].fd == clients[i].fd && fds[k++].revents) fill(&clients[i]);
    }
}

/* What a number of signals cost the bus, and how long they took. */
struct spent {
    double cost, took;
    uint64_t signals;
};

/* Plays a part again and again until the bus has had `least` seconds and as many have passed. The clocks are read once in `parts`
   times. A part sends signals and waits until each reader has them. */
static struct spent spend(void (*part)(void), int parts, double least) {
    struct spent spent = {0};
    uint64_t before = sent;
    double from = seconds(bus_clock), began = seconds(CLOCK_MONOTONIC);
    while (spent.cost < least || spent.took < least) {
        for (int i = 0; i < parts; i++) part();
        spent.cost = seconds(bus_clock) - from;
        spent.took = seconds(CLOCK_MONOTONIC) - began;
    }
    spent.signals = sent - before;
    return spent;
}

/* Microseconds of processor time a signal, and deliveries a second, or signals a second where nobody listens. */
static void print(struct spent spent) {
    printf("%.4f %.1f\n", spent.cost / spent.signals * 1e6, (readers ? readers : 1) * spent.signals / spent.took);
}

static void measure(void (*part)(void), int parts) {
    spend(part, parts, WARMING);
    print(spend(part, parts, MEASURED));
}

static struct message of_windows;

static void window(void) {
    for (int i = 0; i < WINDOW; i++) {
        uint32_t serial = ++sender.serial;
        memcpy(of_windows.bytes + 8, &serial, 4);
        put(&sender, of_windows.bytes, of_windows.len);
    }
    sent += WINDOW;
    if (readers) await_signals(sent);
    else ping(&sender);
}

static void measure_windows(const char *object, const char *member, const char *argument) {
    join(&sender);
    of_windows = made(SIGNAL, 1, NULL, object, "a.b", member, argument);
    measure(window, 8);
}

/* How the clients ask for messages: by a rule, or by a filter of our bus. */
static void (*ask_for)(struct client *, const char *) = add;

static void add_filter(struct client *c, const char *filter) { call(c, bus_call("org.example.ProgramBus1", "AttachFilter", filter)); }

/* Has some clients join, each with as many rules, the k-th of all by the k-th of the texts in turn. */
static void join_many(int count, int each, const char *const *rules, int texts) {
    char text[256];
    for (int i = 1; i <= count; i++) {
        join(&clients[i]);
        for (int k = (i - 1) * each; k < i * each; k++) {
            snprintf(text, sizeof text, rules[k % texts], k);
            ask_for(&clients[i], text);
        }
    }
}

static void join_250(int each, const char *const *rules, int texts) { join_many(USUAL, each, rules, texts); }

/* A signal for the one whose rule has this number, which is then the first of the clients. */
static void for_one(int number, int each, const char *object, const char *interface, const char *member, const char *argument) {
    clients[0] = clients[1 + number / each];
    readers = 1;
    if (!sender.fd) join(&sender);
    of_windows = made(SIGNAL, 1, NULL, object, interface, member, argument);
    measure(window, 8);
}

static void one_of_250(const char *rule, const char *object, const char *member, const char *argument) {
    join_250(4, &rule, 1);
    for_one(500, 4, object, "a.b", member, argument);
}

static void by_member(void) { one_of_250("member='m%d'", "/a", "m500", "text"); }

static void by_arg0(void) {
    one_of_250("type='signal',interface='a.b',member='changed',arg0='com.example.N%d'", "/a", "changed", "com.example.N500");
}

static void by_arg0namespace(void) {
    one_of_250("member='changed',arg0namespace='com.example.n%d'", "/a", "changed", "com.example.n500.more");
}

static void by_member_and_arg0(void) { one_of_250("member='m%1$d',arg0='n%1$d'", "/a", "m500", "n500"); }

static void by_filter(void) {
    ask_for = add_filter;
    one_of_250("member = m%1$d and arg0 = n%1$d", "/a", "m500", "n500");
}

static void by_path(void) { one_of_250("path='/com/example/n%d'", "/com/example/n500", "m", "text"); }

static void by_path_namespace(void) {
    one_of_250("path_namespace='/com/example/n%d'", "/com/example/n500/more", "m", "text");
}

static void by_interface(void) {
    const char *rule = "interface='com.example.n%d'";
    join_250(4, &rule, 1);
    for_one(500, 4, "/a", "com.example.n500", "m", "text");
}

/* The rules are for unique names. That of the sender is the last one's. */
static void by_sender(void) {
    const char *rule = "sender=':2.%d'";
    char own[128];
    join_250(4, &rule, 1);
    join(&sender);
    snprintf(own, sizeof own, "sender='%s'", sender.name);
    add(&clients[126], own);
    for_one(500, 4, "/a", "a.b", "m", "text");
}

/* What the programs of a desktop ask for, in turn. */
static void by_mixed_keys(void) {
    static const char *const rules[] = {
        "type='signal',sender='org.freedesktop.DBus',interface='org.freedesktop.DBus',member='NameOwnerChanged',arg0='com.example.N%d'",
        "type='signal',interface='org.freedesktop.DBus.Properties',member='PropertiesChanged',path='/com/example/n%d'",
        "type='signal',path_namespace='/com/example/n%d'",
        "type='signal',sender=':2.%d'",
        "type='signal',interface='com.example.n%d'",
        "type='signal',member='changed',arg0namespace='com.example.n%d'",
    };
    join_250(4, rules, 6);
    for_one(499, 4, "/com/example/n499", "org.freedesktop.DBus.Properties", "PropertiesChanged", "text");
}

static void of_16000(void) {
    const char *rule = "member='m%d'";
    join_250(64, &rule, 1);
    for_one(8000, 64, "/a", "a.b", "m8000", "text");
}

static void of_a_crowd(void) {
    const char *rule = "member='m%d'";
    join_many(CROWD, 4, &rule, 1);
    for_one(4000, 4, "/a", "a.b", "m4000", "text");
}

static void all_of_100(void) {
    for (int i = 0; i < 100; i++) {
        join(&clients[i]);
        add(&clients[i], "member='all'");
    }
    readers = 100;
    measure_windows("/a", "all", "text");
}

static void nobody_listens(void) { measure_windows("/a", "nobody", "text"); }

static void one_reader(const char *rule) {
    join(&clients[0]);
    add(&clients[0], rule);
    join(&sender);
    readers = 1;
}

static void burst(void) {
    static unsigned char many[64 * 256];
    const int times = 10000;
    for (int done = 0; done < times;) {
        size_t len = 0;
        int part = times - done < 64 ? times - done : 64;
        for (int i = 0; i < part; i++) {
            struct message m = made(SIGNAL, ++sender.serial, NULL, "/a", "a.b", "burst", "text");
            memcpy(many + len, m.bytes, m.len);
            len += m.len;
        }
        put(&sender, many, len);
        done += part;
        sent += part;
        /* what came is read, so that at most 512 signals are under way */
        if (done > 512) await_signals(sent - 512);
    }
    await_signals(sent);
}

static void bursts(void) {
    one_reader("member='burst'");
    measure(burst, 1);
}

static double late[MAX_TIMES];
static size_t lates;

static void one_at_a_time(void) {
    struct message m = made(SIGNAL, ++sender.serial, NULL, "/a", "a.b", "late", "text");
    if (lates == MAX_TIMES) fail("too many signals");
    double began = seconds(CLOCK_MONOTONIC);
    put(&sender, m.bytes, m.len);
    await_signals(++sent);
    late[lates++] = seconds(CLOCK_MONOTONIC) - began;
}

static int by_size(const void *a, const void *b) {
    double x = *(const double *)a, y = *(const double *)b;
    return (x > y) - (x < y);
}

/* Prints the median and the 99th too, in microseconds. */
static void latency(void) {
    one_reader("member='late'");
    spend(one_at_a_time, 64, WARMING);
    lates = 0;
    print(spend(one_at_a_time, 64, MEASURED));
    qsort(late, lates, sizeof late[0], by_size);
    printf("%.2f %.2f\n", late[lates / 2] * 1e6, late[lates * 99 / 100] * 1e6);
}

/* What one client asks for and then takes back, among 250 with four rules each. Both are counted together. */
static void among_250(void (*part)(void)) {
    const char *rule = "member='m%d'";
    join_250(4, &rule, 1);
    join(&sender);
    measure(part, 64);
}

static void add_and_remove(void) {
    const char *rule = "type='signal',interface='a.b',member='asked',path='/a'";
    add(&sender, rule);
    call(&sender, bus_call(BUS_NAME, "RemoveMatch", rule));
    sent++;
}

#define ASKED "com.example.Asked"
enum { REPLACED_AND_REPLACING = 3 };

static struct message request_name(uint32_t flags) {
    struct message m = begun(CALL, 0, 1), body = {.len = 0};
    text(&body, ASKED);
    pad(&body, 4);
    word(&body, flags);
    field(&m, PATH, "o", BUS_OBJECT);
    field(&m, INTERFACE, "s", BUS_NAME);
    field(&m, MEMBER, "s", "RequestName");
    field(&m, DESTINATION, "s", BUS_NAME);
    field(&m, SIGNATURE, "g", "su");
    add_body(&m, &body);
    return m;
}

static void request_and_release(void) {
    call(&sender, request_name(0));
    call(&sender, bus_call(BUS_NAME, "ReleaseName", ASKED));
    sent++;
}

static void ask_for_owner(void) {
    call(&sender, bus_call(BUS_NAME, "GetNameOwner", ASKED));
    sent++;
}

static void come_and_go(void) {
    join(&clients[0]);
    close(clients[0].fd);
    sent++;
}

static void rules(void) { among_250(add_and_remove); }
static void names(void) { among_250(request_and_release); }

static void owner(void) {
    static struct client owning;
    join(&owning);
    call(&owning, request_name(0));
    among_250(ask_for_owner);
}

static void comings(void) {
    for (int i = 1; i <= 100; i++) join(&clients[i]);
    measure(come_and_go, 16);
}

enum { PAIRS = 4, BATCH = 64, PAIR_TIMES = 102400, UNREAD = 512 };

struct pair {
    struct client *reader, *sender;
    pthread_barrier_t *start;
    char member[16];
};

/* Sends to its reader alone, BATCH signals at a write, at most UNREAD before they are read. The signals are made once, since the
   clients run on the same processors as the bus, and only their serials change from write to write. */
static void *play_pair(void *given) {
    struct pair *pair = given;
    unsigned char many[BATCH * 256];
    struct message m = made(SIGNAL, 1, NULL, "/a", "a.b", pair->member, "text");
    for (int i = 0; i < BATCH; i++) memcpy(many + i * m.len, m.bytes, m.len);
    pthread_barrier_wait(pair->start);
    for (int done = 0; done < PAIR_TIMES; done += BATCH) {
        for (int i = 0; i < BATCH; i++) {
            uint32_t serial = ++pair->sender->serial;
            memcpy(many + i * m.len + 8, &serial, 4);
        }
        put(pair->sender, many, BATCH * m.len);
        while ((int)pair->reader->signals < done + BATCH - UNREAD) fill(pair->reader);
    }
    while (pair->reader->signals < PAIR_TIMES) fill(pair->reader);
    return NULL;
}

/* Four senders at once, each with a reader of its own. The senders connect one after the other, so that the bus gives each to
   another worker where it has as many. */
static void pairs(void) {
    pthread_barrier_t start;
    pthread_t threads[PAIRS];
    struct pair all[PAIRS];
    if (pthread_barrier_init(&start, NULL, PAIRS + 1)) fail("barrier");
    for (int i = 0; i < 2 * PAIRS; i++) join(&clients[i]);
    for (int i = 0; i < PAIRS; i++) {
        char rule[32];
        all[i] = (struct pair){.reader = &clients[i], .sender = &clients[PAIRS + i], .start = &start};
        snprintf(all[i].member, sizeof all[i].member, "pair%d", i);
        snprintf(rule, sizeof rule, "member='%s'", all[i].member);
        add(all[i].reader, rule);
        if (pthread_create(&threads[i], NULL, play_pair, &all[i])) fail("thread");
    }
    pthread_barrier_wait(&start);
    double from = seconds(bus_clock), began = seconds(CLOCK_MONOTONIC);
    for (int i = 0; i < PAIRS; i++) pthread_join(threads[i], NULL);
    double cost = seconds(bus_clock) - from, took = seconds(CLOCK_MONOTONIC) - began;
    print((struct spent){cost, took, PAIRS * PAIR_TIMES});
}

enum { ASKERS = 4, QUESTIONS = 10240 };

struct asker {
    struct client *client;
    pthread_barrier_t *start;
};

static atomic_bool is_all_asked;

static void *ask_often(void *given) {
    struct asker *asker = given;
    pthread_barrier_wait(asker->start);
    for (int i = 0; i < QUESTIONS; i++) call(asker->client, bus_call(BUS_NAME, "GetNameOwner", ASKED));
    return NULL;
}

/* Two clients take the name from one another. */
static void *change_owners(void *given) {
    struct client *owners = given;
    for (int i = 1; !is_all_asked; i ^= 1) call(&owners[i], request_name(REPLACED_AND_REPLACING));
    return NULL;
}

/* Four clients ask for the owner of a name at once, which changes all the while. */
static void owners_beside_changes(void) {
    pthread_barrier_t start;
    pthread_t threads[ASKERS], changing;
    struct asker all[ASKERS];
    if (pthread_barrier_init(&start, NULL, ASKERS + 1)) fail("barrier");
    for (int i = 0; i < ASKERS + 2; i++) join(&clients[i]);
    call(&clients[ASKERS], request_name(REPLACED_AND_REPLACING));
    for (int i = 0; i < ASKERS; i++) {
        all[i] = (struct asker){&clients[i], &start};
        if (pthread_create(&threads[i], NULL, ask_often, &all[i])) fail("thread");
    }
    if (pthread_create(&changing, NULL, change_owners, &clients[ASKERS])) fail("thread");
    pthread_barrier_wait(&start);
    double from = seconds(bus_clock), began = seconds(CLOCK_MONOTONIC);
    for (int i = 0; i < ASKERS; i++) pthread_join(threads[i], NULL);
    double cost = seconds(bus_clock) - from, took = seconds(CLOCK_MONOTONIC) - began;
    is_all_asked = true;
    pthread_join(changing, NULL);
    print((struct spent){cost, took, ASKERS * QUESTIONS});
}

static const struct mode {
    const char *name;
    void (*run)(void);
} modes[] = {
    {"member", by_member}, {"arg0", by_arg0}, {"arg0namespace", by_arg0namespace}, {"path", by_path},
    {"path_namespace", by_path_namespace}, {"interface", by_interface}, {"sender", by_sender}, {"mixed", by_mixed_keys},
    {"many", of_16000}, {"crowd", of_a_crowd}, {"all", all_of_100}, {"nobody", nobody_listens}, {"burst", bursts}, {"late", latency},
    {"rules", rules}, {"names", names}, {"owner", owner}, {"owners", owners_beside_changes}, {"comings", comings},
    {"both", by_member_and_arg0}, {"filters", by_filter}, {"pairs", pairs},
};

int main(int words, char **word) {
    if (words != 4) return fprintf(stderr, "usage: server SOCKET PID MODE\n"), 2;
    path = word[1];
    bus_clock = (clockid_t)(~(unsigned)atoi(word[2]) << 3 | 2);
    for (size_t i = 0; i < sizeof modes / sizeof modes[0]; i++) {
        if (strcmp(modes[i].name, word[3])) continue;
        modes[i].run();
        return 0;
    }
    return fprintf(stderr, "server: no such mode: %s\n", word[3]), 2;
}
