/* Whether a reaction is heard before its cause, in one mode: clients on a bus's Unix socket that react at once. See README.md. */
#define _GNU_SOURCE
#include "order.h"
#include <signal.h>
#include <sys/epoll.h>
#include <sys/prctl.h>
#include <sys/time.h>

/* The players, in the order in which they connect. The clients between connect before the last one. */
enum role { FIRST, NOISY, STARTER, SECOND, THIRD, LAST, ROLES, BUS, EVERYBODY };
enum between { NONE, EACH, ODD };
enum { START = -1, MATCHED = 1, MAX_KINDS = 4, NOISE = MAX_KINDS, MAX_RULE = 256 };

enum { WINDOW = 32, BURST = 8, ALL_HEARD = 64, MAX_NOISE = 4 };

/* The microseconds after which a read gives up. */
enum { READ_ENDS = 100000 };

#define OBJECT "/com/example/Order"
#define INTERFACE_NAME "com.example.Order"
#define NAME "com.example.order.Name"
#define OF_THE_NAME ",sender='" BUS_NAME "',arg0='" NAME "'"

/* A kind of message. Each turn has one, which bears the turn's number; with a step of 2, each second turn from `first` on. */
struct kind {
    const char *member;
    int type, sender, to;
    int cause;         /* the kind that it is sent because of */
    unsigned heard_by; /* a bit for each role */
    enum between between;
    const char *conditions; /* of the rule, besides the member */
    uint32_t first, step;
};

/* The kinds stand in the order in which a client that hears several of one turn has to hear them. */
struct mode {
    const char *name;
    void (*turn)(uint32_t number);
    uint32_t window, burst; /* turns under way at most, and turns begun at once */
    struct kind kinds[MAX_KINDS];
};

/* What a client has heard of each kind. */
struct ear {
    unsigned kinds;
    uint32_t step[MAX_KINDS + 1];
    _Atomic uint32_t next[MAX_KINDS + 1]; /* the number that is due */
    uint64_t missing, twice;
};

struct player {
    struct client client;
    enum role role;
    struct ear ear;
    pthread_mutex_t writing;
    _Atomic uint32_t answers;
    uint32_t noise; /* messages of noise that were sent to it */
    pthread_t thread;
};

static const struct mode *mode;
static struct player players[ROLES];
static struct message models[MAX_KINDS];
static struct client between[MAX_BETWEEN];
static struct ear between_ears[MAX_BETWEEN];
static int betweens;
static _Atomic uint32_t between_next;
static uint32_t turns;
static atomic_bool *is_overtaken; /* by turn */
static atomic_bool is_quiet, is_over;

static double seconds(void) {
    struct timespec t;
    if (clock_gettime(CLOCK_MONOTONIC, &t)) fail("clock");
    return t.tv_sec + t.tv_nsec / 1e9;
}

static bool is_kind(int i) { return i < MAX_KINDS && mode->kinds[i].member; }

/* Counts a message as heard, and as missing those whose numbers were left out. */
static void advance(struct ear *ear, int kind, uint32_t number) {
    uint32_t next = ear->next[kind], step = ear->step[kind];
    if (number < next || (number - next) % step) {
        ear->twice++;
        return;
    }
    ear->missing += (number - next) / step;
    ear->next[kind] = number + step;
}

static void hear(struct ear *ear, int kind, uint32_t number) {
    for (int cause = 0; cause < kind; cause++)
        if (ear->kinds & BIT(cause) && ear->next[cause] <= number && number < turns) is_overtaken[number] = true;
    advance(ear, kind, number);
}

/* Compares what was heard of a kind with the numbers below `end`. */
static void close_kind(struct ear *ear, int kind, uint32_t end) {
    uint32_t next = ear->next[kind], step = ear->step[kind];
    if (next < end) ear->missing += (end - next + step - 1) / step;
    else ear->twice += (next - end) / step;
}

/* The kind of a message, or -1, and its number. Those of the bus bear none, so they have the one that is due. */
static int kind_of(const struct ear *ear, const unsigned char *message, size_t whole, uint32_t *number) {
    uint32_t body = number_at(message + 4);
    if (body == 8) {
        *number = number_at(message + whole - 4);
        return number_at(message + whole - 8);
    }
    if (message[1] != SIGNAL || strcmp((const char *)message + whole - body + 4, NAME)) return -1;
    for (int i = 0; is_kind(i); i++) {
        if (!(ear->kinds & BIT(i)) || strcmp(mode->kinds[i].member, text_of(message, MEMBER))) continue;
        *number = ear->next[i];
        return i;
    }
    return -1;
}

static bool is_answered(int kind) {
    for (int i = 0; is_kind(i); i++)
        if (mode->kinds[i].type == RETURN && mode->kinds[i].cause == kind) return true;
    return false;
}

/* A message whose arguments are its kind and a number. */
static struct message model(int type, const char *to, const char *member, int kind) {
    int flags = type == RETURN || is_answered(kind) ? 0 : NO_REPLY_EXPECTED;
    struct message m = begun(type, flags, 1), body = {.len = 0};
    if (type == RETURN) {
        begin_field(&m, REPLY_SERIAL, 'u');
        word(&m, 1);
    } else {
        field(&m, PATH, "o", OBJECT);
        field(&m, INTERFACE, "s", INTERFACE_NAME);
        field(&m, MEMBER, "s", member);
    }
    field(&m, DESTINATION, "s", to);
    field(&m, SIGNATURE, "g", "uu");
    word(&body, kind);
    word(&body, 0);
    add_body(&m, &body);
    return m;
}

static void put_next(struct player *player, struct message *m) {
    pthread_mutex_lock(&player->writing);
    uint32_t serial = ++player->client.serial;
    memcpy(m->bytes + 8, &serial, 4);
    put(&player->client, m->bytes, m->len);
    pthread_mutex_unlock(&player->writing);
}

/* Sends a message of a kind. One that is an answer is the answer to the message with this serial. */
static void send_kind(int kind, uint32_t number, uint32_t serial) {
    struct message m = models[kind];
    memcpy(m.bytes + m.len - 4, &number, 4);
    if (mode->kinds[kind].type == RETURN) memcpy(m.bytes + FIXED + 4, &serial, 4);
    put_next(&players[mode->kinds[kind].sender], &m);
}

static void send_because(int cause, int sender, uint32_t number, uint32_t serial) {
    for (int i = 0; is_kind(i); i++)
        if (mode->kinds[i].cause == cause && mode->kinds[i].sender == sender) send_kind(i, number, serial);
}

static void treat(struct player *player, const unsigned char *message, size_t whole) {
    uint32_t number;
    if (message[1] == FAULT) fail(text_of(message, ERROR_NAME));
    int kind = kind_of(&player->ear, message, whole, &number);
    if (kind == NOISE) {
        advance(&player->ear, NOISE, number);
    } else if (kind >= 0) {
        send_because(kind, player->role, number, number_at(message + 8));
        hear(&player->ear, kind, number);
    } else if (message[1] == RETURN) {
        player->answers++;
    }
}

/* Reads once. False where the bus has closed the connection. */
static bool read_some(struct client *c) {
    ssize_t n = read(c->fd, c->unread + c->len, ROOM - c->len);
    if (n <= 0) return n < 0 && (errno == EINTR || errno == EAGAIN);
    c->len += n;
    return true;
}

static void *play(void *given) {
    struct player *player = given;
    struct client *c = &player->client;
    while (!is_over && read_some(c)) {
        size_t at = 0, whole;
        for (; (whole = whole_len(c->unread + at, c->len - at)); at += whole) treat(player, c->unread + at, whole);
        drop_read(c, at);
    }
    return NULL;
}

static void listen_between(int i) {
    struct client *c = &between[i];
    size_t at = 0, whole;
    uint32_t number;
    if (!read_some(c)) return;
    for (; (whole = whole_len(c->unread + at, c->len - at)); at += whole) {
        int kind = kind_of(&between_ears[i], c->unread + at, whole, &number);
        if (kind >= 0) hear(&between_ears[i], kind, number);
    }
    drop_read(c, at);
}

/* The least number that is due. */
static uint32_t least_next(const struct ear *ear) {
    uint32_t least = UINT32_MAX;
    for (int i = 0; is_kind(i); i++)
        if (ear->kinds & BIT(i)) least = lesser(least, ear->next[i]);
    return least;
}

/* Reads all clients between in sweeps, so that one read takes many messages. */
static void *play_between(void *given) {
    int poll = *(int *)given;
    struct epoll_event events[MAX_BETWEEN];
    while (!is_over) {
        int count = epoll_wait(poll, events, MAX_BETWEEN, 100);
        for (int i = 0; i < count; i++) listen_between(events[i].data.u32);
        uint32_t least = UINT32_MAX;
        for (int i = 0; i < betweens; i++) least = lesser(least, least_next(&between_ears[i]));
        between_next = least;
        pause_for(SWEEP);
    }
    return NULL;
}

static bool is_reacting(int role) {
    for (int i = 0; is_kind(i); i++)
        if (mode->kinds[i].sender == role && mode->kinds[i].cause != START) return true;
    return false;
}

/* Sends to those that react, all the time, so that their outboxes are written while others put there. */
static void *make_noise(void *unused) {
    struct message noises[ROLES];
    for (int role = 0; role < ROLES; role++) noises[role] = model(SIGNAL, players[role].client.name, "Noise", NOISE);
    while (!is_quiet) {
        bool is_full = true;
        for (int role = 0; role < ROLES; role++) {
            struct player *player = &players[role];
            struct message *m = &noises[role];
            if (!is_reacting(role) || player->noise - player->ear.next[NOISE] >= MAX_NOISE) continue;
            memcpy(m->bytes + m->len - 4, &player->noise, 4);
            player->noise++;
            put_next(&players[NOISY], m);
            is_full = false;
        }
        if (is_full) pause_for(PAUSE);
    }
    return unused;
}

/* Waits until the players have heard all turns below the one number, and the clients between those below the other. False where
   nothing comes any more. */
static bool await_turns(uint32_t of_players, uint32_t of_between) {
    uint64_t before = UINT64_MAX;
    double since = 0;
    for (;;) {
        uint32_t least = UINT32_MAX;
        for (int role = 0; role < ROLES; role++) least = lesser(least, least_next(&players[role].ear));
        if (least >= of_players && between_next >= of_between) return true;
        uint64_t now = (uint64_t)least << 32 | between_next;
        if (now != before) {
            before = now;
            since = seconds();
        } else if (seconds() - since > PATIENCE) {
            return false;
        }
        pause_for(PAUSE);
    }
}

static void await_noise(void) {
    double until = seconds() + PATIENCE;
    for (int role = 0; role < ROLES; role++)
        while (players[role].ear.next[NOISE] < players[role].noise && seconds() < until) pause_for(PAUSE);
}

/* The rule of those that hear a kind. */
static const char *rule_of(char rule[MAX_RULE], int kind) {
    const char *conditions = mode->kinds[kind].conditions;
    snprintf(rule, MAX_RULE, "type='signal',member='%s'%s", mode->kinds[kind].member, conditions ? conditions : "");
    return rule;
}

static void start(uint32_t number) { send_because(START, STARTER, number, 0); }

/* The starter takes the name away from the first player, which stays in the queue, and in the next turn gives it back. */
static void change_owner(uint32_t number) {
    struct message m = number % 2 ? bus_call(BUS_NAME, "ReleaseName", NAME) : request_name(NAME, REPLACE_EXISTING);
    put_next(&players[STARTER], &m);
}

/* The first player adds its rule, or in the next turn removes it, and once that is answered asks the starter to send a signal. */
static void change_rule(uint32_t number) {
    struct player *player = &players[FIRST];
    char rule[MAX_RULE];
    struct message m = bus_call(BUS_NAME, number % 2 ? "RemoveMatch" : "AddMatch", rule_of(rule, MATCHED));
    uint32_t answers = player->answers;
    double until = seconds() + PATIENCE;
    put_next(player, &m);
    while (player->answers == answers && seconds() < until) pause_for(PAUSE);
    send_because(START, FIRST, number, 0);
}

static const struct mode modes[] = {
    {"broadcast", start, WINDOW, BURST, {
        {"Cause", SIGNAL, STARTER, EVERYBODY, START, BIT(FIRST) | BIT(LAST), EACH},
        {"Reaction", SIGNAL, FIRST, EVERYBODY, 0, BIT(LAST)},
    }},
    {"call", start, WINDOW, BURST, {
        {"Cause", SIGNAL, STARTER, EVERYBODY, START, BIT(FIRST) | BIT(LAST), EACH},
        {"Note", SIGNAL, STARTER, LAST, START, BIT(LAST)},
        {"Ask", CALL, STARTER, FIRST, START, BIT(FIRST)},
        {"Reaction", SIGNAL, FIRST, EVERYBODY, 2, BIT(LAST)},
    }},
    {"reply", start, WINDOW, BURST, {
        {"Ask", CALL, STARTER, FIRST, START, BIT(FIRST)},
        {"Cause", SIGNAL, FIRST, EVERYBODY, 0, BIT(STARTER) | BIT(LAST), EACH},
        {"Answer", RETURN, FIRST, STARTER, 0, BIT(STARTER)},
        {"Reaction", SIGNAL, STARTER, EVERYBODY, 2, BIT(LAST)},
    }},
    {"changed", change_owner, WINDOW, BURST, {
        {"NameOwnerChanged", SIGNAL, BUS, EVERYBODY, START, BIT(FIRST) | BIT(LAST), EACH, OF_THE_NAME},
        {"Reaction", SIGNAL, FIRST, EVERYBODY, 0, BIT(LAST)},
    }},
    {"lost", change_owner, WINDOW, BURST, {
        {"NameOwnerChanged", SIGNAL, BUS, EVERYBODY, START, BIT(LAST), EACH, OF_THE_NAME},
        {"NameLost", SIGNAL, BUS, FIRST, START, BIT(FIRST), .step = 2},
        {"Reaction", SIGNAL, FIRST, EVERYBODY, 1, BIT(LAST), .step = 2},
    }},
    {"acquired", change_owner, WINDOW, BURST, {
        {"NameOwnerChanged", SIGNAL, BUS, EVERYBODY, START, BIT(LAST), EACH, OF_THE_NAME},
        {"NameAcquired", SIGNAL, BUS, FIRST, START, BIT(FIRST), .first = 1, .step = 2},
        {"Reaction", SIGNAL, FIRST, EVERYBODY, 1, BIT(LAST), .first = 1, .step = 2},
    }},
    {"match", change_rule, 1, 1, {
        {"Ask", SIGNAL, FIRST, STARTER, START, BIT(STARTER)},
        {"Matched", SIGNAL, STARTER, EVERYBODY, 0, BIT(FIRST), EACH, .step = 2},
        {"Done", SIGNAL, STARTER, FIRST, 0, BIT(FIRST)},
    }},
    {"chain", start, WINDOW, BURST, {
        {"Cause", SIGNAL, STARTER, EVERYBODY, START, BIT(FIRST) | BIT(LAST), EACH},
        {"Reaction", SIGNAL, FIRST, EVERYBODY, 0, BIT(SECOND) | BIT(LAST)},
        {"Second", SIGNAL, SECOND, EVERYBODY, 1, BIT(THIRD) | BIT(LAST), ODD},
        {"Third", SIGNAL, THIRD, EVERYBODY, 2, BIT(LAST)},
    }},
};

static void connect_ear(struct client *c, struct ear *ear, bool (*hears)(const struct kind *kind, int number), int number) {
    char rule[MAX_RULE];
    join(c);
    ear->step[NOISE] = 1;
    for (int i = 0; is_kind(i); i++) {
        const struct kind *kind = &mode->kinds[i];
        if (!hears(kind, number)) continue;
        ear->kinds |= BIT(i);
        ear->next[i] = kind->first;
        ear->step[i] = kind->step ? kind->step : 1;
        if (kind->to == EVERYBODY) add(c, rule_of(rule, i));
    }
}

static bool player_hears(const struct kind *kind, int role) { return kind->heard_by & BIT(role); }

static bool between_hears(const struct kind *kind, int number) {
    return kind->between == EACH || (kind->between == ODD && number % 2);
}

static void connect_player(int role) {
    struct player *player = &players[role];
    player->role = role;
    pthread_mutex_init(&player->writing, NULL);
    connect_ear(&player->client, &player->ear, player_hears, role);
}

static void connect_between(int number, int poll) {
    struct epoll_event event = {.events = EPOLLIN, .data.u32 = number};
    connect_ear(&between[number], &between_ears[number], between_hears, number);
    /* the step of a kind is that of players */
    for (int i = 0; i < MAX_KINDS; i++) between_ears[number].step[i] = 1;
    if (epoll_ctl(poll, EPOLL_CTL_ADD, between[number].fd, &event)) fail("epoll");
}

static void connect_all(int poll) {
    for (int role = 0; role < LAST; role++) connect_player(role);
    struct client *first = &players[FIRST].client;
    char rule[MAX_RULE];
    if (mode->turn == change_owner) call(first, request_name(NAME, ALLOW_REPLACEMENT));
    if (mode->turn == change_rule) call(first, bus_call(BUS_NAME, "RemoveMatch", rule_of(rule, MATCHED)));
    for (int i = 0; i < betweens; i++) connect_between(i, poll);
    connect_player(LAST);
    for (int i = 0; is_kind(i); i++) {
        const struct kind *kind = &mode->kinds[i];
        models[i] = model(kind->type, kind->to < ROLES ? players[kind->to].client.name : NULL, kind->member, i);
    }
    struct timeval limit = {.tv_usec = READ_ENDS};
    for (int role = 0; role < ROLES; role++) {
        ping(&players[role].client);
        setsockopt(players[role].client.fd, SOL_SOCKET, SO_RCVTIMEO, &limit, sizeof limit);
    }
}

/* Plays the turns, and tells how many were begun. Now and then it waits until everybody has heard all, so that a message which
   lies somewhere until the next one comes is noticed. */
static uint32_t play_turns(void) {
    uint32_t begun = 0;
    while (begun < turns) {
        uint32_t heard = begun + mode->burst > mode->window ? begun + mode->burst - mode->window : 0;
        uint32_t heard_between = begun > MAX_BEHIND ? begun - MAX_BEHIND : 0;
        if (begun % ALL_HEARD == 0) heard = heard_between = begun;
        if (!await_turns(heard, heard_between)) return begun;
        for (uint32_t i = 0; i < mode->burst && begun < turns; i++) mode->turn(begun++);
    }
    await_turns(begun, begun);
    return begun;
}

/* Plays all turns with the noise beside them, and tells how many were begun. */
static uint32_t play_all(int poll) {
    pthread_t noisy, sweeping;
    for (int role = 0; role < ROLES; role++) begin(&players[role].thread, play, &players[role]);
    begin(&noisy, make_noise, NULL);
    begin(&sweeping, play_between, &poll);
    uint32_t begun = play_turns();
    is_quiet = true;
    pthread_join(noisy, NULL);
    await_noise();
    is_over = true;
    pthread_join(sweeping, NULL);
    for (int role = 0; role < ROLES; role++) pthread_join(players[role].thread, NULL);
    return begun;
}

static void close_ear(struct ear *ear, uint32_t end, struct ear *all) {
    for (int i = 0; is_kind(i); i++)
        if (ear->kinds & BIT(i)) close_kind(ear, i, end);
    all->missing += ear->missing;
    all->twice += ear->twice;
}

static void print_found(uint32_t begun) {
    struct ear all = {0};
    uint32_t overtaken = 0;
    for (uint32_t i = 0; i < turns; i++) overtaken += is_overtaken[i];
    for (int role = 0; role < ROLES; role++) {
        close_kind(&players[role].ear, NOISE, players[role].noise);
        close_ear(&players[role].ear, begun, &all);
    }
    for (int i = 0; i < betweens; i++) close_ear(&between_ears[i], begun, &all);
    printf("%u overtaken, %lu missing, %lu twice\n", overtaken, all.missing, all.twice);
}

int main(int words, char **word) {
    if (words != 5) return fprintf(stderr, "usage: order SOCKET MODE BETWEEN SIGNALS\n"), 2;
    path = word[1];
    for (size_t i = 0; i < sizeof modes / sizeof modes[0]; i++)
        if (!strcmp(modes[i].name, word[2])) mode = &modes[i];
    betweens = atoi(word[3]);
    turns = atoi(word[4]);
    is_overtaken = calloc(turns, sizeof *is_overtaken);
    bool is_right = mode && betweens >= 0 && betweens <= MAX_BETWEEN && is_overtaken;
    if (!is_right) return fprintf(stderr, "order: no such mode or number\n"), 2;
    signal(SIGPIPE, SIG_IGN);
    prctl(PR_SET_TIMERSLACK, 1000L);
    int poll = epoll_create1(0);
    connect_all(poll);
    print_found(play_all(poll));
    return 0;
}
