/* Whether what a client is answered about names agrees with what it has been told of them, in one mode. See README.md. */
#define _GNU_SOURCE
#include "order.h"
#include <signal.h>
#include <sys/epoll.h>
#include <sys/prctl.h>

/* Owners reply in an order of their own, so a question is remembered for as many more as there are places. */
enum { OWNERS = 8, OPEN = 8, QUESTIONS = 4096 };

/* Of the clients that come and go: how many are there at a time, the places that they have in turn, and those whose names are
   looked for. */
enum { STAYING = 4, PLACES = 16, REMEMBERED = 8 };

/* How many changes may be made before the observer has read of the first of them. What a change changes is changed back after eight
   more at the earliest, so that it is certain of each wrong answer whether it is of a change to come. */
enum { LEAD = 4 };

#define OBJECT "/com/example/Order"
#define INTERFACE_NAME "com.example.Order"
#define NAMES "com.example.order"
#define NAME NAMES ".Name"
#define EVERY_BIT UINT32_MAX

/* How many seconds there are for connecting all. */
#define CONNECTING 60

#define OF_BUS(member) "type='signal',sender='" BUS_NAME "',member='" member "'"
#define OF_THE_NAME ",arg0='" NAME "'"
#define OF_THE_NAMES ",arg0namespace='" NAMES "'"
#define NO_OWNER "org.freedesktop.DBus.Error.NameHasNoOwner"

enum kind { GET_OWNER, HAS_OWNER, LIST, ASK };

/* The changes of a mode are numbered from 1. A state has a bit for each owner, name or client. */
struct mode {
    const char *name;
    const char *rule; /* of the observer and the listeners */
    void (*change)(uint32_t number);
    void (*treat)(const unsigned char *message, size_t whole); /* what the observer does with a message */
    uint32_t (*state)(uint32_t number);                        /* after that change */
    uint32_t (*bit_of)(const char *name);                      /* NULL where the owners of one name have the bits */
    const char *(*subject)(uint32_t number);                   /* the name that the observer asks about beside that change */
    enum kind questions[2];                                    /* by turns */
};

struct question {
    uint32_t serial;
    enum kind kind;
    uint32_t bits;      /* of the state that the answer tells */
    uint32_t announced; /* when it was asked */
};

struct owner {
    struct client client;
    pthread_t thread;
    pthread_mutex_t writing;
    _Atomic uint32_t answers;
    bool is_owner;
    uint32_t change; /* by which it is the owner, or will be next */
};

static const struct mode *mode;
static struct owner owners[OWNERS];
static char names[OWNERS][64];
static struct client observer, listeners[MAX_BETWEEN], passers[PLACES];
static int listener_count;
static unsigned last_staying; /* the number in the name of the last client that came to stay */
static struct question questions[QUESTIONS];
static uint32_t open_questions, question_count;
static uint32_t picture; /* the state as it was announced to the observer */
static uint32_t acquired, lost;
static uint32_t changes;
static _Atomic uint32_t started, announced, least_heard, passed;
static _Atomic uint32_t answers, ahead, stale, late;
static atomic_bool is_over;

static void stop(const char *what) {
    fprintf(stderr, "names: %s; %u of %u changes started, %u announced, %u answers\n", what, started, changes, announced, answers);
    _exit(1);
}

static void end_of_patience(int unused) { stop("nothing came any more"); }

static const unsigned char *body_of(const unsigned char *message, size_t whole) { return message + whole - number_at(message + 4); }

/* The place of the text after the one at this place of a body. */
static uint32_t next_text(const unsigned char *body, uint32_t at) { return (at + 4 + number_at(body + at) + 1 + 3) & ~3u; }

static const char *text_at(const unsigned char *body, uint32_t at) { return (const char *)body + at + 4; }

static bool is_signal(const unsigned char *message, const char *member) {
    return message[1] == SIGNAL && !strcmp(text_of(message, MEMBER), member);
}

static uint32_t owner_bit(const char *name) {
    for (int i = 0; i < OWNERS; i++)
        if (!strcmp(owners[i].client.name, name)) return BIT(i);
    stop("a strange owner");
    return 0;
}

/* A name that others own, as the bus's, has no bit. */
static uint32_t name_bit(const char *name) {
    for (int i = 0; i < OWNERS; i++)
        if (!strcmp(names[i], name)) return BIT(i);
    return 0;
}

static unsigned number_in(const char *unique_name) {
    unsigned number = 0;
    sscanf(unique_name, ":1.%u", &number);
    return number;
}

/* A client that came after those that stay, and whose name isn't known, is the next one. */
static uint32_t passer_bit(const char *name) {
    uint32_t count = passed;
    for (uint32_t i = count > REMEMBERED ? count - REMEMBERED : 0; i < count; i++)
        if (!strcmp(passers[i % PLACES].name, name)) return BIT(i % PLACES);
    return number_in(name) > last_staying ? BIT(count % PLACES) : 0;
}

static uint32_t one_owner(uint32_t number) { return BIT(number % OWNERS); }

/* All names are taken, one after the other, and then given up. */
static uint32_t names_taken(uint32_t number) {
    uint32_t first = BIT(number % OWNERS) - 1;
    return number / OWNERS % 2 ? (BIT(OWNERS) - 1) & ~first : first;
}

/* A client comes, and then the one that has been there longest goes. */
static uint32_t passers_there(uint32_t number) {
    uint32_t state = 0;
    for (uint32_t i = number / 2; i < STAYING + (number + 1) / 2; i++) state |= BIT(i % PLACES);
    return state;
}

static const char *the_name(uint32_t number) { return NAME; }

static const char *name_changed(uint32_t number) { return names[(number - 1) % OWNERS]; }

/* In place of a client whose name isn't known yet it is the one that goes next. */
static const char *passer_changed(uint32_t number) {
    uint32_t passer = number % 2 ? STAYING + number / 2 : number / 2 - 1;
    return passers[(passer < passed ? passer : number / 2) % PLACES].name;
}

static void take_over(uint32_t number) {
    call(&owners[number % OWNERS].client, request_name(NAME, ALLOW_REPLACEMENT | REPLACE_EXISTING));
}

static void take_or_give_up(uint32_t number) {
    struct client *c = &owners[(number - 1) % OWNERS].client;
    const char *name = name_changed(number);
    bool is_taken = (number - 1) / OWNERS % 2 == 0;
    call(c, is_taken ? request_name(name, 0) : bus_call(BUS_NAME, "ReleaseName", name));
}

/* Nothing answers a client that goes. */
static void come_or_go(uint32_t number) {
    if (number % 2) {
        join(&passers[passed % PLACES]);
        passed++;
        return;
    }
    close(passers[(number / 2 - 1) % PLACES].fd);
    while (announced < number) pause_for(PAUSE);
}

static void put_whole(struct owner *owner, struct message m) {
    pthread_mutex_lock(&owner->writing);
    uint32_t serial = ++owner->client.serial;
    memcpy(m.bytes + 8, &serial, 4);
    put(&owner->client, m.bytes, m.len);
    pthread_mutex_unlock(&owner->writing);
}

/* The owner's thread reads the answer. */
static void take_over_beside(uint32_t number) {
    struct owner *owner = &owners[number % OWNERS];
    uint32_t before = owner->answers;
    put_whole(owner, request_name(NAME, ALLOW_REPLACEMENT | REPLACE_EXISTING));
    while (owner->answers == before) pause_for(PAUSE);
}

/* The observer itself takes the name, and gives it up, while the answers to earlier ones are still open. */
static void take_again(uint32_t number) {
    struct message m = number % 2 ? request_name(NAME, 0) : bus_call(BUS_NAME, "ReleaseName", NAME);
    uint32_t serial = ++observer.serial;
    memcpy(m.bytes + 8, &serial, 4);
    while (number > answers + OPEN) pause_for(PAUSE);
    put(&observer, m.bytes, m.len);
}

/* The reply to a call of the name has the number of the change by which the one who replies owns it. */
static void reply(struct owner *owner, const unsigned char *call, uint32_t number) {
    struct message m = begun(RETURN, NO_REPLY_EXPECTED, 1), body = {.len = 0};
    word(&body, number);
    begin_field(&m, REPLY_SERIAL, 'u');
    word(&m, number_at(call + 8));
    field(&m, DESTINATION, "s", text_of(call, SENDER));
    field(&m, SIGNATURE, "g", "u");
    add_body(&m, &body);
    put_whole(owner, m);
}

/* A call that reaches a client which doesn't own the name was under way while the client lost it, or is ahead of its NameAcquired. It is
   ahead if the client never had the name, or if the change after the loss had been announced when the call was sent. */
static void serve_call(struct owner *owner, const unsigned char *call) {
    uint32_t sent_after = questions[number_at(call + 8) % QUESTIONS].announced, lost_at = owner->change - OWNERS + 1;
    bool is_ahead = !owner->is_owner && (owner->change < OWNERS || sent_after > lost_at), is_late = !owner->is_owner && !is_ahead;
    ahead += is_ahead;
    reply(owner, call, is_late ? owner->change - OWNERS : owner->change);
}

static void treat_as_owner(struct owner *owner, const unsigned char *message) {
    if (message[1] == FAULT) stop(text_of(message, ERROR_NAME));
    if (message[1] == RETURN) owner->answers++;
    if (message[1] == CALL) serve_call(owner, message);
    if (is_signal(message, "NameAcquired")) owner->is_owner = true;
    if (is_signal(message, "NameLost")) {
        owner->is_owner = false;
        owner->change += OWNERS;
    }
}

static void *serve(void *given) {
    struct owner *owner = given;
    struct client *c = &owner->client;
    while (!is_over) {
        size_t at = 0, whole;
        receive(c);
        for (; (whole = whole_len(c->unread + at, c->len - at)); at += whole) treat_as_owner(owner, c->unread + at);
        drop_read(c, at);
    }
    return NULL;
}

static struct message call_about(enum kind kind, const char *name) {
    switch (kind) {
    case GET_OWNER: return bus_call(BUS_NAME, "GetNameOwner", name);
    case HAS_OWNER: return bus_call(BUS_NAME, "NameHasOwner", name);
    case LIST: return bus_call(BUS_NAME, "ListNames", NULL);
    default: return made(CALL, 1, name, OBJECT, INTERFACE_NAME, "Ask", NULL);
    }
}

/* Asks about the name of the change that was announced last, or of the next one, by turns. */
static void ask_next(void) {
    uint32_t serial = ++observer.serial, number = question_count++;
    enum kind kind = mode->questions[number % 2];
    const char *name = mode->subject(announced + number / 2 % 2);
    struct message m = call_about(kind, name);
    uint32_t bits = mode->bit_of && kind != LIST ? mode->bit_of(name) : EVERY_BIT;
    questions[serial % QUESTIONS] = (struct question){serial, kind, bits, announced};
    memcpy(m.bytes + 8, &serial, 4);
    put(&observer, m.bytes, m.len);
    open_questions++;
}

/* What a list of names tells: an array of texts. */
static uint32_t bits_of_list(const unsigned char *body) {
    uint32_t bits = 0, end = 4 + number_at(body);
    for (uint32_t at = 4; at < end; at = next_text(body, at)) bits |= mode->bit_of(text_at(body, at));
    return bits;
}

static uint32_t bits_told(const struct question *question, const unsigned char *message, size_t whole) {
    const unsigned char *body = body_of(message, whole);
    if (question->kind == LIST) return bits_of_list(body);
    if (question->kind == HAS_OWNER) return number_at(body) ? question->bits : 0;
    return message[1] == FAULT ? 0 : owner_bit(text_at(body, 0));
}

/* An answer is right where it tells the state that was announced last. One that tells the state of a change to come is ahead. */
static void judge(uint32_t bits, uint32_t told) {
    for (uint32_t lead = 0; lead <= LEAD; lead++) {
        if ((mode->state(announced + lead) & bits) != told) continue;
        ahead += lead > 0;
        return;
    }
    stale++;
}

static const struct question *question_of(const unsigned char *message) {
    uint32_t serial = number_at(field_of(message, REPLY_SERIAL));
    const struct question *question = &questions[serial % QUESTIONS];
    if (question->serial != serial) stop("an answer to no question");
    open_questions--;
    answers++;
    return question;
}

static void treat_answer(const unsigned char *message, size_t whole) {
    const struct question *question = question_of(message);
    if (message[1] == FAULT && (question->kind != GET_OWNER || strcmp(text_of(message, ERROR_NAME), NO_OWNER)))
        stop(text_of(message, ERROR_NAME));
    judge(question->bits, bits_told(question, message, whole));
}

/* Owners reply in an order of their own. A reply may be of an owner of before, but of none that wasn't announced yet, nor of one that
   comes before the owner that was known when the question was asked. */
static void treat_reply(const unsigned char *message, size_t whole) {
    if (message[1] == FAULT) stop(text_of(message, ERROR_NAME));
    uint32_t number = number_at(body_of(message, whole)), known = question_of(message)->announced;
    ahead += number > announced;
    stale += number < known;
}

static uint32_t picture_after(const char *name, const char *owner) {
    if (!mode->bit_of) return owner_bit(owner);
    return owner[0] ? picture | mode->bit_of(name) : picture & ~mode->bit_of(name);
}

static void treat_announcement(const unsigned char *body) {
    const char *name = text_at(body, 0), *owner = text_at(body, next_text(body, next_text(body, 0)));
    if (mode->bit_of && !mode->bit_of(name)) return;
    picture = picture_after(name, owner);
    if (picture != mode->state(announced + 1)) stop("an announcement that wasn't due");
    announced++;
}

static void treat_as_observer(const unsigned char *message, size_t whole) {
    if (is_signal(message, "NameOwnerChanged")) treat_announcement(body_of(message, whole));
    else if (message[1] != SIGNAL && mode->questions[0] == ASK) treat_reply(message, whole);
    else if (message[1] != SIGNAL) treat_answer(message, whole);
}

/* The number of the change that a signal tells the taker of. */
static uint32_t change_told(const unsigned char *message) {
    if (is_signal(message, "NameOwnerChanged")) return ++announced;
    if (is_signal(message, "NameAcquired")) return 2 * acquired++ + 1;
    if (is_signal(message, "NameLost")) return 2 * ++lost;
    stop("a strange signal");
    return 0;
}

/* The signals of a change come after the answer to the change before it, and before its own. */
static void treat_as_taker(const unsigned char *message, size_t whole) {
    if (message[1] == FAULT) stop(text_of(message, ERROR_NAME));
    if (message[1] != SIGNAL) {
        answers++;
        return;
    }
    uint32_t number = change_told(message);
    late += number <= answers;
    ahead += number > answers + 1;
}

static const struct mode modes[] = {
    {"answers", OF_BUS("NameOwnerChanged") OF_THE_NAME, take_over, treat_as_observer, one_owner, NULL, the_name,
     {GET_OWNER, GET_OWNER}},
    {"owned", OF_BUS("NameOwnerChanged") OF_THE_NAMES, take_or_give_up, treat_as_observer, names_taken, name_bit, name_changed,
     {GET_OWNER, HAS_OWNER}},
    {"listed", OF_BUS("NameOwnerChanged") OF_THE_NAMES, take_or_give_up, treat_as_observer, names_taken, name_bit, name_changed,
     {LIST, LIST}},
    {"connected", OF_BUS("NameOwnerChanged"), come_or_go, treat_as_observer, passers_there, passer_bit, passer_changed,
     {LIST, HAS_OWNER}},
    {"asked", OF_BUS("NameOwnerChanged") OF_THE_NAME, take_over_beside, treat_as_observer, one_owner, NULL, the_name, {ASK, ASK}},
    {"taken_again", OF_BUS("NameOwnerChanged") OF_THE_NAME, take_again, treat_as_taker},
};

static bool is_all_told(void) {
    bool is_told = announced == changes && !open_questions;
    if (mode->change != take_again) return is_told;
    return is_told && answers == changes && acquired == (changes + 1) / 2 && lost == changes / 2;
}

static void *observe(void *unused) {
    struct client *c = &observer;
    while (!is_all_told()) {
        while (mode->subject && announced < changes && open_questions < OPEN) ask_next();
        size_t at = 0, whole;
        receive(c);
        for (; (whole = whole_len(c->unread + at, c->len - at)); at += whole) mode->treat(c->unread + at, whole);
        drop_read(c, at);
    }
    return unused;
}

/* Reads all listeners in sweeps, so that one read takes many messages. */
static void *listen_all(void *given) {
    int poll = *(int *)given;
    struct epoll_event events[MAX_BETWEEN];
    while (!is_over) {
        int count = epoll_wait(poll, events, MAX_BETWEEN, 100);
        for (int i = 0; i < count; i++) fill(&listeners[events[i].data.u32]);
        uint32_t least = UINT32_MAX;
        for (int i = 0; i < listener_count; i++) least = lesser(least, listeners[i].signals);
        least_heard = least;
        pause_for(SWEEP);
    }
    return NULL;
}

static void connect_owners(void) {
    for (uint32_t i = 0; i < OWNERS; i++) {
        join(&owners[i].client);
        pthread_mutex_init(&owners[i].writing, NULL);
        owners[i].change = i;
        snprintf(names[i], sizeof names[i], NAMES ".N%u", i);
    }
}

/* The first owner has the name from the beginning in modes whose states always have an owner, and has been told so. */
static void give_to_first_owner(void) {
    struct owner *first = &owners[0];
    call(&first->client, request_name(NAME, ALLOW_REPLACEMENT));
    while (!first->client.signals) fill(&first->client);
    first->is_owner = true;
}

static void connect_listeners(int poll) {
    for (int i = 0; i < listener_count; i++) {
        struct epoll_event event = {.events = EPOLLIN, .data.u32 = i};
        join(&listeners[i]);
        if (epoll_ctl(poll, EPOLL_CTL_ADD, listeners[i].fd, &event)) fail("epoll");
        last_staying = number_in(listeners[i].name);
    }
}

/* Nobody has a rule until all are there, so that only changes of the round are announced. */
static void connect_all(int poll) {
    connect_owners();
    if (mode->state == one_owner) give_to_first_owner();
    for (; mode->change == come_or_go && passed < STAYING; passed++) join(&passers[passed]);
    join(&observer);
    last_staying = number_in(observer.name);
    connect_listeners(poll);
    for (int i = 0; i < listener_count; i++) add(&listeners[i], mode->rule);
    add(&observer, mode->rule);
    if (mode->change == take_again) {
        add(&observer, OF_BUS("NameAcquired"));
        add(&observer, OF_BUS("NameLost"));
    }
    if (mode->state) picture = mode->state(0);
}

/* The observer has no more changes to read than are told apart, and a listener no more than it has room for. */
static void make_changes(void) {
    for (uint32_t number = 1; number <= changes; number++) {
        while (announced + LEAD < number && mode->state) pause_for(PAUSE);
        while (least_heard < number && number - least_heard > MAX_BEHIND) pause_for(PAUSE);
        started = number;
        mode->change(number);
        alarm(PATIENCE);
    }
}

static void play_all(int poll) {
    pthread_t observing, listening;
    for (int i = 0; i < OWNERS && mode->change == take_over_beside; i++) begin(&owners[i].thread, serve, &owners[i]);
    begin(&observing, observe, NULL);
    begin(&listening, listen_all, &poll);
    make_changes();
    pthread_join(observing, NULL);
    while (least_heard < changes) pause_for(PAUSE);
    is_over = true;
    pthread_join(listening, NULL);
    for (int i = 0; i < listener_count; i++)
        if (listeners[i].signals > changes) stop("a change was announced twice");
}

int main(int words, char **word) {
    if (words != 5) return fprintf(stderr, "usage: names SOCKET MODE LISTENERS CHANGES\n"), 2;
    path = word[1];
    for (size_t i = 0; i < sizeof modes / sizeof modes[0]; i++)
        if (!strcmp(modes[i].name, word[2])) mode = &modes[i];
    listener_count = atoi(word[3]);
    changes = atoi(word[4]);
    bool is_right = mode && listener_count >= 0 && listener_count <= MAX_BETWEEN;
    if (!is_right) return fprintf(stderr, "names: no such mode or number\n"), 2;
    signal(SIGPIPE, SIG_IGN);
    signal(SIGALRM, end_of_patience);
    prctl(PR_SET_TIMERSLACK, 1000L);
    alarm(CONNECTING);
    int poll = epoll_create1(0);
    connect_all(poll);
    play_all(poll);
    printf("%u ahead, %u %s, %u answers\n", ahead, mode->state ? stale : late, mode->state ? "stale" : "late", answers);
    return 0;
}
