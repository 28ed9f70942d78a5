/* GLib's ways to watch a name and to own one, many times over, on the session bus. See README.md. */
#include <gio/gio.h>
#include <signal.h>
#include <stdlib.h>
#include <string.h>
#include <unistd.h>

#define NAME "com.example.clients.Names"
#define BUS_NAME "org.freedesktop.DBus"
#define BUS_OBJECT "/org/freedesktop/DBus"

/* How many seconds a watch or a round may take, and how many until the last word of a watch is wrong. */
#define PATIENCE 20
#define LAST_WORD 5

enum { DO_NOT_QUEUE = 4 };

/* What the watcher was told last. */
enum word { NOTHING, APPEARED, VANISHED };

static GDBusConnection *session, *service;
static GMutex lock;
static GCond changed;
static gboolean is_held, is_settled, is_owned, is_over;
static enum word last_word;
static guint warnings, wrong, acquired, lost;

static void count_warning(const gchar *domain, GLogLevelFlags level, const gchar *text, gpointer unused) {
    if (level & (G_LOG_LEVEL_ERROR | G_LOG_LEVEL_CRITICAL | G_LOG_LEVEL_WARNING) && warnings++ == 0)
        g_printerr("the first warning: %s: %s\n", domain, text);
}

static void end_of_patience(int unused) {
    g_printerr("nothing came any more\n");
    _exit(1);
}

static void ask_bus(GDBusConnection *connection, const gchar *member, GVariant *arguments) {
    GError *error = NULL;
    GVariant *answer = g_dbus_connection_call_sync(connection, BUS_NAME, BUS_OBJECT, BUS_NAME, member, arguments, NULL,
                                                   G_DBUS_CALL_FLAGS_NONE, -1, NULL, &error);
    if (!answer) g_error("%s: %s", member, error->message);
    g_variant_unref(answer);
}

static GDBusConnection *connect_to_session(void) {
    GError *error = NULL;
    gchar *address = g_dbus_address_get_for_bus_sync(G_BUS_TYPE_SESSION, NULL, &error);
    GDBusConnection *connection = address ? g_dbus_connection_new_for_address_sync(address,
        G_DBUS_CONNECTION_FLAGS_AUTHENTICATION_CLIENT | G_DBUS_CONNECTION_FLAGS_MESSAGE_BUS_CONNECTION, NULL, NULL, &error) : NULL;
    if (!connection) g_error("no bus: %s", error->message);
    g_free(address);
    return connection;
}

static void take_or_give_up(void) {
    if (is_owned) ask_bus(service, "ReleaseName", g_variant_new("(s)", NAME));
    else ask_bus(service, "RequestName", g_variant_new("(su)", NAME, DO_NOT_QUEUE));
}

/* The service takes the name and gives it up all the time, but for when it is held. */
static gpointer serve(gpointer unused) {
    g_mutex_lock(&lock);
    while (!is_over) {
        g_mutex_unlock(&lock);
        take_or_give_up();
        g_mutex_lock(&lock);
        is_owned = !is_owned;
        is_settled = is_held;
        g_cond_broadcast(&changed);
        while (is_held) g_cond_wait(&changed, &lock);
        is_settled = FALSE;
    }
    g_mutex_unlock(&lock);
    return unused;
}

static void hold_service(gboolean held) {
    g_mutex_lock(&lock);
    is_held = held;
    g_cond_broadcast(&changed);
    while (is_held && !is_settled) g_cond_wait(&changed, &lock);
    g_mutex_unlock(&lock);
}

static void note_appeared(GDBusConnection *connection, const gchar *name, const gchar *owner, gpointer unused) {
    last_word = APPEARED;
    wrong += strcmp(owner, g_dbus_connection_get_unique_name(service)) != 0;
}

static void note_vanished(GDBusConnection *connection, const gchar *name, gpointer unused) { last_word = VANISHED; }

/* Whether the watcher's last word is that of the service, which is held. The bus has been asked something since, so that all that
   it said of the name before has come; it has a while nevertheless. */
static gboolean is_right(void) {
    enum word right = is_owned ? APPEARED : VANISHED;
    gint64 until = g_get_monotonic_time() + LAST_WORD * G_USEC_PER_SEC;
    ask_bus(session, "GetId", NULL);
    while (g_main_context_iteration(NULL, FALSE)) continue;
    while (last_word != right && g_get_monotonic_time() < until) {
        if (!g_main_context_iteration(NULL, FALSE)) g_usleep(1000);
    }
    return last_word == right;
}

static void watch_once(void) {
    last_word = NOTHING;
    guint watch = g_bus_watch_name(G_BUS_TYPE_SESSION, NAME, G_BUS_NAME_WATCHER_FLAGS_NONE, note_appeared, note_vanished, NULL,
                                   NULL);
    while (last_word == NOTHING) g_main_context_iteration(NULL, TRUE);
    hold_service(TRUE);
    wrong += !is_right();
    g_bus_unwatch_name(watch);
    hold_service(FALSE);
    alarm(PATIENCE);
}

static void watch(int watches) {
    service = connect_to_session();
    GThread *thread = g_thread_new("service", serve, NULL);
    while (watches--) watch_once();
    g_mutex_lock(&lock);
    is_over = TRUE;
    g_mutex_unlock(&lock);
    g_thread_join(thread);
    g_print("%u wrong last words, %u warnings\n", wrong, warnings);
}

static void count_acquired(GDBusConnection *connection, const gchar *name, gpointer unused) { acquired++; }

static void count_lost(GDBusConnection *connection, const gchar *name, gpointer unused) { lost++; }

/* Nobody else wants the name, so that it is never lost. */
static void own(int rounds) {
    for (guint round = 1; rounds--; round++) {
        guint owned = round % 2
            ? g_bus_own_name_on_connection(session, NAME, G_BUS_NAME_OWNER_FLAGS_NONE, count_acquired, count_lost, NULL, NULL)
            : g_bus_own_name(G_BUS_TYPE_SESSION, NAME, G_BUS_NAME_OWNER_FLAGS_NONE, NULL, count_acquired, count_lost, NULL, NULL);
        while (acquired < round) g_main_context_iteration(NULL, TRUE);
        acquired = round;
        g_bus_unown_name(owned);
        alarm(PATIENCE);
    }
    g_print("%u wrong losses, %u warnings\n", lost, warnings);
}

int main(int words, char **word) {
    gboolean is_watch = words == 3 && !strcmp(word[1], "watch");
    if (!is_watch && (words != 3 || strcmp(word[1], "own"))) return g_printerr("usage: names watch|own TIMES\n"), 2;
    signal(SIGALRM, end_of_patience);
    alarm(PATIENCE);
    g_log_set_default_handler(count_warning, NULL);
    session = g_bus_get_sync(G_BUS_TYPE_SESSION, NULL, NULL);
    if (!session) return g_printerr("no bus\n"), 1;
    if (is_watch) watch(atoi(word[2]));
    else own(atoi(word[2]));
    return 0;
}
