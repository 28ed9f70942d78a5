/* How long programs run: by this library's machine and by libpcap's, over the same bytes; and rules, by their
   programs and by the plain test. See README.md. */
#include "measure.h"

#include <pcap/pcap.h>
#include <string.h>

/* what is measured stands in the program once for each place */
#define PLACES 4
#define PLACED(place) \
    uint64_t bench_programs_run_##place(const uint8_t *program, size_t program_len, const uint8_t *message, size_t message_len, uint32_t edition, uint32_t turns); \
    uint64_t bench_rules_hold_##place(const uint8_t *text, size_t text_len, const uint8_t *message, size_t message_len, uint32_t turns); \
    u_int bpf_filter_##place(const struct bpf_insn *program, const u_char *packet, u_int wire_len, u_int buffer_len);
PLACED(0)
PLACED(16)
PLACED(32)
PLACED(48)

uint32_t bench_programs_steps(const uint8_t *program, size_t program_len, const uint8_t *message, size_t message_len, uint32_t edition);
uint64_t bench_programs_image(const uint8_t *message, size_t message_len, uint32_t edition, uint32_t turns);
size_t bench_programs_summary(const uint8_t *message, size_t message_len, uint32_t edition, uint8_t *room, size_t room_len);
size_t bench_rules_compile(const uint8_t *text, size_t text_len, uint8_t *room, size_t room_len);

#define MAX_INSTRUCTIONS 4096
#define MAX_MESSAGE 4096
#define MAX_SUMMARY 976

static uint8_t message[MAX_MESSAGE];
static size_t message_len;

/* the image's bytes in one piece, as libpcap wants them */
static uint8_t image[MAX_SUMMARY + MAX_MESSAGE];
static size_t image_len;

static struct bpf_insn program[MAX_INSTRUCTIONS];
static size_t program_len;

static uint32_t edition;

static void read_message(const char *path) {
    FILE *file = fopen(path, "r");
    unsigned byte;
    if (!file)
        fail(path);
    message_len = 0;
    while (message_len < MAX_MESSAGE && fscanf(file, " %2x", &byte) == 1)
        message[message_len++] = (uint8_t)byte;
    fclose(file);
}

static void make_image(uint32_t of) {
    edition = of;
    size_t summary = bench_programs_summary(message, message_len, edition, image, MAX_SUMMARY);
    if (summary == 0)
        fail("no message");
    memcpy(image + summary, message, message_len);
    image_len = summary + message_len;
}

static void add(uint16_t code, uint8_t jt, uint8_t jf, uint32_t k) {
    struct bpf_insn instruction = {code, jt, jf, k};
    program[program_len++] = instruction;
}

#define AT(place) \
    static uint64_t run_at_##place(const void *on, uint32_t turns) { \
        (void)on; \
        return bench_programs_run_##place((const uint8_t *)program, program_len * sizeof program[0], message, message_len, edition, turns); \
    } \
    static uint64_t hold_at_##place(const void *on, uint32_t turns) { \
        const char *rule = on; \
        return bench_rules_hold_##place((const uint8_t *)rule, strlen(rule), message, message_len, turns); \
    } \
    static uint64_t filter_at_##place(const void *on, uint32_t turns) { \
        (void)on; \
        uint64_t sum = 0; \
        for (uint32_t turn = 0; turn < turns; turn++) \
            sum += bpf_filter_##place(program, image, (u_int)image_len, (u_int)image_len); \
        return sum; \
    }
AT(0)
AT(16)
AT(32)
AT(48)

typedef uint64_t (*runs[PLACES])(const void *on, uint32_t turns);
static const runs run_here = {run_at_0, run_at_16, run_at_32, run_at_48};
static const runs run_libpcap = {filter_at_0, filter_at_16, filter_at_32, filter_at_48};
static const runs hold = {hold_at_0, hold_at_16, hold_at_32, hold_at_48};

static uint64_t make_images(const void *on, uint32_t turns) {
    (void)on;
    return bench_programs_image(message, message_len, edition, turns);
}

/* nanoseconds of a turn: the mean of the places, the least and the most */
struct times {
    double mean, least, most;
};

static struct times times_of(const struct work *works) {
    struct times times = {0, works[0].nanoseconds, works[0].nanoseconds};
    for (size_t i = 0; i < PLACES; i++) {
        double here = works[i].nanoseconds;
        times.mean += here / PLACES;
        times.least = here < times.least ? here : times.least;
        times.most = here > times.most ? here : times.most;
    }
    return times;
}

/* as "mean (least to most)", in a buffer that the next call but one writes over */
static const char *words_of(struct times times, int digits) {
    static char words[2][64];
    static int turn;
    turn = 1 - turn;
    snprintf(words[turn], sizeof words[turn], "%.*f (%.*f to %.*f)", digits, times.mean, digits, times.least, digits, times.most);
    return words[turn];
}

/* both at all places, in the same rounds */
static void measure_both(const runs ours, const runs other, const void *on, struct times *here, struct times *there) {
    struct work works[2 * PLACES] = {0};
    for (size_t i = 0; i < PLACES; i++) {
        works[i] = (struct work){.run = ours[i], .on = on};
        works[PLACES + i] = (struct work){.run = other[i], .on = on};
    }
    measure(works, 2 * PLACES);
    *here = times_of(works);
    *there = times_of(works + PLACES);
}

static uint32_t steps(void) {
    return bench_programs_steps((const uint8_t *)program, program_len * sizeof program[0], message, message_len, edition);
}

static void compare(const char *name) {
    if (run_here[0](NULL, 1) != run_libpcap[0](NULL, 1))
        fail("the machines disagree");
    struct times here, libpcap;
    measure_both(run_here, run_libpcap, NULL, &here, &libpcap);
    printf("%-10s %12zu %5u  %-21s %-21s %.2f\n", name, program_len, steps(), words_of(here, 0), words_of(libpcap, 0), libpcap.mean / here.mean);
    program_len = 0;
}

static void straight(void) {
    for (uint32_t i = 0; i < MAX_INSTRUCTIONS - 1; i++)
        add(i % 3 == 0 ? 0x04 : i % 3 == 1 ? 0xa4 : 0x24, 0, 0, i | 1);
    add(0x16, 0, 0, 0);
}

/* of each pair the second jumps over none or one of two, by a byte of the image */
static void branchy(void) {
    for (uint32_t i = 0; i < 13; i++) {
        add(0x30, 0, 0, 904 + i);
        add(0x25, (uint8_t)(i % 2), 0, 16 * i);
        add(0x04, 0, 0, 1);
    }
    add(0x06, 0, 0, 1);
}

static void loads(void) {
    add(0x01, 0, 0, 700);
    for (uint32_t i = 0; i < 60; i++) {
        add(0x20, 0, 0, 4 * i);
        add(0x28, 0, 0, 904 + i % 32);
        add(0x50, 0, 0, 204 + i % 32);
        add(0x40, 0, 0, 3 * i);
    }
    add(0x16, 0, 0, 0);
}

/* as desktop shells and session services give them */
static const char *const rules[] = {
    "type='signal',sender='org.freedesktop.DBus',interface='org.freedesktop.DBus',member='NameOwnerChanged',path='/org/freedesktop/DBus',arg0='org.gnome.Shell'",
    "type='signal',sender='org.freedesktop.DBus',interface='org.freedesktop.DBus',member='NameOwnerChanged',path='/org/freedesktop/DBus',arg0namespace='org.mpris.MediaPlayer2'",
    "type='signal',sender='org.freedesktop.NetworkManager',interface='org.freedesktop.DBus.Properties',member='PropertiesChanged',path='/org/freedesktop/NetworkManager'",
    "type='signal',interface='org.freedesktop.DBus.Properties',member='PropertiesChanged',path_namespace='/org/freedesktop/UPower'",
    "type='signal',sender='org.freedesktop.login1',interface='org.freedesktop.login1.Manager',member='PrepareForSleep',path='/org/freedesktop/login1'",
    "type='signal',sender='org.freedesktop.login1',interface='org.freedesktop.login1.Manager',member='SessionNew',path='/org/freedesktop/login1'",
    "type='signal',sender='org.freedesktop.NetworkManager',path_namespace='/org/freedesktop',interface='org.freedesktop.DBus.ObjectManager',member='InterfacesAdded'",
    "type='signal',sender='org.bluez',path_namespace='/org/bluez',interface='org.freedesktop.DBus.Properties',member='PropertiesChanged',arg0='org.bluez.Device1'",
    "type='signal',sender='org.bluez',path='/',interface='org.freedesktop.DBus.ObjectManager',member='InterfacesRemoved'",
    "type='signal',interface='ca.desrt.dconf.Writer',path='/ca/desrt/dconf/Writer/user',arg0path='/org/gnome/desktop/interface/'",
    "type='signal',sender='org.gnome.Mutter.IdleMonitor',interface='org.gnome.Mutter.IdleMonitor',member='WatchFired',path='/org/gnome/Mutter/IdleMonitor/Core'",
    "type='signal',interface='org.freedesktop.Notifications',member='NotificationClosed',path='/org/freedesktop/Notifications'",
    "type='signal',interface='org.kde.StatusNotifierWatcher',member='StatusNotifierItemRegistered',path='/StatusNotifierWatcher'",
    "type='signal',sender='org.freedesktop.PolicyKit1',interface='org.freedesktop.PolicyKit1.Authority',member='Changed',path='/org/freedesktop/PolicyKit1/Authority'",
    "type='signal',sender='org.freedesktop.systemd1',interface='org.freedesktop.systemd1.Manager',member='JobRemoved',path='/org/freedesktop/systemd1'",
    "type='signal',sender='org.freedesktop.systemd1',interface='org.freedesktop.DBus.Properties',member='PropertiesChanged',path_namespace='/org/freedesktop/systemd1/unit'",
    "type='signal',interface='org.freedesktop.portal.Settings',member='SettingChanged',path='/org/freedesktop/portal/desktop',arg0namespace='org.freedesktop.appearance'",
    "type='signal',interface='org.gnome.ScreenSaver',member='ActiveChanged'",
    "type='signal',sender='org.freedesktop.timedate1',interface='org.freedesktop.DBus.Properties',member='PropertiesChanged',path='/org/freedesktop/timedate1',arg0='org.freedesktop.timedate1'",
    "type='method_return'",
};

static void compare_rules(void) {
    printf("\n%-54s %12s %5s %5s  %-20s %s\n", "rule", "instructions", "match", "steps", "run ns", "plain ns");
    for (size_t i = 0; i < sizeof rules / sizeof rules[0]; i++) {
        const char *rule = rules[i];
        program_len = bench_rules_compile((const uint8_t *)rule, strlen(rule), (uint8_t *)program, sizeof program) / sizeof program[0];
        if (program_len == 0)
            fail("no program");
        uint64_t holds = hold[0](rule, 1);
        if (holds != run_here[0](NULL, 1) || holds != run_libpcap[0](NULL, 1))
            fail("the rule's program disagrees with the plain test");
        const char *member = strstr(rule, "member=");
        struct times run, plain;
        measure_both(run_here, hold, rule, &run, &plain);
        printf("%2zu %-51.51s %12zu %5s %5u  %-20s %s\n", i + 1, member ? member : rule, program_len, holds ? "yes" : "no", steps(), words_of(run, 1),
            words_of(plain, 1));
    }
}

int main(int count, char **paths) {
    if (count < 2)
        fail("programs MESSAGE ..");
    read_message(paths[1]);
    make_image(1);
    printf("%-10s %12s %5s  %-21s %-21s %s\n", "ns a run", "instructions", "steps", "dbusfan", "libpcap", "ratio");
    straight();
    compare("straight");
    branchy();
    compare("branchy");
    loads();
    compare("loads");
    for (int i = 1; i < count; i++) {
        read_message(paths[i]);
        make_image(2);
        struct work images = {.run = make_images};
        measure(&images, 1);
        printf("\n%s, %zu bytes; its image in edition 2 is made in %.0f ns\n", paths[i], message_len, images.nanoseconds);
        compare_rules();
    }
    return 0;
}
