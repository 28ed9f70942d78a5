/* How long it takes to find a message's recipients, among rules of which one holds, none or all. See README.md. */

/* Many, since a machine that others share changes its speed from second to second. */
#define ROUNDS 40
#include "measure.h"

#include <string.h>

uint64_t bench_recipients_select(const uint8_t *rules, size_t rules_len, uint32_t of_each, const uint8_t *message, size_t message_len, uint32_t turns);
uint32_t bench_recipients_runs(const uint8_t *rules, size_t rules_len, uint32_t of_each, const uint8_t *message, size_t message_len);
uint64_t bench_recipients_image(const uint8_t *message, size_t message_len, uint32_t turns);
uint64_t bench_recipients_read(const uint8_t *message, size_t message_len, uint32_t turns);

#define MAX_RULES (16384 * 128)
#define MAX_MESSAGE 1024

static char rules[MAX_RULES];
static size_t rules_len;
static uint32_t of_each;

static uint8_t message[MAX_MESSAGE];
static size_t message_len;

/* All are signals with serial 1, made by `check_world.py message` of the words above them. */

/* signal path=/org/example/Thing interface=org.example.Things member=m7 s:hello */
static const char by_member[] =
    "6c0400010a000000010000005700000001016f00120000002f6f72672f6578616d706c652f5468696e67000000000000"
    "02017300120000006f72672e6578616d706c652e5468696e677300000000000003017300020000006d37000000000000"
    "08016700017300000500000068656c6c6f00";

/* signal path=/org/example/Thing interface=org.example.i7 member=Changed s:hello */
static const char by_interface[] = 
    "6c0400010a000000010000004f00000001016f00120000002f6f72672f6578616d706c652f5468696e67000000000000"
    "020173000e0000006f72672e6578616d706c652e6937000003017300070000004368616e676564000801670001730000"
    "0500000068656c6c6f00";

/* signal path=/org/example/o7 interface=org.freedesktop.DBus.Properties member=PropertiesChanged s:org.example.Thing */
static const char by_path[] = 
    "6c04000116000000010000006700000001016f000f0000002f6f72672f6578616d706c652f6f3700020173001f000000"
    "6f72672e667265656465736b746f702e444275732e50726f7065727469657300030173001100000050726f7065727469"
    "65734368616e676564000000000000000801670001730000110000006f72672e6578616d706c652e5468696e6700";

/* signal path=/org/freedesktop/DBus interface=org.freedesktop.DBus member=NameOwnerChanged sender=org.freedesktop.DBus
   s:org.example.n7 s: s::1.7 */
static const char by_arg0[] = 
    "6c04000125000000010000008900000001016f00150000002f6f72672f667265656465736b746f702f44427573000000"
    "02017300140000006f72672e667265656465736b746f702e444275730000000003017300100000004e616d654f776e65"
    "724368616e676564000000000000000007017300140000006f72672e667265656465736b746f702e4442757300000000"
    "080167000373737300000000000000000e0000006f72672e6578616d706c652e6e370000000000000000000004000000"
    "3a312e3700";

/* signal path=/org/freedesktop/DBus interface=org.freedesktop.DBus member=NameOwnerChanged sender=org.freedesktop.DBus
   s:org.example.n7.part s: s::1.7 */
static const char by_arg0_namespace[] = 
    "6c04000129000000010000008900000001016f00150000002f6f72672f667265656465736b746f702f44427573000000"
    "02017300140000006f72672e667265656465736b746f702e444275730000000003017300100000004e616d654f776e65"
    "724368616e676564000000000000000007017300140000006f72672e667265656465736b746f702e4442757300000000"
    "08016700037373730000000000000000130000006f72672e6578616d706c652e6e372e70617274000000000000000000"
    "040000003a312e3700";

/* signal path=/org/example/o7/part interface=org.example.Things member=Changed s:hello */
static const char by_namespace[] = 
    "6c0400010a000000010000005700000001016f00140000002f6f72672f6578616d706c652f6f372f7061727400000000"
    "02017300120000006f72672e6578616d706c652e5468696e677300000000000003017300070000004368616e67656400"
    "08016700017300000500000068656c6c6f00";

static void read_message(const char *hex) {
    message_len = strlen(hex) / 2;
    for (size_t i = 0; i < message_len; i++) {
        unsigned byte;
        if (sscanf(hex + 2 * i, "%2x", &byte) != 1)
            fail("no message");
        message[i] = (uint8_t)byte;
    }
}

/* `count` rules of this form, of which the form may name the number, `each` of a connection */
static void give(uint32_t count, uint32_t each, const char *form) {
    rules_len = 0;
    of_each = each;
    for (uint32_t i = 0; i < count; i++) {
        if (i)
            rules[rules_len++] = '\n';
        rules_len += (size_t)snprintf(rules + rules_len, MAX_RULES - rules_len, form, i);
        if (rules_len >= MAX_RULES - 1)
            fail("too many rules");
    }
}

/* The state is made anew for each call. */
static uint64_t find(const void *on, uint32_t turns) {
    (void)on;
    return bench_recipients_select((const uint8_t *)rules, rules_len, of_each, message, message_len, turns);
}

static uint64_t make_images(const void *on, uint32_t turns) {
    (void)on;
    return bench_recipients_image(message, message_len, turns);
}

static uint64_t read_only(const void *on, uint32_t turns) {
    (void)on;
    return bench_recipients_read(message, message_len, turns);
}

static void show(const char *name, const char *hex) {
    read_message(hex);
    struct work works[] = {{.run = read_only}, {.run = make_images}, {.run = find}};
    measure(works, 3);
    double image = works[1].nanoseconds, found = works[2].nanoseconds;
    uint32_t runs = bench_recipients_runs((const uint8_t *)rules, rules_len, of_each, message, message_len);
    printf("%-34s %8llu %8u %8.0f %8.0f %8.0f %8.0f\n", name, (unsigned long long)find(NULL, 1), runs, works[0].nanoseconds,
           image, found, found - image);
    fflush(stdout);
}

int main(void) {
    printf("%-34s %8s %8s %8s %8s %8s %8s\n", "nanoseconds a message", "found", "runs", "read", "+ image", "+ select", "more");
    give(250 * 4, 4, "member='m%u'");
    show("250 x 4 by member", by_member);
    give(250 * 4, 4, "member='Changed',interface='org.example.i%u'");
    show("250 x 4 by interface", by_interface);
    give(250 * 4, 4, "interface='org.freedesktop.DBus.Properties',member='PropertiesChanged',path='/org/example/o%u'");
    show("250 x 4 by path", by_path);
    give(250 * 4, 4, "sender='org.freedesktop.DBus',interface='org.freedesktop.DBus',member='NameOwnerChanged',arg0='org.example.n%u'");
    show("250 x 4 by arg0", by_arg0);
    give(250 * 64, 64, "member='m%u'");
    show("250 x 64 by member", by_member);
    give(250 * 64, 64, "sender='org.freedesktop.DBus',interface='org.freedesktop.DBus',member='NameOwnerChanged',arg0='org.example.n%u'");
    show("250 x 64 by arg0", by_arg0);
    give(250 * 4, 4, "path_namespace='/org/example/o%u'");
    show("250 x 4 by path_namespace", by_namespace);
    give(250 * 4, 4, "arg0namespace='org.example.n%u'");
    show("250 x 4 by arg0namespace", by_arg0_namespace);
    give(250 * 4, 4, "sender='org.freedesktop.DBus',interface='org.freedesktop.DBus',member='NameOwnerChanged',arg0namespace='org.example.n%u'");
    show("250 x 4 by names of the bus", by_arg0_namespace);
    give(250 * 64, 64, "path_namespace='/org/example/o%u'");
    show("250 x 64 by path_namespace", by_namespace);
    give(250 * 64, 64, "arg0namespace='org.example.n%u'");
    show("250 x 64 by arg0namespace", by_arg0_namespace);
    give(250, 1, "member='m7'");
    show("250 of 250", by_member);
    give(1, 1, "member='m8'");
    show("1, which doesn't hold", by_member);
    give(0, 1, "");
    show("no rules", by_member);
    return 0;
}
