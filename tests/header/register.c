/* The register's functions of include/hrazvanut.h, as a caller has them. Each is called with and without the check where the bytes are a
 * table, and after each call the changed places are held against the rights, and a refused one's register against what it was. */
#include <math.h>
#include <string.h>

#include "check.h"

static struct hrazvanut_register reg, before, other;
static uint8_t lent[HRAZVANUT_TABLE];
static struct hrazvanut_table table;

enum { PLACES = HRAZVANUT_PLACES, LETTERS = HRAZVANUT_READINGS, READINGS = HRAZVANUT_GROUPS * HRAZVANUT_READINGS };

static const char site[] = "UAG(users) {ann} HAG(hosts) {pc1}\n"
                           "ASG(\"\") {INPA(x) RULE(1,NONE)}\n"
                           "ASG(DEFAULT) {INPA(B1:PGA) INPU(B1:KEY) RULE(1,READ)\n"
                           "RULE(1,WRITE,TRAPWRITE) {UAG(users) HAG(hosts) CALC(\"A<0.3\")} RULE(0,WRITE) {CALC(\"U=7\")}}\n"
                           "ASG(tower) {INPA(x) INPB(x) RULE(0,WRITE,TRAPWRITE) {CALC(\"A=1\")}}\n";

/* ---- calls, each with what holds of every one */

/* No reading is to blame. */
static bool has(size_t place, enum hrazvanut_access access, bool trap)
{
    struct hrazvanut_right right = hrazvanut_right_of(&reg, place);
    return right.access == access && right.trap == trap && right.letter == 0;
}

static bool blames(size_t place, enum hrazvanut_access access, char letter)
{
    struct hrazvanut_right right = hrazvanut_right_of(&reg, place);
    return right.access == access && !right.trap && right.letter == letter;
}

static uint64_t differing(void)
{
    uint64_t bits = 0;
    size_t p;
    for (p = 0; p < PLACES; p++) {
        struct hrazvanut_right was = hrazvanut_right_of(&before, p), is = hrazvanut_right_of(&reg, p);
        bits |= (uint64_t)(was.access != is.access || was.trap != is.trap || was.letter != is.letter) << p;
    }
    return bits;
}

static void begin(void) { memcpy(&before, &reg, sizeof reg), memcpy(&other, &reg, sizeof reg); }

static void end(enum hrazvanut_refusal refusal, uint64_t changed)
{
    CHECK(changed == differing());
    CHECK(refusal == HRAZVANUT_NOT_REFUSED || memcmp(&reg, &before, sizeof reg) == 0);
}

static bool alike(struct hrazvanut_entered a, struct hrazvanut_entered b)
{
    return a.refusal == b.refusal && a.place == b.place && a.changed == b.changed && memcmp(&reg, &other, sizeof reg) == 0;
}

static struct hrazvanut_entered add(const struct hrazvanut_client *client)
{
    struct hrazvanut_entered entered;
    begin();
    entered = hrazvanut_add_client(&reg, table, client);
    end(entered.refusal, entered.changed);
    if (hrazvanut_is_table(table))
        CHECK(alike(entered, hrazvanut_add_client_checked(&other, table, client)));
    return entered;
}

static struct hrazvanut_entered change(size_t place, const struct hrazvanut_client *client)
{
    struct hrazvanut_entered entered;
    begin();
    entered = hrazvanut_change_client(&reg, table, place, client);
    end(entered.refusal, entered.changed);
    if (hrazvanut_is_table(table))
        CHECK(alike(entered, hrazvanut_change_client_checked(&other, table, place, client)));
    return entered;
}

static struct hrazvanut_entered remove_at(size_t place)
{
    struct hrazvanut_entered entered;
    begin();
    entered = hrazvanut_remove_client(&reg, place);
    end(entered.refusal, entered.changed);
    return entered;
}

static struct hrazvanut_reading_set set(const char *group, uint32_t letter, int state, double value)
{
    struct hrazvanut_reading reading = ZERO;
    struct hrazvanut_reading_set done, checked;
    reading.state = (enum hrazvanut_state)state;
    reading.value = value;
    begin();
    done = hrazvanut_set_reading(&reg, table, hrazvanut_string(group), letter, reading);
    end(done.refusal, done.changed);
    if (hrazvanut_is_table(table)) {
        checked = hrazvanut_set_reading_checked(&other, table, hrazvanut_string(group), letter, reading);
        CHECK(checked.refusal == done.refusal && checked.changed == done.changed && memcmp(&reg, &other, sizeof reg) == 0);
    }
    return done;
}

static struct hrazvanut_reloaded reload_into(const char *text, uint8_t *start, size_t length)
{
    struct hrazvanut_room room = ZERO;
    struct hrazvanut_reloaded reloaded;
    room.start = start;
    room.length = length;
    begin();
    reloaded = hrazvanut_reload(&reg, hrazvanut_string(text), room);
    end(reloaded.loaded.refusal, reloaded.changed);
    return reloaded;
}

/* A good load, after which the table is its own. */
static struct hrazvanut_reloaded reload(const char *text)
{
    struct hrazvanut_reloaded reloaded = reload_into(text, lent, sizeof lent);
    CHECK(reloaded.loaded.refusal == HRAZVANUT_NOT_REFUSED && reloaded.loaded.table.start == lent);
    table = reloaded.loaded.table;
    return reloaded;
}

static struct hrazvanut_client client_of(const char *group, const char *user, const char *host, uint32_t level)
{
    struct hrazvanut_client client = ZERO;
    client.group = hrazvanut_string(group);
    client.user = hrazvanut_string(user);
    client.host = hrazvanut_string(host);
    client.level = level;
    return client;
}

static void start(void)
{
    memset(&reg, 0, sizeof reg);
    memset(lent, 0, sizeof lent);
    CHECK(reload(site).changed == 0);
}

/* ---- what is checked */

static void empty(void)
{
    static const size_t beyond[] = {64, 65, 255, 256, 65536, SIZE_MAX / 2 + 1, SIZE_MAX};
    struct hrazvanut_client nobody = ZERO;
    struct hrazvanut_table none = ZERO;
    size_t i;
    CHECK(HRAZVANUT_REGISTER == 40768 && sizeof reg.places == 28672 && sizeof reg.states == 1344);
    CHECK(sizeof reg.values == 1344 * sizeof(double));
    CHECK(HRAZVANUT_PLACES == 64 && HRAZVANUT_GROUPS == 64);
    memset(&reg, 0, sizeof reg);
    table = none;
    for (i = 0; i < PLACES; i++)
        CHECK(has(i, HRAZVANUT_NONE, false));
    for (i = 0; i < sizeof beyond / sizeof *beyond; i++) {
        CHECK(has(beyond[i], HRAZVANUT_NONE, false));
        CHECK(remove_at(beyond[i]).refusal == HRAZVANUT_REFUSED_NO_CLIENT);
        CHECK(change(beyond[i], &nobody).refusal == HRAZVANUT_REFUSED_NO_CLIENT);
    }
    CHECK(set("", 0, HRAZVANUT_VALUE, 1).refusal == HRAZVANUT_REFUSED_NOT_TABLE);
    CHECK(set("", 21, HRAZVANUT_VALUE, 1).refusal == HRAZVANUT_REFUSED_NOT_TABLE);
    CHECK(add(&nobody).refusal == HRAZVANUT_NOT_REFUSED);
    CHECK(has(0, HRAZVANUT_NONE, false));
    CHECK(change(0, &nobody).refusal == HRAZVANUT_NOT_REFUSED);
    CHECK(reload(site).changed == 1);
    CHECK(blames(0, HRAZVANUT_READ, 'U'));
    for (i = 0; i < sizeof beyond / sizeof *beyond; i++) {
        CHECK(has(beyond[i], HRAZVANUT_NONE, false));
        CHECK(remove_at(beyond[i]).refusal == HRAZVANUT_REFUSED_NO_CLIENT);
        CHECK(change(beyond[i], &nobody).refusal == HRAZVANUT_REFUSED_NO_CLIENT);
    }
}

/* Each part of a client counts, and none is another. */
static void parts(void)
{
    struct hrazvanut_client ann, c;
    struct hrazvanut_entered entered;
    start();
    ann = client_of("", "ann", "PC1", 1);
    CHECK(set("", 0, HRAZVANUT_VALUE, 0.25).refusal == HRAZVANUT_NOT_REFUSED);
    entered = add(&ann);
    CHECK(entered.refusal == HRAZVANUT_NOT_REFUSED && entered.place == 0 && entered.changed == 1);
    CHECK(has(0, HRAZVANUT_WRITE, true));
    c = client_of("", "PC1", "ann", 1);
    entered = add(&c);
    CHECK(entered.place == 1 && entered.changed == 2 && has(1, HRAZVANUT_READ, false));
    entered = change(1, &ann);
    CHECK(entered.refusal == HRAZVANUT_NOT_REFUSED && entered.place == 1 && entered.changed == 2);
    CHECK(has(1, HRAZVANUT_WRITE, true));
    CHECK(change(1, &c).changed == 2 && has(1, HRAZVANUT_READ, false));
    CHECK(set("tower", 0, HRAZVANUT_VALUE, 1).changed == 0);
    c = client_of("tower", "ann", "pc1", 0);
    CHECK(change(1, &c).changed == 2 && has(1, HRAZVANUT_WRITE, true));
    CHECK(add(&c).place == 2 && has(2, HRAZVANUT_WRITE, true));
    c.level = 1;
    CHECK(change(1, &c).changed == 2 && has(1, HRAZVANUT_NONE, false));
    c = client_of("ann", "tower", "pc1", 1);
    CHECK(change(1, &c).changed == 2 && has(1, HRAZVANUT_READ, false));
    ann.user.length--;
    CHECK(change(1, &ann).changed == 0 && has(1, HRAZVANUT_READ, false));
    entered = remove_at(0);
    CHECK(entered.refusal == HRAZVANUT_NOT_REFUSED && entered.place == 0 && entered.changed == 1);
    CHECK(has(0, HRAZVANUT_NONE, false) && has(1, HRAZVANUT_READ, false));
    entered = remove_at(1);
    CHECK(entered.place == 1 && entered.changed == 2);
    CHECK(remove_at(1).refusal == HRAZVANUT_REFUSED_NO_CLIENT && remove_at(1).place == HRAZVANUT_PLACES);
}

static void refused(size_t place, const struct hrazvanut_client *client, enum hrazvanut_refusal refusal)
{
    struct hrazvanut_entered entered = add(client);
    CHECK(entered.refusal == refusal && entered.place == HRAZVANUT_PLACES && entered.changed == 0);
    entered = change(place, client);
    CHECK(entered.refusal == refusal && entered.place == HRAZVANUT_PLACES && entered.changed == 0);
    entered = change(60, client);
    CHECK(entered.refusal == HRAZVANUT_REFUSED_NO_CLIENT && entered.place == HRAZVANUT_PLACES && entered.changed == 0);
}

/* 60 and 61 bytes in each name, levels of more than 8 bits, and the order of refusals. */
static void limits(void)
{
    static const uint32_t levels[] = {2, 255, 256, 257, 65536, 65537, UINT32_C(1) << 31, UINT32_MAX};
    static char long_name[61];
    struct hrazvanut_client c;
    struct hrazvanut_text *names[3];
    size_t i;
    start();
    memset(long_name, 'x', sizeof long_name);
    c = client_of("", "ann", "pc1", 1);
    CHECK(add(&c).place == 0 && add(&c).place == 1);
    names[0] = &c.group, names[1] = &c.user, names[2] = &c.host;
    for (i = 0; i < 3; i++) {
        struct hrazvanut_text kept = *names[i];
        names[i]->start = long_name;
        names[i]->length = 61;
        refused(1, &c, HRAZVANUT_REFUSED_LONG_NAME);
        c.level = 2;
        refused(1, &c, HRAZVANUT_REFUSED_LONG_NAME);
        c.level = 1;
        names[i]->length = 60;
        CHECK(change(1, &c).refusal == HRAZVANUT_NOT_REFUSED);
        CHECK(add(&c).place == 2 + i);
        *names[i] = kept;
    }
    for (i = 0; i < sizeof levels / sizeof *levels; i++) {
        c.level = levels[i];
        refused(1, &c, HRAZVANUT_REFUSED_LEVEL);
    }
}

/* All places: the lowest free one is taken. */
static void places(void)
{
    struct hrazvanut_client c;
    size_t i;
    start();
    c = client_of("", "bob", "", 1);
    for (i = 0; i < PLACES; i++) {
        struct hrazvanut_entered entered = add(&c);
        CHECK(entered.refusal == HRAZVANUT_NOT_REFUSED && entered.place == i && entered.changed == UINT64_C(1) << i);
        CHECK(has(i, HRAZVANUT_READ, false));
    }
    CHECK(add(&c).refusal == HRAZVANUT_REFUSED_NO_PLACE && add(&c).changed == 0 && add(&c).place == HRAZVANUT_PLACES);
    c.level = 2;
    CHECK(add(&c).refusal == HRAZVANUT_REFUSED_LEVEL);
    c.level = 0;
    CHECK(set("", 20, HRAZVANUT_VALUE, 7).changed == 0);
    CHECK(change(63, &c).place == 63 && has(63, HRAZVANUT_WRITE, false));
    CHECK(change(40, &c).changed == UINT64_C(1) << 40);
    CHECK(set("", 20, HRAZVANUT_VALUE, 6).changed == (UINT64_C(1) << 63 | UINT64_C(1) << 40));
    CHECK(remove_at(63).place == 63 && remove_at(7).place == 7 && remove_at(40).place == 40);
    CHECK(add(&c).place == 7 && add(&c).place == 40 && add(&c).place == 63);
    CHECK(add(&c).refusal == HRAZVANUT_REFUSED_NO_PLACE);
    CHECK(reload("ASG(DEFAULT)").changed == UINT64_MAX && has(63, HRAZVANUT_NONE, false));
}

/* Every kind of reading, as a question has them; the state is compared, not cut to a byte. */
static void readings(void)
{
    static const int bad_states[] = {0, 1, 3, 255, 256, 258, -254, 65538};
    struct hrazvanut_client c;
    double bad[3];
    size_t i;
    start();
    bad[0] = NAN, bad[1] = HUGE_VAL, bad[2] = -HUGE_VAL;
    c = client_of("", "ann", "pc1", 1);
    CHECK(add(&c).place == 0 && blames(0, HRAZVANUT_READ, 'A'));
    for (i = 0; i < sizeof bad_states / sizeof *bad_states; i++) {
        CHECK(set("", 0, HRAZVANUT_VALUE, 0.25).changed == 1 && has(0, HRAZVANUT_WRITE, true));
        CHECK(set("DEFAULT", 0, bad_states[i], 0.25).changed == 1 && blames(0, HRAZVANUT_READ, 'A'));
        CHECK((reg.states[LETTERS] == HRAZVANUT_NEVER_HEARD) == (bad_states[i] == 0) && reg.states[LETTERS] != HRAZVANUT_VALUE);
    }
    for (i = 0; i < 3; i++) {
        CHECK(set("DEFAULT", 0, HRAZVANUT_VALUE, -0.0).changed == 1 && has(0, HRAZVANUT_WRITE, true));
        CHECK(set("", 0, HRAZVANUT_VALUE, bad[i]).changed == 1 && blames(0, HRAZVANUT_READ, 'A'));
    }
    CHECK(set("", 0, HRAZVANUT_VALUE, 0.3).changed == 1 && has(0, HRAZVANUT_READ, false)); /* the letter alone */
    CHECK(set("", 0, HRAZVANUT_VALUE, 0.31).changed == 0);
    CHECK(set("", 0, HRAZVANUT_VALUE, 0.29).changed == 1);
}

/* A reading is its group's and its letter's alone; a group that is not defined has none. */
static void groups(void)
{
    static const uint32_t letters_without[] = {1, 19, 21, 255, 256, 276, 65536, UINT32_MAX};
    struct hrazvanut_client c;
    size_t i;
    start();
    c = client_of("tower", "", "", 0);
    CHECK(add(&c).place == 0 && blames(0, HRAZVANUT_NONE, 'A'));
    c = client_of("nowhere", "ann", "pc1", 1);
    CHECK(add(&c).place == 1 && blames(1, HRAZVANUT_READ, 'A'));
    CHECK(set("", 0, HRAZVANUT_VALUE, 0).changed == 2 && has(1, HRAZVANUT_WRITE, true));
    CHECK(set("tower", 1, HRAZVANUT_VALUE, 1).changed == 0);
    CHECK(set("tower", 0, HRAZVANUT_VALUE, 1).changed == 1 && has(0, HRAZVANUT_WRITE, true));
    CHECK(set("", 0, HRAZVANUT_VALUE, 1).changed == 2 && has(0, HRAZVANUT_WRITE, true));
    CHECK(set("nowhere", 0, HRAZVANUT_VALUE, 0).refusal == HRAZVANUT_REFUSED_NO_INPUT);
    CHECK(set("Tower", 0, HRAZVANUT_VALUE, 0).refusal == HRAZVANUT_REFUSED_NO_INPUT);
    for (i = 0; i < sizeof letters_without / sizeof *letters_without; i++) {
        struct hrazvanut_reading_set done = set("", letters_without[i], HRAZVANUT_VALUE, 0);
        CHECK(done.refusal == HRAZVANUT_REFUSED_NO_INPUT && done.changed == 0);
    }
    for (i = 0; i < READINGS; i++) {
        bool one = i == LETTERS || i == 2 * LETTERS || i == 2 * LETTERS + 1; /* the letters set, by group number */
        CHECK(reg.states[i] == (one ? HRAZVANUT_VALUE : HRAZVANUT_NEVER_HEARD));
    }
    CHECK(reg.values[LETTERS] == 1 && reg.values[2 * LETTERS] == 1 && reg.values[2 * LETTERS + 1] == 1);
}

/* The last group's last letter. */
static void last_reading(void)
{
    static char text[64 * 8 + 64] = "";
    struct hrazvanut_client c = client_of("g63", "", "", 1);
    char *at = text;
    int i;
    start();
    for (i = 0; i < 63; i++, at += 8) {
        memcpy(at, "ASG(g00)", 8);
        at[5] = (char)('0' + i / 10);
        at[6] = (char)('0' + i % 10);
    }
    strcpy(at, "ASG(g63) {INPU(x) RULE(1,WRITE) {CALC(\"U\")}}");
    CHECK(reload(text).changed == 0 && add(&c).changed == 1 && blames(0, HRAZVANUT_NONE, 'U'));
    CHECK(set("g63", 20, HRAZVANUT_VALUE, 1).changed == 1 && has(0, HRAZVANUT_WRITE, false));
    CHECK(reg.states[READINGS - 1] == HRAZVANUT_VALUE && reg.values[READINGS - 1] == 1);
}

/* A reload answers as a load does. */
static void reloads(void)
{
    static const char text[] = "UAG(a) {x}\nFOO(1)\nASG(DEFAULT) {INPA(x) RULE(1,READ) {CALC(\"A\")} RULE(1,WRITE) {UAG(a) BAR()}}\n";
    static uint8_t stored[sizeof lent];
    struct hrazvanut_client c = client_of("", "ann", "pc1", 1);
    struct hrazvanut_reloaded r;
    size_t length;
    start();
    CHECK(set("", 0, HRAZVANUT_VALUE, 0).changed == 0 && add(&c).changed == 1 && has(0, HRAZVANUT_WRITE, true));
    memcpy(stored, lent, sizeof lent);
    r = reload_into("ASG(a) {RULE(2,READ)}", lent, sizeof lent);
    CHECK(r.loaded.refusal == HRAZVANUT_REFUSED_RULE_LEVEL && r.loaded.place == 13 && r.changed == 0);
    CHECK(r.loaded.needed == 0 && r.loaded.warnings == 0 && r.loaded.table.start == NULL && r.loaded.table.length == 0);
    r = reload_into("ASG(a) {RULE(1,READ) {UAG(b)}}", lent, sizeof lent);
    CHECK(r.loaded.refusal == HRAZVANUT_REFUSED_UNDEFINED_GROUP && r.loaded.place == 26 && r.loaded.needed == 0 && r.changed == 0);
    r = reload_into(text, lent, 36);
    length = r.loaded.needed;
    CHECK(r.loaded.refusal == HRAZVANUT_REFUSED_NO_ROOM && length > 36 && r.loaded.place == 0 && r.changed == 0);
    CHECK(reload_into(text, NULL, 0).loaded.needed == length);
    CHECK(reload_into(NULL, NULL, 0).loaded.refusal == HRAZVANUT_REFUSED_UNGRAMMATICAL);
    CHECK(memcmp(stored, lent, sizeof lent) == 0 && has(0, HRAZVANUT_WRITE, true));
    r = reload_into(text, lent, length);
    CHECK(r.loaded.refusal == HRAZVANUT_NOT_REFUSED && r.loaded.table.start == lent && r.loaded.table.length == length);
    CHECK(r.loaded.place == 0 && r.loaded.needed == 0 && r.loaded.warnings == 2 && r.changed == 1);
    CHECK(memcmp(stored + length, lent + length, sizeof lent - length) == 0 && blames(0, HRAZVANUT_NONE, 'A'));
    table = r.loaded.table;
    CHECK(set("", 0, HRAZVANUT_VALUE, 1).changed == 1 && has(0, HRAZVANUT_READ, false));
    CHECK(reload(text).changed == 1 && blames(0, HRAZVANUT_NONE, 'A'));
    CHECK(reload(site).changed == 1 && blames(0, HRAZVANUT_READ, 'A'));
}

/* Another letter is another right: each call that gives one tells it. */
static void letters(void)
{
    static const char text[] = "ASG(DEFAULT) {INPB(x) INPT(x) INPU(x) RULE(1,READ) RULE(1,WRITE) {CALC(\"U+t+B\")}}\n"
                               "ASG(tower) {INPC(x) RULE(1,WRITE) {CALC(\"C\")}}\n";
    struct hrazvanut_client c = client_of("", "", "", 1), tower = client_of("tower", "", "", 1);
    start();
    reload(text);
    CHECK(add(&c).changed == 1 && add(&tower).changed == 2);
    CHECK(blames(0, HRAZVANUT_READ, 'B') && blames(1, HRAZVANUT_NONE, 'C'));
    CHECK(set("", 19, HRAZVANUT_VALUE, 0).changed == 0 && blames(0, HRAZVANUT_READ, 'B'));
    CHECK(set("", 1, HRAZVANUT_VALUE, 0).changed == 1 && blames(0, HRAZVANUT_READ, 'U'));
    CHECK(set("", 19, HRAZVANUT_INVALID, 0).changed == 1 && blames(0, HRAZVANUT_READ, 'T'));
    CHECK(set("", 20, HRAZVANUT_VALUE, 1).changed == 0 && blames(0, HRAZVANUT_READ, 'T'));
    CHECK(set("", 19, HRAZVANUT_VALUE, 7).changed == 1 && has(0, HRAZVANUT_READ, false));
    CHECK(change(1, &c).changed == 2 && has(1, HRAZVANUT_READ, false));
    CHECK(change(0, &tower).changed == 1 && blames(0, HRAZVANUT_NONE, 'C'));
    CHECK(reload(text).changed == 2 && blames(0, HRAZVANUT_NONE, 'C') && blames(1, HRAZVANUT_READ, 'B'));
    CHECK(remove_at(0).changed == 1 && has(0, HRAZVANUT_NONE, false));
    CHECK(add(&tower).changed == 1 && blames(0, HRAZVANUT_NONE, 'C'));
}

/* ---- two rooms */

static uint8_t second[HRAZVANUT_TABLE], kept[HRAZVANUT_TABLE];

/* Refused in the second room, whatever stands there: nothing is another, and the table in force goes on. */
static void refused_elsewhere(const char *text, size_t length, enum hrazvanut_refusal refusal)
{
    static uint8_t was[sizeof second];
    struct hrazvanut_reloaded r;
    memcpy(was, second, sizeof second);
    memcpy(kept, lent, sizeof lent);
    r = reload_into(text, second, length);
    CHECK(r.loaded.refusal == refusal && r.changed == 0 && r.loaded.table.start == NULL && r.loaded.table.length == 0);
    CHECK(memcmp(&reg, &before, sizeof reg) == 0);
    CHECK(memcmp(was, second, sizeof second) == 0 && memcmp(kept, lent, sizeof lent) == 0);
    CHECK(set("", 0, HRAZVANUT_VALUE, 0.3).changed == 1 && has(0, HRAZVANUT_READ, false));
    CHECK(set("", 0, HRAZVANUT_VALUE, 0).changed == 1 && has(0, HRAZVANUT_WRITE, true));
}

/* Accepted in the second room, the register is as after a reload into the first, and so is the answer but for where the table is. */
static void as_in_the_first(const char *text, uint64_t changed)
{
    static struct hrazvanut_register twin;
    struct hrazvanut_room first = ZERO;
    struct hrazvanut_reloaded here, there;
    memcpy(&twin, &reg, sizeof reg);
    memcpy(kept, lent, sizeof lent);
    here = reload_into(text, second, sizeof second);
    CHECK(here.loaded.refusal == HRAZVANUT_NOT_REFUSED && here.changed == changed && here.loaded.table.start == second);
    CHECK(memcmp(kept, lent, sizeof lent) == 0);
    first.start = lent;
    first.length = sizeof lent;
    there = hrazvanut_reload(&twin, hrazvanut_string(text), first);
    CHECK(memcmp(&reg, &twin, sizeof reg) == 0 && there.loaded.refusal == HRAZVANUT_NOT_REFUSED && there.changed == changed);
    CHECK(there.loaded.table.length == here.loaded.table.length && there.loaded.warnings == here.loaded.warnings);
    CHECK(memcmp(lent, second, here.loaded.table.length) == 0);
    table = here.loaded.table;
}

static void two_rooms(void)
{
    struct hrazvanut_client ann = client_of("", "ann", "pc1", 1), tower = client_of("tower", "", "", 0);
    struct hrazvanut_room room = ZERO;
    size_t i;
    start();
    CHECK(set("", 0, HRAZVANUT_VALUE, 0).changed == 0 && set("tower", 0, HRAZVANUT_VALUE, 1).changed == 0);
    CHECK(add(&ann).changed == 1 && has(0, HRAZVANUT_WRITE, true) && add(&tower).changed == 2 && has(1, HRAZVANUT_WRITE, true));
    room.start = second;
    room.length = sizeof second;
    memset(second, 0xa5, sizeof second);
    for (i = 0; i < 3; i++) { /* over no table, over another one, over the same */
        refused_elsewhere("ASG(a) {RULE(2,READ)}", sizeof second, HRAZVANUT_REFUSED_RULE_LEVEL);
        refused_elsewhere(site, table.length - 1, HRAZVANUT_REFUSED_NO_ROOM);
        refused_elsewhere(site, 0, HRAZVANUT_REFUSED_NO_ROOM);
        CHECK(hrazvanut_load(hrazvanut_string(i == 0 ? "ASG(DEFAULT)" : site), room).refusal == HRAZVANUT_NOT_REFUSED);
    }
    CHECK(hrazvanut_load(hrazvanut_string("ASG(DEFAULT) {RULE(1,READ)}"), room).refusal == HRAZVANUT_NOT_REFUSED);
    as_in_the_first("ASG(DEFAULT) {INPA(x) RULE(1,READ)} ASG(tower) {RULE(1,WRITE,TRAPWRITE)} FOO(1)", 1);
    CHECK(has(0, HRAZVANUT_READ, false) && has(1, HRAZVANUT_WRITE, true));
    memset(lent, 0, sizeof lent); /* the first room is free: the table in force stands in the second */
    CHECK(set("", 0, HRAZVANUT_VALUE, 1).refusal == HRAZVANUT_NOT_REFUSED && set("tower", 0, HRAZVANUT_VALUE, 1).refusal != 0);
    CHECK(remove_at(1).changed == 2 && add(&tower).changed == 2 && has(1, HRAZVANUT_WRITE, true));
    CHECK(reload(site).changed == 3 && blames(0, HRAZVANUT_READ, 'A') && blames(1, HRAZVANUT_NONE, 'A'));
}

/* ---- a walk tells which readings to set */

static void heard(void)
{
    static const struct hrazvanut_reading one = {HRAZVANUT_VALUE, 1};
    struct hrazvanut_client c[3];
    struct hrazvanut_input input = ZERO;
    size_t i, told;
    start();
    c[0] = client_of("", "ann", "pc1", 0), c[1] = client_of("nowhere", "ann", "pc1", 1), c[2] = client_of("tower", "", "", 0);
    for (i = 0; i < 3; i++)
        CHECK(add(&c[i]).place == i && hrazvanut_right_of(&reg, i).letter == 'A');
    for (told = 0; told < 9 && hrazvanut_next_input(table, &input); told++)
        CHECK(hrazvanut_set_reading(&reg, table, input.group, input.letter, one).refusal == HRAZVANUT_NOT_REFUSED);
    CHECK(told == 4 && has(0, HRAZVANUT_READ, false) && has(1, HRAZVANUT_READ, false) && has(2, HRAZVANUT_WRITE, true));
    for (i = 0; i < READINGS; i++) /* but those of the group of no name */
        CHECK(reg.states[i] == (i == 21 || i == 41 || i == 42 || i == 43 ? HRAZVANUT_VALUE : HRAZVANUT_NEVER_HEARD));
}

/* ---- the numbers of the proved functions, bit by bit */

static uint64_t add_number(size_t places_length, size_t states_length, size_t values_length, uint32_t level, uint64_t *changed,
                           size_t words)
{
    static const uint8_t ann[] = "ann";
    return hrazvanut_abi_add(reg.places, places_length, reg.states, states_length, reg.values, values_length, table.start, table.length, ann,
                             0, ann, 3, ann, 3, level, changed, words);
}

static uint64_t change_number(size_t short_by, size_t place, uint32_t level, uint64_t *changed)
{
    static const uint8_t ann[] = "ann";
    return hrazvanut_abi_change(reg.places, sizeof reg.places, reg.states, sizeof reg.states - short_by, reg.values, READINGS, table.start,
                                table.length, place, ann, 0, ann, 3, ann, 3, level, changed, 1);
}

static uint64_t set_number(size_t short_by, uint32_t letter, uint64_t *changed, size_t words)
{
    static const uint8_t none = 0;
    return hrazvanut_abi_set(reg.places, sizeof reg.places, reg.states, sizeof reg.states, reg.values, READINGS - short_by, table.start,
                             table.length, &none, 0, letter, 2, 7, changed, words);
}

static uint64_t reload_number(size_t short_by, uint64_t *changed)
{
    return hrazvanut_abi_reload(reg.places, sizeof reg.places, reg.states, sizeof reg.states - short_by, (const uint8_t *)site,
                                sizeof site - 1, lent, sizeof lent, changed, 1);
}

/* No slice may be too short; nothing is written then. */
static void short_slices(void)
{
    const uint64_t no_register = UINT64_C(34) << 48;
    uint64_t changed = 5;
    begin();
    CHECK(add_number(sizeof reg.places - 1, sizeof reg.states, READINGS, 1, &changed, 1) == no_register);
    CHECK(add_number(sizeof reg.places, sizeof reg.states - 1, READINGS, 1, &changed, 1) == no_register);
    CHECK(add_number(sizeof reg.places, sizeof reg.states, READINGS - 1, 1, &changed, 1) == no_register);
    CHECK(add_number(0, 0, 0, 2, &changed, 1) == no_register);
    CHECK(change_number(1, 99, 2, &changed) == no_register);
    CHECK(set_number(1, 99, &changed, 1) == no_register);
    CHECK(reload_number(1, &changed) == no_register);
    CHECK(hrazvanut_abi_remove(reg.places, sizeof reg.places - 1, 99, &changed, 1) == no_register);
    CHECK(hrazvanut_abi_right_letter(reg.places, sizeof reg.places - 1, 0) == 0);
    CHECK(changed == 5 && memcmp(&reg, &before, sizeof reg) == 0);
}

static void numbers(void)
{
    uint64_t changed = 5;
    start();
    CHECK(add_number(sizeof reg.places, sizeof reg.states, READINGS, 2, &changed, 1) == UINT64_C(21) << 48 && changed == 5);
    CHECK(add_number(sizeof reg.places, sizeof reg.states, READINGS, 0, &changed, 0) == 0 && changed == 5);
    CHECK(add_number(sizeof reg.places, sizeof reg.states, READINGS, 1, &changed, 1) == 1 && changed == 2);
    CHECK(hrazvanut_abi_right_letter(reg.places, sizeof reg.places, 0) == (1 | 21 << 3));
    CHECK(hrazvanut_abi_right_letter(reg.places, sizeof reg.places, 64) == 0);
    short_slices();
    CHECK(set_number(0, 1, &changed, 1) == UINT64_C(22) << 48 && changed == 2);
    CHECK(set_number(0, 20, &changed, 0) == 0 && changed == 2);
    CHECK(hrazvanut_abi_right_letter(reg.places, sizeof reg.places, 0) == 2);
    CHECK(change_number(0, 2, 1, &changed) == UINT64_C(25) << 48 && changed == 2);
    CHECK(change_number(0, 1, 2, &changed) == UINT64_C(21) << 48 && changed == 2);
    CHECK(change_number(0, 0, 1, &changed) == 0 && changed == 1);
    CHECK(set_number(0, 0, &changed, 1) == 0 && changed == 0);
    CHECK(hrazvanut_abi_remove(reg.places, sizeof reg.places, 1, &changed, 1) == 0 && changed == 2);
    CHECK(hrazvanut_abi_remove(reg.places, sizeof reg.places, 1, &changed, 1) == UINT64_C(25) << 48 && changed == 2);
    CHECK(reload_number(0, &changed) == table.length && changed == 0);
    CHECK(reg.states[2 * LETTERS - 1] == HRAZVANUT_NEVER_HEARD);
}

void registers(void)
{
    empty();
    parts();
    limits();
    places();
    readings();
    groups();
    last_reading();
    reloads();
    letters();
    two_rooms();
    heard();
    numbers();
}
