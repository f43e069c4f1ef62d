/* Every function of include/hrazvanut.h, as a caller has it; an export stands in export.c, those of a walk in walk.c, what they pass on in
 * passed.c, those of a register in register.c. Compiled as C99, C11, C++11 and C++17. */
#include <math.h>
#include <stdio.h>
#include <stdlib.h>
#include <string.h>

#include "check.h"

static unsigned long checks, wrong;

void check(bool good, const char *what, int line)
{
    checks++;
    if (!good) {
        wrong++;
        printf("line %d: %s\n", line, what);
    }
}

struct hrazvanut_table table_in(uint8_t *lent, size_t length, const char *text)
{
    struct hrazvanut_room room = ZERO;
    struct hrazvanut_loaded loaded;
    room.start = lent;
    room.length = length;
    loaded = hrazvanut_load(hrazvanut_string(text), room);
    CHECK(loaded.refusal == HRAZVANUT_NOT_REFUSED && hrazvanut_is_table(loaded.table));
    return loaded.table;
}

static uint8_t lent[HRAZVANUT_TABLE + 16];

static struct hrazvanut_room room_of(size_t length)
{
    struct hrazvanut_room room = ZERO;
    room.start = lent;
    room.length = length;
    return room;
}

static struct hrazvanut_loaded load(const char *text) { return hrazvanut_load(hrazvanut_string(text), room_of(sizeof lent)); }

static struct hrazvanut_listed list(const char *text, size_t skip, struct hrazvanut_warning *start, size_t length)
{
    struct hrazvanut_warnings room = ZERO;
    room.start = start;
    room.length = length;
    return hrazvanut_list_warnings(hrazvanut_string(text), skip, room);
}

static bool is_text(struct hrazvanut_text text, const char *s)
{
    return text.length == strlen(s) && memcmp(text.start, s, text.length) == 0;
}

/* ---- words */

static void words(void)
{
    static const int known[] = {0, 1, 2, 3, 4, 5, 6, 7, 8, 9, 10, 11, 12, 20, 21, 22, 23, 24, 25, 26, 27, 28, 34};
    size_t k = 0;
    int n;
    CHECK(HRAZVANUT_VERSION == 7002 && HRAZVANUT_VERSION / 1000 == HRAZVANUT_VERSION_MAJOR);
    CHECK(hrazvanut_version() == HRAZVANUT_VERSION && hrazvanut_abi_version() == HRAZVANUT_VERSION);
    CHECK(HRAZVANUT_ROLES == 16 && HRAZVANUT_ROLE_LENGTH == 60);
    CHECK(hrazvanut_abi_bytes(NULL, 0) != NULL);
    CHECK(hrazvanut_string(NULL).length == 0);
    CHECK(hrazvanut_string("").length == 0);
    CHECK(is_text(hrazvanut_string("pc1"), "pc1"));
    for (n = 0; n < 48; n++) {
        const char *said = hrazvanut_refusal_words((enum hrazvanut_refusal)n);
        bool here = k < sizeof known / sizeof *known && known[k] == n;
        CHECK((strcmp(said, "unknown refusal") != 0) == here);
        k += here;
    }
    CHECK(strcmp(hrazvanut_refusal_words(HRAZVANUT_REFUSED_NO_ROOM), "lent table too short") == 0);
    CHECK(strcmp(hrazvanut_refusal_words((enum hrazvanut_refusal)12), "undefined group") == 0);
    CHECK(strcmp(hrazvanut_refusal_words(HRAZVANUT_REFUSED_NO_INPUT), "no such group, or no such input in it") == 0);
    CHECK(strcmp(hrazvanut_refusal_words((enum hrazvanut_refusal)23), "client's name over 60 bytes") == 0);
    CHECK(strcmp(hrazvanut_refusal_words((enum hrazvanut_refusal)24), "all 64 places taken") == 0);
    CHECK(strcmp(hrazvanut_refusal_words((enum hrazvanut_refusal)25), "no client at the place") == 0);
    CHECK(strcmp(hrazvanut_refusal_words((enum hrazvanut_refusal)26), "more than 16 roles, or one over 60 bytes") == 0);
    CHECK(strcmp(hrazvanut_refusal_words((enum hrazvanut_refusal)27), "string that cannot be quoted, or text that would be refused") == 0);
    CHECK(strcmp(hrazvanut_refusal_words((enum hrazvanut_refusal)28), "text longer than the lent buffer") == 0);
    CHECK(strcmp(hrazvanut_refusal_words((enum hrazvanut_refusal)34), "not a register") == 0);
}

/* ---- loads */

static void refused(const char *text, enum hrazvanut_refusal refusal, size_t place)
{
    struct hrazvanut_loaded loaded;
    struct hrazvanut_listed listed;
    struct hrazvanut_warning one = ZERO;
    memset(lent, 0xa5, sizeof lent);
    loaded = load(text);
    CHECK(loaded.refusal == refusal);
    CHECK(loaded.place == place);
    CHECK(loaded.needed == 0 && loaded.warnings == 0);
    CHECK(loaded.table.start == NULL && loaded.table.length == 0);
    CHECK(lent[0] == 0xa5 && memcmp(lent, lent + 1, sizeof lent - 1) == 0);
    listed = list(text, 0, &one, 1);
    CHECK(listed.refusal == refusal && listed.place == place);
    CHECK(listed.count == 0 && listed.written == 0);
    CHECK((int)one.kind == 0 && one.place == 0);
}

/* Refused for being one byte longer than a file may be. */
static void too_long(void)
{
    char *text = (char *)malloc(HRAZVANUT_FILE + 2);
    if (!text)
        abort();
    memset(text, '#', HRAZVANUT_FILE + 1);
    text[HRAZVANUT_FILE + 1] = 0;
    refused(text, HRAZVANUT_REFUSED_FILE_TOO_LONG, 0);
    text[HRAZVANUT_FILE] = 0;
    refused(text, HRAZVANUT_REFUSED_UNGRAMMATICAL, HRAZVANUT_FILE);
    free(text);
}

/* Refused for the 65th user group. */
static void too_many(void)
{
    char text[65 * 8 + 1];
    int i;
    for (i = 0; i < 65; i++)
        sprintf(text + i * 8, "UAG(a%02d)", i);
    refused(text, HRAZVANUT_REFUSED_TOO_MANY, 64 * 8 + 4);
}

/* Refused for a group that no definition has: behind 7, before 8, 9 and 10. */
static void undefined(void)
{
    refused("UAG(a) {x}\nFOO(1)\nASG(DEFAULT) {RULE(1,WRITE) {UAG(b) BAR()}}\n", HRAZVANUT_REFUSED_UNDEFINED_GROUP, 51);
    refused("UAG(a) ASG(a) {RULE(1,READ) {UAG(a) HAG(a)}}", HRAZVANUT_REFUSED_UNDEFINED_GROUP, 40);
    refused("ASG(a) {RULE(2,read) {CALC(\"A\") UAG(b)}}", HRAZVANUT_REFUSED_UNDEFINED_GROUP, 36);
    refused("ASG(a) {RULE(1,READ) {UAG(b)}} ASG(a)", HRAZVANUT_REFUSED_GIVEN_AGAIN, 35);
}

static void loads(void)
{
    static const char text[] = "UAG(a) {x}\nFOO(1)\nASG(DEFAULT) {RULE(1,WRITE) {UAG(a) BAR()}}\n";
    struct hrazvanut_text none = ZERO;
    struct hrazvanut_room nowhere = ZERO;
    struct hrazvanut_loaded loaded;
    size_t length;

    memset(lent, 0xa5, sizeof lent);
    loaded = load(text);
    length = loaded.table.length;
    CHECK(loaded.refusal == HRAZVANUT_NOT_REFUSED);
    CHECK(loaded.place == 0 && loaded.needed == 0 && loaded.warnings == 2);
    CHECK(loaded.table.start == lent && length > 36 && length < sizeof lent);
    CHECK(lent[0] == 1 && lent[1] == 0 && lent[2] == length && lent[3] == 0);
    CHECK(lent[length] == 0xa5 && memcmp(lent + length, lent + length + 1, sizeof lent - length - 1) == 0);
    CHECK(hrazvanut_abi_load((const uint8_t *)text, sizeof text - 1, lent, sizeof lent) == (length | UINT64_C(2) << 32));
    CHECK(hrazvanut_abi_load((const uint8_t *)text, sizeof text - 1, lent, length - 1) == (length | UINT64_C(11) << 48));

    loaded = hrazvanut_load(hrazvanut_string(text), room_of(length));
    CHECK(loaded.refusal == HRAZVANUT_NOT_REFUSED && loaded.table.length == length);
    loaded = hrazvanut_load(hrazvanut_string(text), room_of(length - 1));
    CHECK(loaded.refusal == HRAZVANUT_REFUSED_NO_ROOM);
    CHECK(loaded.needed == length && loaded.place == 0 && loaded.warnings == 0 && loaded.table.length == 0);
    CHECK(hrazvanut_load(hrazvanut_string(text), nowhere).needed == length);
    CHECK(hrazvanut_load(none, nowhere).refusal == HRAZVANUT_REFUSED_UNGRAMMATICAL);

    refused("", HRAZVANUT_REFUSED_UNGRAMMATICAL, 0);
    too_long();
    refused("UAG(a) ?", HRAZVANUT_REFUSED_BAD_BYTE, 7);
    refused("FOO() {{{{{{{{{{{{{{{{{", HRAZVANUT_REFUSED_TOO_DEEP, 22);
    refused("ASG(a) {RULE(1,READ) {CALC(1)}}", HRAZVANUT_REFUSED_UNGRAMMATICAL, 27);
    refused("UAG(a123456789012345678901234567890123456789012345678901234567890)", HRAZVANUT_REFUSED_STRING_TOO_LONG, 4);
    too_many();
    refused("UAG(a) UAG(a)", HRAZVANUT_REFUSED_GIVEN_AGAIN, 11);
    undefined();
    refused("ASG(a) {RULE(2,READ)}", HRAZVANUT_REFUSED_RULE_LEVEL, 13);
    refused("ASG(a) {RULE(1,read)}", HRAZVANUT_REFUSED_UNKNOWN_WORD, 15);
    refused("ASG(a) {RULE(1,READ) {CALC(\"A\")}}", HRAZVANUT_REFUSED_CALCULATION, 27);
}

/* ---- warnings */

/* A text with so many warnings, an unknown item each three bytes: lists it whole, then in parts. */
static void warnings_of(size_t many)
{
    enum { MOST = 200 };
    static struct hrazvanut_warning all[MOST + 1], some[MOST + 1];
    static const size_t skips[] = {0, 1, 63, 64, 65, 130, SIZE_MAX - 1, SIZE_MAX};
    char text[3 * MOST + 8];
    struct hrazvanut_listed listed;
    size_t i, k, room;
    for (i = 0; i < many; i++)
        memcpy(text + 3 * i, "a()", 4);
    strcpy(text + 3 * many, "UAG(x)");
    memset(all, 0xa5, sizeof all);
    listed = list(text, 0, all, MOST);
    CHECK(listed.refusal == HRAZVANUT_NOT_REFUSED && listed.place == 0);
    CHECK(listed.count == many && listed.written == many);
    for (i = 0; i < many; i++)
        CHECK(all[i].kind == HRAZVANUT_UNKNOWN_ITEM && all[i].place == 3 * i);
    CHECK(load(text).warnings == many);
    CHECK(list(text, 0, NULL, 0).count == many);
    for (k = 0; k < sizeof skips / sizeof *skips; k++)
        for (room = 0; room <= MOST; room += 13) {
            size_t behind = skips[k] < many ? many - skips[k] : 0;
            size_t expected = behind < room ? behind : room;
            memset(some, 0xa5, sizeof some);
            listed = list(text, skips[k], some, room);
            CHECK(listed.count == many && listed.written == expected);
            CHECK(expected == 0 || memcmp(some, all + skips[k], expected * sizeof *some) == 0);
            CHECK(memcmp(some + expected, all + MOST, sizeof *some) == 0);
        }
}

static void warnings(void)
{
    static const char text[] = "UAG(a) {x}\nFOO(1)\nASG(DEFAULT) {RULE(1,WRITE) {UAG(a) BAR()}}\nBAZ()\n";
    static const size_t counts[] = {0, 1, 63, 64, 65, 127, 128, 129, 200};
    struct hrazvanut_warning three[3];
    uint8_t numbers[3];
    uint16_t places[3];
    size_t i;
    CHECK(list(text, 0, three, 3).written == 3);
    CHECK(three[0].kind == HRAZVANUT_UNKNOWN_ITEM && three[0].place == 11);
    CHECK(three[1].kind == HRAZVANUT_UNKNOWN_PREDICATE && three[1].place == 54);
    CHECK(three[2].kind == HRAZVANUT_UNKNOWN_ITEM && three[2].place == 62);
    CHECK(hrazvanut_abi_list_warnings((const uint8_t *)text, sizeof text - 1, 1, numbers, 3, places, 1) == 3);
    CHECK(numbers[0] == 2 && numbers[1] == 1 && places[0] == 54);
    for (i = 0; i < sizeof counts / sizeof *counts; i++)
        warnings_of(counts[i]);
}

/* ---- tables */

static void tables(void)
{
    struct hrazvanut_table none = ZERO, table = load("ASG(DEFAULT) {RULE(1,READ)}").table;
    CHECK(hrazvanut_is_table(table));
    table.length--;
    CHECK(!hrazvanut_is_table(table));
    table.length += 2;
    CHECK(hrazvanut_is_table(table));
    CHECK(hrazvanut_abi_is_table(table.start, table.length) == 1 && hrazvanut_abi_is_table(table.start, 0) == 0);
    CHECK(!hrazvanut_is_table(none));
    lent[0] = 0;
    CHECK(!hrazvanut_is_table(table));
}

/* ---- questions */

/* By both functions, if it is a table. */
static struct hrazvanut_answer ask(struct hrazvanut_table table, const struct hrazvanut_question *question)
{
    struct hrazvanut_answer answer = hrazvanut_decide(table, question);
    if (hrazvanut_is_table(table)) {
        struct hrazvanut_answer checked = hrazvanut_decide_checked(table, question);
        CHECK(checked.refusal == answer.refusal && checked.access == answer.access && checked.trap == answer.trap &&
              checked.letter == answer.letter);
    }
    return answer;
}

/* No reading is to blame. */
static bool answers(struct hrazvanut_answer answer, enum hrazvanut_access access, bool trap)
{
    return answer.refusal == HRAZVANUT_NOT_REFUSED && answer.access == access && answer.trap == trap && answer.letter == 0;
}

static bool blames(struct hrazvanut_answer answer, enum hrazvanut_access access, char letter)
{
    return answer.refusal == HRAZVANUT_NOT_REFUSED && answer.access == access && !answer.trap && answer.letter == letter;
}

static bool refuses(struct hrazvanut_answer answer, enum hrazvanut_refusal refusal)
{
    return answer.refusal == refusal && answer.access == HRAZVANUT_NONE && !answer.trap && answer.letter == 0;
}

static const char site[] = "UAG(users) {ann} HAG(hosts) {pc1}\n"
                           "ASG(DEFAULT) {INPA(B1:PGA) INPU(B1:KEY) RULE(1,READ)\n"
                           "RULE(1,WRITE,TRAPWRITE) {UAG(users) HAG(hosts) CALC(\"A<0.3\")}}\n"
                           "ASG(tower) {RULE(0,WRITE)} ASG(\"\") {RULE(1,NONE)}\n";

static struct hrazvanut_question of_ann(void)
{
    struct hrazvanut_question question = ZERO;
    question.user = hrazvanut_string("ann");
    question.host = hrazvanut_string("PC1");
    question.level = 1;
    question.readings[0].state = HRAZVANUT_VALUE;
    question.readings[0].value = 0.25;
    return question;
}

static void names_and_levels(struct hrazvanut_table table)
{
    static const uint32_t levels[] = {2, 255, 256, 257, 65536, 65537, UINT32_C(1) << 31, UINT32_MAX};
    struct hrazvanut_question nobody = ZERO, q = of_ann();
    struct hrazvanut_table none = ZERO;
    struct hrazvanut_text name;
    size_t i;
    CHECK(answers(ask(table, &q), HRAZVANUT_WRITE, true));
    CHECK(answers(ask(table, &nobody), HRAZVANUT_READ, false));
    CHECK(refuses(ask(none, &q), HRAZVANUT_REFUSED_NOT_TABLE));
    for (i = 0; i < sizeof levels / sizeof *levels; i++) {
        q.level = levels[i];
        CHECK(refuses(ask(table, &q), HRAZVANUT_REFUSED_LEVEL));
        CHECK(refuses(ask(none, &q), HRAZVANUT_REFUSED_NOT_TABLE));
    }
    q = of_ann();
    name = q.user, q.user = q.host, q.host = name;
    CHECK(answers(ask(table, &q), HRAZVANUT_READ, false));
    q = of_ann();
    q.group = hrazvanut_string("tower");
    CHECK(answers(ask(table, &q), HRAZVANUT_NONE, false));
    q.level = 0;
    CHECK(answers(ask(table, &q), HRAZVANUT_WRITE, false));
    name = q.user, q.user = q.group, q.group = name;
    CHECK(answers(ask(table, &q), HRAZVANUT_READ, false));
    q = of_ann();
    q.user.length--;
    CHECK(answers(ask(table, &q), HRAZVANUT_READ, false));
}

/* A table that no load writes: the references, of 6 bytes each, have the number of no group. */
static void undefined_groups(void)
{
    struct hrazvanut_question q = of_ann();
    struct hrazvanut_table table = load(site).table;
    uint8_t *user = lent + (lent[30] | lent[31] << 8), *host = user + 6;
    CHECK(answers(ask(table, &q), HRAZVANUT_WRITE, true));
    host[0] = host[1] = 0xff;
    CHECK(hrazvanut_is_table(table) && answers(ask(table, &q), HRAZVANUT_READ, false));
    host[0] = host[1] = 0;
    CHECK(hrazvanut_is_table(table) && answers(ask(table, &q), HRAZVANUT_WRITE, true));
    user[0] = user[1] = 0xff;
    CHECK(hrazvanut_is_table(table) && answers(ask(table, &q), HRAZVANUT_READ, false));
    user[0] = 1, user[1] = 0;
    CHECK(!hrazvanut_is_table(table));
}

static void readings(struct hrazvanut_table table)
{
    struct hrazvanut_question q = of_ann();
    double bad[3];
    int i;
    bad[0] = NAN, bad[1] = HUGE_VAL, bad[2] = -HUGE_VAL;
    for (i = 0; i < 3; i++) {
        q.readings[0].value = bad[i];
        CHECK(blames(ask(table, &q), HRAZVANUT_READ, 'A'));
    }
    q.readings[0].value = 0.3;
    CHECK(answers(ask(table, &q), HRAZVANUT_READ, false));
    q.readings[0].value = -0.0;
    CHECK(answers(ask(table, &q), HRAZVANUT_WRITE, true));
    q.readings[0].state = HRAZVANUT_NEVER_HEARD;
    CHECK(blames(ask(table, &q), HRAZVANUT_READ, 'A'));
    q.readings[0].state = HRAZVANUT_INVALID;
    CHECK(blames(ask(table, &q), HRAZVANUT_READ, 'A'));
    q.readings[0].state = (enum hrazvanut_state)3;
    CHECK(blames(ask(table, &q), HRAZVANUT_READ, 'A'));
    q.readings[0].state = (enum hrazvanut_state)258;
    CHECK(blames(ask(table, &q), HRAZVANUT_READ, 'A'));
    q.readings[0].state = (enum hrazvanut_state)-254;
    CHECK(blames(ask(table, &q), HRAZVANUT_READ, 'A'));
}

/* Each letter has its own reading. */
static void letters(void)
{
    char text[80];
    int letter, heard;
    for (letter = 0; letter < HRAZVANUT_READINGS; letter++) {
        struct hrazvanut_table table;
        sprintf(text, "ASG(DEFAULT) {INP%c(x) RULE(1,WRITE) {CALC(\"%c=7\")}}", 'A' + letter, 'a' + letter);
        table = load(text).table;
        CHECK(hrazvanut_is_table(table));
        for (heard = 0; heard < HRAZVANUT_READINGS; heard++) {
            struct hrazvanut_question q = ZERO;
            q.readings[heard].state = HRAZVANUT_VALUE;
            q.readings[heard].value = 7;
            if (heard == letter)
                CHECK(answers(ask(table, &q), HRAZVANUT_WRITE, false));
            else
                CHECK(blames(ask(table, &q), HRAZVANUT_NONE, (char)('A' + letter)));
        }
    }
}

/* A role in a block of its own length, so that a byte too many that is read is found. */
static struct hrazvanut_text role_of(const char *s, size_t length)
{
    struct hrazvanut_text role = ZERO;
    char *bytes = (char *)malloc(length);
    if (!bytes)
        abort();
    memcpy(bytes, s, length);
    role.start = bytes;
    role.length = length;
    return role;
}

/* Of somebody with no name and so many roles; of no more than there is room for it is told which. */
static struct hrazvanut_answer ask_roles(struct hrazvanut_table table, const struct hrazvanut_text *roles, size_t count)
{
    struct hrazvanut_question q = ZERO;
    size_t i;
    for (i = 0; i < HRAZVANUT_ROLES && i < count; i++)
        q.roles[i] = roles[i];
    q.role_count = count;
    return ask(table, &q);
}

static const char duties[] = "UAG(u) {ann, \"role/op\"} UAG(nameless) {\"role/\"} UAG(named) {\"Role/op\"} HAG(h) {\"role/op\"}\n"
                             "ASG(DEFAULT) {RULE(1,READ) {UAG(nameless)} RULE(1,WRITE,TRAPWRITE) {UAG(u)} RULE(1,READ) {UAG(named)}\n"
                             "RULE(1,WRITE) {HAG(h)}}\n";

/* In each place among others, of which the last are nowhere. */
static void places_of_roles(struct hrazvanut_table table)
{
    struct hrazvanut_text roles[HRAZVANUT_ROLES] = ZERO, op = role_of("op", 2), other = role_of("opera", 5);
    size_t i;
    CHECK(answers(ask_roles(table, roles, 0), HRAZVANUT_NONE, false));
    CHECK(answers(ask_roles(table, roles, 1), HRAZVANUT_READ, false)); /* no bytes, at NULL */
    for (i = 0; i < HRAZVANUT_ROLES; i++)
        roles[i] = other;
    CHECK(answers(ask_roles(table, roles, HRAZVANUT_ROLES), HRAZVANUT_NONE, false));
    for (i = 0; i < HRAZVANUT_ROLES; i++) {
        roles[i] = op;
        CHECK(answers(ask_roles(table, roles, i + 1), HRAZVANUT_WRITE, true));
        CHECK(answers(ask_roles(table, roles, HRAZVANUT_ROLES), HRAZVANUT_WRITE, true));
        CHECK(answers(ask_roles(table, roles, i), HRAZVANUT_NONE, false));
        roles[i].length = 1;
        CHECK(answers(ask_roles(table, roles, HRAZVANUT_ROLES), HRAZVANUT_NONE, false));
        roles[i] = other;
    }
    free((char *)op.start);
    free((char *)other.start);
}

static void roles_and_names(struct hrazvanut_table table)
{
    struct hrazvanut_question q = ZERO;
    q.user = hrazvanut_string("ann");
    CHECK(answers(ask(table, &q), HRAZVANUT_WRITE, true));
    q.user = hrazvanut_string("role/op");
    CHECK(answers(ask(table, &q), HRAZVANUT_NONE, false));
    q.user = hrazvanut_string("Role/op");
    CHECK(answers(ask(table, &q), HRAZVANUT_READ, false));
    q.user = hrazvanut_string("op");
    q.roles[0] = hrazvanut_string("ann");
    q.roles[1] = hrazvanut_string("role/op");
    q.roles[2] = hrazvanut_string("Op");
    q.role_count = 3;
    CHECK(answers(ask(table, &q), HRAZVANUT_NONE, false));
    q.host = hrazvanut_string("ROLE/op");
    CHECK(answers(ask(table, &q), HRAZVANUT_WRITE, false));
}

/* Refused behind 20 and 21; what does not count is not read. */
static void refused_roles(struct hrazvanut_table table, const struct hrazvanut_question *refused)
{
    struct hrazvanut_question q = *refused;
    struct hrazvanut_table none = ZERO;
    CHECK(refuses(ask(table, &q), HRAZVANUT_REFUSED_ROLES));
    CHECK(refuses(ask(none, &q), HRAZVANUT_REFUSED_NOT_TABLE));
    q.level = 2;
    CHECK(refuses(ask(table, &q), HRAZVANUT_REFUSED_LEVEL));
    CHECK(refuses(ask(none, &q), HRAZVANUT_REFUSED_NOT_TABLE));
}

static void too_many_roles(struct hrazvanut_table table)
{
    static const size_t counts[] = {17, 18, 255, 256, 257, 65536, 65537, (size_t)1 << 31, SIZE_MAX - 1, SIZE_MAX};
    struct hrazvanut_question *q = (struct hrazvanut_question *)calloc(1, sizeof *q);
    size_t i;
    if (!q)
        abort();
    q->roles[0] = hrazvanut_string("op");
    q->role_count = HRAZVANUT_ROLES;
    CHECK(answers(ask(table, q), HRAZVANUT_WRITE, true));
    for (i = 0; i < sizeof counts / sizeof *counts; i++) {
        q->role_count = counts[i];
        refused_roles(table, q);
    }
    free(q);
}

static void too_long_roles(struct hrazvanut_table table)
{
    static const size_t lengths[] = {61, 62, 255, 256, 258, 316, 65536, 65538, SIZE_MAX - 1, SIZE_MAX};
    char most[60];
    struct hrazvanut_text longest;
    struct hrazvanut_question q = ZERO;
    size_t i, place;
    memset(most, 'x', sizeof most);
    longest = role_of(most, sizeof most);
    q.role_count = HRAZVANUT_ROLES;
    for (i = 0; i < HRAZVANUT_ROLES; i++)
        q.roles[i] = longest;
    CHECK(answers(ask(table, &q), HRAZVANUT_NONE, false));
    q.roles[HRAZVANUT_ROLES - 1] = hrazvanut_string("op");
    CHECK(answers(ask(table, &q), HRAZVANUT_WRITE, true));
    for (i = 0; i < sizeof lengths / sizeof *lengths; i++)
        for (place = 0; place < HRAZVANUT_ROLES; place++) {
            struct hrazvanut_question wrong_one = q;
            wrong_one.roles[place].length = lengths[i];
            refused_roles(table, &wrong_one);
            wrong_one.role_count = place;
            CHECK(answers(ask(table, &wrong_one), HRAZVANUT_NONE, false));
        }
    free((char *)longest.start);
}

static void roles(void)
{
    struct hrazvanut_table table = load(duties).table;
    CHECK(hrazvanut_is_table(table));
    places_of_roles(table);
    roles_and_names(table);
    too_many_roles(table);
    too_long_roles(table);
}

/* A proved function's number for the roles of a pool. */
static uint64_t pooled(struct hrazvanut_table table, const char *pool, size_t length, const char *lengths, size_t count)
{
    static const uint8_t some = 0;
    static const double calm = 0;
    const uint8_t *bytes = (const uint8_t *)pool, *each = (const uint8_t *)lengths;
    uint64_t answer =
        hrazvanut_abi_decide_letter(table.start, table.length, &some, 0, &some, 0, &some, 0, bytes, length, each, count, 1, &some, 0, &calm,
                                    0);
    CHECK(answer == hrazvanut_abi_decide_letter_checked(table.start, table.length, &some, 0, &some, 0, &some, 0, bytes, length, each, count,
                                                        1, &some, 0, &calm, 0));
    return answer;
}

static void pools(void)
{
    static const uint64_t refusal = UINT64_C(26) << 48;
    struct hrazvanut_table table = load(duties).table;
    CHECK(pooled(table, "op", 2, "\2", 1) == 6 && pooled(table, "op", 2, "", 0) == 0);
    CHECK(pooled(table, "devop", 5, "\3\2", 2) == 6 && pooled(table, "devop", 5, "\2\3", 2) == 0);
    CHECK(pooled(table, "opop", 4, "\2", 1) == 6 && pooled(table, "opera", 5, "\2", 1) == 6);
    CHECK(pooled(table, "op", 1, "\2", 1) == refusal && pooled(table, "devop", 4, "\3\2", 2) == refusal);
    CHECK(pooled(table, "", 0, "\0", 1) == 1 && pooled(table, "", 0, "\1", 1) == refusal);
    CHECK(pooled(table, "op", 2, "\2\0\0\0\0\0\0\0\0\0\0\0\0\0\0\0", 16) == 6);
    CHECK(pooled(table, "op", 2, "\2\0\0\0\0\0\0\0\0\0\0\0\0\0\0\0", 17) == refusal);
}

/* The numbers of the proved functions, bit by bit. */
static void numbers(struct hrazvanut_table table)
{
    static const uint8_t ann[] = "ann", pc1[] = "pc1";
    const uint8_t heard = 2, unknown = 3;
    const double calm = 0;
    const uint64_t none = UINT64_C(20) << 48;
    const uint8_t *bytes = table.start;
    size_t length = table.length;
    CHECK(hrazvanut_abi_decide_letter(bytes, length, ann, 0, ann, 3, pc1, 3, ann, 0, ann, 0, 1, &heard, 1, &calm, 1) == 6);
    CHECK(hrazvanut_abi_decide_letter(bytes, length, ann, 0, ann, 3, pc1, 3, ann, 0, ann, 0, 1, &heard, 1, &calm, 0) == 9);
    CHECK(hrazvanut_abi_decide_letter(bytes, length, ann, 0, ann, 3, pc1, 3, ann, 0, ann, 0, 1, &heard, 0, &calm, 1) == 9);
    CHECK(hrazvanut_abi_decide_letter(bytes, length, ann, 0, ann, 3, pc1, 3, ann, 0, ann, 0, 1, &unknown, 1, &calm, 1) == 9);
    CHECK(hrazvanut_abi_decide_letter(bytes, length, ann, 0, ann, 3, pc1, 3, ann, 0, ann, 0, 2, &heard, 1, &calm, 1) == UINT64_C(21) << 48);
    CHECK(hrazvanut_abi_decide_letter(bytes, 0, ann, 0, ann, 3, pc1, 3, ann, 0, ann, 0, 2, &heard, 1, &calm, 1) == none);
    CHECK(hrazvanut_abi_decide_letter(bytes, 0, ann, 0, ann, 3, pc1, 3, ann, 0, ann, 3, 2, &heard, 1, &calm, 1) == none);
    CHECK(hrazvanut_abi_decide_letter(bytes, length, ann, 0, ann, 3, pc1, 3, ann, 3, ann, 1, 1, &heard, 1, &calm, 1) == UINT64_C(26) << 48);
    CHECK(hrazvanut_abi_decide_letter_checked(bytes, length, ann, 0, ann, 3, pc1, 3, ann, 0, ann, 0, 1, &heard, 1, &calm, 1) == 6);
    CHECK(hrazvanut_abi_find_input(table.start, 0, ann, 0, 0) == none);
    CHECK(hrazvanut_abi_find_input(table.start, table.length, ann, 0, 1) == UINT64_C(22) << 48);
    CHECK(hrazvanut_abi_find_input(table.start, table.length, ann, 0, 0) >> 32 == 6);
    CHECK(hrazvanut_abi_find_input_checked(bytes, length, ann, 0, 0) == hrazvanut_abi_find_input(bytes, length, ann, 0, 0));
    CHECK(hrazvanut_abi_find_input_checked(bytes, length, ann, 0, 256) == UINT64_C(22) << 48);
    CHECK(hrazvanut_abi_allowed(ann, 3) == 0 && hrazvanut_abi_allowed(ann, 1) == 1);
}

static void questions(void)
{
    struct hrazvanut_table table = load(site).table;
    CHECK(hrazvanut_is_table(table));
    names_and_levels(table);
    readings(table);
    numbers(table);
    undefined_groups();
    letters();
    roles();
    pools();
}

/* ---- look-ups and calculations */

static const uint32_t letters_without[] = {1, 19, 21, 255, 256, 65536, UINT32_MAX};

/* With the check, or without it. */
typedef struct hrazvanut_found looking_up(struct hrazvanut_table, struct hrazvanut_text, uint32_t);

static void look_ups_by(looking_up *find, struct hrazvanut_table table)
{
    struct hrazvanut_text no_group = ZERO;
    struct hrazvanut_found found = find(table, no_group, 0);
    size_t i;
    CHECK(found.refusal == HRAZVANUT_NOT_REFUSED && is_text(found.name, "B1:PGA"));
    CHECK(found.name.start == (const char *)table.start + found.at);
    CHECK(is_text(find(table, hrazvanut_string("nowhere"), 20).name, "B1:KEY"));
    CHECK(find(table, hrazvanut_string("tower"), 0).refusal == HRAZVANUT_REFUSED_NO_INPUT);
    for (i = 0; i < sizeof letters_without / sizeof *letters_without; i++) {
        found = find(table, no_group, letters_without[i]);
        CHECK(found.refusal == HRAZVANUT_REFUSED_NO_INPUT);
        CHECK(found.name.start == NULL && found.name.length == 0 && found.at == 0);
    }
}

static void look_ups(void)
{
    struct hrazvanut_table none = ZERO, table = load(site).table;
    struct hrazvanut_text no_group = ZERO;
    struct hrazvanut_found found;
    size_t i;
    look_ups_by(hrazvanut_find_input, table);
    look_ups_by(hrazvanut_find_input_checked, table);
    for (i = 0; i < sizeof letters_without / sizeof *letters_without; i++) {
        found = hrazvanut_find_input(none, no_group, letters_without[i]);
        CHECK(found.refusal == HRAZVANUT_REFUSED_NOT_TABLE);
        CHECK(found.name.start == NULL && found.name.length == 0 && found.at == 0);
    }
}

/* From the letter of an answer to the process variable. */
static const char stops[] = "UAG(u) {ann} ASG(DEFAULT) {INPU(D:U) INPA(D:A) INPB(D:B) RULE(1,READ)\n"
                            "RULE(1,WRITE,TRAPWRITE) {UAG(u) CALC(\"u>0?B:A\")}}\n"
                            "ASG(tower) {INPB(T:B) RULE(1,NONE) {CALC(\"B\")} RULE(1,READ) {CALC(\"b\")}} ASG(bare)\n";

static void blamed(struct hrazvanut_table table, const struct hrazvanut_question *q, enum hrazvanut_access access, char letter,
                   const char *name)
{
    struct hrazvanut_answer answer = ask(table, q);
    struct hrazvanut_found found = hrazvanut_stopping_input(table, q->group, answer.letter);
    CHECK(blames(answer, access, letter));
    CHECK(found.refusal == HRAZVANUT_NOT_REFUSED && is_text(found.name, name));
    CHECK(found.name.start == (const char *)table.start + found.at);
}

static void answers_to_inputs(struct hrazvanut_table table)
{
    struct hrazvanut_question q = of_ann();
    blamed(table, &q, HRAZVANUT_READ, 'B', "D:B");
    q.readings[0].state = HRAZVANUT_INVALID;
    blamed(table, &q, HRAZVANUT_READ, 'A', "D:A");
    q.group = hrazvanut_string("nowhere");
    blamed(table, &q, HRAZVANUT_READ, 'A', "D:A");
    q.group = hrazvanut_string("tower");
    blamed(table, &q, HRAZVANUT_NONE, 'B', "T:B");
    q.group = hrazvanut_string("bare");
    CHECK(answers(ask(table, &q), HRAZVANUT_NONE, false));
    q.group = hrazvanut_string("");
    q.readings[0] = q.readings[1] = of_ann().readings[0];
    blamed(table, &q, HRAZVANUT_READ, 'U', "D:U");
    q.readings[20] = q.readings[0];
    CHECK(answers(ask(table, &q), HRAZVANUT_READ, false));
    q.readings[20].state = HRAZVANUT_NEVER_HEARD;
    q.user = hrazvanut_string("eve");
    CHECK(answers(ask(table, &q), HRAZVANUT_READ, false));
}

/* Each byte for a letter, in a group and in none. */
static void each_byte(struct hrazvanut_table table)
{
    struct hrazvanut_text no_group = ZERO;
    struct hrazvanut_table none = ZERO;
    int byte;
    for (byte = 0; byte < 256; byte++) {
        struct hrazvanut_found found = hrazvanut_stopping_input(table, no_group, (char)byte);
        bool here = byte == 'A' || byte == 'B' || byte == 'U';
        CHECK(found.refusal == (here ? HRAZVANUT_NOT_REFUSED : HRAZVANUT_REFUSED_NO_INPUT));
        CHECK(here ? found.name.start[2] == byte && found.name.length == 3 : found.name.start == NULL && found.name.length == 0);
        found = hrazvanut_stopping_input(table, hrazvanut_string("tower"), (char)byte);
        CHECK(found.refusal == (byte == 'B' ? HRAZVANUT_NOT_REFUSED : HRAZVANUT_REFUSED_NO_INPUT));
        CHECK(hrazvanut_stopping_input(none, no_group, (char)byte).refusal == HRAZVANUT_REFUSED_NOT_TABLE);
    }
}

/* A table that no load writes: its first input, of 6 bytes, is another letter's, so that U has none. */
static void letter_without_input(struct hrazvanut_table table)
{
    struct hrazvanut_question q = of_ann();
    struct hrazvanut_answer answer;
    q.readings[1] = q.readings[0];
    lent[lent[22] | lent[23] << 8] = 3;
    CHECK(hrazvanut_is_table(table));
    answer = ask(table, &q);
    CHECK(blames(answer, HRAZVANUT_READ, 'U'));
    CHECK(hrazvanut_stopping_input(table, q.group, answer.letter).refusal == HRAZVANUT_REFUSED_NO_INPUT);
}

static void stopping(void)
{
    static const uint8_t ann[] = "ann";
    static const uint8_t heard[2] = {2, 2};
    static const double calm[2] = {0, 0};
    struct hrazvanut_table table = load(stops).table;
    const uint8_t *bytes = table.start;
    size_t length = table.length;
    CHECK(hrazvanut_is_table(table));
    CHECK(hrazvanut_abi_decide_letter(bytes, length, ann, 0, ann, 3, ann, 0, ann, 0, ann, 0, 1, heard, 2, calm, 2) == (1 | 21 << 3));
    CHECK(hrazvanut_abi_decide_letter(bytes, length, ann, 0, ann, 3, ann, 0, ann, 0, ann, 0, 1, heard, 1, calm, 1) == (1 | 2 << 3));
    answers_to_inputs(table);
    each_byte(table);
    letter_without_input(table);
}

static void calculations(void)
{
    struct hrazvanut_text none = ZERO;
    CHECK(hrazvanut_allowed(hrazvanut_string("A>0.3?0:1")));
    CHECK(!hrazvanut_allowed(hrazvanut_string("A>0.3?0:")));
    CHECK(!hrazvanut_allowed(none));
}

int main(void)
{
    words();
    loads();
    warnings();
    tables();
    questions();
    look_ups();
    stopping();
    calculations();
    exports();
    walks();
    passed();
    registers();
    printf("%lu checks, %lu wrong\n", checks, wrong);
    return wrong != 0;
}
