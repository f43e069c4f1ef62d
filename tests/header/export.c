/* A table written back as text, as a caller has it. */
#include <stdio.h>
#include <stdlib.h>
#include <string.h>

#include "check.h"

static uint8_t lent[HRAZVANUT_TABLE + 16], stored[sizeof lent], again[sizeof lent];
static char page[HRAZVANUT_TEXT + 16];

static size_t word(const uint8_t *at) { return (size_t)(at[0] | at[1] << 8); }

/* The byte `from` of the table's strings, which are its last section, is `to`. */
static void change_strings(struct hrazvanut_table table, char from, char to)
{
    size_t i;
    for (i = word(lent + 34); i < table.length; i++)
        if (lent[i] == (uint8_t)from)
            lent[i] = (uint8_t)to;
    CHECK(hrazvanut_is_table(table));
}

/* All bytes of the page are another one before. */
static struct hrazvanut_exported export_into(struct hrazvanut_table table, size_t length)
{
    struct hrazvanut_text_room room = ZERO;
    struct hrazvanut_exported exported;
    room.start = page;
    room.length = length;
    memset(page, '?', sizeof page);
    memcpy(stored, lent, sizeof lent);
    exported = hrazvanut_export(table, room);
    CHECK(memcmp(stored, lent, sizeof lent) == 0);
    return exported;
}

/* Whether the page is as it was from a byte on. */
static bool untouched(size_t from) { return page[from] == '?' && memcmp(page + from, page + from + 1, sizeof page - from - 1) == 0; }

static bool writes(struct hrazvanut_table table, size_t length, const char *text, size_t text_length)
{
    struct hrazvanut_exported exported = export_into(table, length);
    return exported.refusal == HRAZVANUT_NOT_REFUSED && exported.needed == 0 && exported.text.start == page &&
           exported.text.length == text_length && memcmp(page, text, text_length) == 0 && untouched(text_length) &&
           hrazvanut_abi_export(table.start, table.length, (uint8_t *)page, length) == text_length;
}

/* 28 has the bytes needed, any other refusal none. */
static bool refuses(struct hrazvanut_table table, size_t length, enum hrazvanut_refusal refusal, size_t needed)
{
    struct hrazvanut_exported exported = export_into(table, length);
    return exported.refusal == refusal && exported.needed == needed && exported.text.start == NULL && exported.text.length == 0 &&
           untouched(0) &&
           hrazvanut_abi_export(hrazvanut_abi_bytes(table.start, table.length), table.length, (uint8_t *)page, length) ==
               (needed | (uint64_t)refusal << 48);
}

static const char site[] = "# a comment\nHAG(hosts) {PC1, \"pc 2\"} FOO() UAG(users) {ann} UAG(nobody)\n"
                           "ASG(DEFAULT) {RULE(1,READ) INPA(B1:PGA)\n"
                           "RULE(+1,WRITE,TRAPWRITE) {HAG(hosts) CALC(\"A<0.3\") BAR() UAG(users,nobody)}} ASG(bare)\n";

static const char written[] = "UAG(\"users\"){\n\"ann\"\n}\nUAG(\"nobody\")\nHAG(\"hosts\"){\n\"pc1\",\"pc 2\"\n}\nASG(\"DEFAULT\"){\n"
                              "INPA(\"B1:PGA\")\nRULE(1,READ,NOTRAPWRITE)\nRULE(1,WRITE,TRAPWRITE){\nUAG(\"users\",\"nobody\")\n"
                              "HAG(\"hosts\")\nCALC(\"A<0.3\")\nUNKNOWN()\n}\n}\nASG(\"bare\")\n";

enum { WRITTEN = sizeof written - 1 };

/* Each length of the room: one byte too few, all of them, more. */
static void rooms(void)
{
    struct hrazvanut_table table = table_in(lent, sizeof lent, site);
    struct hrazvanut_text_room nowhere = ZERO;
    size_t length;
    for (length = 0; length < WRITTEN; length++)
        CHECK(refuses(table, length, HRAZVANUT_REFUSED_NO_ROOM_FOR_TEXT, WRITTEN));
    for (; length < WRITTEN + 20; length++)
        CHECK(writes(table, length, written, WRITTEN));
    CHECK(writes(table, sizeof page - 2, written, WRITTEN));
    CHECK(hrazvanut_export(table, nowhere).refusal == HRAZVANUT_REFUSED_NO_ROOM_FOR_TEXT);
    CHECK(hrazvanut_export(table, nowhere).needed == WRITTEN);
    table.length += 2;
    CHECK(writes(table, WRITTEN, written, WRITTEN));
}

/* The text loads, to the same table, whose text is the same. */
static void there_and_back(void)
{
    struct hrazvanut_table table = table_in(lent, sizeof lent, site);
    struct hrazvanut_room room = ZERO;
    struct hrazvanut_loaded loaded;
    room.start = again;
    room.length = sizeof again;
    loaded = hrazvanut_load(export_into(table, sizeof page).text, room);
    CHECK(loaded.refusal == HRAZVANUT_NOT_REFUSED && loaded.warnings == 1);
    CHECK(loaded.table.length == table.length && memcmp(again, lent, table.length) == 0);
    CHECK(writes(loaded.table, sizeof page - 1, written, WRITTEN));
}

/* 20, then 27, then 28. */
static void order(void)
{
    struct hrazvanut_table none = ZERO, table = table_in(lent, sizeof lent, "FOO()");
    static const size_t lengths[] = {0, 1, HRAZVANUT_TEXT};
    size_t i;
    for (i = 0; i < sizeof lengths / sizeof *lengths; i++) {
        CHECK(refuses(none, lengths[i], HRAZVANUT_REFUSED_NOT_TABLE, 0));
        CHECK(refuses(table, lengths[i], HRAZVANUT_REFUSED_UNWRITABLE, 0));
    }
    table.length--;
    CHECK(refuses(table, 0, HRAZVANUT_REFUSED_NOT_TABLE, 0));
}

/* A name with each byte in it, which a load would take only as an escape. */
static void each_byte(void)
{
    char text[] = "UAG(\"a?b\")\n";
    int byte;
    for (byte = 0; byte < 256; byte++) {
        struct hrazvanut_table table = table_in(lent, sizeof lent, "UAG(\"a@b\")");
        change_strings(table, '@', (char)byte);
        text[6] = (char)byte;
        if (byte == '"' || byte == '\n')
            CHECK(refuses(table, sizeof page - 1, HRAZVANUT_REFUSED_UNWRITABLE, 0));
        else
            CHECK(writes(table, sizeof page - 1, text, sizeof text - 1));
        table = table_in(lent, sizeof lent, "UAG(\"\\@\")");
        change_strings(table, '@', (char)byte);
        CHECK(export_into(table, sizeof page).text.length == 10);
        table = table_in(lent, sizeof lent, "UAG(\"a@\")");
        change_strings(table, '@', (char)byte);
        CHECK((export_into(table, sizeof page).refusal == 27) == (byte == '"' || byte == '\n' || byte == '\\'));
    }
}

/* Tables that no load writes: `x","y` is one member, and not two; a name twice; a name that is not defined, whatever its number. */
static void by_no_load(void)
{
    struct hrazvanut_table table = table_in(lent, sizeof lent, "UAG(a) {\"x@,@y\"}");
    uint8_t *reference;
    change_strings(table, '@', '"');
    CHECK(refuses(table, HRAZVANUT_TEXT, HRAZVANUT_REFUSED_UNWRITABLE, 0));
    table = table_in(lent, sizeof lent, "UAG(a) UAG(b)");
    change_strings(table, 'b', 'a');
    CHECK(refuses(table, HRAZVANUT_TEXT, HRAZVANUT_REFUSED_UNWRITABLE, 0));
    table = table_in(lent, sizeof lent, "UAG(a) ASG(b) {RULE(1,READ) {UAG(a)}}");
    reference = lent + word(lent + 30);
    reference[0] = reference[1] = 0xff;
    CHECK(export_into(table, sizeof page).text.length == strlen("UAG(\"a\")\nASG(\"b\"){\nRULE(1,READ,NOTRAPWRITE){\nUAG(\"a\")\n}\n}\n"));
    memcpy(reference + 2, lent + word(lent + 18), 4); /* the name of the access group */
    CHECK(hrazvanut_is_table(table) && refuses(table, HRAZVANUT_TEXT, HRAZVANUT_REFUSED_UNWRITABLE, 0));
}

/* 64 user groups of 16 members each, which are then all the first group's name, of 60 bytes: a text of more than 16 bits, that no load takes. */
static void long_text(void)
{
    enum { LONG = 64 * 72 + 1024 * 63 - 64 };
    static char text[HRAZVANUT_FILE];
    struct hrazvanut_table table;
    struct hrazvanut_room nowhere = ZERO;
    size_t i, at = 0;
    for (i = 0; i < 64; i++)
        at += (size_t)sprintf(text + at, "UAG(g%059d) {x,x,x,x,x,x,x,x,x,x,x,x,x,x,x,x}", (int)i);
    table = table_in(lent, sizeof lent, text);
    for (i = 0; i < 1024; i++)
        memcpy(lent + word(lent + 14) + 4 * i, lent + word(lent + 6), 4);
    CHECK(hrazvanut_is_table(table));
    CHECK(refuses(table, 65535, HRAZVANUT_REFUSED_NO_ROOM_FOR_TEXT, LONG));
    CHECK(export_into(table, LONG).text.length == LONG && untouched(LONG));
    CHECK(hrazvanut_load(export_into(table, LONG).text, nowhere).refusal == HRAZVANUT_REFUSED_FILE_TOO_LONG);
}

void exports(void)
{
    CHECK(HRAZVANUT_TEXT == 213056);
    rooms();
    there_and_back();
    order();
    each_byte();
    by_no_load();
    long_text();
}
