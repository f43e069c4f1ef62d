/* What the functions of an export, look-ups, groups, walks and the version pass on to the proved ones, and what they make of each answer: functions of
 * this file stand in for those of the library, which answer for tables alone, and alike with the check and without it. */
#define hrazvanut_abi_is_table is_table_here
#define hrazvanut_abi_export export_here
#define hrazvanut_abi_group_at group_at_here
#define hrazvanut_abi_group_at_checked group_at_checked_here
#define hrazvanut_abi_find_input find_input_here
#define hrazvanut_abi_find_input_checked find_input_checked_here
#define hrazvanut_abi_version version_here
#include "check.h"

/* What was last asked, how often, with the check and without it, and the next answers. */
static struct {
    const uint8_t *table, *group, *text;
    size_t table_length, text_length, number, group_length, tables, groups, groups_checked, inputs, inputs_checked;
    uint32_t letter;
} asked;
static uint64_t group_answer, input_answer, export_answer;
static uint8_t table_answer;

uint8_t is_table_here(const uint8_t *table, size_t table_length)
{
    asked.table = table, asked.table_length = table_length, asked.tables++;
    return table_answer;
}

uint64_t export_here(const uint8_t *table, size_t table_length, uint8_t *text, size_t text_length)
{
    asked.table = table, asked.table_length = table_length;
    asked.text = text, asked.text_length = text_length;
    return export_answer;
}

static uint64_t name_group(const uint8_t *table, size_t table_length, size_t number)
{
    asked.table = table, asked.table_length = table_length, asked.number = number;
    return group_answer;
}

static uint64_t name_input(const uint8_t *table, size_t table_length, const uint8_t *group, size_t group_length, uint32_t letter)
{
    asked.table = table, asked.table_length = table_length, asked.letter = letter;
    asked.group = group, asked.group_length = group_length;
    return input_answer;
}

uint64_t group_at_here(const uint8_t *table, size_t table_length, size_t number)
{
    asked.groups++;
    return name_group(table, table_length, number);
}

uint64_t group_at_checked_here(const uint8_t *table, size_t table_length, size_t number)
{
    asked.groups_checked++;
    return name_group(table, table_length, number);
}

uint64_t find_input_here(const uint8_t *table, size_t table_length, const uint8_t *group, size_t group_length, uint32_t letter)
{
    asked.inputs++;
    return name_input(table, table_length, group, group_length, letter);
}

uint64_t find_input_checked_here(const uint8_t *table, size_t table_length, const uint8_t *group, size_t group_length, uint32_t letter)
{
    asked.inputs_checked++;
    return name_input(table, table_length, group, group_length, letter);
}

uint32_t version_here(void) { return UINT32_C(0xfedcba98); }

/* How often each was asked since the last look. */
static bool were_asked(size_t tables, size_t groups, size_t groups_checked, size_t inputs, size_t inputs_checked)
{
    bool good = asked.tables == tables && asked.groups == groups && asked.groups_checked == groups_checked && asked.inputs == inputs &&
                asked.inputs_checked == inputs_checked;
    asked.tables = asked.groups = asked.groups_checked = asked.inputs = asked.inputs_checked = 0;
    return good;
}

static uint8_t bytes[HRAZVANUT_TABLE];

/* Lengths whole, pointers that are not NULL; an answer's bytes whole, as the length or as what is needed. */
static void exported(struct hrazvanut_table table)
{
    static char page[1];
    struct hrazvanut_text_room room = ZERO, nowhere = ZERO;
    struct hrazvanut_table none = ZERO;
    struct hrazvanut_exported done;
    room.start = page;
    room.length = SIZE_MAX; /* nobody writes there */
    export_answer = UINT64_C(0xfedcba98);
    done = hrazvanut_export(table, room);
    CHECK(asked.table == bytes && asked.table_length == sizeof bytes);
    CHECK(asked.text == (const uint8_t *)page && asked.text_length == SIZE_MAX);
    CHECK(done.refusal == HRAZVANUT_NOT_REFUSED && done.needed == 0 && done.text.start == page && done.text.length == 0xfedcba98u);
    export_answer = UINT64_C(0xfedcba98) | UINT64_C(28) << 48;
    done = hrazvanut_export(none, nowhere);
    CHECK(asked.table != NULL && asked.table_length == 0 && asked.text != NULL && asked.text_length == 0);
    CHECK(done.refusal == 28 && done.needed == 0xfedcba98u && done.text.start == NULL && done.text.length == 0);
    export_answer = UINT64_C(9999) << 48; /* of a later version */
    done = hrazvanut_export(table, room);
    CHECK((int)done.refusal == 9999 && done.needed == 0 && done.text.start == NULL && done.text.length == 0);
}

/* A number whole, a pointer that is not NULL; an answer's place and length whole. */
static void groups(struct hrazvanut_found (*group_at)(struct hrazvanut_table, size_t), struct hrazvanut_table table)
{
    static const size_t numbers[] = {0, 1, 20, 255, 256, 65536, (size_t)1 << 32, ((size_t)1 << 63) + 1, SIZE_MAX};
    struct hrazvanut_table none = ZERO;
    struct hrazvanut_found found;
    size_t i;
    group_answer = UINT64_C(30001) | UINT64_C(300) << 32;
    for (i = 0; i < sizeof numbers / sizeof *numbers; i++) {
        found = group_at(table, numbers[i]);
        CHECK(asked.table == bytes && asked.table_length == sizeof bytes && asked.number == numbers[i]);
        CHECK(found.refusal == HRAZVANUT_NOT_REFUSED && found.at == 30001);
        CHECK(found.name.start == (const char *)bytes + 30001 && found.name.length == 300);
    }
    group_answer = UINT64_C(20) << 48;
    found = group_at(none, 7);
    CHECK(asked.table != NULL && asked.table_length == 0 && asked.number == 7);
    CHECK(found.refusal == HRAZVANUT_REFUSED_NOT_TABLE && found.name.start == NULL && found.name.length == 0 && found.at == 0);
}

/* A letter whole, pointers that are not NULL. */
static void inputs(struct hrazvanut_found (*find)(struct hrazvanut_table, struct hrazvanut_text, uint32_t), struct hrazvanut_table table)
{
    struct hrazvanut_text group = hrazvanut_string("tower"), no_group = ZERO;
    struct hrazvanut_table none = ZERO;
    struct hrazvanut_found found;
    input_answer = UINT64_C(30001) | UINT64_C(300) << 32;
    found = find(table, group, UINT32_MAX);
    CHECK(asked.table == bytes && asked.table_length == sizeof bytes && asked.letter == UINT32_MAX);
    CHECK(asked.group == (const uint8_t *)group.start && asked.group_length == 5);
    CHECK(found.refusal == HRAZVANUT_NOT_REFUSED && found.at == 30001);
    CHECK(found.name.start == (const char *)bytes + 30001 && found.name.length == 300);
    input_answer = UINT64_C(22) << 48;
    found = find(none, no_group, 7);
    CHECK(asked.table != NULL && asked.table_length == 0 && asked.group != NULL && asked.group_length == 0 && asked.letter == 7);
    CHECK(found.refusal == HRAZVANUT_REFUSED_NO_INPUT && found.name.start == NULL && found.name.length == 0 && found.at == 0);
}

/* Which group and letter are asked for, by which name; what is told of the answers. The table is checked once in each step, or never. */
static void steps(bool (*next_input)(struct hrazvanut_table, struct hrazvanut_input *), size_t checks, struct hrazvanut_table table)
{
    struct hrazvanut_input input = ZERO;
    size_t next;
    table_answer = 1;
    group_answer = UINT64_C(100) | UINT64_C(60) << 32;
    input_answer = UINT64_C(200) | UINT64_C(50) << 32;
    for (next = 0; next < 64 * 21; next++) {
        CHECK(next_input(table, &input) && were_asked(checks, 0, 1, 0, 1));
        CHECK(asked.number == next / 21 && asked.letter == next % 21);
        CHECK(asked.table == bytes && asked.table_length == sizeof bytes && asked.group == bytes + 100 && asked.group_length == 60);
        CHECK(input.letter == next % 21 && input.group.start == (const char *)bytes + 100 && input.group.length == 60);
        CHECK(input.name.start == (const char *)bytes + 200 && input.name.length == 50);
    }
    group_answer = UINT64_C(22) << 48;
    CHECK(!next_input(table, &input) && asked.number == 64 && were_asked(checks, 0, 1, 0, 0));
    group_answer = UINT64_C(9999) << 48; /* of a later version */
    CHECK(!next_input(table, &input) && were_asked(checks, 0, 1, 0, 0));
    input.next = SIZE_MAX;
    CHECK(!next_input(table, &input) && asked.number == SIZE_MAX / 21 && were_asked(checks, 0, 1, 0, 0));
}

/* Of what is no table nothing is asked but that. */
static void no_table(struct hrazvanut_table table)
{
    struct hrazvanut_table none = ZERO;
    struct hrazvanut_input input = ZERO;
    table_answer = 0;
    group_answer = UINT64_C(100) | UINT64_C(60) << 32;
    CHECK(!hrazvanut_next_input(table, &input) && asked.table == bytes && asked.table_length == sizeof bytes && were_asked(1, 0, 0, 0, 0));
    CHECK(!hrazvanut_next_input(none, &input) && asked.table != NULL && asked.table_length == 0 && were_asked(1, 0, 0, 0, 0));
    CHECK(input.next == 0 && input.name.length == 0);
}

void passed(void)
{
    struct hrazvanut_table table = ZERO;
    table.start = bytes;
    table.length = sizeof bytes;
    CHECK(hrazvanut_version() == UINT32_C(0xfedcba98));
    exported(table);
    groups(hrazvanut_group_at, table);
    CHECK(were_asked(0, 10, 0, 0, 0));
    groups(hrazvanut_group_at_checked, table);
    CHECK(were_asked(0, 0, 10, 0, 0));
    inputs(hrazvanut_find_input, table);
    CHECK(were_asked(0, 0, 0, 2, 0));
    inputs(hrazvanut_find_input_checked, table);
    CHECK(were_asked(0, 0, 0, 0, 2));
    steps(hrazvanut_next_input, 1, table);
    steps(hrazvanut_next_input_checked, 0, table);
    no_table(table);
}
