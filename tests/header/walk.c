/* Access groups by number, and walks over the inputs of a table, as a caller has them. */
#include <stdio.h>
#include <string.h>

#include "check.h"

static uint8_t lent[HRAZVANUT_TABLE + 16], stored[sizeof lent];

/* The table of a text that is accepted, at the start of `lent`; its bytes are kept. */
static struct hrazvanut_table table_of(const char *text)
{
    struct hrazvanut_table table = table_in(lent, sizeof lent, text);
    memcpy(stored, lent, sizeof lent);
    return table;
}

static size_t word(const uint8_t *at) { return (size_t)(at[0] | at[1] << 8); }

/* A record of section 4, the words of its name first: the offset in section 8, then the length. */
static uint8_t *group_record(size_t number) { return lent + word(lent + 18) + 12 * number; }

static bool is_text(struct hrazvanut_text text, const char *s)
{
    return text.length == strlen(s) && memcmp(text.start, s, text.length) == 0;
}

static bool same_text(struct hrazvanut_text a, struct hrazvanut_text b) { return a.start == b.start && a.length == b.length; }

static const char site[] = "UAG(users) {ann} HAG(hosts) {pc1}\n"
                           "ASG(tower) {INPC(T:C) INPA(T:A) RULE(1,READ) {UAG(users) HAG(hosts) CALC(\"A+C\")}}\n"
                           "ASG(\"\") {INPB(x) INPA(y)}\n"
                           "ASG(DEFAULT) {INPU(D:U) INPA(\"\") RULE(1,WRITE) {CALC(\"U\")}}\n";

/* ---- by number */

static bool same_found(struct hrazvanut_found a, struct hrazvanut_found b)
{
    return a.refusal == b.refusal && same_text(a.name, b.name) && a.at == b.at;
}

static bool is_group(struct hrazvanut_table table, size_t number, const char *name)
{
    struct hrazvanut_found found = hrazvanut_group_at(table, number);
    return found.refusal == HRAZVANUT_NOT_REFUSED && is_text(found.name, name) &&
           found.name.start == (const char *)table.start + found.at && same_found(hrazvanut_group_at_checked(table, number), found);
}

/* Without the check too, if the bytes are a table. */
static bool is_no_group(struct hrazvanut_table table, size_t number, enum hrazvanut_refusal refusal)
{
    struct hrazvanut_found found = hrazvanut_group_at(table, number);
    bool none = found.name.start == NULL && found.name.length == 0 && found.at == 0;
    bool checked = hrazvanut_is_table(table);
    return found.refusal == refusal && none &&
           hrazvanut_abi_group_at(hrazvanut_abi_bytes(table.start, table.length), table.length, number) == (uint64_t)refusal << 48 &&
           (!checked || same_found(hrazvanut_group_at_checked(table, number), found)) &&
           (!checked || hrazvanut_abi_group_at_checked(table.start, table.length, number) == (uint64_t)refusal << 48);
}

/* Numbers that three groups have not; some of them are theirs in fewer bits. */
static const size_t beyond[] = {
    3, 4, 63, 64, 65, 255, 256, 257, 65535, 65536, 65537, 65538, (size_t)1 << 31, (size_t)1 << 32, ((size_t)1 << 32) + 1, SIZE_MAX / 21,
    ((size_t)1 << 62) + 1, ((size_t)1 << 63) + 2, SIZE_MAX - 1, SIZE_MAX,
};

static void no_groups(struct hrazvanut_table table, enum hrazvanut_refusal refusal)
{
    size_t i;
    for (i = 0; i < sizeof beyond / sizeof *beyond; i++)
        CHECK(is_no_group(table, beyond[i], refusal));
}

/* The names stand one behind the other: that of no bytes and the one behind it at one place. */
static void by_number(void)
{
    struct hrazvanut_table table = table_of(site);
    size_t place = word(lent + 34) + word(group_record(0));
    CHECK(is_group(table, 0, "tower") && is_group(table, 1, "") && is_group(table, 2, "DEFAULT"));
    CHECK(hrazvanut_group_at(table, 0).at == place && hrazvanut_group_at(table, 2).at == place + 5);
    CHECK(hrazvanut_abi_group_at(table.start, table.length, 0) == (place | UINT64_C(5) << 32));
    CHECK(hrazvanut_abi_group_at(table.start, table.length, 1) == place + 5);
    CHECK(hrazvanut_abi_group_at(table.start, table.length, 2) == ((place + 5) | UINT64_C(7) << 32));
    CHECK(hrazvanut_abi_group_at_checked(table.start, table.length, 2) == ((place + 5) | UINT64_C(7) << 32));
    no_groups(table, HRAZVANUT_REFUSED_NO_INPUT);
    CHECK(memcmp(stored, lent, sizeof lent) == 0);
    table.length = sizeof lent;
    CHECK(is_group(table, 0, "tower") && is_group(table, 2, "DEFAULT"));
    memmove(lent + 1, lent, sizeof lent - 1);
    table.start = lent + 1;
    table.length = sizeof lent - 1;
    CHECK(is_group(table, 0, "tower") && hrazvanut_group_at(table, 0).at == place);
}

/* ---- walks */

/* What a walk is to tell. */
struct told {
    const char *group;
    char letter;
    const char *name;
};

static const struct told of_site[] = {{"tower", 'A', "T:A"}, {"tower", 'C', "T:C"}, {"DEFAULT", 'A', ""}, {"DEFAULT", 'U', "D:U"}};

static bool same_input(struct hrazvanut_input a, struct hrazvanut_input b)
{
    return same_text(a.group, b.group) && a.letter == b.letter && same_text(a.name, b.name);
}

/* It stays at its end, and the input is as it was; without the check too, if the bytes are a table. */
static bool is_over(struct hrazvanut_table table, struct hrazvanut_input input)
{
    struct hrazvanut_input was = input, checked = input;
    bool is_table = hrazvanut_is_table(table);
    int i;
    for (i = 0; i < 3; i++)
        if (hrazvanut_next_input(table, &input) || !same_input(input, was) ||
            (is_table && (hrazvanut_next_input_checked(table, &checked) || !same_input(checked, was) || checked.next != input.next)))
            return false;
    return true;
}

/* From this input on these are told, and no more, with the check and without it. Each is a part of the table, and what a look-up finds. */
static void tells(struct hrazvanut_table table, struct hrazvanut_input input, const struct told *told, size_t count)
{
    struct hrazvanut_input checked = input;
    size_t i;
    for (i = 0; i < count; i++) {
        bool more = hrazvanut_next_input(table, &input);
        CHECK(more && hrazvanut_next_input_checked(table, &checked) && same_input(checked, input) && checked.next == input.next);
        if (!more)
            return;
        CHECK(is_text(input.group, told[i].group) && is_text(input.name, told[i].name));
        CHECK(input.letter == (uint32_t)(told[i].letter - 'A'));
        CHECK(same_text(input.name, hrazvanut_find_input(table, input.group, input.letter).name));
        CHECK(same_text(input.name, hrazvanut_find_input_checked(table, input.group, input.letter).name));
        CHECK((const uint8_t *)input.group.start > table.start && (const uint8_t *)input.name.start > table.start);
    }
    CHECK(is_over(table, input));
}

static struct hrazvanut_input input_at(size_t next)
{
    struct hrazvanut_input input = ZERO;
    input.next = next;
    return input;
}

/* The walk, from zeros; again with zeros, and with what is left of the walk before. */
static void whole_walk(void)
{
    struct hrazvanut_table table = table_of(site);
    struct hrazvanut_input input = ZERO;
    tells(table, input, of_site, 4);
    tells(table, input, of_site, 4);
    CHECK(hrazvanut_next_input(table, &input) && hrazvanut_next_input(table, &input) && hrazvanut_next_input(table, &input));
    tells(table, input, of_site + 3, 1);
    input.next = 0;
    tells(table, input, of_site, 4);
    input.group = input.name = hrazvanut_string("something else");
    input.letter = UINT32_MAX;
    tells(table, input, of_site, 4);
    table.length = sizeof lent;
    tells(table, input, of_site, 4);
    CHECK(memcmp(stored, lent, sizeof lent) == 0);
}

/* From each number of a group and a letter: A and C of the first, A and U of the third. Behind them there is nothing. */
static void any_next(void)
{
    struct hrazvanut_table table = table_of(site);
    size_t next, i;
    for (next = 0; next <= 4 * HRAZVANUT_READINGS; next++) {
        size_t first = (size_t)((next > 0) + (next > 2) + (next > 42) + (next > 62));
        tells(table, input_at(next), of_site + first, 4 - first);
    }
    for (i = 0; i < sizeof beyond / sizeof *beyond; i++) {
        CHECK(is_over(table, input_at(beyond[i] < 63 ? 63 : beyond[i])));
        CHECK(beyond[i] > SIZE_MAX / 21 || is_over(table, input_at(beyond[i] * 21)));
    }
    for (i = 0; i < 50; i++)
        CHECK(is_over(table, input_at(SIZE_MAX - i)));
}

/* What is no table has no groups and tells nothing; nor does a table that has none, or no inputs, or a group of no name alone. */
static void nothing(void)
{
    static const struct told left = {"DEFAULT", 'B', "z"};
    struct hrazvanut_table none = ZERO, table = table_of(site), cut = table;
    struct hrazvanut_input input = ZERO;
    CHECK(is_over(none, input) && is_no_group(none, 0, HRAZVANUT_REFUSED_NOT_TABLE));
    no_groups(none, HRAZVANUT_REFUSED_NOT_TABLE);
    cut.length--;
    CHECK(is_over(cut, input) && is_no_group(cut, 0, HRAZVANUT_REFUSED_NOT_TABLE));
    no_groups(cut, HRAZVANUT_REFUSED_NOT_TABLE);
    CHECK(hrazvanut_next_input(table, &input) && is_over(cut, input) && is_over(none, input));
    lent[0] = 2;
    CHECK(is_over(table, input) && is_no_group(table, 0, HRAZVANUT_REFUSED_NOT_TABLE));
    input.next = 0;
    CHECK(is_over(table, input) && is_over(table, input_at(SIZE_MAX)));
    lent[0] = 1;
    lent[word(lent + 22)] = 21; /* a letter that there is not */
    CHECK(is_over(table, input) && is_no_group(table, 0, HRAZVANUT_REFUSED_NOT_TABLE));
    no_groups(table, HRAZVANUT_REFUSED_NOT_TABLE);
    table = table_of("UAG(users) {ann} HAG(hosts) {pc1}");
    CHECK(is_over(table, input) && is_no_group(table, 0, HRAZVANUT_REFUSED_NO_INPUT));
    no_groups(table, HRAZVANUT_REFUSED_NO_INPUT);
    table = table_of("ASG(DEFAULT) ASG(tower) {RULE(1,READ)}");
    CHECK(is_over(table, input) && is_group(table, 1, "tower"));
    table = table_of("ASG(\"\") {INPA(x) INPU(y)}");
    CHECK(is_over(table, input) && is_group(table, 0, ""));
    table = table_of("ASG(\"\") {INPA(x) INPU(y)} ASG(DEFAULT) {INPB(z)}");
    tells(table, input_at(0), &left, 1);
}

/* A table that no load writes: of two groups of one name the first answers, so its inputs are told for both. */
static void repeated_name(void)
{
    static const struct told told[] = {{"a", 'A', "one"}, {"a", 'A', "one"}, {"c", 'C', "three"}};
    struct hrazvanut_table table = table_of("ASG(a) {INPA(one)} ASG(b) {INPA(two) INPB(two)} ASG(c) {INPC(three)}");
    memcpy(group_record(1), group_record(0), 4);
    CHECK(hrazvanut_is_table(table) && is_group(table, 0, "a") && is_group(table, 1, "a") && is_group(table, 2, "c"));
    tells(table, input_at(0), told, 3);
    memset(group_record(1) + 2, 0, 2);
    CHECK(hrazvanut_is_table(table) && is_group(table, 1, ""));
    tells(table, input_at(0), told + 1, 2);
}

/* As many groups as a table has, of which the last has one input. */
static void most_groups(void)
{
    static const struct told told = {"g63", 'U', "x"};
    static char text[HRAZVANUT_FILE] = "";
    struct hrazvanut_table table;
    char name[16];
    unsigned i;
    for (i = 0; i < HRAZVANUT_GROUPS; i++)
        sprintf(text + strlen(text), "ASG(g%u)", i);
    strcat(text, " {INPU(x)}");
    table = table_of(text);
    for (i = 0; i < HRAZVANUT_GROUPS; i++) {
        sprintf(name, "g%u", i);
        CHECK(is_group(table, i, name));
    }
    CHECK(is_no_group(table, HRAZVANUT_GROUPS, HRAZVANUT_REFUSED_NO_INPUT));
    CHECK(is_no_group(table, SIZE_MAX, HRAZVANUT_REFUSED_NO_INPUT));
    tells(table, input_at(0), &told, 1);
    tells(table, input_at(64 * 21 - 1), &told, 1);
    CHECK(is_over(table, input_at(64 * 21)));
}

/* As many inputs as a table has, and not one more: each once, by group and letter, whichever order the file has them in. The last group has
 * eight. */
static void most_inputs(void)
{
    static char text[HRAZVANUT_FILE] = "";
    struct hrazvanut_input input = ZERO, checked = ZERO;
    struct hrazvanut_table table;
    struct hrazvanut_room room = ZERO;
    char group[16], name[16];
    unsigned i, letter, told;
    CHECK(HRAZVANUT_INPUTS == 512);
    for (i = 0; i < 25; i++) {
        sprintf(text + strlen(text), "ASG(g%u) {", i);
        for (letter = i < 24 ? 21 : 8; letter-- > 0;)
            sprintf(text + strlen(text), "INP%c(v%u)", (int)('A' + letter), 21 * i + letter);
        strcat(text, "}");
    }
    table = table_of(text);
    for (told = 0; told < 600 && hrazvanut_next_input(table, &input); told++) {
        sprintf(group, "g%u", told / 21);
        sprintf(name, "v%u", told);
        CHECK(is_text(input.group, group) && input.letter == told % 21 && is_text(input.name, name));
        CHECK(hrazvanut_next_input_checked(table, &checked) && same_input(checked, input));
    }
    CHECK(told == HRAZVANUT_INPUTS && is_over(table, input));
    strcat(text, "ASG(one) {INPA(more)}");
    CHECK(hrazvanut_load(hrazvanut_string(text), room).refusal == HRAZVANUT_REFUSED_TOO_MANY);
}

void walks(void)
{
    by_number();
    whole_walk();
    any_next();
    nothing();
    repeated_name();
    most_groups();
    most_inputs();
}
