/* The calls of include/hrazvanut.h for Rust: the header is the one declaration of the library, and the C compiler holds these to it. Each
 * asks as a gateway does; where the proved function takes more than the header's, it is asked too. */
#include <math.h>
#include <stdlib.h>

#include "hrazvanut.h"

static struct hrazvanut_text text_of(const uint8_t *start, size_t length)
{
    struct hrazvanut_text text = {.start = (const char *)start, .length = length};
    return text;
}

static struct hrazvanut_table table_of(const uint8_t *start, size_t length)
{
    struct hrazvanut_table table = {.start = start, .length = length};
    return table;
}

/* refusal, place, bytes needed, warnings, length of the table; whether the table is where it was to be */
void library_load(const uint8_t *text, size_t text_length, uint8_t *table, size_t table_length, uint64_t out[6])
{
    struct hrazvanut_room room = {.start = table, .length = table_length};
    struct hrazvanut_loaded loaded = hrazvanut_load(text_of(text, text_length), room);
    out[0] = loaded.refusal;
    out[1] = loaded.place;
    out[2] = loaded.needed;
    out[3] = loaded.warnings;
    out[4] = loaded.table.length;
    out[5] = loaded.table.start == (loaded.refusal ? NULL : table);
}

/* refusal, place, count; whether the header's list is the same as the proved function's, whose arrays may have different lengths */
void library_list_warnings(const uint8_t *text, size_t text_length, size_t skip, uint8_t *numbers, size_t numbers_length,
                           uint16_t *places, size_t places_length, uint64_t out[4])
{
    uint64_t answer =
        hrazvanut_abi_list_warnings(text, text_length, skip, numbers, numbers_length, places, places_length);
    size_t room = numbers_length < places_length ? numbers_length : places_length;
    struct hrazvanut_warning *warnings = malloc((room + 1) * sizeof *warnings);
    if (!warnings)
        abort();
    struct hrazvanut_warnings lent = {.start = warnings, .length = room};
    struct hrazvanut_listed listed = hrazvanut_list_warnings(text_of(text, text_length), skip, lent);
    size_t behind = skip < listed.count ? listed.count - skip : 0;
    int same = listed.written == (behind < room ? behind : room);
    same &= answer == ((listed.refusal ? listed.place : listed.count) | (uint64_t)listed.refusal << 48);
    for (size_t i = 0; i < listed.written; i++)
        same &= numbers[i] == (int)warnings[i].kind && places[i] == warnings[i].place;
    free(warnings);
    out[0] = listed.refusal;
    out[1] = listed.place;
    out[2] = listed.count;
    out[3] = (uint64_t)same;
}

/* refusal, bytes needed, length of the text; whether the text is where it was to be */
void library_export(const uint8_t *table, size_t table_length, uint8_t *text, size_t text_length, uint64_t out[4])
{
    struct hrazvanut_text_room room = {.start = (char *)text, .length = text_length};
    struct hrazvanut_exported exported = hrazvanut_export(table_of(table, table_length), room);
    out[0] = exported.refusal;
    out[1] = exported.needed;
    out[2] = exported.text.length;
    out[3] = exported.text.start == (exported.refusal ? NULL : (const char *)text);
}

/* The proved function's number. */
uint64_t library_export_number(const uint8_t *table, size_t table_length, uint8_t *text, size_t text_length)
{
    return hrazvanut_abi_export(table, table_length, text, text_length);
}

int library_is_table(const uint8_t *table, size_t table_length) { return hrazvanut_is_table(table_of(table, table_length)); }

/* A question for as long as it is asked. As the arrays say it: never heard past the end of the states, not a number past the end of the
 * values. Of the roles those that there is room for; their number is told as it is. */
struct hrazvanut_question *library_question(const uint8_t *group, size_t group_length, const uint8_t *user, size_t user_length,
                                            const uint8_t *host, size_t host_length, const uint8_t *const *roles,
                                            const size_t *role_lengths, size_t role_count, uint32_t level, const uint8_t *states,
                                            size_t states_length, const double *values, size_t values_length)
{
    struct hrazvanut_question *question = malloc(sizeof *question);
    if (!question)
        abort();
    *question = (struct hrazvanut_question){
        .group = text_of(group, group_length),
        .user = text_of(user, user_length),
        .host = text_of(host, host_length),
        .level = level,
        .role_count = role_count,
    };
    for (size_t i = 0; i < HRAZVANUT_ROLES && i < role_count; i++)
        question->roles[i] = text_of(role_lengths[i] ? roles[i] : NULL, role_lengths[i]);
    for (size_t i = 0; i < HRAZVANUT_READINGS; i++) {
        question->readings[i].state = i < states_length ? (enum hrazvanut_state)states[i] : HRAZVANUT_NEVER_HEARD;
        question->readings[i].value = i < values_length ? values[i] : (double)NAN;
    }
    return question;
}

void library_forget(struct hrazvanut_question *question) { free(question); }

/* refusal, access, trap, letter */
void library_decide(int checked, const uint8_t *table, size_t table_length, const struct hrazvanut_question *question,
                    uint64_t out[4])
{
    struct hrazvanut_answer answer =
        (checked ? hrazvanut_decide_checked : hrazvanut_decide)(table_of(table, table_length), question);
    out[0] = answer.refusal;
    out[1] = answer.access;
    out[2] = answer.trap;
    out[3] = (unsigned char)answer.letter;
}

/* The proved function's number, on arrays of any lengths. */
uint64_t library_decide_number(int checked, const uint8_t *table, size_t table_length, const uint8_t *group, size_t group_length,
                               const uint8_t *user, size_t user_length, const uint8_t *host, size_t host_length,
                               const uint8_t *roles, size_t roles_length, const uint8_t *lengths, size_t lengths_length,
                               uint32_t level, const uint8_t *states, size_t states_length, const double *values, size_t values_length)
{
    return (checked ? hrazvanut_abi_decide_letter_checked : hrazvanut_abi_decide_letter)(
        table, table_length, group, group_length, user, user_length, host, host_length, roles, roles_length, lengths, lengths_length,
        level, states, states_length, values, values_length);
}

/* refusal, place, length; whether the name is the part of the table that starts there */
static void tell(struct hrazvanut_found found, const uint8_t *table, uint64_t out[4])
{
    out[0] = found.refusal;
    out[1] = found.at;
    out[2] = found.name.length;
    out[3] = found.name.start == (found.refusal ? NULL : (const char *)table + found.at);
}

void library_find_input(int checked, const uint8_t *table, size_t table_length, const uint8_t *group, size_t group_length,
                        uint32_t letter, uint64_t out[4])
{
    tell((checked ? hrazvanut_find_input_checked : hrazvanut_find_input)(table_of(table, table_length), text_of(group, group_length),
                                                                         letter),
         table, out);
}

/* The proved function's number. */
uint64_t library_find_input_number(int checked, const uint8_t *table, size_t table_length, const uint8_t *group, size_t group_length,
                                   uint32_t letter)
{
    return (checked ? hrazvanut_abi_find_input_checked : hrazvanut_abi_find_input)(table, table_length, group, group_length, letter);
}

void library_stopping_input(const uint8_t *table, size_t table_length, const uint8_t *group, size_t group_length, uint8_t letter,
                            uint64_t out[4])
{
    tell(hrazvanut_stopping_input(table_of(table, table_length), text_of(group, group_length), (char)letter), table, out);
}

void library_group_at(int checked, const uint8_t *table, size_t table_length, size_t number, uint64_t out[4])
{
    tell((checked ? hrazvanut_group_at_checked : hrazvanut_group_at)(table_of(table, table_length), number), table, out);
}

/* The proved function's number. */
uint64_t library_group_at_number(int checked, const uint8_t *table, size_t table_length, size_t number)
{
    return (checked ? hrazvanut_abi_group_at_checked : hrazvanut_abi_group_at)(table, table_length, number);
}

/* Where a text starts in the table, and its length. */
static void tell_part(struct hrazvanut_text text, const uint8_t *table, uint64_t out[2])
{
    out[0] = (uint64_t)((uintptr_t)text.start - (uintptr_t)table);
    out[1] = text.length;
}

static int same_text(struct hrazvanut_text a, struct hrazvanut_text b) { return a.start == b.start && a.length == b.length; }

/* How many inputs a walk tells, up to `most`; of each its group, its letter and its name. Whether it then stays at its end, with the input
 * as it was. */
size_t library_walk(int checked, const uint8_t *table, size_t table_length, uint64_t (*out)[5], size_t most, int *ends)
{
    bool (*next)(struct hrazvanut_table, struct hrazvanut_input *) = checked ? hrazvanut_next_input_checked : hrazvanut_next_input;
    struct hrazvanut_input input = {0};
    size_t told = 0;
    while (told < most && next(table_of(table, table_length), &input)) {
        tell_part(input.group, table, out[told]);
        out[told][2] = input.letter;
        tell_part(input.name, table, out[told] + 3);
        told++;
    }
    struct hrazvanut_input last = input;
    *ends = !next(table_of(table, table_length), &input) && same_text(input.group, last.group) && input.letter == last.letter &&
            same_text(input.name, last.name);
    return told;
}

/* the header's, the library's by the header, the proved function's number */
void library_version(uint32_t out[3])
{
    out[0] = HRAZVANUT_VERSION;
    out[1] = hrazvanut_version();
    out[2] = hrazvanut_abi_version();
}

/* in the order in which the header has them */
void library_limits(uint64_t out[9])
{
    out[0] = HRAZVANUT_FILE;
    out[1] = HRAZVANUT_TABLE;
    out[2] = HRAZVANUT_READINGS;
    out[3] = HRAZVANUT_TEXT;
    out[4] = HRAZVANUT_ROLES;
    out[5] = HRAZVANUT_ROLE_LENGTH;
    out[6] = HRAZVANUT_PLACES;
    out[7] = HRAZVANUT_GROUPS;
    out[8] = HRAZVANUT_INPUTS;
}

int library_allowed(const uint8_t *text, size_t text_length) { return hrazvanut_allowed(text_of(text, text_length)); }
