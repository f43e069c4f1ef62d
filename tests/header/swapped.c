/* What the types must refuse: with WRONG set to 1, 2, .. this does not compile. */
#include "hrazvanut.h"

static struct hrazvanut_text text;
static struct hrazvanut_table table;
static struct hrazvanut_room room;
static struct hrazvanut_text_room page;
static struct hrazvanut_question question;
static struct hrazvanut_warnings warnings;
static struct hrazvanut_register reg;
static struct hrazvanut_client client;
static struct hrazvanut_reading reading;
static struct hrazvanut_input input;

int main(void)
{
#if WRONG == 0
    return (int)hrazvanut_load(text, room).refusal + (int)hrazvanut_find_input(table, text, 0).refusal +
           (int)hrazvanut_decide(table, &question).refusal + hrazvanut_allowed(text) + hrazvanut_is_table(table) +
           (int)hrazvanut_list_warnings(text, 0, warnings).refusal + (int)hrazvanut_add_client(&reg, table, &client).refusal +
           (int)hrazvanut_change_client(&reg, table, 0, &client).refusal + (int)hrazvanut_remove_client(&reg, 0).refusal +
           (int)hrazvanut_set_reading(&reg, table, text, 0, reading).refusal + (int)hrazvanut_reload(&reg, text, room).loaded.refusal +
           (int)hrazvanut_right_of(&reg, 0).access + (int)hrazvanut_stopping_input(table, text, 0).refusal +
           (int)hrazvanut_group_at(table, 0).refusal + hrazvanut_next_input(table, &input) + (int)hrazvanut_version() +
           (int)hrazvanut_find_input(table, input.group, input.letter).refusal +
           (int)hrazvanut_find_input_checked(table, input.group, input.letter).refusal +
           (int)hrazvanut_group_at_checked(table, 0).refusal + hrazvanut_next_input_checked(table, &input) +
           (int)hrazvanut_export(table, page).refusal;
#elif WRONG == 1
    return (int)hrazvanut_load(room, text).refusal;
#elif WRONG == 2
    return (int)hrazvanut_find_input(text, table, 0).refusal;
#elif WRONG == 3
    return (int)hrazvanut_decide(&question, table).refusal;
#elif WRONG == 4
    return (int)hrazvanut_decide(text, &question).refusal;
#elif WRONG == 5
    return hrazvanut_is_table(text);
#elif WRONG == 6
    return hrazvanut_allowed(table);
#elif WRONG == 7
    return (int)hrazvanut_decide(table, &text).refusal;
#elif WRONG == 8
    question.level = text;
    return 0;
#elif WRONG == 9
    return (int)hrazvanut_list_warnings(text, warnings, 0).refusal;
#elif WRONG == 10
    return (int)hrazvanut_add_client(&reg, table, &question).refusal;
#elif WRONG == 11
    return (int)hrazvanut_change_client(&reg, table, &client, 0).refusal;
#elif WRONG == 12
    return (int)hrazvanut_set_reading(&reg, table, text, reading, 0).refusal;
#elif WRONG == 13
    return (int)hrazvanut_set_reading(&reg, text, table, 0, reading).refusal;
#elif WRONG == 14
    return (int)hrazvanut_reload(&reg, room, text).loaded.refusal;
#elif WRONG == 15
    return (int)hrazvanut_remove_client(&client, 0).refusal;
#elif WRONG == 16
    question.roles[0] = "op";
    return 0;
#elif WRONG == 17
    client.roles[0] = text;
    return 0;
#elif WRONG == 18
    return (int)hrazvanut_stopping_input(text, table, 'A').refusal;
#elif WRONG == 19
    return (int)hrazvanut_stopping_input(table, text, hrazvanut_decide(table, &question)).refusal;
#elif WRONG == 20
    return (int)hrazvanut_group_at(0, table).refusal;
#elif WRONG == 21
    return (int)hrazvanut_group_at(text, 0).refusal;
#elif WRONG == 22
    return (int)hrazvanut_group_at(table, text).refusal;
#elif WRONG == 23
    return hrazvanut_next_input(&input, table);
#elif WRONG == 24
    return hrazvanut_next_input(table, input);
#elif WRONG == 25
    return hrazvanut_next_input(text, &input);
#elif WRONG == 26
    return hrazvanut_next_input(table, &client);
#elif WRONG == 27
    return (int)hrazvanut_find_input(table, input, 0).refusal;
#elif WRONG == 28
    return (int)hrazvanut_version(table);
#elif WRONG == 29
    return (int)hrazvanut_find_input_checked(text, table, 0).refusal;
#elif WRONG == 30
    return (int)hrazvanut_find_input_checked(table, input, 0).refusal;
#elif WRONG == 31
    return (int)hrazvanut_group_at_checked(0, table).refusal;
#elif WRONG == 32
    return (int)hrazvanut_group_at_checked(text, 0).refusal;
#elif WRONG == 33
    return hrazvanut_next_input_checked(&input, table);
#elif WRONG == 34
    return hrazvanut_next_input_checked(room, &input);
#elif WRONG == 35
    return (int)hrazvanut_export(page, table).refusal;
#elif WRONG == 36
    return (int)hrazvanut_export(table, room).refusal;
#elif WRONG == 37
    return (int)hrazvanut_export(text, page).refusal;
#elif WRONG == 38
    return (int)hrazvanut_load(text, page).refusal;
#endif
}
