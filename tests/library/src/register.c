/* The register's calls of include/hrazvanut.h for Rust: by the header on its struct, and by the proved functions on slices of any length. */
#include <stdlib.h>

#include "hrazvanut.h"

/* What a call may be given; register.rs has the same. */
struct given {
    int checked;
    uint32_t level, letter, state;
    double value;
    size_t place;
    uint8_t *table;
    size_t table_length;
    const uint8_t *text, *group, *user, *host;
    size_t text_length, group_length, user_length, host_length;
};

/* A register as slices; register.rs has the same. */
struct lent {
    uint8_t *places;
    size_t places_length;
    uint8_t *states;
    size_t states_length;
    double *values;
    size_t values_length;
    uint64_t *changed;
    size_t changed_length;
};

/* The numbers of a call. */
enum { ADD, CHANGE, REMOVE, SET, RELOAD };

static struct hrazvanut_text text_of(const uint8_t *start, size_t length)
{
    struct hrazvanut_text text = {.start = (const char *)start, .length = length};
    return text;
}

struct hrazvanut_register *library_register(void)
{
    struct hrazvanut_register *reg = calloc(1, HRAZVANUT_REGISTER);
    if (!reg)
        abort();
    return reg;
}

void library_forget_register(struct hrazvanut_register *reg) { free(reg); }

/* Where the parts of a register stand, and how long they are. */
void library_parts(struct hrazvanut_register *reg, struct lent *lent)
{
    *lent = (struct lent){
        .places = reg->places,
        .places_length = sizeof reg->places,
        .states = reg->states,
        .states_length = sizeof reg->states,
        .values = reg->values,
        .values_length = sizeof reg->values / sizeof *reg->values,
    };
}

/* ---- by the header */

static struct hrazvanut_entered enter(int call, struct hrazvanut_register *reg, const struct given *g)
{
    struct hrazvanut_table table = {.start = g->table, .length = g->table_length};
    struct hrazvanut_client client = {
        .group = text_of(g->group, g->group_length),
        .user = text_of(g->user, g->user_length),
        .host = text_of(g->host, g->host_length),
        .level = g->level,
    };
    if (call == ADD)
        return (g->checked ? hrazvanut_add_client_checked : hrazvanut_add_client)(reg, table, &client);
    if (call == CHANGE)
        return (g->checked ? hrazvanut_change_client_checked : hrazvanut_change_client)(reg, table, g->place, &client);
    return hrazvanut_remove_client(reg, g->place);
}

static struct hrazvanut_reading_set hear(struct hrazvanut_register *reg, const struct given *g)
{
    struct hrazvanut_table table = {.start = g->table, .length = g->table_length};
    struct hrazvanut_reading reading = {.state = (enum hrazvanut_state)g->state, .value = g->value};
    return (g->checked ? hrazvanut_set_reading_checked : hrazvanut_set_reading)(reg, table, text_of(g->group, g->group_length), g->letter,
                                                                                reading);
}

/* refusal, place, bytes needed, warnings, length of the table, changed; whether the table is where it was to be */
void library_call(int call, struct hrazvanut_register *reg, const struct given *g, uint64_t out[7])
{
    struct hrazvanut_room room = {.start = g->table, .length = g->table_length};
    struct hrazvanut_reloaded r = {.loaded = {.refusal = HRAZVANUT_NOT_REFUSED}};
    if (call == RELOAD) {
        r = hrazvanut_reload(reg, text_of(g->text, g->text_length), room);
    } else if (call == SET) {
        struct hrazvanut_reading_set set = hear(reg, g);
        r.loaded.refusal = set.refusal, r.changed = set.changed;
    } else {
        struct hrazvanut_entered entered = enter(call, reg, g);
        r.loaded.refusal = entered.refusal, r.changed = entered.changed;
        r.loaded.place = entered.refusal ? entered.place - HRAZVANUT_PLACES : entered.place; /* nobody's place, if refused: then 0 */
    }
    out[0] = r.loaded.refusal;
    out[1] = r.loaded.place;
    out[2] = r.loaded.needed;
    out[3] = r.loaded.warnings;
    out[4] = r.loaded.table.length;
    out[5] = r.changed;
    out[6] = r.loaded.table.start == (call != RELOAD || r.loaded.refusal ? NULL : g->table);
}

/* access, trap, letter */
void library_right(const struct hrazvanut_register *reg, size_t place, uint64_t out[3])
{
    struct hrazvanut_right right = hrazvanut_right_of(reg, place);
    out[0] = right.access;
    out[1] = right.trap;
    out[2] = (unsigned char)right.letter;
}

/* ---- by the proved functions */

uint64_t library_call_number(int call, const struct lent *l, const struct given *g)
{
    switch (call) {
    case ADD:
        return (g->checked ? hrazvanut_abi_add_checked : hrazvanut_abi_add)(
            l->places, l->places_length, l->states, l->states_length, l->values, l->values_length, g->table, g->table_length, g->group,
            g->group_length, g->user, g->user_length, g->host, g->host_length, g->level, l->changed, l->changed_length);
    case CHANGE:
        return (g->checked ? hrazvanut_abi_change_checked : hrazvanut_abi_change)(
            l->places, l->places_length, l->states, l->states_length, l->values, l->values_length, g->table, g->table_length, g->place,
            g->group, g->group_length, g->user, g->user_length, g->host, g->host_length, g->level, l->changed, l->changed_length);
    case REMOVE:
        return hrazvanut_abi_remove(l->places, l->places_length, g->place, l->changed, l->changed_length);
    case SET:
        return (g->checked ? hrazvanut_abi_set_checked : hrazvanut_abi_set)(
            l->places, l->places_length, l->states, l->states_length, l->values, l->values_length, g->table, g->table_length, g->group,
            g->group_length, g->letter, (uint8_t)g->state, g->value, l->changed, l->changed_length);
    default:
        return hrazvanut_abi_reload(l->places, l->places_length, l->states, l->states_length, g->text, g->text_length, g->table,
                                    g->table_length, l->changed, l->changed_length);
    }
}

uint8_t library_right_number(const uint8_t *places, size_t places_length, size_t place)
{
    return hrazvanut_abi_right_letter(places, places_length, place);
}
