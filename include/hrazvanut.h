/* Verified access security for EPICS gateways: the proved library, for C (C99 or later) and C++ (C++11 or later).
 *
 * A gateway calls hrazvanut_load, hrazvanut_list_warnings, hrazvanut_is_table, hrazvanut_export, hrazvanut_decide, hrazvanut_find_input,
 * hrazvanut_stopping_input, hrazvanut_group_at, hrazvanut_next_input and hrazvanut_allowed; or it lends a register that holds its clients,
 * and calls hrazvanut_reload, hrazvanut_add_client, hrazvanut_change_client, hrazvanut_remove_client, hrazvanut_set_reading and
 * hrazvanut_right_of. Those that take a table that was checked before have names that end in _checked. All stand at the end of this file,
 * each with its contract in words, and are inline: they pass the parts of their structs on to the proved functions, hrazvanut_abi_*, and
 * take the answers apart.
 *
 * Of every call whose name does not end in _checked: any bytes, any lengths, any numbers get an answer, in bounds and in bounded time. A
 * question, a register, a client and a walk's input are not NULL.
 *
 * - A pointer is good for the length beside it. With a length of 0 it may be any pointer, NULL too.
 * - What is lent to be written (the room of a load or of an export, the array of warnings, a register) overlaps nothing else that is lent to
 *   the same call. What is only read may overlap.
 * - Bytes need no alignment; structs and arrays of them have that of their type, as the compiler lays them.
 * - Nothing is kept between calls but what stands in a register: no heap, no static storage, no pointer. Any thread may call, as long as
 *   nobody writes what another call reads or writes.
 * - A load, a reload and a list of warnings need less than 192 KiB of stack. Every call runs in a thread of 256 KiB, whatever it is given.
 * - The floating-point environment is C's default: rounding to nearest, no flush to zero, no traps. Do not link with -ffast-math or -Ofast:
 *   it would flush small readings to zero, and a rule could then be true that is not.
 *
 * Documents: 01 is the paper that says what is made; docs/USING.md tells each refusal and warning with its cure.
 */
#ifndef HRAZVANUT_H
#define HRAZVANUT_H

#include <stddef.h>
#include <stdint.h>
#include <string.h>
#ifndef __cplusplus
#include <stdbool.h>
#endif

/* The version of this interface. MAJOR grows when something that compiled compiles no more, or means something else. MINOR grows when
 * something is new: a function, an enumerator, a field behind the others of its struct.
 *
 * So that new fields do no harm, start each struct from zeros (= {0}, in C++ = {}) and set its fields by their names: a field that you do
 * not know is zero, and zero asks for nothing and says nothing. Expect numbers of refusals and warnings that you do not know.
 *
 * Header and library are of one revision of the repository, or the library is of a later one with the same MAJOR; hrazvanut_version tells.
 * A library knows no struct of this header; a function hrazvanut_abi_* whose parameters or form of answer change gets another name, so that
 * a header does not link with a library that it cannot talk to. Where the rules change and the form does not, as in 5.0 and 6.0, MAJOR
 * grows and the names stay. In 7.0 a right has a letter, so `changed` tells of more, and three names are new. */
#define HRAZVANUT_VERSION_MAJOR 7
#define HRAZVANUT_VERSION_MINOR 2
#define HRAZVANUT_VERSION (HRAZVANUT_VERSION_MAJOR * 1000 + HRAZVANUT_VERSION_MINOR)

/* No file is longer, no table is longer, so many readings has a question: those of the letters A to U. */
#define HRAZVANUT_FILE 16384
#define HRAZVANUT_TABLE 35108
#define HRAZVANUT_READINGS 21

/* No text that is written back from a table is longer, and some are as long. */
#define HRAZVANUT_TEXT 213056

/* So many roles has a question at most, and so many bytes each of them. */
#define HRAZVANUT_ROLES 16
#define HRAZVANUT_ROLE_LENGTH 60

/* So many clients has a register at most, so many access groups and inputs a table, and so many bytes are a register. */
#define HRAZVANUT_PLACES 64
#define HRAZVANUT_GROUPS 64
#define HRAZVANUT_INPUTS 512
#define HRAZVANUT_REGISTER sizeof(struct hrazvanut_register)

/* In C++ an enum can hold a number that is not among its own only if its type is given. */
#ifdef __cplusplus
#define HRAZVANUT_ENUM_TYPE : int
#else
#define HRAZVANUT_ENUM_TYPE
#endif

/* ---- what is given */

/* The bytes of a file, a name or a calculation. No NUL ends them. */
struct hrazvanut_text {
    const char *start;
    size_t length;
};

/* The bytes of a table, or any others: hrazvanut_is_table tells. More may stand behind the table. */
struct hrazvanut_table {
    const uint8_t *start;
    size_t length;
};

/* Lent bytes for a table to be written into. */
struct hrazvanut_room {
    uint8_t *start;
    size_t length;
};

/* Lent bytes for a text to be written into. */
struct hrazvanut_text_room {
    char *start;
    size_t length;
};

/* What a sensor last answered. Any other number counts as HRAZVANUT_INVALID. */
enum hrazvanut_state HRAZVANUT_ENUM_TYPE {
    HRAZVANUT_NEVER_HEARD = 0,
    HRAZVANUT_INVALID = 1,
    HRAZVANUT_VALUE = 2
};

/* A value is looked at only in the state HRAZVANUT_VALUE. Never heard, invalid, not-a-number and infinite readings are bad. */
struct hrazvanut_reading {
    enum hrazvanut_state state;
    double value;
};

/* Who asks, for a channel of which group, at which level. A zeroed question is that of nobody, from nowhere, with no reading heard and no
 * role. Channel Access tells no roles: its clients have none. */
struct hrazvanut_question {
    struct hrazvanut_text group; /* empty: DEFAULT */
    struct hrazvanut_text user;
    struct hrazvanut_text host;
    uint32_t level;
    struct hrazvanut_reading readings[HRAZVANUT_READINGS]; /* by letter: A is 0 */
    struct hrazvanut_text roles[HRAZVANUT_ROLES];          /* in any order, without `role/`; one may stand twice */
    size_t role_count;                                     /* how many count, from the first; one left at zeros is the empty role */
};

/* Who is connected, for a channel of which group, at which level. The names are copied into the register: 60 bytes each at most. A client
 * of a register has no roles. */
struct hrazvanut_client {
    struct hrazvanut_text group; /* empty: DEFAULT */
    struct hrazvanut_text user;
    struct hrazvanut_text host;
    uint32_t level;
};

/* The clients, the rights that they have now, and the readings of each access group. A zeroed register is the empty one: no client, every
 * reading never heard. Its bytes are written by the functions below and by nobody else. It holds no pointer: it may be moved or stored,
 * together with its table. */
struct hrazvanut_register {
    double values[HRAZVANUT_GROUPS * HRAZVANUT_READINGS]; /* by the group's number in the table, then by letter */
    uint8_t states[HRAZVANUT_GROUPS * HRAZVANUT_READINGS];
    uint8_t places[HRAZVANUT_PLACES * 448];
};

/* ---- what is answered */

/* The numbers of 01 and 02. A refused call writes nothing, grants nothing and finds nothing. */
enum hrazvanut_refusal HRAZVANUT_ENUM_TYPE {
    HRAZVANUT_NOT_REFUSED = 0,
    /* of a load; all but 11 of a list of warnings too */
    HRAZVANUT_REFUSED_FILE_TOO_LONG = 1,
    HRAZVANUT_REFUSED_BAD_BYTE = 2,
    HRAZVANUT_REFUSED_TOO_DEEP = 3,
    HRAZVANUT_REFUSED_UNGRAMMATICAL = 4,
    HRAZVANUT_REFUSED_STRING_TOO_LONG = 5,
    HRAZVANUT_REFUSED_TOO_MANY = 6,
    HRAZVANUT_REFUSED_GIVEN_AGAIN = 7,
    HRAZVANUT_REFUSED_UNDEFINED_GROUP = 12, /* it came later, and is judged here: behind 7, before 8 */
    HRAZVANUT_REFUSED_RULE_LEVEL = 8,
    HRAZVANUT_REFUSED_UNKNOWN_WORD = 9,
    HRAZVANUT_REFUSED_CALCULATION = 10,
    HRAZVANUT_REFUSED_NO_ROOM = 11,
    /* of a question, of a look-up, and of a register's calls; 20 of an export too */
    HRAZVANUT_REFUSED_NOT_TABLE = 20,
    HRAZVANUT_REFUSED_LEVEL = 21,
    HRAZVANUT_REFUSED_NO_INPUT = 22, /* or no such group */
    /* of a register's calls */
    HRAZVANUT_REFUSED_LONG_NAME = 23,
    HRAZVANUT_REFUSED_NO_PLACE = 24,
    HRAZVANUT_REFUSED_NO_CLIENT = 25,
    /* of a question */
    HRAZVANUT_REFUSED_ROLES = 26,
    /* of an export */
    HRAZVANUT_REFUSED_UNWRITABLE = 27,
    HRAZVANUT_REFUSED_NO_ROOM_FOR_TEXT = 28,
    /* of a register's calls by the proved functions alone, for no struct is too short */
    HRAZVANUT_REFUSED_NOT_REGISTER = 34
};

enum hrazvanut_access HRAZVANUT_ENUM_TYPE {
    HRAZVANUT_NONE = 0,
    HRAZVANUT_READ = 1,
    HRAZVANUT_WRITE = 2
};

/* 01's numbers; 02 took 3 out. */
enum hrazvanut_warning_kind HRAZVANUT_ENUM_TYPE {
    HRAZVANUT_UNKNOWN_ITEM = 1,
    HRAZVANUT_UNKNOWN_PREDICATE = 2
};

struct hrazvanut_warning {
    enum hrazvanut_warning_kind kind;
    size_t place; /* in bytes from the start of the text */
};

/* A lent array for warnings to be written into. */
struct hrazvanut_warnings {
    struct hrazvanut_warning *start;
    size_t length;
};

/* Of a load. */
struct hrazvanut_loaded {
    enum hrazvanut_refusal refusal;
    size_t place;                 /* of a refusal but 11, in bytes from the start of the text */
    size_t needed;                /* of refusal 11: the bytes that the table needs */
    size_t warnings;              /* how many an accepted file has */
    struct hrazvanut_table table; /* where it was written; no bytes if refused */
};

/* Of a list of warnings. */
struct hrazvanut_listed {
    enum hrazvanut_refusal refusal;
    size_t place;   /* of a refusal */
    size_t count;   /* how many warnings there are in all */
    size_t written; /* how many of them were written */
};

/* Of an export. */
struct hrazvanut_exported {
    enum hrazvanut_refusal refusal;
    size_t needed;              /* of refusal 28: the bytes that the text needs */
    struct hrazvanut_text text; /* where it was written; no bytes if refused */
};

/* Of a question. */
struct hrazvanut_answer {
    enum hrazvanut_refusal refusal;
    enum hrazvanut_access access; /* HRAZVANUT_NONE if refused */
    bool trap;                    /* whether writes are to be trapped; not if refused */
    char letter;                  /* 'A' to 'U': the one whose reading stopped who asks; 0 if there is none, as when refused */
};

/* Of a look-up, and of a group's number. */
struct hrazvanut_found {
    enum hrazvanut_refusal refusal;
    struct hrazvanut_text name; /* a part of the table; no bytes if refused, and a name may have none too */
    size_t at;                  /* where it starts in the table, in bytes */
};

/* Of a walk over the inputs of a table. It begins with zeros. */
struct hrazvanut_input {
    struct hrazvanut_text group; /* the access group, by the name for hrazvanut_set_reading; a part of the table */
    uint32_t letter;             /* A is 0 */
    struct hrazvanut_text name;  /* the process variable; a part of the table, and it may have no bytes */
    size_t next;                 /* where the walk goes on: leave it as it is */
};

/* Of a client that is added, changed or removed. In each `changed` below, bit p is set exactly if the right of the place p, its access, its
 * trap flag or its letter, is another after the call than before: those clients are to be told. No bit is set if refused. */
struct hrazvanut_entered {
    enum hrazvanut_refusal refusal;
    size_t place; /* the client's; HRAZVANUT_PLACES, at which nobody stands, if refused */
    uint64_t changed;
};

/* Of a reading that is set. */
struct hrazvanut_reading_set {
    enum hrazvanut_refusal refusal;
    uint64_t changed;
};

/* Of a reload. */
struct hrazvanut_reloaded {
    struct hrazvanut_loaded loaded; /* as of a load */
    uint64_t changed;
};

/* Of a place in a register. */
struct hrazvanut_right {
    enum hrazvanut_access access;
    bool trap;
    char letter; /* as of a question */
};

/* ---- the proved functions, on numbers and slices. Gateways call those of the next part. */

#ifdef __cplusplus
extern "C" {
#endif

/* No pointer may be NULL. `values` is aligned as double, `places` as uint16_t. An answer of 64 bits holds a first number in bits 0 to 31, a
 * second in bits 32 to 47, and the refusal above them: of a load the length and the number of warnings, or the place; of a list of warnings
 * their number, or the place; of an export the length, or with 28 the bytes needed; of a question the right; of a look-up and of a group the
 * place and the length. A right has the access in bits 0 and 1, the trap flag in bit 2 and the letter in bits 3 to 7: 0 for none, 1 for A up
 * to 21 for U.
 * Any other answer of 8 bits than a right is 1 or 0. The letter i has states[i] and values[i]: past the end of states it was never heard,
 * past the end of values it is not a number. The role i is the next lengths[i] bytes of roles, in which all stand one behind the other;
 * what is left behind the last is not looked at, and lengths that go past the end are refused as too many roles are.
 *
 * A register is lent as three slices, those of its struct: of a slice that is longer the start is used, a slice that is shorter makes the
 * call refused with 34, before every other refusal, and each right NONE. The answer's first number is for a client that is added its place;
 * a reload answers as a load does; else both numbers are 0. `changed` is one word, or none with a length of 0; it is aligned as uint64_t
 * and written only if the call is not refused. */
uint64_t hrazvanut_abi_load(const uint8_t *text, size_t text_length, uint8_t *table, size_t table_length);
uint64_t hrazvanut_abi_list_warnings(const uint8_t *text, size_t text_length, size_t skip, uint8_t *numbers, size_t numbers_length,
                                     uint16_t *places, size_t places_length);
uint8_t hrazvanut_abi_is_table(const uint8_t *table, size_t table_length);
uint64_t hrazvanut_abi_export(const uint8_t *table, size_t table_length, uint8_t *text, size_t text_length);
typedef uint64_t hrazvanut_abi_question(const uint8_t *table, size_t table_length, const uint8_t *group, size_t group_length,
                                        const uint8_t *user, size_t user_length, const uint8_t *host, size_t host_length,
                                        const uint8_t *roles, size_t roles_length, const uint8_t *lengths, size_t lengths_length,
                                        uint32_t level, const uint8_t *states, size_t states_length, const double *values,
                                        size_t values_length);
hrazvanut_abi_question hrazvanut_abi_decide_letter;
hrazvanut_abi_question hrazvanut_abi_decide_letter_checked;
typedef uint64_t hrazvanut_abi_finding(const uint8_t *table, size_t table_length, const uint8_t *group, size_t group_length,
                                       uint32_t letter);
hrazvanut_abi_finding hrazvanut_abi_find_input;
hrazvanut_abi_finding hrazvanut_abi_find_input_checked;
typedef uint64_t hrazvanut_abi_naming(const uint8_t *table, size_t table_length, size_t number);
hrazvanut_abi_naming hrazvanut_abi_group_at;
hrazvanut_abi_naming hrazvanut_abi_group_at_checked;
uint32_t hrazvanut_abi_version(void);
uint8_t hrazvanut_abi_allowed(const uint8_t *text, size_t text_length);
typedef uint64_t hrazvanut_abi_adding(uint8_t *places, size_t places_length, const uint8_t *states, size_t states_length,
                                      const double *values, size_t values_length, const uint8_t *table, size_t table_length,
                                      const uint8_t *group, size_t group_length, const uint8_t *user, size_t user_length,
                                      const uint8_t *host, size_t host_length, uint32_t level, uint64_t *changed, size_t changed_length);
hrazvanut_abi_adding hrazvanut_abi_add;
hrazvanut_abi_adding hrazvanut_abi_add_checked;
typedef uint64_t hrazvanut_abi_changing(uint8_t *places, size_t places_length, const uint8_t *states, size_t states_length,
                                        const double *values, size_t values_length, const uint8_t *table, size_t table_length,
                                        size_t place, const uint8_t *group, size_t group_length, const uint8_t *user, size_t user_length,
                                        const uint8_t *host, size_t host_length, uint32_t level, uint64_t *changed,
                                        size_t changed_length);
hrazvanut_abi_changing hrazvanut_abi_change;
hrazvanut_abi_changing hrazvanut_abi_change_checked;
uint64_t hrazvanut_abi_remove(uint8_t *places, size_t places_length, size_t place, uint64_t *changed, size_t changed_length);
typedef uint64_t hrazvanut_abi_setting(uint8_t *places, size_t places_length, uint8_t *states, size_t states_length, double *values,
                                       size_t values_length, const uint8_t *table, size_t table_length, const uint8_t *group,
                                       size_t group_length, uint32_t letter, uint8_t state, double value, uint64_t *changed,
                                       size_t changed_length);
hrazvanut_abi_setting hrazvanut_abi_set;
hrazvanut_abi_setting hrazvanut_abi_set_checked;
uint64_t hrazvanut_abi_reload(uint8_t *places, size_t places_length, uint8_t *states, size_t states_length, const uint8_t *text,
                              size_t text_length, uint8_t *table, size_t table_length, uint64_t *changed, size_t changed_length);
uint8_t hrazvanut_abi_right_letter(const uint8_t *places, size_t places_length, size_t place);

#ifdef __cplusplus
}
#endif

/* Bytes to be read; with a length of 0 some pointer that is not NULL. */
static inline const uint8_t *hrazvanut_abi_bytes(const void *start, size_t length)
{
    return (const uint8_t *)(length == 0 ? "" : start);
}

/* The parts of an answer. */
static inline size_t hrazvanut_abi_first(uint64_t answer) { return (size_t)(answer & 0xffffffffu); }
static inline size_t hrazvanut_abi_second(uint64_t answer) { return (size_t)(answer >> 32 & 0xffffu); }
static inline enum hrazvanut_refusal hrazvanut_abi_refusal(uint64_t answer) { return (enum hrazvanut_refusal)(answer >> 48); }

/* The letter of a right, as a capital. */
static inline char hrazvanut_abi_letter(uint64_t right)
{
    unsigned number = (unsigned)(right >> 3 & 31);
    return (char)(number == 0 ? 0 : 'A' + number - 1);
}

/* A reading as a byte and a value; its state is compared, not cut to a byte. */
static inline uint8_t hrazvanut_abi_state(struct hrazvanut_reading reading)
{
    bool heard = reading.state != HRAZVANUT_NEVER_HEARD;
    bool value = reading.state == HRAZVANUT_VALUE;
    return (uint8_t)(!heard ? HRAZVANUT_NEVER_HEARD : value ? HRAZVANUT_VALUE : HRAZVANUT_INVALID);
}
static inline double hrazvanut_abi_value(struct hrazvanut_reading reading)
{
    return reading.state == HRAZVANUT_VALUE ? reading.value : 0;
}

/* The readings of a question. */
static inline void hrazvanut_abi_readings(const struct hrazvanut_reading *readings, uint8_t *states, double *values)
{
    int i;
    for (i = 0; i < HRAZVANUT_READINGS; i++) {
        states[i] = hrazvanut_abi_state(readings[i]);
        values[i] = hrazvanut_abi_value(readings[i]);
    }
}

/* The roles of a question, copied one behind the other. */
struct hrazvanut_abi_roles {
    uint8_t bytes[HRAZVANUT_ROLES * HRAZVANUT_ROLE_LENGTH];
    size_t used;
    uint8_t lengths[HRAZVANUT_ROLES + 1];
    size_t count;
};

/* If there are too many, or one is too long, the count is one more than a question has: the proved function refuses that, behind 20 and 21.
 * Of too many none is read, and none from one on that is too long. */
static inline void hrazvanut_abi_copy_roles(const struct hrazvanut_question *question, struct hrazvanut_abi_roles *to)
{
    size_t i;
    to->used = 0;
    to->count = question->role_count < HRAZVANUT_ROLES + 1 ? question->role_count : HRAZVANUT_ROLES + 1;
    memset(to->lengths, 0, sizeof to->lengths);
    for (i = 0; i < to->count && to->count <= HRAZVANUT_ROLES; i++) {
        struct hrazvanut_text role = question->roles[i];
        if (role.length > HRAZVANUT_ROLE_LENGTH) {
            to->count = HRAZVANUT_ROLES + 1;
        } else {
            memcpy(to->bytes + to->used, hrazvanut_abi_bytes(role.start, role.length), role.length);
            to->used += role.length;
            to->lengths[i] = (uint8_t)role.length;
        }
    }
}

/* A question's parts, put to one of the two functions. */
static inline struct hrazvanut_answer hrazvanut_abi_ask(hrazvanut_abi_question *decide, struct hrazvanut_table table,
                                                        const struct hrazvanut_question *question)
{
    struct hrazvanut_text group = question->group, user = question->user, host = question->host;
    uint8_t states[HRAZVANUT_READINGS];
    double values[HRAZVANUT_READINGS];
    struct hrazvanut_abi_roles roles;
    struct hrazvanut_answer a;
    uint64_t answer;
    hrazvanut_abi_readings(question->readings, states, values);
    hrazvanut_abi_copy_roles(question, &roles);
    answer = decide(hrazvanut_abi_bytes(table.start, table.length), table.length, hrazvanut_abi_bytes(group.start, group.length),
                    group.length, hrazvanut_abi_bytes(user.start, user.length), user.length, hrazvanut_abi_bytes(host.start, host.length),
                    host.length, roles.bytes, roles.used, roles.lengths, roles.count, question->level, states, HRAZVANUT_READINGS,
                    values, HRAZVANUT_READINGS);
    a.refusal = hrazvanut_abi_refusal(answer);
    a.access = (enum hrazvanut_access)(answer & 3);
    a.trap = (answer & 4) != 0;
    a.letter = hrazvanut_abi_letter(answer);
    return a;
}

/* What a load or a reload into the room answers. */
static inline struct hrazvanut_loaded hrazvanut_abi_loaded(uint64_t answer, struct hrazvanut_room room)
{
    enum hrazvanut_refusal refusal = hrazvanut_abi_refusal(answer);
    bool accepted = refusal == HRAZVANUT_NOT_REFUSED, full = refusal == HRAZVANUT_REFUSED_NO_ROOM;
    struct hrazvanut_loaded loaded;
    loaded.refusal = refusal;
    loaded.place = accepted || full ? 0 : hrazvanut_abi_first(answer);
    loaded.needed = full ? hrazvanut_abi_first(answer) : 0;
    loaded.warnings = hrazvanut_abi_second(answer);
    loaded.table.start = accepted ? room.start : NULL;
    loaded.table.length = accepted ? hrazvanut_abi_first(answer) : 0;
    return loaded;
}

/* What a look-up in the table answers. */
static inline struct hrazvanut_found hrazvanut_abi_found(uint64_t answer, struct hrazvanut_table table)
{
    struct hrazvanut_found found;
    found.refusal = hrazvanut_abi_refusal(answer);
    found.at = hrazvanut_abi_first(answer);
    found.name.length = hrazvanut_abi_second(answer);
    found.name.start = found.refusal == HRAZVANUT_NOT_REFUSED ? (const char *)table.start + found.at : NULL;
    return found;
}

/* A look-up's parts, and a group's number, put to one of two functions each. */
static inline struct hrazvanut_found hrazvanut_abi_find(hrazvanut_abi_finding *find, struct hrazvanut_table table,
                                                        struct hrazvanut_text group, uint32_t letter)
{
    return hrazvanut_abi_found(find(hrazvanut_abi_bytes(table.start, table.length), table.length,
                                    hrazvanut_abi_bytes(group.start, group.length), group.length, letter),
                               table);
}
static inline struct hrazvanut_found hrazvanut_abi_name(hrazvanut_abi_naming *name, struct hrazvanut_table table, size_t number)
{
    return hrazvanut_abi_found(name(hrazvanut_abi_bytes(table.start, table.length), table.length, number), table);
}

/* What a call on the client at a place answers. */
static inline struct hrazvanut_entered hrazvanut_abi_entered(uint64_t answer, size_t place, uint64_t changed)
{
    struct hrazvanut_entered entered;
    entered.refusal = hrazvanut_abi_refusal(answer);
    entered.place = entered.refusal == HRAZVANUT_NOT_REFUSED ? place : HRAZVANUT_PLACES;
    entered.changed = changed;
    return entered;
}

/* The parts of a register and of a client, put to one of two functions each. */
static inline struct hrazvanut_entered hrazvanut_abi_enter(hrazvanut_abi_adding *add, struct hrazvanut_register *reg,
                                                           struct hrazvanut_table table, const struct hrazvanut_client *client)
{
    struct hrazvanut_text group = client->group, user = client->user, host = client->host;
    uint64_t changed = 0;
    uint64_t answer = add(reg->places, sizeof reg->places, reg->states, sizeof reg->states, reg->values,
                          HRAZVANUT_GROUPS * HRAZVANUT_READINGS, hrazvanut_abi_bytes(table.start, table.length), table.length,
                          hrazvanut_abi_bytes(group.start, group.length), group.length, hrazvanut_abi_bytes(user.start, user.length),
                          user.length, hrazvanut_abi_bytes(host.start, host.length), host.length, client->level, &changed, 1);
    return hrazvanut_abi_entered(answer, hrazvanut_abi_first(answer), changed);
}
static inline struct hrazvanut_entered hrazvanut_abi_reenter(hrazvanut_abi_changing *change, struct hrazvanut_register *reg,
                                                             struct hrazvanut_table table, size_t place,
                                                             const struct hrazvanut_client *client)
{
    struct hrazvanut_text group = client->group, user = client->user, host = client->host;
    uint64_t changed = 0;
    uint64_t answer = change(reg->places, sizeof reg->places, reg->states, sizeof reg->states, reg->values,
                             HRAZVANUT_GROUPS * HRAZVANUT_READINGS, hrazvanut_abi_bytes(table.start, table.length), table.length, place,
                             hrazvanut_abi_bytes(group.start, group.length), group.length, hrazvanut_abi_bytes(user.start, user.length),
                             user.length, hrazvanut_abi_bytes(host.start, host.length), host.length, client->level, &changed, 1);
    return hrazvanut_abi_entered(answer, place, changed);
}
static inline struct hrazvanut_reading_set hrazvanut_abi_hear(hrazvanut_abi_setting *set, struct hrazvanut_register *reg,
                                                              struct hrazvanut_table table, struct hrazvanut_text group, uint32_t letter,
                                                              struct hrazvanut_reading reading)
{
    struct hrazvanut_reading_set done;
    done.changed = 0;
    done.refusal = hrazvanut_abi_refusal(
        set(reg->places, sizeof reg->places, reg->states, sizeof reg->states, reg->values, HRAZVANUT_GROUPS * HRAZVANUT_READINGS,
            hrazvanut_abi_bytes(table.start, table.length), table.length, hrazvanut_abi_bytes(group.start, group.length), group.length,
            letter, hrazvanut_abi_state(reading), hrazvanut_abi_value(reading), &done.changed, 1));
    return done;
}

/* ---- the version, texts and words */

/* The version of the library that is linked: HRAZVANUT_VERSION of the header that it came with. */
static inline uint32_t hrazvanut_version(void) { return hrazvanut_abi_version(); }

/* A text that a NUL ends; NULL is the empty one. */
static inline struct hrazvanut_text hrazvanut_string(const char *s)
{
    struct hrazvanut_text text;
    text.start = s;
    text.length = s ? strlen(s) : 0;
    return text;
}

/* What a refusal says, in the words of 01 and 02. */
static inline const char *hrazvanut_refusal_words(enum hrazvanut_refusal refusal)
{
    switch (refusal) {
    case HRAZVANUT_NOT_REFUSED: return "not refused";
    case HRAZVANUT_REFUSED_FILE_TOO_LONG: return "file over 16,384 bytes";
    case HRAZVANUT_REFUSED_BAD_BYTE: return "bad byte or unclosed quote";
    case HRAZVANUT_REFUSED_TOO_DEEP: return "more than 16 braces open at once";
    case HRAZVANUT_REFUSED_UNGRAMMATICAL: return "grammar";
    case HRAZVANUT_REFUSED_STRING_TOO_LONG: return "string too long";
    case HRAZVANUT_REFUSED_TOO_MANY: return "table limit passed";
    case HRAZVANUT_REFUSED_GIVEN_AGAIN: return "name or letter given again";
    case HRAZVANUT_REFUSED_UNDEFINED_GROUP: return "undefined group";
    case HRAZVANUT_REFUSED_RULE_LEVEL: return "level neither 0 nor 1";
    case HRAZVANUT_REFUSED_UNKNOWN_WORD: return "permission or log word unknown";
    case HRAZVANUT_REFUSED_CALCULATION: return "calculation not allowed";
    case HRAZVANUT_REFUSED_NO_ROOM: return "lent table too short";
    case HRAZVANUT_REFUSED_NOT_TABLE: return "not a table";
    case HRAZVANUT_REFUSED_LEVEL: return "level neither 0 nor 1";
    case HRAZVANUT_REFUSED_NO_INPUT: return "no such group, or no such input in it";
    case HRAZVANUT_REFUSED_LONG_NAME: return "client's name over 60 bytes";
    case HRAZVANUT_REFUSED_NO_PLACE: return "all 64 places taken";
    case HRAZVANUT_REFUSED_NO_CLIENT: return "no client at the place";
    case HRAZVANUT_REFUSED_ROLES: return "more than 16 roles, or one over 60 bytes";
    case HRAZVANUT_REFUSED_UNWRITABLE: return "string that cannot be quoted, or text that would be refused";
    case HRAZVANUT_REFUSED_NO_ROOM_FOR_TEXT: return "text longer than the lent buffer";
    case HRAZVANUT_REFUSED_NOT_REGISTER: return "not a register";
    }
    return "unknown refusal";
}

/* ---- a load */

/* Reads the text of an access security file and writes its table at the start of the room. Accepted: those bytes are the table that 01
 * lays down, and every byte behind it is as it was. Refused: every byte of the room is as it was, so that a table there still stands. The
 * refusal is the first that applies in the order of the enum, at its earliest place. HRAZVANUT_TABLE bytes are enough for every file. */
static inline struct hrazvanut_loaded hrazvanut_load(struct hrazvanut_text text, struct hrazvanut_room room)
{
    uint8_t none = 0;
    uint64_t answer = hrazvanut_abi_load(hrazvanut_abi_bytes(text.start, text.length), text.length, room.length == 0 ? &none : room.start,
                                         room.length);
    return hrazvanut_abi_loaded(answer, room);
}

/* The warnings of a text, by place. Those behind the first `skip` are written, as many as there is room for. A text that a load
 * refuses with another number than 11 is refused here too, and nothing is written. The text is read anew for each 64 that are written. */
static inline struct hrazvanut_listed hrazvanut_list_warnings(struct hrazvanut_text text, size_t skip, struct hrazvanut_warnings room)
{
    uint8_t numbers[64];
    uint16_t places[64];
    struct hrazvanut_listed listed;
    size_t i;
    listed.written = 0;
    do {
        size_t batch = room.length - listed.written < 64 ? room.length - listed.written : 64;
        uint64_t answer = hrazvanut_abi_list_warnings(hrazvanut_abi_bytes(text.start, text.length), text.length, skip + listed.written,
                                                      numbers, batch, places, batch);
        bool accepted;
        listed.refusal = hrazvanut_abi_refusal(answer);
        accepted = listed.refusal == HRAZVANUT_NOT_REFUSED;
        listed.place = accepted ? 0 : hrazvanut_abi_first(answer);
        listed.count = accepted ? hrazvanut_abi_first(answer) : 0;
        for (i = 0; i < batch && skip + listed.written < listed.count; i++) {
            room.start[listed.written].kind = (enum hrazvanut_warning_kind)numbers[i];
            room.start[listed.written].place = places[i];
            listed.written++;
        }
    } while (i == 64 && listed.written < room.length);
    return listed;
}

/* ---- a table */

/* Whether the bytes begin with a well-formed table: one that a question can be asked of. That is no proof against damage, for a byte
 * changed in a name leaves it well-formed; and it holds of tables that no load writes, with shared strings, names given twice or
 * groups that are not defined, which have no members. Keep a sum of your own beside a table that is stored or sent. */
static inline bool hrazvanut_is_table(struct hrazvanut_table table)
{
    return hrazvanut_abi_is_table(hrazvanut_abi_bytes(table.start, table.length), table.length) == 1;
}

/* ---- an export */

/* Writes the rules of a table back as the text of an access security file, at the start of the room. Written: those bytes are the text that
 * 02 lays down, and every byte behind it is as it was. Refused: every byte of the room is as it was.
 *
 * The groups stand in the table's order, user groups first, then host groups, then access groups. Each definition, list of members, input,
 * rule and condition of a rule has a line of its own; names and calculations are quoted. Comments and unknown items are lost, for a table
 * does not keep them; hosts are in lower case, as stored; a rule that is switched off says UNKNOWN(). If a load of this version wrote the
 * table, a text of at most HRAZVANUT_FILE bytes loads again to the same table, byte for byte, and the export of that one gives the same
 * text. A text that is longer than a file may be is written all the same: it can pass 65,535 bytes.
 *
 * Refused: 20 not a table; then 27 a name that cannot be quoted, for it has a bare quote or a bare newline, or ends in half an escape, or
 * a text with a cause for a load's refusal but 1 and 11; then 28 a text longer than the room. Of the tables that a load of this version
 * writes, 27 refuses those without any definition and no others; of those that an earlier one wrote also some with an undefined group. */
static inline struct hrazvanut_exported hrazvanut_export(struct hrazvanut_table table, struct hrazvanut_text_room room)
{
    uint8_t none = 0;
    uint64_t answer = hrazvanut_abi_export(hrazvanut_abi_bytes(table.start, table.length), table.length,
                                           room.length == 0 ? &none : (uint8_t *)room.start, room.length);
    struct hrazvanut_exported exported;
    exported.refusal = hrazvanut_abi_refusal(answer);
    exported.needed = exported.refusal == HRAZVANUT_REFUSED_NO_ROOM_FOR_TEXT ? hrazvanut_abi_first(answer) : 0;
    exported.text.start = exported.refusal == HRAZVANUT_NOT_REFUSED ? room.start : NULL;
    exported.text.length = exported.refusal == HRAZVANUT_NOT_REFUSED ? hrazvanut_abi_first(answer) : 0;
    return exported;
}

/* ---- a question */

/* Who may do what with a channel of a group. A rule whose calculation names a letter with a bad reading does not match; nor does one
 * whose calculation evaluates a part that is infinite or not a number, as 0/0 is. A member `role/NAME` of a user group is whoever has
 * the role NAME, and nobody by the user's name; the role of no bytes is that of the member `role/`. Every other member is the user of that
 * name.
 *
 * The answer's letter says which reading to look at. It is the lowest in the calculation, in either branch, whose reading is bad: of the
 * first rule of the group whose permission is above the access answered, whose calculation names a bad reading, and which fails by nothing
 * else: it is not switched off, and level, user or role, and host are as it wants them. Without such a rule there is none: where a
 * calculation is false, or bad by arithmetic, the readings that it names are good.
 *
 * Refused: 20 not a table, then 21 a level neither 0 nor 1, then 26 more than HRAZVANUT_ROLES roles or one of more than
 * HRAZVANUT_ROLE_LENGTH bytes. */
static inline struct hrazvanut_answer hrazvanut_decide(struct hrazvanut_table table, const struct hrazvanut_question *question)
{
    return hrazvanut_abi_ask(hrazvanut_abi_decide_letter, table, question);
}

/* The same, for bytes of which hrazvanut_is_table has said true and that were not written since: the one precondition of this library,
 * here and of the other functions whose names end in _checked. It spares the check, which for a large table takes most of the time. Bytes
 * that an accepted load wrote need not be checked. Of other bytes nothing is promised, not even that it stays in bounds. */
static inline struct hrazvanut_answer hrazvanut_decide_checked(struct hrazvanut_table table, const struct hrazvanut_question *question)
{
    return hrazvanut_abi_ask(hrazvanut_abi_decide_letter_checked, table, question);
}

/* ---- a look-up */

/* The name of the process variable that feeds a letter (A is 0) of a group. Refused: 20 not a table, then 22 no such input. */
static inline struct hrazvanut_found hrazvanut_find_input(struct hrazvanut_table table, struct hrazvanut_text group, uint32_t letter)
{
    return hrazvanut_abi_find(hrazvanut_abi_find_input, table, group, letter);
}

/* The same without the check of the table: see hrazvanut_decide_checked. */
static inline struct hrazvanut_found hrazvanut_find_input_checked(struct hrazvanut_table table, struct hrazvanut_text group,
                                                                  uint32_t letter)
{
    return hrazvanut_abi_find(hrazvanut_abi_find_input_checked, table, group, letter);
}

/* The name of the process variable that stopped an asker: the one that feeds the letter of an answer, or of a right, for a question of that
 * group on that table. If a load wrote the table there is always such an input; other tables may have calculations of letters that have
 * none. Refused: 20 not a table, then 22 no such input, as for every letter but 'A' to 'U': for 0 too, which an answer without one has. */
static inline struct hrazvanut_found hrazvanut_stopping_input(struct hrazvanut_table table, struct hrazvanut_text group, char letter)
{
    return hrazvanut_find_input(table, group, (uint32_t)(letter - 'A')); /* what is below 'A' is far above 'U' */
}

/* ---- a walk: which process variables a gateway has to hear */

/* The name of the access group of a number: 0 is the first of the table, and a table has at most HRAZVANUT_GROUPS. The group that answers
 * for any name is among them, its readings are set by this name, and its inputs are found by it. A name may have no bytes: no question
 * comes to that group, since an empty name goes to DEFAULT. Refused: 20 not a table, then 22 no group of that number. */
static inline struct hrazvanut_found hrazvanut_group_at(struct hrazvanut_table table, size_t number)
{
    return hrazvanut_abi_name(hrazvanut_abi_group_at, table, number);
}

/* The same without the check of the table: see hrazvanut_decide_checked. */
static inline struct hrazvanut_found hrazvanut_group_at_checked(struct hrazvanut_table table, size_t number)
{
    return hrazvanut_abi_name(hrazvanut_abi_group_at_checked, table, number);
}

/* The next input of a table, group by group and by letter, with the name that each group's readings are set by. A walk begins with zeros,
 * = {0} in C and = {} in C++:
 *
 *     struct hrazvanut_input input = {0};
 *     while (hrazvanut_next_input_checked(table, &input))
 *         subscribe(input.group, input.letter, input.name);
 *
 * False behind the last; then the input is as it was, but for where the walk goes on. Each input that a question can depend on is told, and
 * if a load wrote the table each once. The bytes are a table: see hrazvanut_decide_checked. */
static inline bool hrazvanut_next_input_checked(struct hrazvanut_table table, struct hrazvanut_input *input)
{
    for (;;) {
        uint32_t letter = (uint32_t)(input->next % HRAZVANUT_READINGS);
        struct hrazvanut_found group = hrazvanut_group_at_checked(table, input->next / HRAZVANUT_READINGS), name;
        if (group.refusal)
            return false;
        input->next++;
        name = hrazvanut_find_input_checked(table, group.name, letter);
        if (name.refusal || group.name.length == 0)
            continue;
        input->group = group.name;
        input->letter = letter;
        input->name = name.name;
        return true;
    }
}

/* The same of any bytes: false for what is no table. It checks the table for each input that it tells. */
static inline bool hrazvanut_next_input(struct hrazvanut_table table, struct hrazvanut_input *input)
{
    return hrazvanut_is_table(table) && hrazvanut_next_input_checked(table, input);
}

/* ---- a calculation */

/* Whether a text is a calculation that 01 allows, of at most 79 bytes, apart from its letters having inputs. */
static inline bool hrazvanut_allowed(struct hrazvanut_text text)
{
    return hrazvanut_abi_allowed(hrazvanut_abi_bytes(text.start, text.length), text.length) == 1;
}

/* ---- a register: the clients of a gateway over one table
 *
 * Begin with a zeroed register, and with a table or with bytes that are none. Lend each call that register and that table: after a reload,
 * the table that it answers, or the whole room, of which the bytes behind the table do not count. Load again into that same room, or into
 * another, so that questions can go on with the old table meanwhile: behind an accepted reload the calls are lent the new table, behind a
 * refused one still the old. Then, whatever calls were made, as long as nobody else writes the register or the table:
 *
 * - each client's right is what hrazvanut_decide would answer now to a question with its names and level, no roles, and the readings of the
 *   group that answers (for a group that is not defined those of DEFAULT), its letter too; while the bytes are no table it is NONE without
 *   trap or letter;
 * - a client stays as last given until it is changed or removed, a reading as last set until the next accepted reload.
 *
 * A refused call changes no byte of the register or of the table. */

/* Adds a client at the lowest free place; a place whose client was removed is free. It needs no table. Refused: 23 a name over 60 bytes,
 * then 21 a level neither 0 nor 1, then 24 all places taken. */
static inline struct hrazvanut_entered hrazvanut_add_client(struct hrazvanut_register *reg, struct hrazvanut_table table,
                                                            const struct hrazvanut_client *client)
{
    return hrazvanut_abi_enter(hrazvanut_abi_add, reg, table, client);
}

/* The same without the check of the table: see hrazvanut_decide_checked. */
static inline struct hrazvanut_entered hrazvanut_add_client_checked(struct hrazvanut_register *reg, struct hrazvanut_table table,
                                                                    const struct hrazvanut_client *client)
{
    return hrazvanut_abi_enter(hrazvanut_abi_add_checked, reg, table, client);
}

/* Gives the client at a place all its parts anew. It needs no table. Refused: 25 no client there, as at every place over 63, then 23 and 21
 * as above. */
static inline struct hrazvanut_entered hrazvanut_change_client(struct hrazvanut_register *reg, struct hrazvanut_table table, size_t place,
                                                               const struct hrazvanut_client *client)
{
    return hrazvanut_abi_reenter(hrazvanut_abi_change, reg, table, place, client);
}

/* The same without the check of the table: see hrazvanut_decide_checked. */
static inline struct hrazvanut_entered hrazvanut_change_client_checked(struct hrazvanut_register *reg, struct hrazvanut_table table,
                                                                       size_t place, const struct hrazvanut_client *client)
{
    return hrazvanut_abi_reenter(hrazvanut_abi_change_checked, reg, table, place, client);
}

/* Removes the client at a place; the place is free, and its right NONE without trap or letter. Refused: 25 no client there. */
static inline struct hrazvanut_entered hrazvanut_remove_client(struct hrazvanut_register *reg, size_t place)
{
    uint64_t changed = 0;
    uint64_t answer = hrazvanut_abi_remove(reg->places, sizeof reg->places, place, &changed, 1);
    return hrazvanut_abi_entered(answer, place, changed);
}

/* Sets the reading of a letter (A is 0) of the first access group so named; empty is DEFAULT. It is that group's alone: unlike a question,
 * it does not go on to DEFAULT. Every reading can be set, never heard too. The rights of the clients that the group answers for follow.
 * Refused: 20 not a table, then 22 no such group, or no such input in it. */
static inline struct hrazvanut_reading_set hrazvanut_set_reading(struct hrazvanut_register *reg, struct hrazvanut_table table,
                                                                 struct hrazvanut_text group, uint32_t letter,
                                                                 struct hrazvanut_reading reading)
{
    return hrazvanut_abi_hear(hrazvanut_abi_set, reg, table, group, letter, reading);
}

/* The same without the check of the table: see hrazvanut_decide_checked. */
static inline struct hrazvanut_reading_set hrazvanut_set_reading_checked(struct hrazvanut_register *reg, struct hrazvanut_table table,
                                                                         struct hrazvanut_text group, uint32_t letter,
                                                                         struct hrazvanut_reading reading)
{
    return hrazvanut_abi_hear(hrazvanut_abi_set_checked, reg, table, group, letter, reading);
}

/* Loads a text into the room as hrazvanut_load does. Accepted: every reading is never heard, and each client has its right by the new
 * table. Refused: register, readings and room are as they were, and the table that you had goes on. */
static inline struct hrazvanut_reloaded hrazvanut_reload(struct hrazvanut_register *reg, struct hrazvanut_text text,
                                                         struct hrazvanut_room room)
{
    uint8_t none = 0;
    struct hrazvanut_reloaded reloaded;
    reloaded.changed = 0;
    reloaded.loaded = hrazvanut_abi_loaded(
        hrazvanut_abi_reload(reg->places, sizeof reg->places, reg->states, sizeof reg->states, hrazvanut_abi_bytes(text.start, text.length),
                             text.length, room.length == 0 ? &none : room.start, room.length, &reloaded.changed, 1),
        room);
    return reloaded;
}

/* The right that the client at a place has now: a look at the register, not a decision. NONE without trap or letter at a free place and at
 * every place over 63. */
static inline struct hrazvanut_right hrazvanut_right_of(const struct hrazvanut_register *reg, size_t place)
{
    uint8_t answer = hrazvanut_abi_right_letter(reg->places, sizeof reg->places, place);
    struct hrazvanut_right right;
    right.access = (enum hrazvanut_access)(answer & 3);
    right.trap = (answer & 4) != 0;
    right.letter = hrazvanut_abi_letter(answer);
    return right;
}

#undef HRAZVANUT_ENUM_TYPE

#endif
