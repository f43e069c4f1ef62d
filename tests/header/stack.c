/* Every call runs in a thread of 256 KiB, on inputs of a megabyte. Each runs in a process of its own, on a stack that is painted before;
 * prints of each function the most that it used, over what a thread uses for nothing, and what ended by a signal. None may use more than
 * the 192 KiB that the header names. */
#define _DEFAULT_SOURCE
#include <pthread.h>
#include <stdio.h>
#include <stdlib.h>
#include <string.h>
#include <sys/mman.h>
#include <sys/wait.h>
#include <unistd.h>

#include "hrazvanut.h"

enum { STACK = 256 * 1024, MOST = 192 * 1024, GUARD = 64 * 1024, MEGABYTE = 1000 * 1000, PAINT = 0xa5 };

/* What a call is given. */
struct input {
    const char *name;
    struct hrazvanut_text text;   /* a file, a calculation, a name */
    struct hrazvanut_table table; /* of the questions */
    bool is_table;                /* asked before, so that calls without the check do without it */
};

static uint8_t lent[HRAZVANUT_TABLE];
static char page[HRAZVANUT_TEXT];
static uint8_t *stack;

/* ---- the calls */

static void call_nothing(const struct input *in) { (void)in; }

static void call_load(const struct input *in)
{
    struct hrazvanut_room room = {.start = lent, .length = sizeof lent};
    hrazvanut_load(in->text, room);
}

static void call_list_warnings(const struct input *in)
{
    struct hrazvanut_warning warnings[8];
    struct hrazvanut_warnings room = {.start = warnings, .length = 8};
    hrazvanut_list_warnings(in->text, 0, room);
}

static void call_is_table(const struct input *in) { hrazvanut_is_table(in->table); }

static void call_export(const struct input *in)
{
    struct hrazvanut_text_room room = {.start = page, .length = sizeof page};
    hrazvanut_export(in->table, room);
    room.length = 0;
    hrazvanut_export(in->table, room);
}

/* The longest name that a client, or a role, can have. */
static struct hrazvanut_text name_of(const struct input *in)
{
    struct hrazvanut_text name = {.start = in->text.start, .length = in->text.length < 60 ? in->text.length : 60};
    return name;
}

static struct hrazvanut_question question_of(const struct input *in)
{
    struct hrazvanut_question question = {.group = in->text, .user = in->text, .host = in->text};
    for (int i = 0; i < HRAZVANUT_READINGS; i++)
        question.readings[i] = (struct hrazvanut_reading){.state = HRAZVANUT_VALUE, .value = 1};
    question.role_count = HRAZVANUT_ROLES;
    for (int i = 0; i < HRAZVANUT_ROLES; i++)
        question.roles[i] = name_of(in);
    return question;
}

static void call_decide(const struct input *in)
{
    struct hrazvanut_question question = question_of(in);
    hrazvanut_decide(in->table, &question);
    question.roles[HRAZVANUT_ROLES - 1] = in->text;
    hrazvanut_decide(in->table, &question);
}

static void call_decide_checked(const struct input *in)
{
    struct hrazvanut_question question = question_of(in);
    if (in->is_table)
        hrazvanut_decide_checked(in->table, &question);
}

static void call_find_input(const struct input *in) { hrazvanut_find_input(in->table, in->text, 20); }

static void call_find_input_checked(const struct input *in)
{
    if (in->is_table)
        hrazvanut_find_input_checked(in->table, in->text, 20);
}

static void call_stopping_input(const struct input *in) { hrazvanut_stopping_input(in->table, in->text, 'U'); }

static void call_group_at(const struct input *in)
{
    hrazvanut_group_at(in->table, 0);
    hrazvanut_group_at(in->table, HRAZVANUT_GROUPS - 1);
    hrazvanut_group_at(in->table, SIZE_MAX);
}

static void call_group_at_checked(const struct input *in)
{
    if (!in->is_table)
        return;
    hrazvanut_group_at_checked(in->table, 0);
    hrazvanut_group_at_checked(in->table, HRAZVANUT_GROUPS - 1);
    hrazvanut_group_at_checked(in->table, SIZE_MAX);
}

static void call_next_input(const struct input *in)
{
    struct hrazvanut_input input = {.next = 0};
    while (hrazvanut_next_input(in->table, &input)) {
    }
}

static void call_next_input_checked(const struct input *in)
{
    struct hrazvanut_input input = {.next = 0};
    while (in->is_table && hrazvanut_next_input_checked(in->table, &input)) {
    }
}

static void call_version(const struct input *in)
{
    (void)in;
    hrazvanut_version();
}

static void call_allowed(const struct input *in) { hrazvanut_allowed(in->text); }

/* All places but the last are taken; each process has it anew. */
static struct hrazvanut_register reg;

static struct hrazvanut_client client_of(const struct input *in)
{
    struct hrazvanut_text name = name_of(in);
    return (struct hrazvanut_client){.group = name, .user = name, .host = name, .level = 1};
}

static void call_add_client(const struct input *in)
{
    struct hrazvanut_client client = client_of(in);
    hrazvanut_add_client(&reg, in->table, &client);
    client.host = in->text;
    hrazvanut_add_client(&reg, in->table, &client);
}

static void call_change_client(const struct input *in)
{
    struct hrazvanut_client client = client_of(in);
    hrazvanut_change_client(&reg, in->table, 62, &client);
}

static void call_remove_client(const struct input *in) { hrazvanut_remove_client(&reg, in->text.length % 128); }

static void call_set_reading(const struct input *in)
{
    struct hrazvanut_reading reading = {.state = HRAZVANUT_VALUE, .value = 1};
    struct hrazvanut_text none = {.length = 0};
    hrazvanut_set_reading(&reg, in->table, none, 0, reading);
    hrazvanut_set_reading(&reg, in->table, in->text, 0, reading);
}

static void call_all_checked(const struct input *in)
{
    struct hrazvanut_client client = client_of(in);
    struct hrazvanut_reading reading = {.state = HRAZVANUT_VALUE, .value = 1};
    struct hrazvanut_text none = {.length = 0};
    if (!in->is_table)
        return;
    hrazvanut_set_reading_checked(&reg, in->table, none, 0, reading);
    hrazvanut_change_client_checked(&reg, in->table, 62, &client);
    hrazvanut_add_client_checked(&reg, in->table, &client);
}

static void call_reload(const struct input *in)
{
    struct hrazvanut_room room = {.start = lent, .length = sizeof lent};
    hrazvanut_reload(&reg, in->text, room);
}

static void call_right_of(const struct input *in) { hrazvanut_right_of(&reg, in->text.length); }

static const struct call {
    const char *name;
    void (*call)(const struct input *);
} calls[] = {
    {"hrazvanut_load", call_load},
    {"hrazvanut_list_warnings", call_list_warnings},
    {"hrazvanut_is_table", call_is_table},
    {"hrazvanut_export", call_export},
    {"hrazvanut_decide", call_decide},
    {"hrazvanut_decide_checked", call_decide_checked},
    {"hrazvanut_find_input", call_find_input},
    {"hrazvanut_find_input_checked", call_find_input_checked},
    {"hrazvanut_stopping_input", call_stopping_input},
    {"hrazvanut_group_at", call_group_at},
    {"hrazvanut_group_at_checked", call_group_at_checked},
    {"hrazvanut_next_input", call_next_input},
    {"hrazvanut_next_input_checked", call_next_input_checked},
    {"hrazvanut_version", call_version},
    {"hrazvanut_allowed", call_allowed},
    {"hrazvanut_add_client", call_add_client},
    {"hrazvanut_change_client", call_change_client},
    {"hrazvanut_remove_client", call_remove_client},
    {"hrazvanut_set_reading", call_set_reading},
    {"set, change, add, _checked", call_all_checked},
    {"hrazvanut_reload", call_reload},
    {"hrazvanut_right_of", call_right_of},
};
enum { CALLS = sizeof calls / sizeof *calls };

/* ---- one call in a thread, in a process */

struct task {
    const struct call *call;
    const struct input *input;
};

static void *run_task(void *given)
{
    const struct task *task = given;
    task->call->call(task->input);
    return NULL;
}

static void in_thread(struct task task)
{
    pthread_attr_t attributes;
    pthread_t thread;
    if (pthread_attr_init(&attributes) || pthread_attr_setstack(&attributes, stack + GUARD, STACK) ||
        pthread_create(&thread, &attributes, run_task, &task) || pthread_join(thread, NULL))
        _exit(1);
    _exit(0);
}

/* The bytes of the stack that were used, or none if the process did not end well. */
static size_t used_by(struct task task)
{
    size_t unused = 0;
    int status;
    memset(stack + GUARD, PAINT, STACK);
    pid_t child = fork();
    if (child == 0)
        in_thread(task);
    if (child < 0 || waitpid(child, &status, 0) != child || !WIFEXITED(status) || WEXITSTATUS(status) != 0)
        return 0;
    while (unused < STACK && stack[GUARD + unused] == PAINT)
        unused++;
    return STACK - unused;
}

/* ---- the inputs */

enum { INPUTS = 96 };
static struct input inputs[INPUTS];
static size_t count;

static void add(const char *name, struct hrazvanut_text text, struct hrazvanut_table table)
{
    if (count == INPUTS)
        abort();
    inputs[count++] = (struct input){.name = name, .text = text, .table = table, .is_table = hrazvanut_is_table(table)};
}

/* A text again and again, up to a length. */
static struct hrazvanut_text repeated(const char *part, size_t length)
{
    char *bytes = malloc(length);
    size_t n = strlen(part);
    if (!bytes)
        abort();
    for (size_t i = 0; i < length; i++)
        bytes[i] = part[i % n];
    return (struct hrazvanut_text){.start = bytes, .length = length};
}

/* The table of a text, in a megabyte of zeros. */
static struct hrazvanut_table table_of(const char *text)
{
    uint8_t *bytes = calloc(1, MEGABYTE);
    if (!bytes)
        abort();
    struct hrazvanut_room room = {.start = bytes, .length = MEGABYTE};
    if (hrazvanut_load(hrazvanut_string(text), room).refusal)
        abort();
    return (struct hrazvanut_table){.start = bytes, .length = MEGABYTE};
}

static struct hrazvanut_table bytes_as_table(struct hrazvanut_text text)
{
    return (struct hrazvanut_table){.start = (const uint8_t *)text.start, .length = text.length};
}

/* A file with 256 rules, each with a calculation of 79 bytes that nests. */
static const char *nested(const char *open, const char *middle, const char *close)
{
    static char text[HRAZVANUT_FILE];
    char calculation[80] = "";
    size_t most = (79 - strlen(middle)) / (strlen(open) + strlen(close));
    for (size_t i = 0; i < most; i++)
        strcat(calculation, open);
    strcat(calculation, middle);
    for (size_t i = 0; i < most; i++)
        strcat(calculation, close);
    strcpy(text, "UAG(u) {a} HAG(h) {b} ASG(DEFAULT) {INPA(x) INPU(y)");
    for (int i = 0; i < 120; i++)
        sprintf(text + strlen(text), "RULE(1,WRITE) {CALC(\"%s\")}", calculation);
    strcat(text, "}");
    return text;
}

static void make_inputs(void)
{
    static const char *const parts[] = {
        "-", "!", "(", ")", "{", "}", "\"", "\\", ",", " ", "\n", "a", "A", "1", ".", "1+", "A?", "A?1:", "-(", "a()", "a{", "UAG(a)",
        "ASG(DEFAULT){RULE(1,READ){FOO(", "#\n", "\xff",
    };
    struct hrazvanut_table tables[3] = {
        table_of(nested("-", "A", "")), table_of(nested("(", "A", ")")), table_of(nested("A?U:", "A", "")),
    };
    for (size_t i = 0; i < sizeof parts / sizeof *parts; i++) {
        add(parts[i], repeated(parts[i], MEGABYTE), tables[i % 3]);
        add(parts[i], repeated(parts[i], HRAZVANUT_FILE), bytes_as_table(repeated(parts[i], MEGABYTE)));
        add(parts[i], repeated(parts[i], 79), tables[i % 3]); /* no calculation is longer */
    }
    add("rules", hrazvanut_string(strdup(nested("-(", "A", ")"))), bytes_as_table(repeated("\1", MEGABYTE)));
    add("signs", hrazvanut_string(strdup(nested("-", "A", ""))), tables[0]);
    add("brackets", hrazvanut_string(strdup(nested("(", "", ""))), tables[1]); /* no calculation, and the deepest */
    add("zeros", repeated("x", MEGABYTE), (struct hrazvanut_table){.start = calloc(1, MEGABYTE), .length = MEGABYTE});
}

static void fill_register(void)
{
    const struct hrazvanut_client client = {.level = 1};
    const struct hrazvanut_table none = {.length = 0};
    for (size_t i = 0; i + 1 < HRAZVANUT_PLACES; i++)
        if (hrazvanut_add_client(&reg, none, &client).refusal)
            abort();
}

int main(void)
{
    int bad = 0;
    stack = mmap(NULL, GUARD + STACK, PROT_READ | PROT_WRITE, MAP_SHARED | MAP_ANONYMOUS, -1, 0);
    if (stack == MAP_FAILED || mprotect(stack, GUARD, PROT_NONE))
        return 2;
    make_inputs();
    fill_register();
    const struct call nothing = {"nothing", call_nothing};
    size_t base = used_by((struct task){.call = &nothing, .input = &inputs[0]});
    for (size_t c = 0; c < CALLS; c++) {
        size_t most = 0;
        for (size_t i = 0; i < count; i++) {
            size_t used = used_by((struct task){.call = &calls[c], .input = &inputs[i]});
            if (used == 0) {
                bad = 1;
                printf("%s ended by a signal on %zu bytes of %.8s\n", calls[c].name, inputs[i].text.length, inputs[i].name);
            }
            if (used > most)
                most = used;
        }
        printf("%-28s %6zu bytes of stack at most\n", calls[c].name, most > base ? most - base : 0);
        if (most > base + MOST) {
            bad = 1;
            printf("%s needs more than %d bytes\n", calls[c].name, MOST);
        }
    }
    return bad;
}
