#include "bank.h"

#include <search.h>
#include <stdlib.h>

/* EPICS has DEFAULT even if the file has not. The last number is for a group that EPICS does not have. */
enum { GROUPS = HRAZVANUT_GROUPS + 2 };

struct place {
    ASGCLIENT *client; /* NULL at a free place */
    struct batch *batch;
};

/* A register and its clients. */
struct batch {
    struct hrazvanut_register reg;
    struct place places[HRAZVANUT_PLACES];
    int taken;
    struct hrazvanut_reading heard[GROUPS][LETTERS]; /* as last set */
    uint64_t untold;                                 /* the places whose right changed by that, until their clients are told */
    struct batch *next;
};

static struct batch *batches;
static void *by_client;      /* the places that are taken, in a tree of tsearch */
static char lacking[GROUPS]; /* whether a client may have no place */

/* A group's number in EPICS's list. */
static size_t number_of(const ASG *group)
{
    size_t number = 0;
    for EACH (ASG, each, groups()) {
        if (each == group || number == GROUPS - 1)
            break;
        number++;
    }
    return number;
}

/* ---- places */

static int compare(const void *one, const void *other)
{
    uintptr_t a = (uintptr_t)((const struct place *)one)->client, b = (uintptr_t)((const struct place *)other)->client;
    return (a > b) - (a < b);
}

static struct place *find(ASGCLIENT *client)
{
    struct place sought = {.client = client};
    struct place **found = tfind(&sought, &by_client, compare);
    return found ? *found : NULL;
}

int bank_has(ASGCLIENT *client) { return find(client) != NULL; }

static size_t number_in(const struct place *place) { return (size_t)(place - place->batch->places); }

static void vacate(struct place *place)
{
    hrazvanut_remove_client(&place->batch->reg, number_in(place));
    place->batch->taken--;
    place->client = NULL;
}

void bank_leave(ASGCLIENT *client)
{
    struct place *place = find(client);
    if (!place)
        return;
    tdelete(place, &by_client, compare);
    vacate(place);
}

/* The first with a free place; NULL if there is none and no memory for one more. */
static struct batch *with_room(void)
{
    struct batch **at = &batches;
    while (*at && (*at)->taken == HRAZVANUT_PLACES)
        at = &(*at)->next;
    if (!*at)
        *at = calloc(1, sizeof **at);
    return *at;
}

/* Without a table nobody has a place: so whatever table a register is lent was written by a load, and need not be checked. */
static struct place *add(ASGCLIENT *client, const struct hrazvanut_client *parts)
{
    struct batch *batch = in_force.length ? with_room() : NULL;
    if (!batch)
        return NULL;
    struct hrazvanut_entered entered = hrazvanut_add_client_checked(&batch->reg, in_force, parts);
    if (entered.refusal)
        return NULL;
    struct place *place = &batch->places[entered.place];
    place->client = client;
    place->batch = batch;
    batch->taken++;
    if (tsearch(place, &by_client, compare))
        return place;
    vacate(place);
    return NULL;
}

/* The client's place, with its parts as they are now. NULL if it can have none. */
static struct place *enter(ASGCLIENT *client, const struct hrazvanut_client *parts)
{
    struct place *place = find(client);
    if (place && !hrazvanut_change_client_checked(&place->batch->reg, in_force, number_in(place), parts).refusal)
        return place;
    bank_leave(client);
    return add(client, parts);
}

void bank_empty(void)
{
    while (by_client)
        tdelete(*(struct place **)by_client, &by_client, compare);
    while (batches) {
        struct batch *next = batches->next;
        free(batches);
        batches = next;
    }
    memset(lacking, 1, sizeof lacking);
}

/* ---- rights */

int telling;

/* The callback may remove the client. */
static void settle(ASGCLIENT *client, asAccessRights before, enum hrazvanut_access access, bool trap)
{
    client->access = access == HRAZVANUT_WRITE ? asWRITE : access == HRAZVANUT_READ ? asREAD : asNOACCESS;
    client->trapMask = trap ? AS_TRAP_WRITE : 0;
    if (!client->pcallback || client->access == before)
        return;
    telling++;
    client->pcallback(client, asClientCOAR);
    telling--;
}

static void settle_place(const struct place *place, asAccessRights before)
{
    struct hrazvanut_right right = hrazvanut_right_of(&place->batch->reg, number_in(place));
    settle(place->client, before, right.access, right.trap);
}

/* To the bit: not-a-number can stay what it is. */
static int same(const struct hrazvanut_reading *one, const struct hrazvanut_reading *other)
{
    return one->state == other->state && memcmp(&one->value, &other->value, sizeof one->value) == 0;
}

static void set_readings(struct batch *batch, size_t group, const struct hrazvanut_question *now)
{
    for (uint32_t letter = 0; letter < LETTERS; letter++) {
        struct hrazvanut_reading *heard = &batch->heard[group][letter];
        if (same(heard, &now->readings[letter]))
            continue;
        *heard = now->readings[letter];
        batch->untold |= hrazvanut_set_reading_checked(&batch->reg, in_force, now->group, letter, *heard).changed;
    }
}

/* A callback may remove a client. */
static void tell(struct batch *batch)
{
    uint64_t untold = batch->untold;
    batch->untold = 0;
    for (; untold; untold &= untold - 1) {
        const struct place *place = &batch->places[__builtin_ctzll(untold)];
        if (place->client)
            settle_place(place, place->client->access);
    }
}

/* Every register has the readings before the first callback, which may bring other ones. */
int bank_hear(const ASG *group, const struct hrazvanut_question *now)
{
    size_t number = number_of(group);
    for (struct batch *batch = batches; batch; batch = batch->next)
        set_readings(batch, number, now);
    for (struct batch *batch = batches; batch; batch = batch->next)
        tell(batch);
    int lacks = lacking[number];
    lacking[number] = 0; /* until one is judged that gets no place */
    return lacks;
}

/* Others of its group, should their rights change by these readings, are told when EPICS has the group worked out. */
void bank_judge(ASGCLIENT *client, asAccessRights before, const struct hrazvanut_question *now)
{
    struct hrazvanut_client parts = {.group = now->group, .user = now->user, .host = now->host, .level = now->level};
    size_t group = number_of(client->pasgMember->pasg);
    struct place *place = enter(client, &parts);
    if (place) {
        set_readings(place->batch, group, now);
        settle_place(place, before);
        return;
    }
    lacking[group] = 1;
    struct hrazvanut_answer answer = hrazvanut_decide(in_force, now);
    settle(client, before, answer.access, answer.trap);
}
