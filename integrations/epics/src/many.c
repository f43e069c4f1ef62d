/* More clients than a register has places, and names longer than it takes: each client must have what a fresh question gives, and be told
 * once if its access is another. */
#include <dlfcn.h>
#include <math.h>
#include <stdio.h>
#include <string.h>

#include "hrazvanut.h"
#include "trial.h"

enum { MANY = 200 };

static struct {
    ASCLIENTPVT client; /* NULL if there is none */
    int told;
    asAccessRights before; /* the access when it was last looked at */
} many[MANY];

static void count_one(ASCLIENTPVT one, asClientStatus status)
{
    (void)status;
    ++*(int *)asGetClientPvt(one);
}

static void come(int i, ASMEMBERPVT to, int level, const char *user, char *from)
{
    asAddClient(&many[i].client, to, level, user, from);
    asPutClientPvt(many[i].client, &many[i].told);
    asRegisterClientCallback(many[i].client, count_one);
    many[i].before = many[i].client->access;
    many[i].told = 0;
}

/* Whether each from the first on has the access, and was told so often since; and nobody was told who is gone. */
static int each_is(int first, asAccessRights access, int times)
{
    int right = 1;
    for (int i = first; i < MANY; i++) {
        right &= many[i].client ? many[i].client->access == access && many[i].told == times : many[i].told == 0;
        many[i].told = 0;
    }
    return right;
}

/* ---- one sensor */

static void told_once(void)
{
    check(asInitMem(rules, NULL) == 0, "a load");
    asAddMember(&member, "");
    for (int i = 0; i < MANY; i++)
        come(i, member, 1, "ann", host);
    check(each_is(0, asREAD, 0), "200 clients on a sensor that was never heard");
    event(1, 0.02);
    check(each_is(0, asWRITE, 1), "0.02 is write, each told once");
    event(1, 0.03);
    check(each_is(0, asWRITE, 0), "0.03 is no change, nobody told");
    half_an_event(0);
    asCompute(many[0].client);
    check(many[0].client->access == asREAD && many[0].told == 1 && each_is(1, asWRITE, 0), "bad, one worked out by itself: told alone");
    asComputeAsg(member->pasg);
    check(many[0].told == 1 && each_is(1, asREAD, 1), "then all of them: each other told once");
    many[0].told = 0;
}

static void places_freed(void)
{
    int right = 1;
    for (int i = 0; i < MANY; i += 3)
        asRemoveClient(&many[i].client);
    event(1, 0.02);
    check(each_is(0, asWRITE, 1), "every third is gone and not told, each other is");
    for (int i = 0; i < MANY; i += 3) {
        come(i, member, 1, "bob", host);
        right &= many[i].client->access == asREAD;
        asChangeClient(many[i].client, 1, "ann", host);
        right &= many[i].told == 1;
        many[i].told = 0;
    }
    check(right && each_is(0, asWRITE, 0), "others come, and then have another user: each told once, and nobody else");
    event(1, NAN);
    check(each_is(0, asREAD, 1), "not a number is read, each told once");
}

static void act(ASCLIENTPVT one, asClientStatus status)
{
    one->pcallback = count_one;
    count_one(one, status);
    asRemoveClient(&many[2].client);
    event(1, 0.45);
}

static void callback_acts(void)
{
    many[1].client->pcallback = act;
    event(1, 0.02);
    for (int i = 0; i < MANY; i++)
        many[i].told = 0;
    check(!many[2].client && each_is(0, asREAD, 0), "a callback removes somebody, and has another event: that one holds for all");
}

static void reloaded(void)
{
    for (int i = 131; i < MANY; i++)
        asRemoveClient(&many[i].client);
    event(1, 0.02);
    check(each_is(0, asWRITE, 1), "130 clients, 0.02 is write");
    check(asInitMem("ASG(", NULL) != 0 && each_is(0, asWRITE, 0), "a refused load: nobody told");
    event(1, 0.45);
    check(each_is(0, asREAD, 1), "0.45 is read by the rules in force");
    event(1, 0.02);
    check(each_is(0, asWRITE, 1) && asInitMem(rules, NULL) == 0 && each_is(0, asREAD, 1), "a load unhears the sensor, each told once");
    event(1, 0.02);
    check(each_is(0, asWRITE, 1), "0.02 is write");
    check(asInitMem("ASG(DEFAULT) {RULE(1,WRITE)}", NULL) == 0 && each_is(0, asWRITE, 0), "a load with the same right: nobody told");
    check(asInitMem("ASG(low)", NULL) == 0 && each_is(0, asNOACCESS, 1), "a load without the group: NONE, each told once");
    for (int i = 0; i < MANY; i++)
        if (many[i].client)
            asRemoveClient(&many[i].client);
}

/* ---- callbacks that remove clients and members: themselves, the one behind them or the one before */

enum { FEW = 8 };
enum removal { CLIENT, WITH_MEMBER, TO_SHUT };

static const char watched[] = "ASG(DEFAULT) {INPA(s) RULE(1,READ) RULE(1,WRITE) {CALC(\"A<1\")}} ASG(shut) {INPA(s)}\n"
                              "ASG(other) {RULE(1,READ)}";
static ASMEMBERPVT of[FEW];
static int further;
static enum removal removal;

static int is_shut(const ASGCLIENT *one) { return !strcmp(one->pasgMember->pasg->name, "shut"); }

static void remove_one(ASCLIENTPVT one, asClientStatus status)
{
    int i = 0;
    while (many[i].client != one)
        i++;
    i = (i + further) % FEW;
    count_one(one, status);
    if (removal == TO_SHUT) {
        if (!is_shut(one))
            asChangeGroup(&of[i], "shut");
        return;
    }
    if (many[i].client)
        asRemoveClient(&many[i].client);
    if (removal == WITH_MEMBER && of[i])
        asRemoveMember(&of[i]);
}

/* The clients write: all of one member, or each of its own. */
static void gather(const char *user, int members_of_their_own)
{
    asInitMem(watched, NULL);
    event(1, 0.02);
    for (int i = 0; i < FEW; i++) {
        if (i == 0 || members_of_their_own)
            asAddMember(&of[i], "");
        come(i, of[members_of_their_own ? i : 0], 1, user, host);
        many[i].client->pcallback = remove_one;
    }
}

/* Whether those that are left have their right and were told of it, once, and the others at most once. */
static int part(void)
{
    int right = 1, left = 0;
    for (int i = 0; i < FEW; i++) {
        const ASGCLIENT *one = many[i].client;
        int shut = one && is_shut(one);
        int told = many[i].told;
        left += one != NULL;
        right &= one ? one->access == (shut ? asNOACCESS : asREAD) && (told == 1 || (shut && told == 2)) : told <= 1;
        many[i].told = 0;
    }
    for (int i = 0; i < FEW; i++)
        if (many[i].client)
            asRemoveClient(&many[i].client);
    for (int i = 0; i < FEW; i++)
        if (of[i])
            asRemoveMember(&of[i]);
    return right && (left > 0) == (further != 0 || removal == TO_SHUT);
}

static void by_event(void) { event(1, 3); }
static void by_load(void) { asInitMem(watched, NULL); }
static void by_group(void) { asChangeGroup(&of[0], "other"); }

/* Short names have a place in a register, those of 61 bytes have none. */
static int all_ways(void (*cause)(void), enum removal what)
{
    static const int ways[] = {0, 1, FEW - 1};
    char sixty_one[62] = "";
    int right = 1;
    memset(sixty_one, 'a', 61);
    removal = what;
    for (int i = 0; i < 6; i++) {
        further = ways[i % 3];
        gather(i < 3 ? "ann" : sixty_one, what != CLIENT);
        cause();
        right &= part();
    }
    return right;
}

static int asked;

static void load_in_callback(ASCLIENTPVT one, asClientStatus status)
{
    count_one(one, status);
    asked += asInitMem(watched, NULL) != 0;
}

static void callbacks_remove(void)
{
    check(all_ways(by_event, CLIENT), "an event, and each callback removes a client");
    check(all_ways(by_load, CLIENT), "a load");
    check(all_ways(by_group, CLIENT), "another group");
    check(all_ways(by_event, WITH_MEMBER) && all_ways(by_load, WITH_MEMBER), "an event and a load: each removes a client with its member");
    check(all_ways(by_event, TO_SHUT) && all_ways(by_load, TO_SHUT), "each moves a member to another group");
    gather("ann", 0);
    further = 1;
    removal = CLIENT;
    for (int i = 0; i < FEW; i++)
        many[i].client->pcallback = load_in_callback;
    event(1, 3);
    check(asked == FEW && part(), "each callback loads a file: refused");
}

/* ---- a fresh question: the trial has a library of its own, and knows what it told EPICS */

/* As users and as hosts: of 60, 61 and 300 bytes too. Some stand in lists. */
enum { ADDRESS = 2, SIXTY = 3, NAMES = 6 };
static char names[NAMES][301] = {"ann", "pc1", "10.0.0.7"};

static const char *const files[] = {
    "UAG(ops) {ann, %s} HAG(desk) {pc1, 10.0.0.7, %s}\n"
    "ASG(DEFAULT) {INPA(s) INPB(t) RULE(1,READ) RULE(1,WRITE,TRAPWRITE) {UAG(ops) CALC(\"A<1&&B<1\")}}\n"
    "ASG(a) {INPA(s) RULE(0,READ) RULE(1,WRITE,TRAPWRITE) {HAG(desk) CALC(\"A<1\")}}\n"
    "ASG(b) {INPB(t) RULE(1,READ) {CALC(\"B<1\")} RULE(0,WRITE) {UAG(ops) CALC(\"B>=1\")}}",
    "UAG(ops) {ann} HAG(desk) {pc1, %s} ASG(DEFAULT) {INPB(s) RULE(1,WRITE) {HAG(desk) CALC(\"B<1\")}}\n"
    "ASG(a) {INPA(s) RULE(1,READ) RULE(1,WRITE,TRAPWRITE) {UAG(ops) CALC(\"A<1\")}}",
    "ASG(a) {RULE(1,READ)} ASG(b) {INPA(s) INPB(t) RULE(0,READ) RULE(1,WRITE,TRAPWRITE) {CALC(\"A<B\")}}",
    "ASG(%s",
};
enum { FILES = sizeof files / sizeof *files, REFUSED = FILES - 1 };

static struct hrazvanut_table table;
static int by_address, links_down;
static struct hrazvanut_reading heard[3][2]; /* DEFAULT, a and b; A and B */

static struct hrazvanut_reading *heard_of(const ASG *group) { return heard[*group->name == 'a' ? 1 : *group->name == 'b' ? 2 : 0]; }

static struct hrazvanut_answer ask(const ASGCLIENT *one)
{
    const ASG *group = one->pasgMember->pasg;
    struct hrazvanut_question question = {.group = hrazvanut_string(group->name), .user = hrazvanut_string(one->user)};
    question.host = hrazvanut_string(by_address && one->host != names[ADDRESS] ? names[NAMES - 1] : one->host);
    question.level = (uint32_t)one->level;
    if (!links_down)
        memcpy(question.readings, heard_of(group), sizeof *heard);
    return hrazvanut_decide(table, &question);
}

static int is_right(int i)
{
    const ASGCLIENT *one = many[i].client;
    int times = many[i].told;
    many[i].told = 0;
    if (!one)
        return times == 0;
    struct hrazvanut_answer answer = ask(one);
    int changed = one->access != many[i].before;
    many[i].before = one->access;
    return one->access == (asAccessRights)answer.access && one->trapMask == (answer.trap ? AS_TRAP_WRITE : 0) && times == changed;
}

static int all_are_right(void)
{
    int right = 1;
    for (int i = 0; i < MANY; i++)
        right &= is_right(i);
    return right;
}

/* Whether a load of one of the files does what it should. */
static int load(unsigned which, int addresses)
{
    static uint8_t room[HRAZVANUT_TABLE];
    char text[1024];
    sprintf(text, files[which], names[SIXTY], names[SIXTY]);
    asCheckClientIP = addresses;
    if (asInitMem(text, NULL))
        return which == REFUSED;
    struct hrazvanut_room whole = {.start = room, .length = sizeof room};
    table = hrazvanut_load(hrazvanut_string(text), whole).table;
    by_address = addresses;
    memset(heard, 0, sizeof heard);
    return which != REFUSED;
}

static void long_names(void)
{
    static const size_t lengths[] = {60, 61, 300};
    for (int i = 0; i < 3; i++)
        memset(names[SIXTY + i], 'a', lengths[i]);
    check(load(0, 0), "a load");
    for (int i = 0; i < NAMES * NAMES; i++)
        come(i, member, 1, names[i / NAMES], names[i % NAMES]);
    check(all_are_right(), "users and hosts of 60, 61 and 300 bytes beside short ones: what a question gives");
    heard[0][0] = heard[0][1] = (struct hrazvanut_reading){HRAZVANUT_VALUE, 0.02};
    member->pasg->inpBad = 0;
    member->pasg->pavalue[1] = 0.02;
    event(1, 0.02);
    check(all_are_right() && many[SIXTY * NAMES].client->access == asWRITE, "the sensors are heard: one of 60 bytes is in a list");
    check(many[(SIXTY + 1) * NAMES].client->access == asREAD, "one of 61 bytes, the same and one more, is in none");
    asChangeGroup(&member, "a");
    check(all_are_right(), "another group");
    check(load(0, 1) && all_are_right(), "asCheckClientIP");
}

/* ---- steps at random */

static ASMEMBERPVT members[8];

static unsigned pick(unsigned below)
{
    static unsigned state = 1;
    state = state * 1103515245u + 12345u;
    return (state >> 16) % below;
}

static ASMEMBERPVT *some_member(void) { return &members[pick(8)]; }

static void step_client(void)
{
    static const int levels[] = {0, 0, 0, 0, 1, 1, 1, 1, 256, -1};
    int i = (int)pick(MANY), level = levels[pick(10)];
    char *user = names[pick(NAMES)], *from = names[pick(NAMES)];
    if (!many[i].client)
        come(i, *some_member(), level, user, from);
    else if (pick(3))
        asChangeClient(many[i].client, level, user, from);
    else
        asRemoveClient(&many[i].client);
}

static void step_group(void)
{
    static const char *const to[] = {"", "a", "b", "no such"};
    asChangeGroup(some_member(), to[pick(4)]);
}

static void step_links(void)
{
    links_down = !links_down;
    links(links_down ? "asCaStop" : "asCaStart");
    if (!links_down)
        memset(heard, 0, sizeof heard);
}

/* In the middle of an event somebody is worked out alone. */
static int look_in_between(void)
{
    int i = (int)pick(MANY);
    if (!many[i].client || pick(2))
        return 1;
    asCompute(many[i].client);
    return is_right(i);
}

static int step_event(void)
{
    static const double values[] = {0.02, 0.02, 0.5, 0.5, 3, NAN};
    ASG *group = (*some_member())->pasg;
    unsigned letter = pick(2), good = pick(8);
    struct hrazvanut_reading reading = {good ? HRAZVANUT_VALUE : HRAZVANUT_INVALID, values[pick(6)]};
    int right = 1;
    if (good) {
        group->inpBad &= ~(1ul << letter);
        right &= look_in_between();
        group->pavalue[letter] = reading.value;
    } else {
        group->inpBad |= 1ul << letter;
    }
    heard_of(group)[letter] = reading;
    right &= look_in_between();
    if (pick(4))
        asComputeAsg(group);
    else
        asComputeAllAsg();
    return right;
}

static int step(void)
{
    unsigned kind = pick(90);
    if (kind < 40)
        return step_event();
    if (kind < 42)
        return load(pick(FILES), (int)pick(2));
    if (kind < 50)
        step_group();
    else if (kind < 52 || (links_down && kind < 60))
        step_links();
    else
        step_client();
    return 1;
}

static void at_random(void)
{
    int steps = 0;
    for (int i = 0; i < 8; i++)
        asAddMember(&members[i], "");
    while (steps < 5000 && step() && all_are_right())
        steps++;
    check(steps == 5000, "5,000 steps at random, and after each everybody has what a question gives");
}

void many_clients(int scarce)
{
    const int *registers = dlsym(RTLD_DEFAULT, "registers");
    *(int *)dlsym(RTLD_DEFAULT, "scarce") = scarce;
    told_once();
    check(scarce || *registers == 4, "four registers");
    places_freed();
    check(scarce || *registers == 4, "no more of them: places that are free are taken again");
    callback_acts();
    reloaded();
    callbacks_remove();
    long_names();
    at_random();
}
