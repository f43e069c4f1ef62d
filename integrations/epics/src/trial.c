/* What no IOC can be made to do from outside: odd levels, half-done events, callbacks counted, faults of a stream. Preloaded with the
 * library, it stands in for EPICS's links to the sensors. Prints a line for each check; ends with the number that failed. */
#include <dlfcn.h>
#include <math.h>
#include <pthread.h>
#include <stdio.h>
#include <stdlib.h>
#include <string.h>
#include <unistd.h>

#include <errlog.h>

#include "trial.h"

static int checks, failed, told;

void check(int right, const char *what)
{
    checks++;
    failed += !right;
    printf("%s %d - %s\n", right ? "ok" : "not ok", checks, what);
}

static void count(ASCLIENTPVT client, asClientStatus status)
{
    (void)client;
    (void)status;
    told++;
}

ASMEMBERPVT member;
static ASCLIENTPVT client;
char host[] = "PC1";
static char address[] = "10.0.0.7", name[] = "pc1";

/* Whether the access is this, and the callback was told so often since. */
static int is(asAccessRights access, int times)
{
    int right = client->access == access && told == times;
    told = 0;
    return right;
}

/* The access of a client that comes and goes. */
static asAccessRights visitor(const char *group, int level, const char *user, char *from)
{
    ASMEMBERPVT m = NULL;
    ASCLIENTPVT c = NULL;
    asAccessRights access = asNOACCESS;
    asAddMember(&m, group);
    if (!asAddClient(&c, m, level, user, from)) {
        access = c->access;
        asRemoveClient(&c);
    }
    asRemoveMember(&m);
    return access;
}

void half_an_event(int good)
{
    ASG *group = member->pasg;
    group->inpBad = good ? group->inpBad & ~1ul : group->inpBad | 1ul;
}

void event(int good, double value)
{
    half_an_event(good);
    if (good)
        member->pasg->pavalue[0] = value;
    asComputeAsg(member->pasg);
}

const char rules[] = "UAG(ops) {ann} HAG(desk) {PC1}\n"
                     "ASG(DEFAULT) {INPA(s) RULE(1,READ) RULE(1,WRITE,TRAPWRITE) {UAG(ops) CALC(\"A>0.3?0:1\")}}\n"
                     "ASG(low) {RULE(0,WRITE)} ASG(\"\") {RULE(1,WRITE)} ASG(desk) {RULE(1,WRITE) {HAG(desk)}}\n";

static void start(void)
{
    check(asAddClient(&client, NULL, 0, "ann", host) == S_asLib_asNotActive, "no access security before a load");
    check(asInitMem(rules, NULL) == 0 && asActive, "a load");
    asAddMember(&member, "");
    asAddClient(&client, member, 1, "ann", host);
    asRegisterClientCallback(client, count);
    check(is(asREAD, 1), "the sensor was never heard");
    half_an_event(1);
    asCompute(client);
    check(is(asREAD, 0), "its first event is half done: still unheard");
}

/* A server that goes on when its file is refused. */
static void refused_first(void)
{
    check(asInitMem("ASG(", NULL) != 0 && asActive && visitor("low", 0, "ann", host) == asNOACCESS, "a first load is refused: NONE");
    check(asInitMem("ASG(", NULL) != 0 && visitor("low", 0, "ann", host) == asNOACCESS, "and again");
    check(asInitMem(rules, NULL) == 0 && visitor("low", 0, "ann", host) == asWRITE, "then a load");
}

/* Comes as soon as EPICS lets it in. */
static void *early(void *nothing)
{
    (void)nothing;
    while (asAddMember(&member, ""))
        ;
    while (asAddClient(&client, member, 1, "ann", host))
        ;
    return NULL;
}

void links(const char *function)
{
    void (*call)(void);
    *(void **)&call = dlsym(RTLD_DEFAULT, function);
    call();
}

static void *set_links_up(void *nothing)
{
    links("asCaStart");
    return nothing;
}

/* With slow.c behind the preload, so that the client is in before the load is done. */
static void slow_first(void)
{
    pthread_t other;
    pthread_create(&other, NULL, early, NULL);
    long status = asInitMem("ASG(DEFAULT) {INPA(s) RULE(1,READ) RULE(1,WRITE) {CALC(\"A<1\")}}", NULL);
    pthread_join(other, NULL);
    check(status == 0 && client->access == asREAD, "a client that comes during the first load: the sensor was never heard");
    event(1, 0.02);
    check(client->access == asWRITE, "and then it is");
    asRegisterClientCallback(client, count);
    told = 0;
    pthread_create(&other, NULL, set_links_up, NULL);
    for (int i = 0; i < 900 && !told; i++)
        usleep(1000);
    half_an_event(1);
    member->pasg->pavalue[0] = 0.02;
    check(is(asREAD, 1) && visitor("", 1, "ann", host) == asREAD, "while EPICS sets its links up nothing is heard");
    pthread_join(other, NULL);
    check(is(asWRITE, 1), "and then it is");
}

/* With a preload for another libCom. */
static void other_libcom(void)
{
    check(asInitMem(rules, NULL) != 0 && asInitMem(rules, NULL) != 0, "a load is refused, and refused again");
    check(visitor("low", 0, "ann", host) == asNOACCESS, "NONE for everybody");
    asAddMember(&member, "low");
    asAddClient(&client, member, 0, "ann", host);
    asRegisterClientCallback(client, count);
    asChangeClient(client, 0, "bob", host);
    asChangeGroup(&member, "desk");
    asCompute(client);
    asComputeAsg(member->pasg);
    asComputeAllAsg();
    check(is(asNOACCESS, 1), "whatever is done");
}

static void sensors(void)
{
    event(1, 0.02);
    check(is(asWRITE, 1) && client->trapMask, "0.02 is write with trap, told once");
    event(1, 0.03);
    check(is(asWRITE, 0), "0.03 is no change, not told");
    event(1, 0.45);
    check(is(asREAD, 1) && !client->trapMask, "0.45 is read, told once");
    event(1, 0.02);
    event(1, NAN);
    check(is(asREAD, 2), "not a number is read");
    event(1, -INFINITY);
    check(is(asREAD, 0), "an infinity is read");
    event(1, 0.02);
    event(0, 0);
    check(is(asREAD, 2), "INVALID is read");
    half_an_event(1);
    asComputeAllAsg();
    check(is(asREAD, 0), "good again, but half done: the value before INVALID does not count");
    event(1, 0.02);
    check(is(asWRITE, 1), "0.02 is write again");
    half_an_event(0);
    asCompute(client);
    check(is(asREAD, 1), "bad, before EPICS says so: read");
    event(1, 0.02);
    told = 0;
    half_an_event(0);
    asComputeAllAsg();
    half_an_event(1);
    asCompute(client);
    check(is(asREAD, 1), "bad, all groups worked out, good again, but half done: read");
    event(1, 0.02);
    told = 0;
}

static void clients(void)
{
    check(visitor("low", 0, "ann", host) == asWRITE && visitor("low", 1, "ann", host) == asNOACCESS, "levels 0 and 1");
    check(visitor("low", 256, "ann", host) == asNOACCESS && visitor("low", 65536, "ann", host) == asNOACCESS, "levels 256 and 65,536");
    check(visitor("low", -1, "ann", host) == asNOACCESS && visitor("low", -256, "ann", host) == asNOACCESS, "levels -1 and -256");
    check(visitor("", 1, "bob", host) == asREAD, "an empty group is DEFAULT, even beside ASG(\"\")");
    check(visitor("desk", 1, "ann", host) == asWRITE && visitor("desk", 1, "ann", address) == asNOACCESS, "hosts by name");
    asChangeClient(client, 1, "bob", host);
    check(is(asREAD, 1), "another user, told once");
    asChangeClient(client, 1, "eve", host);
    check(is(asREAD, 0), "another user with the same right, not told");
    asChangeClient(client, 1, "ann", host);
    check(is(asWRITE, 1), "the first user again");
    asChangeGroup(&member, "desk");
    check(is(asWRITE, 0), "another group with the same right, not told");
    asChangeGroup(&member, "low");
    check(is(asNOACCESS, 1), "another group, told once");
    asChangeGroup(&member, "no such");
    event(1, 0.02);
    check(is(asWRITE, 1), "an undefined group is DEFAULT");
}

/* EPICS has the name of a record's group where the record has it: it is written first, and the member moved after. */
static void field_written(void)
{
    static char field[8] = "low";
    ASMEMBERPVT m = NULL;
    ASCLIENTPVT c = NULL;
    asAddMember(&m, field);
    asAddClient(&c, m, 1, "ann", host);
    strcpy(field, "desk");
    asCompute(c);
    check(c->access == asNOACCESS, "an ASG field that is being written: still the old group");
    asChangeGroup(&m, field);
    check(c->access == asWRITE, "then the new one");
    asRemoveClient(&c);
    asRemoveMember(&m);
}

static const char *slow_rest;

static int slow_input(char *buffer, int room)
{
    (void)room;
    *buffer = *slow_rest;
    return *slow_rest ? (slow_rest++, 1) : 0;
}

/* A disk that fails behind a file's last byte. */
static ssize_t failing_read(void *rest, char *buffer, size_t room)
{
    const char **from = rest;
    size_t length = strlen(*from);
    if (length == 0 || length > room)
        return -1;
    memcpy(buffer, *from, length);
    *from += length;
    return (ssize_t)length;
}

static void loads(void)
{
    static char big[16386];
    const char *rest = "ASG(DEFAULT) {RULE(1,NONE)}";
    FILE *failing = fopencookie(&rest, "r", (cookie_io_functions_t){.read = failing_read});
    check(asInitMem("ASG(DEFAULT) {RULE(1,WRITE)", NULL) != 0 && is(asWRITE, 0), "a refused load changes nothing");
    check(failing && asInitFP(failing, NULL) != 0 && is(asWRITE, 0), "a stream that cannot be read to its end is refused");
    check(asInitFile("no such file", NULL) != 0 && asInitFP(NULL, NULL) != 0 && is(asWRITE, 0), "no file is refused");
    check(asInitMem("ASG(DEFAULT) {INPA(\"$(P):PGA\")}", "P=B1") != 0 && is(asWRITE, 0), "macros are refused");
    check(asInitMem("ASG(\"a\\\nb\")", NULL) != 0 && is(asWRITE, 0), "a name that EPICS cannot hold is refused");
    memset(big, ' ', 16385);
    memcpy(big, "ASG(DEFAULT) {RULE(1,READ)}", 27);
    check(asInitMem(big, NULL) != 0 && is(asWRITE, 0), "16,385 bytes are refused");
    check(asInitMem(rules, "R=WRITE") == 0 && is(asREAD, 1), "a load unhears the sensors, told once");
    event(1, 0.02);
    slow_rest = rules;
    check(asInitialize(slow_input) == 0 && is(asREAD, 2), "a load byte by byte");
    big[16384] = 0;
    check(asInitMem(big, NULL) == 0 && is(asREAD, 0), "16,384 bytes are taken");
    check(asInitMem("UAG(ops) {ann}", NULL) == 0 && is(asNOACCESS, 1), "no group at all: NONE");
    check(asInitMem("ASG(DEFAULT) {INPA(\"\") INPU(x) RULE(1,WRITE) {CALC(\"A<1&&U<1\")}}", NULL) == 0 && is(asNOACCESS, 0),
          "inputs that EPICS cannot hear");
    asComputeAllAsg();
    check(is(asNOACCESS, 0), "and they stay unheard");
    if (failing)
        fclose(failing);
}

static int gone_a, gone_b, gone;

/* Counts what is said of groups that went away. */
static void listen(void *nothing, const char *line)
{
    (void)nothing;
    gone_a += strstr(line, "group a, of 2 records in use, is not in the file") != NULL;
    gone_b += strstr(line, "group b, of 1 records in use, is not in the file") != NULL;
    gone += strstr(line, "is not in the file") != NULL;
}

static void groups_gone(void)
{
    static const char *const of[] = {"a", "b", "a", "never", ""};
    ASMEMBERPVT m[5] = {0};
    ASCLIENTPVT c[5];
    asInitMem("ASG(a) ASG(b) ASG(DEFAULT)", NULL);
    for (int i = 0; i < 5; i++) {
        asAddMember(&m[i], of[i]);
        asAddClient(&c[i], m[i], 0, "ann", host);
    }
    errlogAddListener(listen, NULL);
    asInitMem("ASG(other)", NULL);
    errlogFlush();
    check(gone_a == 1 && gone_b == 1 && gone == 2, "two groups are gone: a line for each, none for a third that never was");
    asInitMem(rules, NULL);
    errlogFlush();
    check(gone == 2, "a load later nothing more is said of them");
    errlogRemoveListeners(listen, NULL);
    for (int i = 0; i < 5; i++) {
        asRemoveClient(&c[i]);
        asRemoveMember(&m[i]);
    }
}

static void addresses(void)
{
    static const char by_address[] = "HAG(h) {pc1, 10.0.0.7} ASG(DEFAULT) {RULE(1,WRITE) {HAG(h)}}";
    asCheckClientIP = 1;
    check(asInitMem(by_address, NULL) == 0 && visitor("", 1, "ann", address) == asWRITE, "asCheckClientIP: an address matches");
    check(visitor("", 1, "ann", name) == asNOACCESS, "asCheckClientIP: what a client calls itself does not");
    asCheckClientIP = 0;
    check(asInitMem(by_address, NULL) == 0 && visitor("", 1, "ann", name) == asWRITE, "without it, a name matches");
}

static volatile int over;
static int wrong[2];

/* A client that may never write comes and goes. */
static void *crowd(void *mine)
{
    char from[] = "pc2";
    while (!over)
        *(int *)mine += visitor("", 1, "eve", from) == asWRITE || visitor("low", 1, "eve", from) != asNOACCESS;
    return NULL;
}

static void threads(void)
{
    pthread_t other[2];
    asChangeGroup(&member, "");
    for (int i = 0; i < 2; i++)
        pthread_create(&other[i], NULL, crowd, &wrong[i]);
    for (int i = 0; i < 300; i++) {
        asInitMem(i % 3 == 2 ? "ASG(" : rules, NULL);
        event(1, i % 2 ? 0.02 : NAN);
        wrong[0] += (client->access == asWRITE) != (i % 2);
    }
    over = 1;
    for (int i = 0; i < 2; i++)
        pthread_join(other[i], NULL);
    check(wrong[0] == 0 && wrong[1] == 0, "loads, events and clients from three threads");
}

int main(int count_of_words, char **words)
{
    const char *mode = count_of_words > 1 ? words[1] : "";
    eltc(0);
    if (!strcmp(mode, "other")) {
        other_libcom();
    } else if (!strcmp(mode, "refused")) {
        refused_first();
    } else if (!strcmp(mode, "slow")) {
        slow_first();
    } else if (!strcmp(mode, "many") || !strcmp(mode, "scarce")) {
        many_clients(!strcmp(mode, "scarce"));
    } else {
        start();
        sensors();
        clients();
        field_written();
        loads();
        groups_gone();
        addresses();
        threads();
    }
    printf("%d checks, %d failed\n", checks, failed);
    return failed;
}
