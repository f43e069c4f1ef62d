/* EPICS's loads under the proved library. Each way to load comes here: the file is read to its end, the library accepts or refuses
 * it, and EPICS gets the groups and their inputs alone. Without a rule EPICS works out NONE: every right above it is the library's. */
#include <errno.h>
#include <pthread.h>
#include <stdlib.h>
#include <string.h>
#include <unistd.h>

#include "bank.h"
#include "plan.h"

#include <libComVersion.h>

#define TEXT_(x) #x
#define TEXT(x) TEXT_(x)

/* The file name of the libCom whose headers this is built with: another one may lay its lists out otherwise. */
#ifndef HRAZVANUT_LIBCOM
#define HRAZVANUT_LIBCOM \
    "libCom.so." TEXT(EPICS_LIBCOM_MAJOR_VERSION) "." TEXT(EPICS_LIBCOM_MINOR_VERSION) "." TEXT(EPICS_LIBCOM_MAINTENANCE_VERSION)
#endif

/* A load at work. */
static pthread_mutex_t loading = PTHREAD_MUTEX_INITIALIZER;
static char text[HRAZVANUT_FILE + 1]; /* one byte more, so that a longer file is seen to be longer */
static uint8_t rooms[2][HRAZVANUT_TABLE]; /* one has the table in force */
static struct hrazvanut_table next;
static char plan[PLAN];
static const char *plan_rest;

/* ---- what is said of a file */

static const char *what_stays(void) { return in_force.length ? "The rules in force stay." : "Nobody has access."; }

static long refuse(const char *from, const char *why)
{
    say("%s: refused: %s. %s\n", from, why, what_stays());
    return S_asLib_badConfig;
}

static size_t line_of(size_t place)
{
    size_t line = 1;
    for (size_t i = 0; i < place && i < sizeof text; i++)
        line += text[i] == '\n';
    return line;
}

static const char *warning_words(enum hrazvanut_warning_kind kind)
{
    switch (kind) {
    case HRAZVANUT_UNKNOWN_ITEM: return "unknown item, left out; if it was meant as an ASG, its records go to DEFAULT";
    case HRAZVANUT_UNKNOWN_PREDICATE: return "unknown predicate, its rule never passes";
    }
    return "unknown warning";
}

static void say_warnings(const char *from, struct hrazvanut_text file)
{
    struct hrazvanut_warning first[8];
    struct hrazvanut_warnings room = {.start = first, .length = sizeof first / sizeof *first};
    struct hrazvanut_listed listed = hrazvanut_list_warnings(file, 0, room);
    for (size_t i = 0; i < listed.written; i++)
        say("%s: warning %u at %zu, line %zu: %s\n", from, (unsigned)first[i].kind, first[i].place, line_of(first[i].place),
            warning_words(first[i].kind));
    if (listed.count > listed.written)
        say("%s: and %zu more warnings\n", from, listed.count - listed.written);
}

/* ---- clients during a load: EPICS moves the members to the new groups; their clients are set aside with their rights */

struct aside {
    ASGMEMBER *member;
    ELLLIST clients;
    int at_home; /* it stood in the group that its record names */
};

static int is_at_home(const ASGMEMBER *member) { return strcmp(member->asgName, member->pasg->name) == 0; }

static size_t count_members(void)
{
    size_t count = 0;
    for EACH (ASG, group, groups())
        count += (size_t)ellCount(&group->memberList);
    return count;
}

/* Answers how many members have clients. */
static size_t set_aside(struct aside *aside)
{
    size_t count = 0;
    for EACH (ASG, group, groups())
        for EACH (ASGMEMBER, member, &group->memberList)
            if (ellCount(&member->clientList) > 0) {
                aside[count].member = member;
                aside[count].at_home = is_at_home(member);
                aside[count++].clients = member->clientList;
                ellInit(&member->clientList);
            }
    return count;
}

static void put_back(const struct aside *aside, size_t count)
{
    for (size_t i = 0; i < count; i++)
        aside[i].member->clientList = aside[i].clients;
}

/* Each group that went away under its clients. */
static void say_homeless(struct aside *aside, size_t count)
{
    for (size_t i = 0; i < count; i++) {
        const char *name = aside[i].member->asgName;
        size_t homeless = 0;
        if (!aside[i].at_home || is_at_home(aside[i].member))
            continue;
        for (size_t j = i; j < count; j++)
            if (aside[j].at_home && strcmp(aside[j].member->asgName, name) == 0) {
                aside[j].at_home = 0; /* it is counted */
                homeless++;
            }
        say("group %s, of %zu records in use, is not in the file: they go to DEFAULT, and have no access if there is none\n", name, homeless);
    }
}

/* ---- the rules change */

/* Hands the plan to EPICS's parser, as far as there is room. */
static int feed(char *buffer, int room)
{
    int n = 0;
    while (n < room && *plan_rest)
        buffer[n++] = *plan_rest++;
    return n;
}

static long give_plan(void)
{
    plan_rest = plan;
    return REAL(asInitialize)(feed);
}

static void put_in_force(void)
{
    in_force = next;
    by_address = &asCheckClientIP && asCheckClientIP;
    bank_empty();
}

/* What EPICS has for the sensors counts from here on. */
static long first_done(struct job *job)
{
    unhear();
    deaf = job->level;
    judge_all();
    return 0;
}

/* There are no clients yet, and no lock. The rules stand before EPICS lets a client in; and a client that comes before the inputs are bad
 * is judged without them. */
static long first_time(void)
{
    struct job job = {.run = first_done, .level = deaf};
    put_in_force();
    deaf = 1;
    long status = give_plan();
    if (!status)
        return locked(&job);
    in_force.length = 0;
    deaf = job.level;
    return status;
}

static long again(struct job *job)
{
    (void)job;
    if (telling)
        return S_asLib_InitFailed; /* whoever tells is in the midst of the lists */
    struct aside *aside = calloc(count_members() + 1, sizeof *aside);
    if (!aside)
        return S_asLib_noMemory;
    size_t count = set_aside(aside);
    long status = give_plan();
    put_back(aside, count);
    if (!status) {
        say_homeless(aside, count); /* before a callback can remove a member */
        put_in_force();
        unhear();
        judge_all();
    }
    free(aside);
    return status;
}

/* ---- a load */

/* Whether libCom can be reached, and in which file it is. */
static int reach_libcom(Dl_info *where)
{
    return &asActive && &pasbase && asRegisterClientCallback && REAL(asInitialize) && dladdr((void *)REAL(asInitialize), where);
}

/* A libCom that was opened after the start (dlopen) is out of reach, so access security cannot be put on; and EPICS grants everything
 * while it is not on. */
static void need_libcom(const char *from)
{
    Dl_info where;
    if (reach_libcom(&where))
        return;
    fprintf(stderr, "hrazvanut: %s: libCom is out of reach (opened with dlopen?). This process ends. Put " HRAZVANUT_LIBCOM
                    " behind hrazvanut.so in LD_PRELOAD.\n", from);
    _exit(EXIT_FAILURE);
}

/* Whether libCom is the one that this was built for. */
static int right_libcom(void)
{
    Dl_info where;
    if (!reach_libcom(&where))
        return 0;
    const char *slash = strrchr(where.dli_fname, '/'), *name = slash ? slash + 1 : where.dli_fname;
    foreign = strcmp(name, HRAZVANUT_LIBCOM) != 0;
    if (foreign)
        say("built for %s, and this is %s. Nobody has access.\n", HRAZVANUT_LIBCOM, name);
    return !foreign;
}

/* The first load was refused. EPICS grants everything while access security is not on; so it is put on, without a rule. */
static void shut(void)
{
    strcpy(plan, "ASG(DEFAULT)\n");
    if (!active())
        give_plan();
}

/* Makes the table and the plan. 0 if they can be put in force. */
static long prepare(const char *from, struct hrazvanut_text file, const char *substitutions)
{
    if (substitutions && memchr(text, '$', file.length))
        return refuse(from, "macros are not replaced here; replace them before (msi)");
    struct hrazvanut_room room = {.start = rooms[in_force.start == rooms[0]], .length = sizeof rooms[0]};
    struct hrazvanut_loaded loaded = hrazvanut_load(file, room);
    if (loaded.refusal) {
        say("%s: refusal %u at %zu, line %zu: %s. %s\n", from, (unsigned)loaded.refusal, loaded.place, line_of(loaded.place),
            hrazvanut_refusal_words(loaded.refusal), what_stays());
        return S_asLib_badConfig;
    }
    next = loaded.table;
    int left_out = write_plan(next, LETTERS, plan);
    if (left_out < 0)
        return refuse(from, "the name of a group has a byte that EPICS cannot hold");
    if (left_out > 0)
        say("%s: %d inputs that this EPICS cannot hear (a letter past %c, or no name): their rules never pass\n", from, left_out,
            'A' + LETTERS - 1);
    return 0;
}

static long load(const char *from, size_t length, const char *substitutions)
{
    struct job job = {.run = again};
    struct hrazvanut_text file = {.start = text, .length = length};
    long status = right_libcom() ? prepare(from, file, substitutions) : S_asLib_badConfig;
    if (status)
        return status;
    status = active() ? locked(&job) : first_time();
    if (status)
        return refuse(from, status == S_asLib_noMemory     ? "no memory"
                            : status == S_asLib_InitFailed ? "a callback of a client asked for it"
                                                           : "EPICS does not take its groups and inputs");
    say_warnings(from, file);
    if (by_address)
        say("%s: asCheckClientIP is set: a HAG must list addresses, a name in it matches nobody\n", from);
    say("%s: in force\n", from);
    return 0;
}

/* ---- the four ways to load: one at a time, into `text` */

static int begin(const char *from)
{
    need_libcom(from);
    int free = pthread_mutex_trylock(&loading) == 0;
    if (!free)
        say("%s: refused: another load is at work\n", from);
    return free;
}

static long end(long status)
{
    if (status)
        shut();
    pthread_mutex_unlock(&loading);
    return status;
}

/* Reads to the end, or to one byte past what a file may have. */
static long load_stream(const char *from, FILE *stream, const char *substitutions)
{
    size_t length = fread(text, 1, sizeof text, stream);
    return ferror(stream) ? refuse(from, strerror(errno)) : load(from, length, substitutions);
}

EXPORT long asInitFP(FILE *stream, const char *substitutions)
{
    if (!begin("asInitFP"))
        return S_asLib_InitFailed;
    return end(stream ? load_stream("asInitFP", stream, substitutions) : refuse("asInitFP", "no stream"));
}

EXPORT long asInitFile(const char *name, const char *substitutions)
{
    const char *from = name ? name : "asInitFile";
    if (!begin(from))
        return S_asLib_InitFailed;
    FILE *stream = fopen(name ? name : "", "r");
    long status = stream ? load_stream(from, stream, substitutions) : refuse(from, strerror(errno));
    if (stream)
        fclose(stream);
    return end(status);
}

EXPORT long asInitMem(const char *acf, const char *substitutions)
{
    if (!begin("asInitMem"))
        return S_asLib_InitFailed;
    size_t length = acf ? strnlen(acf, sizeof text) : 0;
    memcpy(text, acf ? acf : "", length);
    return end(load("asInitMem", length, substitutions));
}

EXPORT long asInitialize(ASINPUTFUNCPTR input)
{
    if (!begin("asInitialize"))
        return S_asLib_InitFailed;
    size_t length = 0;
    int more = input ? 1 : -1;
    while (more > 0 && length < sizeof text) {
        more = input(text + length, (int)(sizeof text - length));
        length += more > 0 ? (size_t)more : 0;
    }
    return end(more < 0 || length > sizeof text ? refuse("asInitialize", "no input") : load("asInitialize", length, NULL));
}
