/* EPICS's clients under the proved library: who may do what, and when it changes. These functions stand before those of the same
 * name in libCom. */
#include <arpa/inet.h>
#include <math.h>

#include "bank.h"

#include <asCa.h>

struct hrazvanut_table in_force;
int by_address;
int foreign;
int deaf;

/* ---- EPICS's lock */

int active(void) { return &asActive && &pasbase && asRegisterClientCallback && asActive; }

static void run_job(ASCLIENTPVT posing, asClientStatus status)
{
    struct job *job = (struct job *)posing;
    (void)status;
    job->status = job->run(job);
}

long locked(struct job *job)
{
    if (active() && foreign)
        return job->run(job);
    long status = active() ? asRegisterClientCallback(&job->posing, run_job) : S_asLib_asNotActive;
    return status ? status : job->status;
}

/* ---- walks that lead to callbacks, which may take any client and any member off its list */

struct walk {
    ELLNODE *next;
    struct walk *outer;
};

static struct walk *walks; /* under way, the innermost first */

static void walk(const ELLLIST *list, void (*visit)(void *))
{
    struct walk here = {.next = ellFirst(list), .outer = walks};
    walks = &here;
    while (here.next) {
        ELLNODE *node = here.next;
        here.next = ellNext(node);
        visit(node);
    }
    walks = here.outer;
}

/* A node has left its list: who was about to go there goes to the one behind it. */
static void pass_by(const ELLNODE *gone, ELLNODE *behind)
{
    for (struct walk *each = walks; each; each = each->outer)
        if (each->next == gone)
            each->next = behind;
}

/* ---- a question */

static int is_bad(const ASG *group, int letter) { return (group->inpBad >> letter & 1) != 0; }

/* What EPICS has heard for a group. A letter without input is left as it is: never heard. */
static void hear(const ASG *group, struct hrazvanut_reading *readings)
{
    for EACH (ASGINP, input, &group->inpList)
        if (!deaf && input->inpIndex < LETTERS) {
            readings[input->inpIndex].state = is_bad(group, input->inpIndex) ? HRAZVANUT_INVALID : HRAZVANUT_VALUE;
            readings[input->inpIndex].value = group->pavalue[input->inpIndex];
        }
}

/* With asCheckClientIP a host is an address; a name is only what a client says of itself, and finds no HAG. */
static const char *believed(const char *host)
{
    struct in_addr address;
    return by_address && inet_pton(AF_INET, host, &address) != 1
               ? "more than the sixty bytes that a host in a HAG can have, so in none"
               : host;
}

/* A question about the group that EPICS has put a record into, and not what stands in the record's ASG field: the readings are that
 * group's, whatever is being written to the field. */
static struct hrazvanut_question known(const ASG *group)
{
    struct hrazvanut_question question = {0};
    question.group = hrazvanut_string(group->name);
    hear(group, question.readings);
    return question;
}

static void judge(ASGCLIENT *client, asAccessRights before)
{
    struct hrazvanut_question question = known(client->pasgMember->pasg);
    question.user = hrazvanut_string(client->user);
    question.host = hrazvanut_string(believed(client->host));
    question.level = (uint32_t)client->level; /* no level but 0 and 1 becomes 0 or 1 */
    bank_judge(client, before, &question);
}

static void judge_again(void *client) { judge(client, ((ASGCLIENT *)client)->access); }

static void judge_without_place(void *client)
{
    if (!bank_has(client))
        judge_again(client);
}

static void judge_member_without_place(void *member) { walk(&((ASGMEMBER *)member)->clientList, judge_without_place); }

/* EPICS calls an input good before it stores the value; so what is stored for a bad one is made no number. One that is none
 * already is left alone, and the value is read first: EPICS may be storing a good one. */
static void spoil_bad(ASG *group)
{
    for EACH (ASGINP, input, &group->inpList)
        if (input->inpIndex < LETTERS) {
            double stored;
            __atomic_load(&group->pavalue[input->inpIndex], &stored, __ATOMIC_ACQUIRE);
            if (!isnan(stored) && is_bad(group, input->inpIndex))
                group->pavalue[input->inpIndex] = NAN;
        }
}

static void judge_group(void *group)
{
    spoil_bad(group);
    struct hrazvanut_question question = known(group);
    if (bank_hear(group, &question))
        walk(&((ASG *)group)->memberList, judge_member_without_place);
}

void judge_all(void) { walk(groups(), judge_group); }

/* ---- sensors */

void unhear(void)
{
    for EACH (ASG, group, groups()) {
        for EACH (ASGINP, input, &group->inpList)
            group->inpBad |= 1ul << input->inpIndex;
        spoil_bad(group);
    }
}

static long compute_group(struct job *job)
{
    if (!foreign)
        judge_group(job->group);
    return 0;
}

static long compute_all(struct job *job)
{
    (void)job;
    judge_all();
    return 0;
}

static long go_deaf(struct job *job)
{
    deaf = 1;
    return compute_all(job);
}

static long forget(struct job *job)
{
    unhear();
    return go_deaf(job);
}

static long hear_again(struct job *job)
{
    deaf = 0;
    return compute_all(job);
}

EXPORT long asComputeAsg(ASG *group)
{
    struct job job = {.run = compute_group, .group = group};
    return group ? locked(&job) : S_asLib_badAsg;
}

EXPORT long asComputeAllAsg(void)
{
    struct job job = {.run = compute_all};
    return locked(&job);
}

/* An asInit first takes the links to the sensors down. Base 7.0.3.1 never comes back from there: without this, the last
 * readings would hold for ever. */
EXPORT void asCaStop(void)
{
    struct job job = {.run = go_deaf};
    void (*stop)(void) = REAL(asCaStop);
    locked(&job);
    if (stop)
        stop();
}

/* EPICS comes back when its links are set up. Until then it says nothing of an input that turned bad. */
EXPORT void asCaStart(void)
{
    struct job before = {.run = forget}, after = {.run = hear_again};
    void (*start)(void) = REAL(asCaStart);
    locked(&before);
    if (start)
        start();
    locked(&after);
}

/* ---- clients: EPICS makes them, and gives them NONE */

static long compute_client(struct job *job)
{
    if (!foreign)
        judge(*job->client, (*job->client)->access);
    return 0;
}

static long add_client(struct job *job)
{
    long status = REAL(asAddClient)(job->client, *job->member, job->level, job->name, job->host);
    if (!status && !foreign)
        judge(*job->client, asNOACCESS);
    return status;
}

/* EPICS's NONE is not told to the callback. */
static long change_client(struct job *job)
{
    ASGCLIENT *client = *job->client;
    if (foreign)
        return REAL(asChangeClient)(client, job->level, job->name, job->host);
    ASCLIENTCALLBACK callback = client->pcallback;
    asAccessRights before = client->access;
    client->pcallback = NULL;
    long status = REAL(asChangeClient)(client, job->level, job->name, job->host);
    client->pcallback = callback;
    judge(client, before);
    return status;
}

static long remove_client(struct job *job)
{
    ASGCLIENT *client = *job->client;
    if (foreign)
        return REAL(asRemoveClient)(job->client);
    ELLNODE *behind = ellNext(&client->node);
    long status = REAL(asRemoveClient)(job->client);
    if (!status) {
        pass_by(&client->node, behind);
        bank_leave(client);
    }
    return status;
}

EXPORT long asCompute(ASCLIENTPVT client)
{
    struct job job = {.run = compute_client, .client = &client};
    return active() && !client ? S_asLib_badClient : locked(&job);
}

EXPORT long asAddClient(ASCLIENTPVT *client, ASMEMBERPVT member, int level, const char *user, char *host)
{
    struct job job = {.run = add_client, .client = client, .member = &member, .level = level, .name = user, .host = host};
    return active() && !(member && user && host) ? S_asLib_badMember : locked(&job);
}

EXPORT long asChangeClient(ASCLIENTPVT client, int level, const char *user, char *host)
{
    struct job job = {.run = change_client, .client = &client, .level = level, .name = user, .host = host};
    return active() && !(client && user && host) ? S_asLib_badClient : locked(&job);
}

EXPORT long asRemoveClient(ASCLIENTPVT *client)
{
    struct job job = {.run = remove_client, .client = client};
    return active() && !*client ? S_asLib_badClient : locked(&job);
}

/* ---- members: while EPICS moves one, its clients are set aside with their rights */

static long move_member(struct job *job, long (*move)(ASMEMBERPVT *, const char *))
{
    ASGMEMBER *member = *job->member;
    ELLLIST clients;
    if (!member || foreign)
        return move(job->member, job->name);
    clients = member->clientList;
    ellInit(&member->clientList);
    ELLNODE *behind = ellNext(&member->node);
    long status = move(job->member, job->name);
    pass_by(&member->node, behind);
    member->clientList = clients;
    walk(&member->clientList, judge_again);
    return status;
}

static long add_member(struct job *job) { return move_member(job, REAL(asAddMember)); }

static long change_group(struct job *job) { return move_member(job, REAL(asChangeGroup)); }

static long remove_member(struct job *job)
{
    ASGMEMBER *member = *job->member;
    if (!member || foreign)
        return REAL(asRemoveMember)(job->member);
    ELLNODE *behind = ellNext(&member->node);
    long status = REAL(asRemoveMember)(job->member);
    if (!status)
        pass_by(&member->node, behind);
    return status;
}

EXPORT long asAddMember(ASMEMBERPVT *member, const char *name)
{
    struct job job = {.run = add_member, .member = member, .name = name};
    return locked(&job);
}

EXPORT long asChangeGroup(ASMEMBERPVT *member, const char *name)
{
    struct job job = {.run = change_group, .member = member, .name = name};
    return locked(&job);
}

EXPORT long asRemoveMember(ASMEMBERPVT *member)
{
    struct job job = {.run = remove_member, .member = member};
    return locked(&job);
}
