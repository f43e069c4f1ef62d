/* answers FILE WAYS [MACROS]: the asker's questions, from standard input, by EPICS's own access security; a line is answered by access and
 * log word. Each question finds its group as an IOC's record does, with every input bad that it has no reading for. The letters of WAYS make
 * EPICS go our way, one each, to show that nothing else differs:
 *   r  a reading that is infinite or not a number is bad          c  a calculation without a letter is computed
 *   a  a calculation with such a value inside is false            g  the empty group name is DEFAULT's, an ASG("") nobody's
 *   t  only a WRITE rule sets the trap                            u  a user whose name begins role/ is in no UAG
 *   n  (not ours) hosts are looked up when the file is loaded: asCheckClientIP */
#include <fenv.h>
#include <math.h>
#include <stdio.h>
#include <stdlib.h>
#include <string.h>

#include <asLib.h>
#include <errlog.h>
#include <postfix.h>

extern int asCheckClientIP;

static const char *ways;

static int our_way(char way) { return strchr(ways, way) != NULL; }

/* An event of an input, as EPICS's link to a sensor has it. */
static void hear(ASG *group, int letter, const char *reading)
{
    ASGINP *input = (ASGINP *)ellFirst(&group->inpList);
    while (input && input->inpIndex != letter)
        input = (ASGINP *)ellNext(&input->node);
    if (!input || !strcmp(reading, "inv"))
        return;
    double value = strtod(reading, NULL);
    if (our_way('r') && !isfinite(value))
        return;
    group->pavalue[letter] = value;
    group->inpBad &= ~(1ul << letter);
    group->inpChanged |= 1ul << letter;
}

/* As an IOC has a group before the first event. */
static void unheard(ASG *group)
{
    group->inpBad = group->inpChanged = 0;
    memset(group->pavalue, 0, CALCPERFORM_NARGS * sizeof *group->pavalue);
    for (ASGINP *input = (ASGINP *)ellFirst(&group->inpList); input; input = (ASGINP *)ellNext(&input->node))
        group->inpBad |= 1ul << input->inpIndex;
    for (ASGRULE *rule = (ASGRULE *)ellFirst(&group->ruleList); rule; rule = (ASGRULE *)ellNext(&rule->node))
        rule->result = 0;
}

/* What EPICS has computed, put our way. */
static void amend(ASG *group)
{
    for (ASGRULE *rule = (ASGRULE *)ellFirst(&group->ruleList); rule; rule = (ASGRULE *)ellNext(&rule->node)) {
        double value = 0;
        if (!rule->calc)
            continue;
        feclearexcept(FE_ALL_EXCEPT);
        int done = !calcPerform(group->pavalue, &value, rule->rpcl);
        /* of finite values, these alone make others */
        int finite = !fetestexcept(FE_DIVBYZERO | FE_INVALID | FE_OVERFLOW);
        if (our_way('c') && !rule->inpUsed)
            rule->result = done && value > .99 && value < 1.01;
        if (our_way('a') && !finite)
            rule->result = 0;
    }
}

static void answer(char *line)
{
    static const char *const words[] = {"NONE", "READ", "WRITE"};
    ASMEMBERPVT member = NULL;
    ASCLIENTPVT client = NULL;
    char *group = strtok(line, " "), *user = strtok(NULL, " "), *host = strtok(NULL, " "), *level = strtok(NULL, " ");
    if (!level) {
        puts("?");
        return;
    }
    if (!strcmp(group, "-"))
        group = our_way('g') ? "DEFAULT" : "";
    if (our_way('u') && !strncmp(user, "role/", 5))
        user = "\1"; /* nobody's name */
    asAddMember(&member, group);
    unheard(member->pasg);
    for (char *reading = strtok(NULL, " "); reading; reading = strtok(NULL, " "))
        hear(member->pasg, reading[0] - 'A', reading + 2);
    asComputeAsg(member->pasg);
    amend(member->pasg);
    asAddClient(&client, member, atoi(level), user, host);
    printf("%s %s\n", words[client->access], client->trapMask && (client->access == asWRITE || !our_way('t')) ? "TRAPWRITE" : "NOTRAPWRITE");
    asRemoveClient(&client);
    asRemoveMember(&member);
}

int main(int argc, char **argv)
{
    char line[300];
    if (argc < 3)
        return 2;
    ways = argv[2];
    asCheckClientIP = our_way('n');
    eltc(0);
    if (asInitFile(argv[1], argv[3])) {
        puts("refused");
        return 0;
    }
    while (fgets(line, sizeof line, stdin)) {
        line[strcspn(line, "\n")] = 0;
        answer(line);
    }
    return 0;
}
