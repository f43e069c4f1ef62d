/* What EPICS must know of the rules. */
#ifndef PLAN_H
#define PLAN_H

#include "hrazvanut.h"

/* No plan is longer: every string of a table (16,384 bytes), with what stands around 64 groups and 512 inputs. */
#define PLAN 32768

/* Writes a table's groups, each with its inputs of letters below `letters`, as a file for EPICS, NUL at its end. No rule, no user and no
 * host stands in it, so that whatever EPICS works out from it is NONE. Answers how many inputs were left out (they are never heard), or
 * -1 if EPICS cannot hold the name of a group. The bytes are a table that a load wrote. */
int write_plan(struct hrazvanut_table table, unsigned letters, char *plan);

#endif
