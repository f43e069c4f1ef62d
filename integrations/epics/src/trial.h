/* What the two halves of the trial share. */
#ifndef TRIAL_H
#define TRIAL_H

#include <asLib.h>

void check(int right, const char *what);

/* With scarce.c behind the preload: many clients at once, with memory for all of them or not. */
void many_clients(int scarce);

/* A file of rules, a host in it, and a member of the group with the sensor A. */
extern const char rules[];
extern char host[];
extern ASMEMBERPVT member;

/* An event of that sensor, as EPICS's link has it: good or bad first, then the value, then the rights. */
void half_an_event(int good);
void event(int good, double value);

/* Calls asCaStart or asCaStop, of the preload: libCom has neither. */
void links(const char *function);

#endif
