/* What the parts of the preload share: load.c puts rules in force, rights.c asks by them, bank.c keeps what was answered. */
#ifndef PRELOAD_H
#define PRELOAD_H

#include <dlfcn.h>
#include <stdio.h>

#include <asLib.h>
#include <postfix.h>

#include "hrazvanut.h"

#define EXPORT __attribute__((visibility("default")))

/* A process without libCom (a child of the IOC) is not to be troubled: what is needed of EPICS is weak, or looked up when called. */
#pragma weak asActive
#pragma weak pasbase
#pragma weak asCheckClientIP
#pragma weak asRegisterClientCallback
#pragma weak errlogPrintf

#define say(...) (errlogPrintf ? errlogPrintf("hrazvanut: " __VA_ARGS__) : fprintf(stderr, "hrazvanut: " __VA_ARGS__))

/* EPICS's own function of a name. */
#define REAL(function) ((__typeof__(&function))dlsym(RTLD_NEXT, #function))

/* The letters that EPICS has: A to L in Base 7.0.3.1. */
#define LETTERS (CALCPERFORM_NARGS < HRAZVANUT_READINGS ? CALCPERFORM_NARGS : HRAZVANUT_READINGS)

/* `for EACH (ASG, group, groups())` */
#define EACH(type, item, list) (type *item = (type *)ellFirst(list); item; item = (type *)ellNext(&item->node))

/* Set when libCom is not the one that this was built for: its lists may be laid out otherwise, so they are not looked at. EPICS then has
 * no rule, and gives everybody NONE. */
extern int foreign;

/* EPICS's groups; none after asShutdown. */
static inline const ELLLIST *groups(void)
{
    static const ELLLIST none;
    return pasbase && !foreign ? (const ELLLIST *)&pasbase->asgList : &none;
}

/* Something to be done under EPICS's lock. EPICS calls a client's callback with its lock held, so a job poses as a client. */
struct job {
    ASGCLIENT posing; /* first, so that the job is had from it */
    long (*run)(struct job *);
    long status;
    ASG *group;
    ASMEMBERPVT *member;
    ASCLIENTPVT *client;
    const char *name;
    char *host;
    int level;
};

/* EPICS's lock is recursive: a job may call EPICS. */
long locked(struct job *job);

/* Whether EPICS's access security is on. */
int active(void);

/* The table in force, and whether its load found asCheckClientIP set. Written under the lock, or before there is one. No bytes are no
 * table: every question then gets NONE. */
extern struct hrazvanut_table in_force;
extern int by_address;

/* Set while nothing that EPICS has for a sensor counts: its links are down or being set up, or a first load is not yet done. */
extern int deaf;

/* No sensor has been heard. After a load EPICS has all inputs good, at 0. */
void unhear(void);

/* Every right anew; callbacks for those that changed. */
void judge_all(void);

#endif
