/* EPICS's clients in registers of the library: 64 in each, and one register more when all are full. A client has no place, and each of its
 * rights is a question, if a register refuses it (a name of more than 60 bytes, an odd level), if there is no memory, or if no table is in
 * force. Called under EPICS's lock. */
#ifndef BANK_H
#define BANK_H

#include "preload.h"

/* How many callbacks are under way, one within the other. */
extern int telling;

/* Nobody has a place, and no register is left: the table in force is another. */
void bank_empty(void);

/* Works out what a client may do by what is known of it now, and tells its callback if the access is another than before. It takes a place,
 * if it can have one. */
void bank_judge(ASGCLIENT *client, asAccessRights before, const struct hrazvanut_question *now);

/* A group's readings are these now: the clients at a place whose access is another are told. Answers whether others of the group may have
 * no place: they are to be judged. */
int bank_hear(const ASG *group, const struct hrazvanut_question *now);

int bank_has(ASGCLIENT *client);

/* Frees a client's place. */
void bank_leave(ASGCLIENT *client);

#endif
