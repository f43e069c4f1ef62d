/* What the parts of the header's test share. */
#ifndef CHECK_H
#define CHECK_H

#include "hrazvanut.h"

#ifdef __cplusplus
#define ZERO {}
#else
#define ZERO {0}
#endif

void check(bool good, const char *what, int line);
#define CHECK(what) check((what), #what, __LINE__)

/* The table of a text that is accepted, at the start of what is lent. */
struct hrazvanut_table table_in(uint8_t *lent, size_t length, const char *text);

/* The parts: export.c, walk.c, passed.c and register.c. */
void exports(void);
void walks(void);
void passed(void);
void registers(void);

#endif
