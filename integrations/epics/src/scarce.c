/* Stands behind the preload: counts its registers. With `scarce` set there is no memory for every second one, nor for every seventh way
 * from a client to its place. */
#include <dlfcn.h>
#include <search.h>
#include <stdlib.h>

#include "hrazvanut.h"

int scarce, registers;

void *__libc_calloc(size_t count, size_t size);

void *calloc(size_t count, size_t size)
{
    int is_register = size > HRAZVANUT_REGISTER;
    registers += is_register;
    return is_register && scarce && registers % 2 == 0 ? NULL : __libc_calloc(count, size);
}

void *tsearch(const void *key, void **root, int (*compare)(const void *, const void *))
{
    static int ways;
    __typeof__(&tsearch) real = (__typeof__(&tsearch))dlsym(RTLD_NEXT, "tsearch");
    return scarce && ++ways % 7 == 0 ? NULL : real(key, root, compare);
}
