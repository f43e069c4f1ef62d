/* Stands between the preload and EPICS: clients have time to come during a load, and while the links to the sensors are set up. */
#include <dlfcn.h>
#include <stdio.h>
#include <unistd.h>

#include <asCa.h>
#include <asLib.h>

long asInitialize(ASINPUTFUNCPTR input)
{
    __typeof__(&asInitialize) real = (__typeof__(&asInitialize))dlsym(RTLD_NEXT, "asInitialize");
    long status = real(input);
    usleep(100000);
    return status;
}

void asCaStart(void) { sleep(1); }
