/* alone FILE WORD: opens a shared object for itself alone, and calls its main. */
#include <dlfcn.h>
#include <stdio.h>

int main(int count, char **words)
{
    void *opened = count > 1 ? dlopen(words[1], RTLD_NOW | RTLD_LOCAL) : NULL;
    int (*start)(int, char **) = NULL;
    if (opened)
        *(void **)&start = dlsym(opened, "main");
    if (!start) {
        printf("%s\n", count > 1 ? dlerror() : "no file");
        return 2;
    }
    return start(count - 1, words + 1);
}
