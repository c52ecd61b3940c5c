/* A program without OpenMP that loads a plugin with it, for itself alone, and closes it. The test links no libgomp to it. */
#include <dlfcn.h>
#include <stdio.h>

int main(int count, char **words) {
    void *library = count > 1 ? dlopen(words[1], RTLD_NOW | RTLD_LOCAL) : NULL;
    int (*run)(void) = library ? (int (*)(void))dlsym(library, "run_plugin") : NULL;
    if (!run) {
        printf("plugin: %s\n", dlerror());
        return 1;
    }
    printf("plugin: %d\n", run() + run());
    return 0;
}
