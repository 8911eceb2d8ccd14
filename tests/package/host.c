/* host PLUGIN REASON ..: loads plug-ins so that each sees the symbols of all; each must give its own reason. */
#include <dlfcn.h>
#include <stdint.h>
#include <stdio.h>
#include <stdlib.h>
#include <string.h>

enum { MOST = 8 };

int main(int count, char **words)
{
    void *plugins[MOST];
    int others = 0;
    for (int i = 1; i + 1 < count && i < 2 * MOST; i += 2)
        if ((plugins[i / 2] = dlopen(words[i], RTLD_NOW | RTLD_GLOBAL)) == NULL)
            exit((fprintf(stderr, "%s\n", dlerror()), 2));
    for (int i = 1; i + 1 < count && i < 2 * MOST; i += 2) {
        uint32_t (*reason)(void);
        void *symbol = dlsym(plugins[i / 2], "plugin_reason");
        memcpy(&reason, &symbol, sizeof reason);
        const uint32_t given = reason(), due = (uint32_t)strtoul(words[i + 1], NULL, 10);
        printf("%s: reason %u\n", words[i], (unsigned)given);
        others += given != due;
    }
    return others == 0 ? EXIT_SUCCESS : EXIT_FAILURE;
}
