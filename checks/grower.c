/* A program on which checks/memory.py tries its judgement. It grows a list twenty times, and prints how long it is. Its
 * word says what it does where it is refused memory: `right` tells that and ends with the status 8, and `cache` goes on
 * without; the others are wrong. It ends by _exit, so that nothing is done at its end that exit would do.
 */
#include <stdio.h>
#include <stdlib.h>
#include <string.h>
#include <unistd.h>

static const char *word;

static int is(const char *name) {
    return strcmp(word, name) == 0;
}

static void end_refused(void) {
    if (is("bytes"))
        dprintf(1, "19\n");
    if (is("bytes") || is("silent"))
        _exit(0);
    dprintf(2, "venti: no memory\n");
    _exit(is("status") ? 3 : 8);
}

int main(int count, char **words) {
    word = count > 1 ? words[1] : "right";
    volatile int *list = NULL;
    for (int len = 0; len < 20; len++) {
        int *grown = realloc((void *)list, (len + 1) * sizeof *grown);
        if (!grown && is("cache"))
            continue;
        if (!grown && !is("careless"))
            end_refused();
        grown[len] = len;
        list = grown;
    }
    dprintf(1, "20\n");
    _exit(0);
}
