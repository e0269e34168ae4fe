/* The script program: reads commands from standard input, does each, and prints what the calls return and what is lent. */
#include "script.h"

#include <stdio.h>
#include <unistd.h>

/* As much as there is room for; a read that fails is the script's end. */
static size_t read_script(uint8_t *script) {
    size_t length = 0;
    ssize_t got;
    while (length < MOST_SCRIPT && (got = read(0, script + length, MOST_SCRIPT - length)) > 0)
        length += (size_t)got;
    return length;
}

static void run(struct given given) {
    printf("%s ", name_of(given.command));
    switch (given.command) {
    case PARAMS:
        set_params(given);
        printf("done\n");
        break;
    case LENGTH:
        set_length(given);
        printf("done\n");
        break;
    case STORE:
    case FILL:
        store(given);
        printf("done\n");
        break;
    case SHOW:
        printf("done\n");
        show(given);
        break;
    default:
        call(given);
    }
}

/* The highest bit of a command's byte chooses the second sketch. */
int main(void) {
    static uint8_t script[MOST_SCRIPT];
    size_t length = read_script(script), at = 0;
    const char *stopped = "end";
    while (at < length) {
        struct given given = {script[at] % 128, script[at] / 128, script + at + 1, length - at - 1};
        if (!is_command((int)given.command)) {
            stopped = "unknown command";
            break;
        }
        size_t needed = length_of(given.command, given.bytes, given.length);
        if (given.length < needed) {
            stopped = "cut command";
            break;
        }
        given.length = needed;
        run(given);
        at += 1 + needed;
    }
    printf("%s at %zu\n", stopped, at);
    return 0;
}
