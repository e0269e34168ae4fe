/* The commands by their numbers: names, lengths and operands. */
#include "script.h"

/* The operands of a command, four bytes each; one of them, if any, says how many units of how many bytes come after them. */
static const struct {
    const char *name;
    size_t operands, counting, unit;
} commands[] = {
    [PARAMS] = {"params", 14, 0, 0},
    [LENGTH] = {"length", 2, 0, 0},
    [STORE] = {"store", 3, 2, 4},
    [FILL] = {"fill", 4, 0, 0},
    [FRESH] = {"fresh", 0, 0, 0},
    [INSERT] = {"insert", 2, 0, 0},
    [INSERT_ALL] = {"insert all", 0, 0, 0},
    [ADD] = {"add", 0, 0, 0},
    [SUBTRACT] = {"subtract", 0, 0, 0},
    [PEEL] = {"peel", 1, 0, 0},
    [READ_STREAM] = {"read stream", 1, 0, 1},
    [READ_SKETCH] = {"read sketch", 1, 0, 1},
    [READ_STREAM_BACK] = {"read stream back", 0, 0, 0},
    [READ_SKETCH_BACK] = {"read sketch back", 0, 0, 0},
    [WRITE_STREAM] = {"write stream", 0, 0, 0},
    [WRITE_SKETCH] = {"write sketch", 0, 0, 0},
    [POSITION] = {"position", 2, 0, 0},
    [INDEX] = {"index", 2, 0, 0},
    [SHOW] = {"show", 0, 0, 0},
    [WITHDRAW] = {"withdraw", 2, 0, 0},
    [HEAD] = {"head", 1, 0, 1},
    [HEAD_BACK] = {"head back", 0, 0, 0},
    [FOLD] = {"fold", 1, 0, 0},
};

int is_command(int number) {
    return number >= PARAMS && number <= FOLD;
}

const char *name_of(enum command command) {
    return commands[command].name;
}

/* Four bytes, big-endian; 0 where they are cut. */
static uint32_t word(const uint8_t *bytes, size_t length, size_t k) {
    if (length / 4 <= k)
        return 0;
    bytes += 4 * k;
    return (uint32_t)bytes[0] << 24 | (uint32_t)bytes[1] << 16 | (uint32_t)bytes[2] << 8 | bytes[3];
}

size_t length_of(enum command command, const uint8_t *bytes, size_t length) {
    size_t units = word(bytes, length, commands[command].counting);
    return 4 * commands[command].operands + commands[command].unit * units;
}

uint32_t operand(struct given given, size_t k) {
    return word(given.bytes, given.length, k);
}

const uint8_t *after(struct given given, size_t operands) {
    return given.bytes + 4 * operands;
}
