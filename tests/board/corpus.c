/* The calls of the station's entries that the fuzzer's programs make (tests/fuzz/seeds), as commands for the host that makes calls as it is
 * told to (tests/entries/entries.c): `corpus` takes programs on standard input, one to a line, in hexadecimal, and writes a line for each
 * call. The programs are read by the fuzzer's own harness; where that asks the reference, this writes the call and makes it. A call
 * with a run of 255 bytes or more has no form as a command here. */
#include "../fuzz/harness.c"

static void write_number(uint64_t number, int size) {
    for (int at = 0; at < size; at++)
        printf("%02x", (unsigned)(number >> (8 * at) & 255));
}

uint32_t reference_call(uint8_t side, const struct command *command) {
    (void)side;
    const struct lent runs[RUNS] = {command->room, command->in, command->out};
    bool fits = command->entry < ENTRIES;
    for (int run = 0; run < RUNS; run++)
        fits &= runs[run].size < 255;
    if (fits) {
        printf("%02x%02x%02x", command->entry, command->first, command->second);
        write_number(command->issue, 2);
        write_number(command->image, 8);
        write_number(command->apart, 8);
        write_number(command->card, 4);
        for (int run = 0; run < RUNS; run++) {
            printf("%02x", (unsigned)runs[run].size);
            for (size_t at = 0; at < runs[run].size; at++)
                printf("%02x", runs[run].bytes[at]);
        }
        putchar('\n');
    }
    return call_any(command);
}

uint8_t reference_handed(uint8_t side, const struct command *command) { return (void)side, (void)command, 255; }
void reference_told(uint8_t side, const struct command *given, const struct command *left, uint32_t answer) {
    (void)side, (void)given, (void)left, (void)answer;
}
bool reference_gives(uint8_t side, uint8_t entry, uint8_t number) { return (void)side, (void)entry, (void)number, true; }
uint16_t reference_reason(const struct command *command, uint32_t answer) { return (void)command, (void)answer, 0; }
bool reference_refuses(uint8_t opcode, uint8_t number) { return (void)opcode, (void)number, true; }
bool reference_shows(uint8_t side, uint8_t sort, uint8_t number) { return (void)side, (void)sort, (void)number, false; }
uint8_t reference_sorts(uint8_t side) { return (void)side, 0; }

int main(void) {
    static char line[4096];
    static uint8_t program[sizeof line / 2];
    open_pages();
    while (fgets(line, sizeof line, stdin) != NULL) {
        size_t size = 0;
        unsigned byte;
        int taken;
        for (const char *at = line; line[0] != '#' && sscanf(at, "%x%n", &byte, &taken) == 1; at += taken)
            program[size++] = (uint8_t)byte;
        if (size > 0)
            LLVMFuzzerTestOneInput(program, size);
    }
    return 0;
}
