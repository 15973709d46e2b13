// spelling answer OPERATION FOLDER     writes the result of one call, a 64-bit word, and the states that it wrote
// spelling run OPERATION FOLDER        the call alone, for its instructions to be counted
// spelling idle OPERATION FOLDER       all but the call, to be taken off
//
// OPERATION is propose or check. FOLDER has the files image, text and end (a 64-bit word) that tests/src/bin/spells.rs writes; for check also states.
#include "lavumbishe.h"
#include "load.h"

static uint64_t image[LAVUMBISHE_IMAGE_WORDS], end;
static uint8_t text[LAVUMBISHE_TEXT_BYTES];
static uint32_t states[LAVUMBISHE_TEXT_BYTES];
static size_t words, length, count;

static uint64_t propose(void) { return lavumbishe_propose_spelling(image, words, text, length, end, states, LAVUMBISHE_TEXT_BYTES); }

static uint64_t check(void) { return lavumbishe_check_spelling(image, words, text, length, end - count, end, states, count); }

static int put(const void *bytes, size_t size) {
    for (long n; size > 0; bytes = (const char *)bytes + n, size -= (size_t)n)
        if ((n = write(1, bytes, size)) <= 0)
            return 1;
    return 0;
}

int main(int arguments, char **argument) {
    if (arguments != 4)
        return 2;
    const char *folder = argument[3];
    int proposes = strcmp(argument[2], "propose") == 0;
    words = load(folder, "image", image, sizeof image) / 8;
    length = load(folder, "text", text, sizeof text);
    load(folder, "end", &end, sizeof end);
    if (!proposes)
        count = load(folder, "states", states, sizeof states) / 4;
    if (strcmp(argument[1], "idle") == 0)
        return 0;
    uint64_t result = proposes ? propose() : check();
    if (strcmp(argument[1], "run") == 0)
        return 0;
    return put(&result, sizeof result) || put(states, proposes ? 4 * lavumbishe_count(result) : 0);
}
