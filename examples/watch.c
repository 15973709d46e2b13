// One rule from the desk to the panel, that of examples/valve: the dosing valve is opened (O) twice with no flow (F) between. The desk builds its
// image, after a slip of the pen, and reads it back for the inspector; the panel gets the image alone and looks for the rule in a journal, one byte for
// each event: in the whole of it, and as it arrives.
#include "lavumbishe.h"
#include <stdio.h>
#include <string.h>

static const char rule[] = "O[A-EG-NP-Z]*O";
static const char journal[] = "OFCMOFCMOPCMOFCAKOFCOC";

// What is stored and handed over: the words, and how many they are.
static uint64_t image[LAVUMBISHE_IMAGE_WORDS];
static size_t image_len;

static int refused(const char *what, uint64_t result) {
    static const char *const why[] = {
        "done",
        "the rule is longer than 1,024 bytes",
        "the rule is not in the grammar",
        "the rule needs more than 512 states",
        "the rule nests groups more than eight deep",
        "the image does not fit",
        "these words are not the image of a rule",
        "the journal is longer than 65,535 bytes",
        "the plain writing does not fit",
        "these words are not a mask of the rule",
        "the journal is longer than 4,294,967,295 bytes",
        0, 0, 0, 0, 0,
        "no forbidden sequence ends there",
        "the states do not fit",
    };
    printf("%s refused with %u: %s.\n", what, lavumbishe_number(result), why[lavumbishe_number(result)]);
    return 1;
}

// The clerk forgot the `]`. Up to the place all is well; from there on no rule can go on.
static int slip(void) {
    static const char wrong[] = "O[A-EG-NP-Z*O";
    uint64_t built = lavumbishe_build((const uint8_t *)wrong, strlen(wrong), image, LAVUMBISHE_IMAGE_WORDS);
    if (lavumbishe_number(built) != LAVUMBISHE_NOT_A_RULE)
        return 1;
    refused("Build", built);
    printf("  %s goes wrong after %.*s\n", wrong, (int)lavumbishe_place(built), wrong);
    return 0;
}

static int desk(void) {
    static uint8_t writing[1024];
    uint64_t built = lavumbishe_build((const uint8_t *)rule, strlen(rule), image, LAVUMBISHE_IMAGE_WORDS);
    if (lavumbishe_number(built) != LAVUMBISHE_DONE)
        return refused("Build", built);
    image_len = lavumbishe_count(built);
    uint64_t written = lavumbishe_read_back(image, image_len, writing, sizeof writing);
    if (lavumbishe_number(written) != LAVUMBISHE_DONE)
        return refused("Read back", written);
    printf("The rule %s is an image of %u words.\n", rule, (unsigned)image_len);
    printf("These words say: %.*s\n", (int)lavumbishe_count(written), (const char *)writing);
    return 0;
}

// Which events did it: the shortest stretch that ends there, and the state that each of its events enters. Whoever doubts it has it checked.
static int spelling(uint32_t end) {
    static uint32_t states[sizeof journal];
    const uint8_t *text = (const uint8_t *)journal;
    uint64_t found = lavumbishe_propose_spelling(image, image_len, text, strlen(journal), end, states, sizeof journal);
    if (lavumbishe_number(found) != LAVUMBISHE_DONE)
        return refused("Propose", found);
    size_t count = lavumbishe_count(found), start = end - count;
    printf("  it was");
    for (size_t i = 0; i < count; i++)
        printf(" %c to state %u", journal[start + i], (unsigned)states[i]);
    uint64_t checked = lavumbishe_check_spelling(image, image_len, text, strlen(journal), start, end, states, count);
    if (lavumbishe_number(checked) != LAVUMBISHE_DONE)
        return refused("Check", checked);
    printf("; checked: %s\n", lavumbishe_count(checked) ? "yes" : "no");
    return 0;
}

static int panel(void) {
    static uint32_t ends[8];
    const size_t room = sizeof ends / sizeof ends[0];
    uint64_t found = lavumbishe_match(image, image_len, (const uint8_t *)journal, strlen(journal), ends, room);
    if (lavumbishe_number(found) != LAVUMBISHE_DONE)
        return refused("Match", found);
    size_t total = lavumbishe_count(found);
    printf("Times that the valve was opened again with no flow between, in the journal %s: %u\n", journal, (unsigned)total);
    for (size_t i = 0; i < total && i < room; i++) {
        printf("  after %u events: %.*s\n", (unsigned)ends[i], (int)ends[i], journal);
        if (spelling(ends[i]))
            return 1;
    }
    return 0;
}

// The same journal five events at a time. What is kept between the calls is the mask and the place.
static int arriving(void) {
    static uint32_t ends[5];
    uint64_t mask[LAVUMBISHE_MASK_WORDS], place;
    size_t mask_len = lavumbishe_mask_len(image, image_len), length = strlen(journal);
    uint64_t found = lavumbishe_begin(image, image_len, mask, mask_len, &place, ends, 5);
    if (lavumbishe_number(found) != LAVUMBISHE_DONE)
        return refused("Begin", found);
    for (size_t at = 0; at < length; at += 5) {
        size_t some = length - at < 5 ? length - at : 5;
        found = lavumbishe_step(image, image_len, mask, mask_len, &place, (const uint8_t *)journal + at, some, ends, 5);
        if (lavumbishe_number(found) != LAVUMBISHE_DONE)
            return refused("Step", found);
        printf("  %.*s arrives:", (int)some, journal + at);
        for (size_t i = 0; i < lavumbishe_count(found); i++)
            printf(" opened again after %u events", (unsigned)ends[i]);
        printf("\n");
    }
    return 0;
}

int main(void) {
    if (slip() != 0 || desk() != 0 || panel() != 0)
        return 1;
    printf("The same journal as it arrives:\n");
    if (arriving() != 0)
        return 1;
    // A word of the image goes wrong in the panel's memory: match says so and reports nothing.
    image[100] ^= 1;
    printf("One bit of the image changed. ");
    return panel() == 0;
}
