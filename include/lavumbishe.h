/* Lavumbishe for C and C++: build, read back and match; the watch: begin and step; spellings: check and propose.
 *
 * A rule becomes an image, tables of bit masks in 64-bit words. The image is what the panel stores and runs; the rule is not needed again. What each
 * function does is proved for every input, whatever the words and bytes are (docs/PROMISES.md says what that rests on); docs/RULES.md says how to
 * write a rule.
 *
 *     uint64_t image[LAVUMBISHE_IMAGE_WORDS];
 *     uint64_t built = lavumbishe_build(rule, rule_len, image, LAVUMBISHE_IMAGE_WORDS);
 *     if (lavumbishe_number(built) != LAVUMBISHE_DONE)
 *         ...                                               refused: image is as it was; with 2 lavumbishe_place(built) says where
 *     size_t image_len = lavumbishe_count(built);           lend exactly these words to the others
 *
 * examples/watch.c is a whole program. 'rt lib' in crates/panel makes the library, out/libpanel.a there.
 *
 * Processor: the library is for x86-64 and the calls of C on Linux, and for nothing else at this time. On another processor that runs Linux a program
 * linked with it may run under an emulator such as qemu-user. No test of ours does so, and what is promised then rests on the emulator too.
 *
 * The result holds two numbers: the number of the table below times 2^32, and in the low half a count below 2^32, or with number 2 the place at
 * which the rule went wrong. Take them apart with lavumbishe_number, lavumbishe_count and lavumbishe_place. The checks run in the table's order, and
 * the first that fails gives its number. A refusal has count 0 and changes nothing that was lent. After 'done' the count is how much there is of the
 * result, and what lies past it in the lent area is as it was.
 *
 * What a caller provides:
 *  - Areas. Each is a pointer and a length in elements, not in bytes: a word of an image or of a mask has 8 bytes, an end or a state 4, a place 8, a
 *    byte of a rule, text or writing 1. An area to be written must not overlap any other. A pointer must be aligned for its type and must not be
 *    null, also where the length is 0. Nothing may change an area during a call.
 *  - Stack, in bytes, and in brackets the most that the tests have measured on x86-64 (docs/SPEED.md, "Stack"): build 1,048,576 (353,800), since the
 *    readers nest as deep as the rule's brackets may; read back 16,384 (13,300); match, begin and step 65,536 (26,400); check 65,536 (17,400);
 *    propose 131,072 (85,200). Build may be left to the desk: a panel that gets images needs match alone, or begin and step.
 *  - memcpy, memmove and memset, which the compiler may call. Nothing else is called.
 *
 * No heap and no variable data outside the stack is used, so calls from several threads or from an interrupt are safe as long as none writes an
 * area that another reads or writes. Every call ends: the work is bounded by the lengths that are given.
 *
 * What a call costs, in instructions on x86-64. These are counts of calls that were made, with an earlier compiler than today's, and no promise:
 * docs/SPEED.md has them with the rules and texts, and says how they were counted (by callgrind).
 *  - Every call but build checks its image: 7,300 to 16,700 for 525 words (4,200 bytes), at most 143,800 for 4,834 (38,672 bytes), the dearest images
 *    that were found ("The check alone").
 *  - Match and step, for each byte besides: 22 for the smallest rules to 2,526 for 500 states eight deep; with repeated groups, where cycles go round
 *    at every byte, up to 5,922 ("Match and step", "Cycles").
 *  - Build of a rule of 1,024 bytes: at most 1,022,000. Read back: 13,200 for the rule `a`, at most 16,042,600 ("Build, read back ..").
 *  - Check and propose: by the bytes from start to end; for 65,535 bytes and 512 states up to 1,460 million and 1,150 million ("Spellings").
 */
#ifndef LAVUMBISHE_H
#define LAVUMBISHE_H

#include <stddef.h>
#include <stdint.h>

#ifdef __cplusplus
extern "C" {
#endif

/* The numbers, in the order of the checks. */
enum {
    LAVUMBISHE_DONE = 0,            /* all:                         done */
    LAVUMBISHE_RULE_TOO_LONG = 1,   /* build:                       the rule has more than 1,024 bytes */
    LAVUMBISHE_NOT_A_RULE = 2,      /* build:                       the rule is not in the grammar (a closing newline is enough) */
    LAVUMBISHE_TOO_MANY_STATES = 3, /* build:                       more than 512 states */
    LAVUMBISHE_TOO_DEEP = 4,        /* build:                       unions and groups with ? or * more than 8 deep */
    LAVUMBISHE_IMAGE_NO_ROOM = 5,   /* build:                       the image is longer than the words lent */
    LAVUMBISHE_NOT_AN_IMAGE = 6,    /* all but build:               the words are not exactly the image of a rule */
    LAVUMBISHE_TEXT_TOO_LONG = 7,   /* match, step, check, propose: the text or the stretch has more than 65,535 bytes */
    LAVUMBISHE_WRITING_NO_ROOM = 8, /* read back:                   the plain writing is longer than the bytes lent */
    LAVUMBISHE_NOT_A_MASK = 9,      /* begin, step:                 not as many words as a mask has; step: or a bit that is no state's */
    LAVUMBISHE_JOURNAL_FULL = 10,   /* step:                        the place would pass 4,294,967,295 */
    LAVUMBISHE_NOT_AN_END = 16,     /* propose:                     the place is no end of the text */
    LAVUMBISHE_STATES_NO_ROOM = 17  /* propose:                     the spelling has more states than are lent */
};

/* The largest sizes: every image fits into so many words and every mask into so many, and no text has more ends than places, 0 to its length. */
enum {
    LAVUMBISHE_RULE_BYTES = 1024,
    LAVUMBISHE_TEXT_BYTES = 65535,
    LAVUMBISHE_IMAGE_WORDS = 4834, /* 38,672 bytes */
    LAVUMBISHE_MASK_WORDS = 8,     /* 64 bytes */
    LAVUMBISHE_ENDS = 65536        /* 262,144 bytes */
};

/* Build: from a rule to its image. Numbers 0 to 5. With 2 the place is the length of the longest beginning of the rule that is also the beginning of
 * some rule, however long: up to there all is well, and what stands there, or that nothing more does, can't go on to a rule. It is 0 to rule_len; `a||b`
 * has 2, `(a` has 2, and `a{3,2}` has 5, since `a{3,20}` would be a rule. The count is the image's length in words, which are the first ones of those
 * lent. Store it with the words: all other calls take exactly so many. The image of m states and depth d has 10 + W(515 + 11d) words, where W is m/64 rounded up: from
 * 525 words (4,200 bytes) to 4,834 (38,672 bytes). An image that was made before groups could take '*' has a section less and gets 6: build it anew
 * from its rule, or from its plain writing, which means what it meant. */
uint64_t lavumbishe_build(const uint8_t *rule, size_t rule_len, uint64_t *image, size_t image_len);

/* Read back: from an image to the rule's plain writing, which is again a rule, of the same image. Numbers 0, 6, 8. The count is the writing's length
 * in bytes; no byte 0 closes it. The writing of a short rule may be long: [..]{511} writes its class 511 times. The longest of any image has
 * 1,178,877 bytes; a panel that only runs images need not read back. */
uint64_t lavumbishe_read_back(const uint64_t *image, size_t image_len, uint8_t *writing, size_t writing_len);

/* Match: from an image and a text to the places at which the rule has just happened. A place is a number of bytes read, from 0 to text_len. It is an
 * end if some stretch of the text that stops there, perhaps an empty one, is spelled by the rule. Numbers 0, 6, 7. The count is the total of ends,
 * all of them; written are the first that fit, in rising order. A short list of ends is no refusal: compare the count with ends_len. A list of
 * length 0 asks for the total alone.
 *
 * The image is checked in this same call, word by word, and then run from the very words that were checked: damaged memory gives 6 and not a wrong
 * end. Match answers for the rule whose image it is given, whether or not build made it. */
uint64_t lavumbishe_match(const uint64_t *image, size_t image_len, const uint8_t *text, size_t text_len, uint32_t *ends, size_t ends_len);

/* A watch: journals as they arrive, in stretches of any length up to 65,535 bytes, none among them.
 *
 *     uint64_t mask[LAVUMBISHE_MASK_WORDS], place;
 *     size_t mask_len = lavumbishe_mask_len(image, image_len);
 *     uint64_t found = lavumbishe_begin(image, image_len, mask, mask_len, &place, ends, ends_len);       once
 *     found = lavumbishe_step(image, image_len, mask, mask_len, &place, stretch, stretch_len, ends, ends_len);   for each stretch
 *
 * What to keep between the calls: the words of the mask, 8 to 64 bytes, and the place, 8 bytes, nothing else. They may lie anywhere, go through a
 * restart or move to another panel. However the journal was cut, the ends of all calls joined are those that match would find in the whole of it, as
 * long as each call had room for its own and all calls had one image. A refusal leaves mask, place and ends as they were: the stretch was not read
 * and can be given again.
 *
 * Begin puts the live states before any byte into the mask and 0 into the place. Numbers 0, 6, 9. The count is 1 if place 0 is an end (the rule can
 * be empty), which is then written if there is room, and else 0; no step reports it again.
 *
 * Step reads one stretch. Numbers 0, 6, 7, 9, 10. Mask and place go on; the count is the total of ends in this stretch, and written are the first
 * that fit, as places of the whole journal, from *place + 1 on. With room for stretch_len ends none is lost.
 *
 * The image is checked in every call, which costs as much as reading 50 to 800 bytes, the most for a rule of 64 states without unions: longer
 * stretches are cheaper. The mask is only checked for having no bit past the image's states; a step goes on from whatever states it has, so keep it
 * as safe as the image.
 *
 * After 10 the place can't count further, but the mask can go on: note the place, set it to 0 and give the stretch again. Nothing is missed; places
 * then count from there. */
uint64_t lavumbishe_begin(const uint64_t *image, size_t image_len, uint64_t *mask, size_t mask_len, uint64_t *place, uint32_t *ends, size_t ends_len);

uint64_t lavumbishe_step(const uint64_t *image, size_t image_len, uint64_t *mask, size_t mask_len, uint64_t *place, const uint8_t *stretch,
                         size_t stretch_len, uint32_t *ends, size_t ends_len);

/* How many words a mask of this image has, 1 to 8 (8 to 64 bytes): lend begin and step exactly so many. Words that are no image give some number up
 * to 8. */
static inline size_t lavumbishe_mask_len(const uint64_t *image, size_t image_len) {
    return image_len > 2 && image[2] <= LAVUMBISHE_MASK_WORDS ? (size_t)image[2] : 0;
}

/* A spelling: which bytes of a text did it, and how. A proposal is a start, an end and a list of states. Start and end are places of the text, and
 * the list has one state for each byte from start to end: the one that the byte enters, by a letter's edge or its loop.
 *
 *     uint64_t found = lavumbishe_propose_spelling(image, image_len, text, text_len, end, states, states_len);
 *     size_t states_count = lavumbishe_count(found);        the start is end less so many
 *
 * Check says whether a proposal is right, whoever made it. Numbers 0, 6, 7; the count is 1 for yes and 0 for no. It is yes exactly if start is at
 * most end and end at most text_len, states_len is end less start, the first state is entered by its byte from one that state 0 reaches without a
 * letter, each next one from one that the state before reaches so, and the last (state 0, where there are no bytes) so reaches the accepting state.
 * Whatever else the places and states are is a no, also where a place is past the text or a state past the image's.
 *
 * Propose writes a proposal that gets yes, of all for this end one with the latest start: no stretch that is spelled and stops there is shorter.
 * Numbers 0, 6, 7, 16, 17. The count is the number of states, which are the first ones of those lent; of a rule that can be empty it is 0, and the
 * start is the end itself. There is a proposal exactly for the ends that match finds; any other place, also one past the text, gives 16. Where the
 * states of that start don't fit it gives 17; text_len of them, 4 bytes each, always do. Which states are chosen, where there is a choice, may change
 * with the library.
 *
 * Both check the image in the same call, as match does; beyond what the image costs the work grows with the stretch from start to end, and not with
 * what lies before or after it. Propose leaves a place that is no end as soon as no state leads there, mostly after a few bytes; where the rule can
 * go on for ever (`A.*B`, and no A comes) that is the whole text before it. */
uint64_t lavumbishe_check_spelling(const uint64_t *image, size_t image_len, const uint8_t *text, size_t text_len, uint64_t start, uint64_t end,
                                   const uint32_t *states, size_t states_len);

uint64_t lavumbishe_propose_spelling(const uint64_t *image, size_t image_len, const uint8_t *text, size_t text_len, uint64_t end, uint32_t *states,
                                     size_t states_len);

/* A result taken apart: number, count and place. The place is 0 unless the number is 2, and the count is 0 after a refusal. */
static inline unsigned lavumbishe_number(uint64_t result) { return (unsigned)(result >> 32); }

static inline size_t lavumbishe_count(uint64_t result) {
    return lavumbishe_number(result) == LAVUMBISHE_DONE ? (size_t)(result & 0xffffffffu) : 0;
}

static inline size_t lavumbishe_place(uint64_t result) {
    return lavumbishe_number(result) == LAVUMBISHE_NOT_A_RULE ? (size_t)(result & 0xffffffffu) : 0;
}

#ifdef __cplusplus
}
#endif

#endif
