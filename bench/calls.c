// calls answer OPERATION WHICH FILE     writes the result of one call, a 64-bit word, and what the call wrote
// calls run OPERATION WHICH FILE        the call alone, for its instructions to be counted
// calls idle OPERATION WHICH FILE       all but the call, to be taken off
//
// OPERATION is build or readback, WHICH is proved, c or words (bench/sparing.c), FILE has the rule's bytes or the image's words.
#include "lavumbishe.h"
#include <fcntl.h>
#include <string.h>
#include <unistd.h>

typedef uint64_t build(const uint8_t *rule, size_t rule_len, uint64_t *image, size_t image_len);
typedef uint64_t read_back(const uint64_t *image, size_t image_len, uint8_t *writing, size_t writing_len);
build baseline_build, sparing_build;
read_back baseline_read_back, sparing_read_back;

enum { LONGEST_WRITING = 1178877 };

static uint64_t given[LAVUMBISHE_IMAGE_WORDS + 1], lent[LONGEST_WRITING / 8 + 1];

static uint64_t call(int builds, const char *which, size_t length) {
    int proved = strcmp(which, "proved") == 0, words = strcmp(which, "words") == 0;
    if (builds)
        return (proved ? lavumbishe_build : words ? sparing_build : baseline_build)((uint8_t *)given, length, lent, LAVUMBISHE_IMAGE_WORDS);
    return (proved ? lavumbishe_read_back : words ? sparing_read_back : baseline_read_back)(given, length / 8, (uint8_t *)lent, LONGEST_WRITING);
}

static int put(const void *bytes, size_t length) {
    for (long n; length > 0; bytes = (const char *)bytes + n, length -= (size_t)n)
        if ((n = write(1, bytes, length)) <= 0)
            return 1;
    return 0;
}

int main(int count, char **arguments) {
    int file = count == 5 ? open(arguments[4], O_RDONLY) : -1, builds = count == 5 && strcmp(arguments[2], "build") == 0;
    long length = file < 0 ? -1 : read(file, given, sizeof given);
    if (length < 0)
        return 2;
    if (strcmp(arguments[1], "idle") == 0)
        return 0;
    uint64_t result = call(builds, arguments[3], (size_t)length);
    if (strcmp(arguments[1], "run") == 0)
        return 0;
    return put(&result, sizeof result) || put(lent, lavumbishe_count(result) * (builds ? 8 : 1));
}
