// Build and read back in C once more, with classes and masks gone over by whole words and set bits.
#define SPARING
#define baseline_build sparing_build
#define baseline_read_back sparing_read_back
#include "build.c"
#include "readback.c"
