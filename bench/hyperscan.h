// Hyperscan on the rule's plain writing, every end reported: part of driver.c, where Debian's libhyperscan-dev is installed.
#include <hs/hs.h>

static hs_database_t *database;
static hs_scratch_t *scratch;
static size_t found;

// Why it can't run this rule, or 0. Without a flag its dot is every byte but 10, as here.
static const char *hyperscan_ready(void) {
    hs_compile_error_t *error = 0;
    if (database)
        return 0;
    if (hs_compile(rule, 0, HS_MODE_BLOCK, 0, &database, &error) != HS_SUCCESS)
        return "not-compiled";
    return hs_alloc_scratch(database, &scratch) == HS_SUCCESS ? 0 : "no-scratch";
}

static int note_end(unsigned id, unsigned long long from, unsigned long long to, unsigned flags, void *context) {
    (void)id, (void)from, (void)flags, (void)context;
    if (found < LAVUMBISHE_ENDS && (found == 0 || ends[found - 1] != (uint32_t)to))
        ends[found++] = (uint32_t)to;
    return 0;
}

static size_t hyperscan_run(void) {
    found = 0;
    hs_scan(database, (const char *)text, (unsigned)length, 0, scratch, note_end, 0);
    return found;
}
