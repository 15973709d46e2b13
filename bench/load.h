// A file of a folder, as many of its bytes as there is room for; how many it had.
#include <fcntl.h>
#include <string.h>
#include <unistd.h>

static size_t load(const char *folder, const char *name, void *bytes, size_t most) {
    char path[4096];
    size_t start = strlen(folder), got = 0;
    if (start + strlen(name) + 2 > sizeof path)
        return 0;
    memcpy(path, folder, start);
    path[start] = '/';
    memcpy(path + start + 1, name, strlen(name) + 1);
    int file = open(path, O_RDONLY);
    for (long n; file >= 0 && (n = read(file, (char *)bytes + got, most - got)) > 0;)
        got += (size_t)n;
    return got;
}
