#include "record.h"

#include <fcntl.h>
#include <inttypes.h>
#include <stdio.h>
#include <unistd.h>

bool record_load(const char *path, struct record *record) {
    FILE *file = fopen(path, "r");
    if (!file) return false;
    bool good = fscanf(file, "%" SCNu32 " %" SCNu32, &record->epoch, &record->highest) == 2;
    fclose(file);
    return good;
}

/* A rename lasts only once the folder is on the disk too. The path has a folder. */
static bool sync_folder(const char *path) {
    char folder[256];
    int last = 0;
    for (int i = 0; path[i] != '\0'; i++)
        if (path[i] == '/') last = i;
    snprintf(folder, sizeof folder, "%.*s", last, path);
    int fd = open(folder, O_RDONLY | O_DIRECTORY);
    if (fd < 0) return false;
    bool good = fsync(fd) == 0;
    close(fd);
    return good;
}

bool record_save(const char *path, struct record record) {
    char fresh[256], text[32];
    snprintf(fresh, sizeof fresh, "%s.new", path);
    int len = snprintf(text, sizeof text, "%" PRIu32 " %" PRIu32 "\n", record.epoch, record.highest);
    int fd = open(fresh, O_WRONLY | O_CREAT | O_TRUNC, 0600);
    if (fd < 0) return false;
    bool good = write(fd, text, (size_t)len) == len && fsync(fd) == 0;
    return close(fd) == 0 && good && rename(fresh, path) == 0 && sync_folder(path);
}
