/* feed: a network of members and the contract on this machine. */
#include <stdio.h>

#include "network.h"

/* One network of the demonstration. */
static enum status shown(const char *title, const struct options *options) {
    printf("\n== %s\n", title);
    enum status status = network_run(options);
    fflush(stdout);
    return status;
}

static enum status demonstration(void) {
    struct options sound = options_usual(), wild = options_usual(), rough = options_usual();
    wild.conduct[3] = WILD;
    rough.n = 7;
    rough.f = 2;
    rough.medians = 7;
    rough.conduct[3] = SILENT;
    rough.lose = rough.repeat = 5;
    rough.reorder = 10;
    rough.stops[rough.stop_count++] = (struct stop){.member = 5, .from = 1200, .until = 2500};
    enum status status = shown("All members are sound.", &sound);
    if (status == GOOD) status = shown("Member 3 quotes a wild price.", &wild);
    if (status == GOOD)
        status = shown("Member 3 is silent, frames are lost, repeated and held back, member 5 is stopped and restored.", &rough);
    return status;
}

int main(int count, char **words) {
    struct options options;
    if (sodium_init() < 0) return BROKEN;
    setvbuf(stdout, NULL, _IOLBF, 0);
    if (count == 1) return (int)demonstration();
    if (!options_read(&options, count, words)) return BROKEN;
    return (int)network_run(&options);
}
