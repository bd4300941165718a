#include "options.h"

#include <getopt.h>
#include <stdio.h>
#include <stdlib.h>

static const struct option NAMES[] = {
    {"members", required_argument, NULL, 'n'}, {"faulty", required_argument, NULL, 'f'},
    {"rounds", required_argument, NULL, 'k'},  {"seconds", required_argument, NULL, 's'},
    {"seed", required_argument, NULL, 'x'},    {"wild", required_argument, NULL, 'w'},
    {"silent", required_argument, NULL, 'c'},  {"twice", required_argument, NULL, 't'},
    {"garbage", required_argument, NULL, 'g'}, {"lose", required_argument, NULL, 'l'},
    {"repeat", required_argument, NULL, 'r'},  {"reorder", required_argument, NULL, 'o'},
    {"stop", required_argument, NULL, 'p'},    {"quiet", no_argument, NULL, 'q'},
    {NULL, 0, NULL, 0},
};

static const char USAGE[] =
    "options: --members N --faulty F --rounds K --seconds S --seed X\n"
    "         --wild J --silent J --twice J --garbage J   (member J is faulty; each may be given again)\n"
    "         --lose P --repeat P --reorder P             (percent of the frames between members)\n"
    "         --stop J:T1:T2                              (member J is stopped at T1 seconds and restored at T2)\n"
    "         --quiet\n"
    "with none: a demonstration of three networks\n";

struct options options_usual(void) {
    return (struct options){.n = 4, .f = 1, .medians = 5, .seconds = 30, .seed = 1};
}

bool options_sound(const struct options *options, uint8_t member) { return options->conduct[member] == 0; }

bool options_any(const struct options *options, uint8_t conduct) {
    for (uint8_t member = 1; member <= options->n; member++)
        if (options->conduct[member] & conduct) return true;
    return false;
}

/* A whole decimal number up to `most`. */
static bool number(const char *word, uint64_t most, uint64_t *value) {
    char *end;
    *value = strtoull(word, &end, 10);
    return *word >= '0' && *word <= '9' && *end == '\0' && *value <= most;
}

static bool small(const char *word, unsigned most, unsigned *value) {
    uint64_t wide;
    if (!number(word, most, &wide)) return false;
    *value = (unsigned)wide;
    return true;
}

/* J:T1:T2, the times in seconds and parts of seconds. */
static bool read_stop(struct options *options, const char *word) {
    unsigned member;
    double from, until;
    char more;
    if (sscanf(word, "%u:%lf:%lf%c", &member, &from, &until, &more) != 3) return false;
    if (member < 1 || member > WEDERBURH_MEMBERS || !(from >= 0 && until > from && until < 1e6)) return false;
    if (options->stop_count == STOPS) return false;
    options->stops[options->stop_count++] =
        (struct stop){(uint8_t)member, (uint64_t)(from * 1000), (uint64_t)(until * 1000)};
    return true;
}

static bool read_conduct(struct options *options, const char *word, uint8_t conduct) {
    unsigned member;
    if (!small(word, WEDERBURH_MEMBERS, &member) || member < 1) return false;
    options->conduct[member] |= conduct;
    return true;
}

static bool read_small_byte(const char *word, uint8_t *value) {
    unsigned wide;
    if (!small(word, WEDERBURH_MEMBERS, &wide)) return false;
    *value = (uint8_t)wide;
    return true;
}

static bool read_one(struct options *options, int name, const char *word) {
    switch (name) {
    case 'n': return read_small_byte(word, &options->n);
    case 'f': return read_small_byte(word, &options->f);
    case 'k': return small(word, 1000000, &options->medians);
    case 's': return small(word, 1000000, &options->seconds);
    case 'x': return number(word, UINT64_MAX, &options->seed);
    case 'w': return read_conduct(options, word, WILD);
    case 'c': return read_conduct(options, word, SILENT);
    case 't': return read_conduct(options, word, TWICE);
    case 'g': return read_conduct(options, word, GARBAGE);
    case 'l': return small(word, 100, &options->lose);
    case 'r': return small(word, 100, &options->repeat);
    case 'o': return small(word, 100, &options->reorder);
    case 'p': return read_stop(options, word);
    case 'q': options->quiet = true; return true;
    default: return false;
    }
}

/* Whether every member that an option names is one of the n. */
static bool members_exist(const struct options *options) {
    for (unsigned member = options->n + 1u; member <= WEDERBURH_MEMBERS; member++)
        if (options->conduct[member]) return false;
    for (size_t i = 0; i < options->stop_count; i++)
        if (options->stops[i].member > options->n) return false;
    return true;
}

bool options_read(struct options *options, int count, char **words) {
    int name;
    bool good = true;
    *options = options_usual();
    options->f = UINT8_MAX;
    while (good && (name = getopt_long(count, words, "", NAMES, NULL)) != -1)
        good = read_one(options, name, optarg);
    if (options->f == UINT8_MAX) options->f = (uint8_t)((options->n - 1) / 3);
    good = good && optind == count && members_exist(options);
    if (!good) fputs(USAGE, stderr);
    return good;
}
