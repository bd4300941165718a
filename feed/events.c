#include "events.h"

#include <unistd.h>

bool event_tell(int pipe, const struct event *event) { return write(pipe, event, sizeof *event) == sizeof *event; }

bool event_next(int pipe, struct event *event) { return read(pipe, event, sizeof *event) == sizeof *event; }
