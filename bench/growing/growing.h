/* Works of growing size (growing.c) as tasks (../tasks/tasks.h). */

#ifndef GROWING_H
#define GROWING_H

#include "../tasks/tasks.h"

/* A way of doing the works whose name begins with `kind`. */
struct way {
    const char *kind, *name;
    size_t (*run)(const struct line *octets, uint64_t times);
};

/* The ways of a library, up to one without a name. */
extern const struct way ways[];

#endif
