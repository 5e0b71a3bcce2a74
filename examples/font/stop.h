/* Ends a program that can't do what it was asked. */
#ifndef STOP_H
#define STOP_H

#include <stdio.h>
#include <stdlib.h>

static inline _Noreturn void stop(const char *program, const char *about, const char *wrong) {
    fprintf(stderr, "%s: %s: %s\n", program, about, wrong);
    exit(2);
}

#endif
