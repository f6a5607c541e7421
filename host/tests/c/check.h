/*
 * What the C and C++ tests share: a check that is printed where it fails, one that a type has its size, and the comparison of two states
 * and of two keepers. Compiled as C and as C++.
 */
#ifndef SLEETANVIL_TESTS_CHECK_H
#define SLEETANVIL_TESTS_CHECK_H

#include <stdio.h>
#include <string.h>

#include "sleetanvil.h"

/* A type has a size, or the file does not compile: static_assert for C99 too. */
#define SIZE_IS(type, size) typedef char type##_has_its_size[sizeof(type) == (size) ? 1 : -1]

/* How many checks failed. */
static int failures = 0;

/* Counts a check, and prints it where it fails. */
static inline void check_at(int line, const char *what, bool holds)
{
    if (!holds) {
        fprintf(stderr, "line %d: not so: %s\n", line, what);
        failures++;
    }
}

#define CHECK(condition) check_at(__LINE__, #condition, condition)

/* Prints that all is well if it is. Returns the status of the program: 0 if no check failed. */
static inline int verdict(void)
{
    if (failures == 0) {
        puts("all as it should be");
    }
    return failures != 0;
}

/* Returns whether two states are the same, field by field: the bytes between the fields are nobody's. */
static inline bool same_state(sleet_state a, sleet_state b)
{
    return a.a0 == b.a0 && a.b0 == b.b0 && a.c0 == b.c0 && a.d0 == b.d0 && a.wp == b.wp && a.selected == b.selected && a.count == b.count &&
           a.first == b.first && a.second == b.second && a.third == b.third && a.job == b.job && a.instruction == b.instruction &&
           a.column == b.column && a.row == b.row && a.units == b.units;
}

/* Returns whether two keepers are the same, byte by byte: they are made of nothing else. */
static inline bool same_keeper(sleet_keeper a, sleet_keeper b)
{
    return memcmp(&a, &b, sizeof a) == 0;
}

#endif
