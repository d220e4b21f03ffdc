/*
 * Programs for rigtemple_deliberate and rigtemple_go_on written in C, entry by entry, and those
 * that the C programs under tests/ and bench/ use.
 */
#ifndef RIGTEMPLE_TESTS_PROGRAMS_H
#define RIGTEMPLE_TESTS_PROGRAMS_H

#include "../include/rigtemple.h"

/* A program, with room for an entry more than there may be. */
struct program_bytes {
    uint8_t bytes[RIGTEMPLE_MOST_PROGRAM_BYTES + RIGTEMPLE_ENTRY_BYTES];
    size_t len;
};

/* An entry behind those that are there; its number. */
unsigned put_entry(struct program_bytes *program, unsigned kind, unsigned a, unsigned b);

/* "The teaching shed wants revising before acting": selection 0, then while the plan is not empty
 * one of the first so many revisions (1 to 62), the lowest that is enabled, or else an action. */
void teaching_program(struct program_bytes *program, unsigned revisions);

/* "The fast shed wants the reverse": the same, but an action before any revision. */
void fast_program(struct program_bytes *program, unsigned revisions);

/* 128 entries: the first is "execute", and each other is of that kind with the one below for both
 * of its parts, or for the body of a "while", on node 0 if on a belief. Of choices there are 2^127
 * where each is looked at by itself, of sequences 2^127 actions, and of "while" 128 can remain. */
void tower_program(struct program_bytes *program, unsigned kind);

#endif
