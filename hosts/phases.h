/* The phases of a signing call, told apart by when the call touches its room. */
#ifndef PHASES_H
#define PHASES_H

#include <stddef.h>
#include <stdint.h>

enum phase { PAIR, FIRST_PASS, CHALLENGE, SECOND_PASS, PHASES };

/* A room of so many bytes whose last ones, so many, stand on pages of their own. */
uint8_t *lay_room(size_t length, size_t last);

/* From here on the room is watched. The phases are: up to the first touch of the room; up to the first touch after its last
   bytes were written, which is the challenge reading it; up to the next write, which clears it; and the rest. When the last
   phase begins, the challenge values, which are public, become known: all places on the stack below the caller's frame that
   hold them. */
void watch_room(const uint8_t *values, size_t count, const void *frame);

/* The room is no longer watched. Gives the reports of each phase; 0 if a phase was not reached or the values not found. */
int unwatch_room(unsigned reports[PHASES]);

#endif
