// What the harness links of the Rattle library. Nothing checks these lines against the library's source: this is their one place.
#ifndef RATTLE_H
#define RATTLE_H

#include <stddef.h>
#include <stdint.h>

// Writes the text into `out` and returns its length, or more than `room` where it does not fit or memory is short.
size_t marked_list_replay(const uint8_t *bytes, size_t len, uint8_t *out, size_t room);

// How many bytes a cell of sectors takes.
size_t marked_list_cell_bytes(void);

#endif
