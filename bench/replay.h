// The replay of a schedule in C: its bytes in, the text that answers it out.
#ifndef REPLAY_H
#define REPLAY_H

#include <stddef.h>
#include <stdint.h>

// Writes the text into `out` and returns its length, or SIZE_MAX where it does not fit into `room` bytes.
size_t replay_c(const uint8_t *bytes, size_t len, char *out, size_t room);

// The same text in a buffer that grows as it is written, for the caller to free; NULL where memory is short.
char *replay_c_grown(const uint8_t *bytes, size_t len, size_t *text_len);

// How many bytes a cell takes.
size_t replay_c_cell_bytes(void);

// A schedule has at most so many bytes, so many records, and so long a text ("14999 refused 11" is the longest line).
enum { SCHEDULE_BYTES = 60000, SCHEDULE_RECORDS = 14999, TEXT_BYTES = SCHEDULE_RECORDS * 17 };

#endif
