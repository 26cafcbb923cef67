// Reads a schedule from standard input, and prints the lines that answer it.
#include "replay.h"

#include <stdio.h>
#include <stdlib.h>

int main(void)
{
    // One byte more than a schedule may have is enough to refuse it, however long the input is.
    static uint8_t bytes[SCHEDULE_BYTES + 1];
    size_t len = fread(bytes, 1, sizeof bytes, stdin);
    if (ferror(stdin))
        return EXIT_FAILURE;
    size_t text_len = 0;
    char *text = replay_c_grown(bytes, len, &text_len);
    if (text == NULL)
        return EXIT_FAILURE;
    size_t written = fwrite(text, 1, text_len, stdout);
    free(text);
    return written == text_len && fflush(stdout) == 0 ? EXIT_SUCCESS : EXIT_FAILURE;
}
