/* The sheet of a run file as a whole program: reads standard input to its end, or as far as any answer depends on it, and prints the
   sheet. It is timed beside the bench's own program. */
#include "sheet.h"

#include <unistd.h>

int main(void)
{
    static uint8_t file[MOST_READ], sheet[MOST_SHEET];
    size_t length = 0;
    while (length < sizeof file) {
        ssize_t got = read(STDIN_FILENO, file + length, sizeof file - length);
        if (got < 0)
            return 1;
        if (got == 0)
            break;
        length += (size_t)got;
    }
    size_t left = c_sheet(file, length, sheet, sizeof sheet);
    for (const uint8_t *at = sheet; left > 0;) {
        ssize_t put = write(STDOUT_FILENO, at, left);
        if (put < 0)
            return 1;
        at += put;
        left -= (size_t)put;
    }
    return 0;
}
