/* Counts the lines, words and bytes of its input, as wc does. */
#include "text.h"

static int is_space(char c)
{
    return c == ' ' || (c >= '\t' && c <= '\r');
}

int main(void)
{
    static char room[4096];
    unsigned long lines = 0, words = 0, bytes = 0;
    int in_word = 0;
    for (;;) {
        ssize_t n = read(0, room, sizeof room);
        if (n <= 0)
            break;
        bytes += (unsigned long)n;
        for (ssize_t i = 0; i < n; i++) {
            int space = is_space(room[i]);
            lines += room[i] == '\n';
            words += !space && !in_word;
            in_word = !space;
        }
    }
    put_number(lines);
    put_text(" ");
    put_number(words);
    put_text(" ");
    put_number(bytes);
    put_text("\n");
    return 0;
}
