/* Reading and writing text with nothing but read and write. Each program has it for itself: there is no C library below. */
#include <stddef.h>
#include <unistd.h>

/* Writes n bytes to standard output. One call of write moves at most 4,096 bytes in a guest. */
static inline void put(const char *bytes, size_t n)
{
    while (n > 0) {
        ssize_t moved = write(1, bytes, n);
        if (moved <= 0)
            return;
        bytes += moved;
        n -= (size_t)moved;
    }
}

static inline size_t length_of(const char *text)
{
    size_t n = 0;
    while (text[n] != 0)
        n++;
    return n;
}

static inline void put_text(const char *text)
{
    put(text, length_of(text));
}

static inline void put_number(unsigned long number)
{
    char digits[20];
    size_t at = sizeof digits;
    do {
        digits[--at] = (char)('0' + number % 10);
        number /= 10;
    } while (number > 0);
    put(digits + at, sizeof digits - at);
}

/* Reads standard input to its end, or until the room is full, and answers the number of bytes. */
static inline size_t read_all(char *room, size_t size)
{
    size_t n = 0;
    while (n < size) {
        ssize_t moved = read(0, room + n, size - n);
        if (moved <= 0)
            break;
        n += (size_t)moved;
    }
    return n;
}
