/* Sorts the lines of its input by their bytes and writes them. Then it looks for each of its arguments among them with
   bsearch, which calls back into this program for each comparison. */
#include "text.h"

/* Declared here, since glibc's stdlib.h has it inline, and then it isn't called. */
void *bsearch(const void *key, const void *base, size_t count, size_t size, int (*compare)(const void *, const void *));

#define MOST_LINES 4096
#define MOST_BYTES 65536

static char room[MOST_BYTES + 1];
static const char *lines[MOST_LINES], *other[MOST_LINES];

static int compare(const char *a, const char *b)
{
    while (*a != 0 && *a == *b) {
        a++;
        b++;
    }
    return (int)(unsigned char)*a - (int)(unsigned char)*b;
}

/* For bsearch: the key is a text, an element the address of one. */
static int compare_line(const void *key, const void *element)
{
    return compare(key, *(const char *const *)element);
}

/* Ends each line of the n bytes with a zero byte, and answers the number of lines. */
static size_t split(size_t n)
{
    size_t count = 0, from = 0;
    for (size_t i = 0; i < n && count < MOST_LINES; i++) {
        if (room[i] == '\n' || i + 1 == n) {
            room[room[i] == '\n' ? i : i + 1] = 0;
            lines[count++] = room + from;
            from = i + 1;
        }
    }
    return count;
}

/* Merges the sorted runs from low up to middle and from middle up to high. */
static void merge(size_t low, size_t middle, size_t high)
{
    size_t a = low, b = middle;
    for (size_t to = low; to < high; to++) {
        if (a < middle && (b == high || compare(lines[a], lines[b]) <= 0))
            other[to] = lines[a++];
        else
            other[to] = lines[b++];
    }
    for (size_t i = low; i < high; i++)
        lines[i] = other[i];
}

static void sort(size_t count)
{
    for (size_t run = 1; run < count; run *= 2) {
        for (size_t low = 0; low + run < count; low += 2 * run) {
            size_t high = low + 2 * run;
            merge(low, low + run, high < count ? high : count);
        }
    }
}

int main(int argc, char **argv)
{
    size_t count = split(read_all(room, MOST_BYTES));
    sort(count);
    for (size_t i = 0; i < count; i++) {
        put_text(lines[i]);
        put_text("\n");
    }
    int absent = 0;
    for (int i = 1; i < argc; i++) {
        const char *const *found = bsearch(argv[i], lines, count, sizeof *lines, compare_line);
        put_text(argv[i]);
        if (found) {
            put_text(": line ");
            put_number((unsigned long)(found - lines) + 1);
        } else {
            put_text(": none");
            absent = 1;
        }
        put_text("\n");
    }
    return absent;
}
