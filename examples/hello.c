/* Writes one line. */
#include "text.h"

int main(void)
{
    put_text("hello, world\n");
    return 0;
}
