/* Writes the version that the header has in text, and that of the library. */
#include <stdio.h>

#include <cetv.h>

int main(void)
{
    unsigned long version = cetv_version();
    if (version != CETV_VERSION)
        return 1;
    printf("%s %lu.%lu.%lu\n", CETV_VERSION_TEXT, version / 10000, version / 100 % 100, version % 100);
    return 0;
}
