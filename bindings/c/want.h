/* What the tests in C share: WANT prints the line of what does not hold. */
#include <stdio.h>

static int failed;

#define WANT(e) \
    do { \
        if (!(e)) { \
            failed = 1; \
            printf("line %d: %s\n", __LINE__, #e); \
        } \
    } while (0)
