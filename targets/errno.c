/* The one function of the kit's own C code that the programs call. The kit has that code for x86-64 alone. */
#include <errno.h>

int rattle_errno(void);

int rattle_errno(void) {
    return errno;
}
