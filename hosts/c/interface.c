/* Calls a function that every interface has: what keeps it from linking with an archive of another interface is the header's guard alone. */
#include "pasa.h"

int main(void)
{
    return pasa_depth(PASA_ROOT) == 0 ? 0 : 1;
}
