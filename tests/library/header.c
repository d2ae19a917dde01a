/* The header in C99, before anything else and twice. */
#include "muruapy.h"
#include "muruapy.h"

#include "layout.h"

int main(void)
{
    return muruapy_ceiling(2, 1) == 12 ? 0 : 1;
}
