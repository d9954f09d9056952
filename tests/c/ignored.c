/* Ignores a call's number: with warnings as errors neither a C nor a C++ compiler takes it. tests/c/run sees that they do
 * take the rest. */
#include "sfr.h"

int main(void)
{
    const sfr_relation rel = {1, 1, 0, 0, 0, 0};
    uint32_t slots[1] = {0};
    sfr_set_var(rel, slots, 1, 0, 5);
    return 0;
}
