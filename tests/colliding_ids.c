/* Prints 2^14 task ids that collide in the kit's IndexSet and IndexMap with the seed that they have by default: they
   lie in one group of slots under one tag, so that such a set would look through all of them. The tables of the check
   have a seed made from all ids (crates/index_tables/src/seeded.rt), under which these collide no more than others, and
   a file of them must cost no more than another. tests/verdicts/colliding_ids.txt is what this prints:

       cc -O2 -o colliding_ids colliding_ids.c && ./colliding_ids > verdicts/colliding_ids.txt */
#include <stdint.h>
#include <stdio.h>

static const uint64_t SEED = 0x243f6a8885a308d3, FACTOR = 0x9e3779b97f4a7c15 ^ 16;
/* the tag, and the group in a table of up to 9 * 2^12 entries: a group is for nine */
static const uint32_t MATTERS = 0xff000fff;

static uint32_t hash_of(uint64_t id)
{
    unsigned __int128 product = (unsigned __int128)(id ^ SEED) * FACTOR;
    uint64_t folded = (uint64_t)product ^ (uint64_t)(product >> 64);
    return (uint32_t)(folded ^ folded >> 32);
}

int main(void)
{
    int left = 1 << 14;
    for (uint64_t id = 0; left > 0; id++)
        if ((hash_of(id) & MATTERS) == 0x01000000) {
            printf("%llu\n", (unsigned long long)id);
            left--;
        }
    return 0;
}
