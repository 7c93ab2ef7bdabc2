/* The room of the inclusion call on the stack: frames and arrays together. */
#include "painted.h"

u64 inclusion_bench_include(const u16 *listing_depths, u64 a, const u32 *listing_labels, u64 b, const u16 *recipe_depths, u64 c,
                            const u32 *recipe_labels, u64 d, u16 *map, u64 e);

enum { MOST = 48 * 1024 };

static u16 map[RECIPE];
static u64 answer;

__attribute__((noinline)) static void ask(void)
{
    answer = inclusion_bench_include(listing_depths, LISTING, listing_labels, LISTING, recipe_depths, RECIPE, recipe_labels, RECIPE, map, RECIPE);
}

int main(void)
{
    u64 most = 0, yes = 0, no = 0;
    for (u32 at = 0; at < SHAPES * SHAPES * LABELS; at++) {
        draw(at % SHAPES, at / SHAPES % SHAPES, at / SHAPES / SHAPES + 1);
        u64 used = room();
        if (answer >> 40) {
            printf("question %u: refused\n", at);
            return 1;
        }
        if (answer & 1) yes++;
        else no++;
        if (used > most) most = used;
    }
    printf("include: %lu yes and %lu no: at most %lu bytes of stack, of %d allowed\n", yes, no, most, MOST);
    return yes == 0 || no == 0 || most > MOST || most < 1024;
}
