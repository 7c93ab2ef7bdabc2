/* The room of the C entry on the stack: the rows of both tables, the map, frames and arrays together. */
#include "painted.h"

u64 polashvek_answer(const u8 *input, u64 input_length, u8 *answer, u64 answer_length);

enum { MOST = 80 * 1024, LINE = 1295 };

static u8 input[40 + 6 * (RECIPE + LISTING)], answer[LINE];
static u64 length, line;

static void put(u32 value, int bytes)
{
    for (; bytes > 0; bytes--, value >>= 8)
        input[length++] = (u8)value;
}

static void put_parcel(const u16 *depths, const u32 *labels, u32 n)
{
    u32 first = n, second = n;
    put(n, 4);
    for (u32 i = 0; i < n; i++)
        put(labels[i], 4), first += labels[i], second += first;
    put(n, 4);
    for (u32 i = 0; i < n; i++)
        put(depths[i], 2), first += depths[i], second += first;
    put(2, 4), put(first, 4), put(second, 4);
}

__attribute__((noinline)) static void ask(void) { line = polashvek_answer(input, length, answer, LINE); }

int main(void)
{
    u64 most = 0, yes = 0, no = 0;
    for (u32 at = 0; at < SHAPES * SHAPES * LABELS; at++) {
        draw(at % SHAPES, at / SHAPES % SHAPES, at / SHAPES / SHAPES + 1);
        length = 0;
        put_parcel(recipe_depths, recipe_labels, RECIPE);
        put_parcel(listing_depths, listing_labels, LISTING);
        u64 used = room();
        if (line == 0 || answer[0] == 'r') {
            printf("question %u: refused\n", at);
            return 1;
        }
        if (answer[0] == 'i') yes++;
        else no++;
        if (used > most) most = used;
    }
    printf("polashvek_answer: %lu yes and %lu no: at most %lu bytes of stack, of %d allowed\n", yes, no, most, MOST);
    return yes == 0 || no == 0 || most > MOST || most < 1024;
}
