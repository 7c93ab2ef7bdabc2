/* What the tests of the stack share: the hard questions, and a call on a stack of its own that is painted before; the lowest byte that
   lost its paint tells how deep the call went. Who includes it defines ask(). */
typedef unsigned char u8;
typedef unsigned short u16;
typedef unsigned int u32;
typedef unsigned long u64;

int printf(const char *format, ...);

enum { LISTING = 4096, RECIPE = 256, DEEPEST = 63, STACK = 1 << 20, PAINT = 0xA5, SHAPES = 5, LABELS = 3 };

static u16 listing_depths[LISTING], recipe_depths[RECIPE];
static u32 listing_labels[LISTING], recipe_labels[RECIPE];
static u8 stack[STACK] __attribute__((aligned(16)));
static u32 seed = 1;

static void ask(void);

static u32 next(u32 below)
{
    seed = seed * 1664525u + 1013904223u;
    return (seed >> 8) % below;
}

/* Calls ask() with the stack pointer at the top of the painted stack. */
static u64 room(void)
{
    for (u64 i = 0; i < STACK; i++)
        stack[i] = PAINT;
    __asm__ volatile("movq %%rsp, %%rbx\n\tmovq %0, %%rsp\n\tcall *%1\n\tmovq %%rbx, %%rsp"
                     :
                     : "r"(stack + STACK), "r"(ask)
                     : "rbx", "rax", "rcx", "rdx", "rsi", "rdi", "r8", "r9", "r10", "r11", "memory", "cc", "xmm0", "xmm1", "xmm2", "xmm3", "xmm4",
                       "xmm5", "xmm6", "xmm7", "xmm8", "xmm9", "xmm10", "xmm11", "xmm12", "xmm13", "xmm14", "xmm15");
    u64 low = 0;
    while (low < STACK && stack[low] == PAINT)
        low++;
    return STACK - low;
}

/* The recipes: roots side by side, a star, a chain to the deepest row, a comb, and one drawn by chance. */
static u16 recipe_depth(u32 kind, u32 row, u16 before)
{
    switch (kind) {
    case 0: return 0;
    case 1: return row > 0;
    case 2: return row <= DEEPEST ? row : DEEPEST;
    case 3: return row % 2 ? row / 2 % DEEPEST + 1 : row / 2 % DEEPEST;
    default: return row == 0 ? 0 : next(before < DEEPEST ? before + 2u : DEEPEST + 1u);
    }
}

/* The listings: to the deepest row again and again, a stair, zigzags at the bottom, and one drawn by chance. */
static u16 listing_depth(u32 kind, u32 row, u16 before)
{
    switch (kind) {
    case 0: return row % (DEEPEST + 1);
    case 1: return row <= DEEPEST ? row : DEEPEST;
    case 2: return row <= DEEPEST ? row : DEEPEST - row % 2;
    case 3: return row % (2 * DEEPEST) <= DEEPEST ? row % (2 * DEEPEST) : 2 * DEEPEST - row % (2 * DEEPEST);
    default: return row == 0 ? 0 : next(before < DEEPEST ? before + 2u : DEEPEST + 1u);
    }
}

static void draw(u32 recipe, u32 listing, u32 labels)
{
    for (u32 i = 0; i < RECIPE; i++) {
        recipe_depths[i] = recipe_depth(recipe, i, i ? recipe_depths[i - 1] : 0);
        if (i && recipe_depths[i] > recipe_depths[i - 1] + 1)
            recipe_depths[i] = recipe_depths[i - 1] + 1;
        recipe_labels[i] = next(labels);
    }
    for (u32 i = 0; i < LISTING; i++) {
        listing_depths[i] = listing_depth(listing, i, i ? listing_depths[i - 1] : 0);
        if (i && listing_depths[i] > listing_depths[i - 1] + 1)
            listing_depths[i] = listing_depths[i - 1] + 1;
        listing_labels[i] = next(labels);
    }
}
