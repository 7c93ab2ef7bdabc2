/* Times the proved reader and writer beside plain ones of the same format, on a listing of 4,096 rows, in one run: each turn times
   all of them, and the best turn of each counts. Prints the ratios, and the bytes per second beside a memory copy. */
typedef unsigned char u8;
typedef unsigned short u16;
typedef unsigned int u32;
typedef unsigned long usize;

struct timespec { long seconds, nanoseconds; };
int clock_gettime(int clock, struct timespec *time);
int printf(const char *format, ...);
void *memcpy(void *to, const void *from, usize size);
int memcmp(const void *a, const void *b, usize size);

usize parcel_bench_read(const u8 *bytes, usize length, u16 *depths, usize depth_slots, u32 *labels, usize label_slots);
usize parcel_bench_write(const u16 *depths, usize depth_slots, const u32 *labels, usize label_slots, u8 *bytes, usize length);

enum { ROWS = 4096, LENGTH = 20 + 6 * ROWS, TURNS = 40, CALLS = 50 };

static u32 word(const u8 *p) { return p[0] | (u32)p[1] << 8 | (u32)p[2] << 16 | (u32)p[3] << 24; }
static u16 half(const u8 *p) { return (u16)(p[0] | p[1] << 8); }
static void put_word(u8 *p, u32 x) { p[0] = (u8)x; p[1] = (u8)(x >> 8); p[2] = (u8)(x >> 16); p[3] = (u8)(x >> 24); }
static void put_half(u8 *p, u16 x) { p[0] = (u8)x; p[1] = (u8)(x >> 8); }

__attribute__((noinline)) static usize plain_read(const u8 *b, usize length, u16 *depths, usize depth_slots, u32 *labels, usize label_slots)
{
    if (length < 4) return 0;
    u32 n = word(b);
    if (n > 4096 || length < 20 + 6 * (usize)n) return 0;
    const u8 *l = b + 4, *d = b + 8 + 4 * (usize)n, *s = b + 12 + 6 * (usize)n;
    if (word(d - 4) != n || word(s - 4) != 2) return 0;
    u32 first = n, second = n;
    for (u32 i = 0; i < n; i++) { first += word(l + 4 * i); second += first; }
    for (u32 i = 0; i < n; i++) { first += half(d + 2 * i); second += first; }
    if (word(s) != first || word(s + 4) != second || depth_slots < n || label_slots < n) return 0;
    for (u32 i = 0; i < n; i++) labels[i] = word(l + 4 * i);
    for (u32 i = 0; i < n; i++) depths[i] = half(d + 2 * i);
    return 20 + 6 * (usize)n;
}

__attribute__((noinline)) static usize plain_write(const u16 *depths, usize depth_slots, const u32 *labels, usize n, u8 *b, usize length)
{
    if (depth_slots != n || n > 4096 || length < 20 + 6 * n) return 0;
    u32 first = (u32)n, second = (u32)n;
    for (usize i = 0; i < n; i++) { first += labels[i]; second += first; }
    for (usize i = 0; i < n; i++) { first += depths[i]; second += first; }
    put_word(b, (u32)n);
    for (usize i = 0; i < n; i++) put_word(b + 4 + 4 * i, labels[i]);
    put_word(b + 4 + 4 * n, (u32)n);
    for (usize i = 0; i < n; i++) put_half(b + 8 + 4 * n + 2 * i, depths[i]);
    put_word(b + 8 + 6 * n, 2);
    put_word(b + 12 + 6 * n, first);
    put_word(b + 16 + 6 * n, second);
    return 20 + 6 * n;
}

static u16 depths[ROWS], depths_read[ROWS];
static u32 labels[ROWS], labels_read[ROWS];
static u8 bytes[LENGTH], other[LENGTH];
static usize kept;

static double now(void)
{
    struct timespec t;
    clock_gettime(1, &t);
    return (double)t.seconds * 1e9 + (double)t.nanoseconds;
}

static void call(int which)
{
    switch (which) {
    case 0: kept += parcel_bench_read(bytes, LENGTH, depths_read, ROWS, labels_read, ROWS); break;
    case 1: kept += plain_read(bytes, LENGTH, depths_read, ROWS, labels_read, ROWS); break;
    case 2: kept += parcel_bench_write(depths, ROWS, labels, ROWS, other, LENGTH); break;
    case 3: kept += plain_write(depths, ROWS, labels, ROWS, other, LENGTH); break;
    default: memcpy(other, bytes, LENGTH); kept += other[kept % LENGTH] ? LENGTH : LENGTH; break;
    }
}

int main(void)
{
    u32 seed = 1;
    for (u32 i = 0; i < ROWS; i++) {
        seed = seed * 1664525 + 1013904223;
        labels[i] = seed;
        depths[i] = (u16)(seed >> 20);
    }
    if (plain_write(depths, ROWS, labels, ROWS, bytes, LENGTH) != LENGTH) return 1;
    if (parcel_bench_write(depths, ROWS, labels, ROWS, other, LENGTH) != LENGTH || memcmp(bytes, other, LENGTH)) return 1;
    if (parcel_bench_read(bytes, LENGTH, depths_read, ROWS, labels_read, ROWS) != LENGTH) return 1;
    if (memcmp(depths, depths_read, sizeof depths) || memcmp(labels, labels_read, sizeof labels)) return 1;
    double best[5] = {1e18, 1e18, 1e18, 1e18, 1e18};
    for (int turn = 0; turn < TURNS; turn++)
        for (int which = 0; which < 5; which++) {
            double from = now();
            for (int i = 0; i < CALLS; i++) call(which);
            double took = (now() - from) / CALLS;
            if (took < best[which]) best[which] = took;
        }
    printf("read 4096 rows: %.0f ns, plain %.0f ns, ratio %.2f, %.0f MB/s\n", best[0], best[1], best[0] / best[1], LENGTH * 1e3 / best[0]);
    printf("write 4096 rows: %.0f ns, plain %.0f ns, ratio %.2f, %.0f MB/s\n", best[2], best[3], best[2] / best[3], LENGTH * 1e3 / best[2]);
    printf("memory copy of %d bytes: %.0f ns, %.0f MB/s\n", LENGTH, best[4], LENGTH * 1e3 / best[4]);
    return kept == 0;
}
