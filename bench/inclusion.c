/* Times the proved inclusion call beside three programs, in one run: the same algorithm in C, the table of Kilpelainen and Mannila in Rust, which
   is the second program's answer, and that table alone in C. The first judges the tables and clears its room as the proved call does, the second
   judges the tables and finds the corner too, the third does no more than yes or no, and on a yes the map. Each turn times them all on a case,
   and the best turn of each counts. Prints microseconds and ratios. Built without Rust it leaves the second program out. */
typedef unsigned short u16;
typedef unsigned int u32;
typedef unsigned long u64;

struct timespec { long seconds, nanoseconds; };
int clock_gettime(int clock, struct timespec *time);
int printf(const char *format, ...);
int memcmp(const void *a, const void *b, u64 size);
void *memset(void *at, int byte, u64 size);

u64 inclusion_bench_include(const u16 *listing_depths, u64 a, const u32 *listing_labels, u64 b, const u16 *recipe_depths, u64 c,
                            const u32 *recipe_labels, u64 d, u16 *map, u64 e);

enum { LISTING = 4096, RECIPE = 256, DEEPEST = 63, TURNS = 150, ROOM = 14592, LOG = 3072 };

static u16 td[LISTING], rd[RECIPE], map[RECIPE], map_c[RECIPE], map_s[RECIPE], map_t[RECIPE];
static u32 tl[LISTING], rl[RECIPE];
static int n, m; /* rows of the listing, rows of the recipe */
static u32 seed;

static u32 next(u32 below)
{
    seed = seed * 1664525u + 1013904223u;
    return (seed >> 8) % below;
}

/* ---- the same algorithm: corners of the chains asked; then an image for each row, by its label, by the log of an earlier pass, or by a
   pass that stops at the image and logs for each row it closes which rows of a path it includes. Rows of a path that are first children
   stand on one chain ---- */
enum { PATH = 63, PATH_RECIPE = 228, PATH_DEPTH = 4, PATH_LARGE = 15 };
static u16 parent[RECIPE + 1], right[RECIPE + 1], left[RECIPE + 1], leaf[RECIPE + 1], deep[RECIPE + 1];
static u16 asked[RECIPE], place[RECIPE + 1], room[ROOM], mark[RECIPE + 1];
static unsigned char logged[LOG]; /* six bits a row, as in the call */
static u16 kinds[128]; /* a bit for each kind of label: labels that leave the same remainder by 2,048 are of one kind */
static u16 last[LISTING + 1];

static void build(void)
{
    u16 open[DEEPEST + 2] = {0}, before[DEEPEST + 2] = {0};
    for (int v = 1; v <= m; v++) {
        int d = rd[v - 1];
        parent[v] = d ? open[d - 1] : 0;
        left[v] = before[d];
        if (left[v]) right[left[v]] = (u16)v;
        right[v] = 0, deep[v] = (u16)d;
        open[d] = before[d] = (u16)v, before[d + 1] = 0;
    }
    for (int i = 0; i < 128; i++)
        kinds[i] = 0;
    for (int v = m; v; v--)
        kinds[rl[v - 1] % 128] |= (u16)(1 << rl[v - 1] / 128 % 16);
    for (int v = m; v; v--)
        leaf[v] = v < m && rd[v] > rd[v - 1] ? leaf[v + 1] : (u16)v;
}

static u16 close_row(u32 name, u16 x, u16 w)
{
    if (w == 0) return rl[leaf[x] - 1] == name ? leaf[x] : 0;
    if (deep[w] == deep[x] || right[w]) return w;
    u16 v = parent[w];
    return rl[v - 1] == name ? v : w;
}

static u16 join_row(u16 a, u16 b, u16 w)
{
    if (a == 0) return b;
    if (b && deep[b] < deep[a]) return b;
    return w && deep[w] == deep[a] ? w : a;
}

/* what the log has for a row: of the first 3,072 six bits of one byte, of the others the upper two of three bytes */
static int read_log(int t)
{
    if (t < LOG) return logged[t] & 63;
    return logged[t - 3072] >> 6 | logged[t - 2048] >> 6 << 2 | logged[t - 1024] >> 6 << 4;
}

static void put_upper(int t, int bits)
{
    logged[t] = (unsigned char)(bits << 6 | (logged[t] & 63));
}

static void write_log(int t, int at, int k)
{
    if (!k) return;
    if (t < LOG) {
        logged[t] = (unsigned char)((logged[t] & 192) | at);
        return;
    }
    put_upper(t - 3072, at & 3), put_upper(t - 2048, at >> 2 & 3), put_upper(t - 1024, at >> 4);
}

/* the recipe has no label of this kind */
static int is_foreign(u32 name)
{
    return !(kinds[name % 128] >> name / 128 % 16 & 1);
}

/* behind the tree at this row where all rows below it are foreign, else 0 */
static int bare_end(int first)
{
    int at = first + 1;
    for (; at < n && td[at] > td[first]; at++)
        if (!is_foreign(tl[at])) return 0;
    return at;
}

/* what rows of this label give the z chains asked: no left-most leaf (0), or such a leaf (1) and the row that it needs next too (2) */
static int gain_of(int z, u32 name)
{
    int gain = 0;
    for (int i = 0; i < z; i++) {
        u16 v = leaf[asked[i]], y = right[v] ? right[v] : parent[v];
        if (rl[v - 1] != name) continue;
        if (y && rl[y - 1] == name) return 2;
        gain = 1;
    }
    return gain;
}

/* behind the tree at this row where its rows, at most 16, all bear one label, else 0 */
static int plain_end(int first)
{
    int at = first + 1;
    for (; at < n && td[at] > td[first]; at++)
        if (tl[at] != tl[first] || at > first + 15) return 0;
    return at;
}

/* joins a row of this label with nothing below it to the q corners from base on */
static void join_leaf(int base, int q, u32 name)
{
    for (int i = 0; i < q; i++) {
        u16 a = room[base + i], y = right[a];
        if (!a) room[base + i] = close_row(name, asked[i], 0);
        else if (y && leaf[y] == y && rl[y - 1] == name) room[base + i] = y;
    }
}

/* how far below the path's first row a tree includes it, by its corners on the path's k chains; at most 63, which is no place */
static int first_place(int base, int k)
{
    for (int i = 0; i < k; i++) {
        u16 w = room[base + i];
        if (w && (i + 1 == k || deep[w] < deep[asked[i + 1]])) {
            int levels = deep[w] - deep[asked[0]];
            return levels < PATH ? levels : PATH;
        }
    }
    return PATH;
}

/* A pass ends behind its rows, or at the first row to close that holds the first row of the path by the k chains that are asked first:
   that is the row's number, negative. */
static int forest_corners(int base, int q, int k, int first);

static int tree_corners(int base, int q, int k, int first)
{
    u32 name = tl[first];
    int bare = bare_end(first);
    if (bare) {
        write_log(first, PATH, k);
        join_leaf(base, q, name);
        return bare;
    }
    int z = q;
    for (int i = 0; i < q; i++) {
        u16 y = right[room[base + i]];
        if (y && !(place[y] < z && asked[place[y]] == y)) asked[z] = y, place[y] = (u16)z++;
    }
    int gain = name == tl[first + 1] ? gain_of(z, name) : 2, plain = gain < 2 ? plain_end(first) : 0;
    if (plain) {
        for (int t = first; t < plain; t++)
            write_log(t, PATH, k);
        if (gain) join_leaf(base, q, name);
        return plain;
    }
    int end = forest_corners(base + q, z, k, first + 1);
    if (end < 0) return end;
    for (int i = 0; i < z; i++)
        room[base + q + i] = close_row(name, asked[i], room[base + q + i]);
    int at = first_place(base + q, k);
    write_log(first, at, k);
    if (!at) return -(first + 1);
    for (int i = 0; i < q; i++) {
        u16 a = room[base + i], y = right[a];
        room[base + i] = join_row(a, room[base + q + i], y ? room[base + q + place[y]] : 0);
    }
    return end;
}

static int forest_corners(int base, int q, int k, int first)
{
    room[base] = 0;
    for (int i = 1; i < q; i++)
        room[base + i] = 0;
    int at = first;
    while (at >= 0 && at < n && td[at] >= td[first])
        at = is_foreign(tl[at]) ? at + 1 : tree_corners(base, q, k, at);
    return at;
}

static u16 seek_label(u32 name, int at)
{
    int hit = 0, stop = 0;
    for (; at < n && td[at] >= stop; at++)
        if (tl[at] == name) hit = at + 1, stop = td[at] + 1;
    return (u16)hit;
}

static u16 seek_logged(u32 name, int most, int at)
{
    int hit = 0, stop = 0;
    for (; at < n && td[at] >= stop; at++)
        if (tl[at] == name && read_log(at) <= most) hit = at + 1, stop = td[at] + 1;
    return (u16)hit;
}

/* of the children of row u the one with the most rows below it */
static u16 widest_child(u16 u)
{
    u16 best = (u16)(u + 1);
    int most = 0;
    for (u16 c = best; c; c = right[c]) {
        int below = 0;
        while (c + below < m && rd[c + below] > rd[c - 1])
            below++;
        if (most < below) most = below, best = c;
    }
    return best;
}

static u16 seek_path(u16 v, int at)
{
    int k = 1, most = m <= PATH_RECIPE ? PATH : deep[v] >= PATH_DEPTH ? PATH_LARGE : 1;
    asked[0] = v, place[v] = 0;
    u16 u = widest_child(v);
    for (u16 i = 1; i < PATH && leaf[u] != u; i++) {
        if (leaf[u] != leaf[asked[k - 1]]) {
            if (k == most) break;
            asked[k] = u, place[u] = (u16)k++;
        }
        mark[u] = i, u = widest_child(u);
    }
    while (at >= 0 && at < n)
        at = forest_corners(0, k, k, at);
    return (u16)-at;
}

static u16 seek(u16 v, int at)
{
    if (leaf[v] == v) return seek_label(rl[v - 1], at);
    return mark[v] ? seek_logged(rl[v - 1], mark[v], at) : seek_path(v, at);
}

static int has_label(u32 name)
{
    for (int at = 0; at < n; at++)
        if (tl[at] == name) return 1;
    return 0;
}

static int last_row(int t)
{
    int e = t;
    while (e < n && td[e] > td[t - 1])
        e++;
    return e;
}

static int is_good(const u16 *depths, int rows)
{
    int good = 1;
    u16 most = 0;
    for (int i = 0; i < rows; i++) {
        if (depths[i] > most) good = 0;
        most = depths[i] < DEEPEST ? (u16)(depths[i] + 1) : DEEPEST;
    }
    return good;
}

__attribute__((noinline)) static u64 same(void)
{
    if (!is_good(rd, m) || !is_good(td, n)) return (u64)1 << 40;
    memset(room, 0, sizeof room);
    build();
    int pass = 0;
    room[0] = 0;
    if (m == 1) room[0] = has_label(rl[0]);
    else if (n) asked[0] = 1, place[1] = 0, pass = forest_corners(0, 1, !right[1] && leaf[1] != 1, 0);
    u16 w = pass < 0 ? 1 : room[0];
    if (w == 0) return 2 * (u64)leaf[1];
    u64 width = 0;
    for (u16 u = w; u; u = left[u])
        width++;
    if (deep[w] || right[w]) return 2 * (65536 * width + parent[w]);
    for (u16 v = 1; v <= m; v++)
        mark[v] = 0;
    for (u16 i = 1; pass < 0 && i < PATH && leaf[i + 1] != i + 1; i++)
        mark[i + 1] = i;
    for (u16 v = 1; v <= m; v++) {
        int from = left[v] ? last_row(map_c[left[v] - 1]) : parent[v] ? map_c[parent[v] - 1] : 0;
        map_c[v - 1] = v == 1 && pass < 0 ? (u16)-pass : seek(v, from);
    }
    return 2 * (65536 * width) + 1;
}

/* ---- the table: for each recipe row and each place, the first to close of the listing rows from there on that hold the row ---- */
static u16 first_from[RECIPE + 1][LISTING + 2];

__attribute__((noinline)) static int table(void)
{
    build();
    for (int t = n; t; t--) {
        int e = t;
        while (e < n && td[e] > td[t - 1])
            e = last[e + 1];
        last[t] = (u16)e;
    }
    for (int v = m; v; v--) {
        u16 child = v < m && rd[v] > rd[v - 1] ? (u16)(v + 1) : 0, best = 0;
        first_from[v][n + 1] = 0;
        for (int t = n; t; t--) {
            int holds = tl[t - 1] == rl[v - 1], at = t + 1;
            for (u16 c = child; holds && c; c = right[c]) {
                u16 x = at <= n ? first_from[c][at] : 0;
                holds = x && x <= last[t];
                at = last[x] + 1;
            }
            /* t closes after every row below it, and before every row behind its tree */
            if (holds && !(best && best <= last[t])) best = (u16)t;
            first_from[v][t] = best;
        }
    }
    int at = 1;
    for (u16 c = 1; c; c = right[c]) {
        u16 x = at <= n ? first_from[c][at] : 0;
        if (!x) return 0;
        at = last[x] + 1;
    }
    for (u16 v = 1; v <= m; v++)
        map_t[v - 1] = first_from[v][(left[v] ? last[map_t[left[v] - 1]] : parent[v] ? map_t[parent[v] - 1] : 0) + 1];
    return 1;
}

/* ---- the cases ---- */
static int grow(u16 *depths, u32 *labels, int at, int limit, u16 depth, u32 label)
{
    if (at < limit) depths[at] = depth, labels[at] = label;
    return at + 1;
}

/* A run: folders of lanes, each with cycles, each with files. The copy has a log and a sum beside each file. */
static void run_folder(int lanes, int cycles)
{
    n = m = 0;
    m = grow(rd, rl, m, RECIPE, 0, 1), n = grow(td, tl, n, LISTING, 0, 1);
    for (int lane = 0; lane < lanes; lane++) {
        m = grow(rd, rl, m, RECIPE, 1, 10u + lane), n = grow(td, tl, n, LISTING, 1, 10u + lane);
        for (int cycle = 0; cycle < cycles; cycle++) {
            m = grow(rd, rl, m, RECIPE, 2, 100u + cycle), n = grow(td, tl, n, LISTING, 2, 100u + cycle);
            for (int extra = 0; extra < 18; extra++)
                n = grow(td, tl, n, LISTING, 3, 1000u + extra);
        }
    }
    if (m > RECIPE) m = RECIPE;
    if (n > LISTING) n = LISTING;
}

/* The comb: one label, a leaf and the next link below each link. The recipe has half as many links as the listing, and its last row
   the label given. */
static void comb(int height, u32 last)
{
    n = m = 0;
    for (int i = 0; i < 2 * (height / 2) - 1; i++) m = grow(rd, rl, m, RECIPE, (u16)((i + 1) / 2), 1);
    for (int i = 0; i < 2 * height - 1; i++) n = grow(td, tl, n, LISTING, (u16)((i + 1) / 2), 1);
    rl[m - 1] = last;
}

/* A comb with so many leaves left of each link, in a listing that has it once, with other rows behind the leaves: chains that go down so
   many rows, all of one label. The recipe's last row has the label 2. */
static void comb_among(int height, int leaves, int others, int chain, u32 label)
{
    n = m = 0;
    for (int d = 0; d < height; d++) {
        m = grow(rd, rl, m, RECIPE, (u16)d, 1), n = grow(td, tl, n, LISTING, (u16)d, 1);
        for (int i = 0; d + 1 < height && i < leaves; i++)
            m = grow(rd, rl, m, RECIPE, (u16)(d + 1), 1), n = grow(td, tl, n, LISTING, (u16)(d + 1), 1);
        for (int i = 0; d + 1 < height && i < others; i++)
            for (int k = 1; k <= chain && d + k <= DEEPEST; k++) n = grow(td, tl, n, LISTING, (u16)(d + k), label);
    }
    rl[m - 1] = tl[n - 1] = 2;
}

/* Roots alone, in a listing whose levels have 1, 2, 4 and so on such rows before they go down: of the rows at the bottom all chains are
   asked. */
static void all_asked(void)
{
    n = m = 0;
    while (m < RECIPE) m = grow(rd, rl, m, RECIPE, 0, 1);
    for (int depth = 0; depth < 8; depth++)
        for (int i = 0; i < 1 << depth; i++) n = grow(td, tl, n, LISTING, (u16)depth, 1);
    while (n < LISTING) n = grow(td, tl, n, LISTING, 8, 2);
    rl[m - 1] = 2;
}

/* One row, in a listing of rows of its kind that go down again and again and bear another label. */
static void one_row(int height)
{
    n = m = 0;
    m = grow(rd, rl, m, RECIPE, 0, 2049);
    for (int i = 0; i < 4000; i++) n = grow(td, tl, n, LISTING, (u16)(i % height), 1);
}

/* A chain of eight rows, in a listing that has it once, with chains of nine rows behind each that bear its labels in another order. */
static void chain_among(void)
{
    static const u32 names[8] = {1, 3, 2, 3, 3, 2, 2, 4};
    n = m = 0;
    for (int d = 0; d < 8; d++) {
        m = grow(rd, rl, m, RECIPE, (u16)d, names[d]), n = grow(td, tl, n, LISTING, (u16)d, names[d]);
        for (int i = 0; d < 7 && i < 62; i++)
            for (int k = 0; k < 9; k++) n = grow(td, tl, n, LISTING, (u16)(d + 1 + k), (u32)(1 + k % 4));
    }
}

static void chance(u32 labels, int flat, int slope)
{
    n = LISTING, m = RECIPE;
    for (int i = 0; i < m; i++) {
        int most = i ? rd[i - 1] + 1 : 0;
        rd[i] = (u16)(flat ? i > 0 : (int)next((u32)most + 1));
        if (rd[i] > DEEPEST) rd[i] = DEEPEST;
        rl[i] = next(labels);
    }
    for (int i = 0; i < n; i++) {
        int most = i ? td[i - 1] + 1 : 0;
        td[i] = (u16)(next(10) < (u32)slope ? most : (int)next((u32)most + 1));
        if (td[i] > DEEPEST) td[i] = DEEPEST;
        tl[i] = next(labels);
    }
}

static double now(void)
{
    struct timespec t;
    clock_gettime(1, &t);
    return (double)t.seconds * 1e6 + (double)t.nanoseconds / 1e3;
}

static u64 answer, answer_c, answer_s;
static int answer_t;

/* the second program's answer, where it is linked */
typedef u64 second_program(const u16 *listing_depths, const u32 *listing_labels, u64 listing, const u16 *recipe_depths, const u32 *recipe_labels,
                           u64 recipe, u16 *map);
static second_program *in_rust;

static void proved(void) { answer = inclusion_bench_include(td, n, tl, n, rd, m, rl, m, map, m); }
static void in_c(void) { answer_c = same(); }
static void by_table(void) { answer_t = table(); }
static void by_second(void) { answer_s = in_rust(td, tl, n, rd, rl, m, map_s); }

static double timed(void (*call)(void), double best, int calls)
{
    double start = now();
    for (int i = 0; i < calls; i++)
        call();
    double took = (now() - start) / calls;
    return best < 0 || took < best ? took : best;
}

/* the best times of so many turns: of the call, of the same algorithm, of the second program and of the table alone */
static struct times { double proved, same, second, table; } best;

static int measure(int turns)
{
    struct times t = {-1, -1, -1, -1};
    for (int turn = 0; turn < turns; turn++) {
        t.proved = timed(proved, t.proved, 4), t.same = timed(in_c, t.same, 4), t.table = timed(by_table, t.table, 1);
        if (in_rust) t.second = timed(by_second, t.second, 1);
    }
    best = t;
    u64 maps = answer & 1 ? 2u * m : 0;
    int differ = answer != answer_c || (int)(answer & 1) != answer_t || memcmp(map, map_c, maps) || memcmp(map, map_t, maps);
    if (in_rust) differ |= answer != answer_s || memcmp(map, map_s, maps);
    if (differ) printf("%d x %d: the answers differ: %lu %lu %lu %d\n", m, n, answer, answer_c, answer_s, answer_t);
    return differ;
}

static int measure_case(const char *name)
{
    int wrong = measure(TURNS);
    printf("%-28s %4d x %4d  %-3s %9.1f us   same algorithm %5.2f", name, m, n, answer & 1 ? "yes" : "no", best.proved, best.proved / best.same);
    if (in_rust) printf("   table in Rust %6.3f", best.proved / best.second);
    printf("   table alone in C %6.3f\n", best.proved / best.table);
    return wrong;
}

/* ---- questions by chance: a recipe, and a listing that has it, mostly, among trees of rows with its labels ---- */
enum { QUESTIONS = 600, SMALL = 12, SHORT = 2 };

static void recipe_by_chance(int rows, u32 labels)
{
    u32 shape = next(4);
    for (m = 0; m < rows;) {
        int most = m ? rd[m - 1] + 1 : 0, any = 1 + (int)next((u32)most + 1), down = shape == 0 || (shape == 2 && next(4));
        if (most > 40) most = 40;
        int depth = shape == 3 && next(8) == 0 ? 0 : down || any > most ? most : any;
        m = grow(rd, rl, m, RECIPE, (u16)depth, 1 + next(labels));
    }
}

/* a tree of so many rows: labels by chance, in turn, of the recipe, or of its last row alone */
static void tree_by_chance(int depth, int rows, u32 labels, u32 kind)
{
    int at = depth;
    for (int i = 0; i < rows; i++) {
        u32 label = kind == 0 ? 1 + next(labels) : kind == 1 ? 1 + (u32)i % labels : rl[kind == 2 ? (int)next((u32)m) : m - 1];
        n = grow(td, tl, n, LISTING, (u16)at, label);
        at = kind == 1 || next(3) ? at + 1 : depth + (int)next((u32)(at - depth + 1));
        if (at > DEEPEST) at = DEEPEST;
    }
}

static void question_by_chance(int rows)
{
    u32 labels = 1 + next(5), kind = next(4), most = 1 + next(12), lost = next(4) == 0;
    recipe_by_chance(1 + (int)next((u32)rows), labels);
    int between = next(8) ? 3900 / m - 1 : 0;
    if (between && next(4) == 0) between = (int)next((u32)between);
    n = 0;
    for (int v = 0; v < m && n < 4000; v++) {
        if (!lost || v + 1 < m) n = grow(td, tl, n, LISTING, rd[v], rl[v]);
        int below = v + 1 < m && rd[v + 1] > rd[v], end = n + between;
        while (n && n < end && n < 4000)
            tree_by_chance(rd[v] + below, 1 + (int)next(most), labels, kind);
    }
}

/* the hardest questions so far for one table, by the ratio to it */
struct hardest { double most; int rows, listing, over, over_short; };

static void note(struct hardest *h, double ratio)
{
    h->over += ratio > 1.3, h->over_short += ratio > 1.3 && best.proved < SHORT;
    if (best.proved >= SHORT && ratio > h->most) h->most = ratio, h->rows = m, h->listing = n;
}

static void print_hardest(const char *name, const struct hardest *h)
{
    printf("  %s: over 1.3 in %d, of them %d that take under %d us; of the others at most %.2f, %d x %d\n", name, h->over, h->over_short, SHORT, h->most,
           h->rows, h->listing);
}

static int by_chance(void)
{
    struct hardest rust = {0, 0, 0, 0, 0}, alone = {0, 0, 0, 0, 0}, same_way = {0, 0, 0, 0, 0};
    int wrong = 0;
    for (int i = 0; i < QUESTIONS; i++) {
        question_by_chance(i % 4 ? SMALL : RECIPE - 6);
        wrong |= measure(9);
        if (best.proved > 1.3 * best.table) wrong |= measure(40);
        note(&same_way, best.proved / best.same), note(&alone, best.proved / best.table);
        if (in_rust) note(&rust, best.proved / best.second);
    }
    printf("%d questions by chance\n", QUESTIONS);
    print_hardest("same algorithm", &same_way);
    if (in_rust) print_hardest("table in Rust", &rust);
    print_hardest("table alone in C", &alone);
    return wrong;
}

int inclusion_bench(second_program *second)
{
    int wrong = 0;
    in_rust = second;
    seed = 7;
    printf("microseconds of the proved call, then its ratio to each peer\n");
    run_folder(10, 20), wrong |= measure_case("run folder, whole");
    run_folder(10, 20), tl[n - 19] = 5, wrong |= measure_case("run folder, one row lost");
    run_folder(10, 20), m = 19, wrong |= measure_case("run folder, small recipe");
    comb(26, 2), wrong |= measure_case("comb, h = 26, last row lost");
    comb(63, 2), wrong |= measure_case("comb, h = 63, last row lost");
    comb(26, 1), wrong |= measure_case("comb, h = 26");
    comb(63, 1), wrong |= measure_case("comb, h = 63");
    comb_among(63, 1, 62, 1, 2), wrong |= measure_case("comb among others, h = 63");
    comb_among(63, 1, 31, 2, 2), wrong |= measure_case("comb among pairs, h = 63");
    comb_among(63, 1, 31, 2, 3), wrong |= measure_case("comb among foreign pairs");
    comb_among(63, 3, 60, 1, 2), wrong |= measure_case("large comb among others");
    comb_among(5, 1, 100, 10, 2), wrong |= measure_case("small comb among chains");
    chain_among(), wrong |= measure_case("chain among mixed chains");
    one_row(14), wrong |= measure_case("one row among its kind");
    all_asked(), wrong |= measure_case("all chains asked");
    chance(1, 0, 0), wrong |= measure_case("one label, by chance");
    chance(2, 0, 8), wrong |= measure_case("two labels, deep");
    chance(1, 1, 8), wrong |= measure_case("star in a deep listing");
    return wrong | by_chance();
}

#ifndef WITH_SECOND
int main(void) { return inclusion_bench(0); }
#endif
