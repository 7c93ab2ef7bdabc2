/* Reads framed inputs on standard input (a 4-byte little-endian length, then the bytes) and writes the line of each, as the C entry
   gives it. It stops where a call changes a byte that it must not: behind the line, in a buffer one byte too short, or of the input. */
typedef unsigned char u8;
typedef unsigned int u32;
typedef unsigned long u64;

typedef struct file file;
extern file *stdin, *stdout, *stderr;
u64 fread(void *to, u64 size, u64 count, file *from);
u64 fwrite(const void *from, u64 size, u64 count, file *to);
int fprintf(file *to, const char *format, ...);
int memcmp(const void *a, const void *b, u64 size);
void *memset(void *to, int byte, u64 size);
void *memcpy(void *to, const void *from, u64 size);

u64 polashvek_answer(const u8 *input, u64 input_length, u8 *answer, u64 answer_length);

enum { LINE = 1295, INPUT = 1 << 20, PAINT = 0xEE };

static u8 input[INPUT], before[INPUT], answer[LINE + 8], painted[LINE + 8];

static int wrong(u64 at, const char *what)
{
    fprintf(stderr, "case %lu: %s\n", at, what);
    return 1;
}

/* One case: its line, or what is wrong with it. */
static const char *play(u64 length)
{
    memcpy(before, input, length);
    memset(answer, PAINT, sizeof answer);
    if (polashvek_answer(input, length, answer, LINE - 1) != 0 || memcmp(answer, painted, sizeof answer) != 0)
        return "a buffer too short was written to";
    u64 line = polashvek_answer(input, length, answer, LINE);
    if (line == 0 || line > LINE || answer[line - 1] != '\n')
        return "no line";
    if (memcmp(answer + line, painted, sizeof answer - line) != 0)
        return "a byte behind the line has changed";
    if (memcmp(before, input, length) != 0)
        return "the input has changed";
    fwrite(answer, 1, line, stdout);
    return 0;
}

int main(void)
{
    u8 head[4];
    memset(painted, PAINT, sizeof painted);
    for (u64 at = 1; fread(head, 1, 4, stdin) == 4; at++) {
        u64 length = head[0] | (u32)head[1] << 8 | (u32)head[2] << 16 | (u64)head[3] << 24;
        if (length > INPUT || fread(input, 1, length, stdin) != length)
            return wrong(at, "the file of cases is cut");
        const char *what = play(length);
        if (what)
            return wrong(at, what);
    }
    return 0;
}
