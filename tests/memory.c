/* Lends framed inputs (a 4-byte little-endian length, then the bytes) to the C entry from buffers of exactly the length given, and
   writes the line of each. Every call is made on the heap, where valgrind knows the ends of a buffer, and between two pages that
   nobody may touch, once up to the second and once from the first on, where a byte too far stops any program. */
#define _DEFAULT_SOURCE
#include <polashvek.h>
#include <stdio.h>
#include <stdlib.h>
#include <string.h>
#include <sys/mman.h>
#include <unistd.h>

enum { MOST = 1 << 16, LONG = 4096, CUTS = 16, PAINT = 0xEE, LINE = POLASHVEK_ANSWER_BYTES };

static const size_t rooms[] = {0, LINE - 1, LINE, LINE + 1};
static uint8_t bytes[MOST], painted[LINE + 1], line[LINE];
static uint8_t *fenced_input, *fenced_answer;
static unsigned long inputs, calls;

static void need(int holds, const char *what)
{
    if (holds) return;
    fprintf(stderr, "input %lu: %s\n", inputs, what);
    exit(1);
}

/* Bytes between two pages that may not be touched. */
static uint8_t *fenced(void)
{
    size_t page = (size_t)sysconf(_SC_PAGESIZE);
    uint8_t *base = mmap(NULL, MOST + 2 * page, PROT_NONE, MAP_PRIVATE | MAP_ANONYMOUS, -1, 0);
    need(base != MAP_FAILED && mprotect(base + page, MOST, PROT_READ | PROT_WRITE) == 0, "no memory");
    return base + page;
}

/* One call. The first line of an input is kept, and each later one is held to it. */
static void ask(const uint8_t *input, size_t length, uint8_t *answer, size_t room, size_t *kept)
{
    memset(answer, PAINT, room);
    size_t got = polashvek_answer(input, length, answer, room);
    calls++;
    need(memcmp(input, bytes, length) == 0, "the input has changed");
    need(got <= room && memcmp(answer + got, painted, room - got) == 0, "a byte behind the line has changed");
    need((got == 0) == (room < LINE), "a line just where there is room for the longest");
    if (got == 0) return;
    if (*kept == 0) memcpy(line, answer, *kept = got);
    need(got == *kept && memcmp(answer, line, got) == 0, "another line");
}

/* Every call on the first bytes of the input; gives the length of their line. */
static size_t play(size_t length)
{
    size_t kept = 0;
    inputs++;
    for (size_t i = 0; i < sizeof rooms / sizeof *rooms; i++) {
        size_t room = rooms[i];
        uint8_t *input = malloc(length), *answer = malloc(room);
        need(input != NULL && answer != NULL, "no memory");
        memcpy(input, bytes, length);
        ask(input, length, answer, room, &kept);
        free(input);
        free(answer);
        for (int front = 0; front < 2; front++) {
            input = fenced_input + (front ? 0 : MOST - length);
            memcpy(input, bytes, length);
            ask(input, length, fenced_answer + (front ? 0 : MOST - room), room, &kept);
        }
    }
    return kept;
}

int main(void)
{
    uint8_t head[4];
    memset(painted, PAINT, sizeof painted);
    fenced_input = fenced(), fenced_answer = fenced();
    need(polashvek_answer(NULL, 0, NULL, 0) == 0, "nothing lent");
    need(polashvek_answer(NULL, 0, fenced_answer, LINE) == 13 && memcmp(fenced_answer, "refused 11 0\n", 13) == 0, "no input lent");
    while (fread(head, 1, 4, stdin) == 4) {
        size_t length = head[0] | (size_t)head[1] << 8 | (size_t)head[2] << 16 | (size_t)head[3] << 24;
        need(length <= MOST && fread(bytes, 1, length, stdin) == length, "the file of cases is cut");
        /* a long input is cut, too, at some places */
        for (size_t cut = 1; length > LONG && cut < CUTS; cut++)
            play(length * cut / CUTS);
        size_t got = play(length);
        fwrite(line, 1, got, stdout);
    }
    fprintf(stderr, "%lu inputs, %lu calls", inputs, calls);
    return inputs == 0;
}
