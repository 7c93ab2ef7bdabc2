/* A small archiver's host: reads a file that holds a recipe's parcel followed by a listing's, asks
 * once, and acts on the three kinds of line.
 *
 *     cc examples/host.c $(pkg-config --cflags --libs polashvek) -o host && ./host question.parcels
 *
 * The exit status is what the archiver acts on. Only a line that says `included` releases a run: what
 * the host does not understand never does. */
#include <stdio.h>
#include <stdlib.h>
#include <string.h>

#include <polashvek.h>

enum status {
    RELEASE = 0,    /* the copy is whole: the instrument's disk may be wiped */
    KEEP = 1,       /* part of the recipe is missing: copy again */
    REFUSED = 2,    /* the question is not in order: docs/REFUSALS.md says what to do */
    UNREADABLE = 3, /* no file was named, or it cannot be read */
    FAULT = 4       /* the host itself is wrong: its buffer is too short, or it does not know the line */
};

/* One byte more than two parcels can have: no later byte of a longer file changes the line. */
static uint8_t input[POLASHVEK_INPUT_BYTES + 1];
/* One byte more than the longest line, for the zero that ends it as a C string. */
static char answer[POLASHVEK_ANSWER_BYTES + 1];

/* Reads as much of the file as the input has room for, and gives its length. */
static size_t read_input(const char *name)
{
    FILE *file = fopen(name, "rb");
    size_t length = file == NULL ? 0 : fread(input, 1, sizeof input, file);
    if (file == NULL || ferror(file)) {
        perror(name);
        exit(UNREADABLE);
    }
    fclose(file);
    return length;
}

/* Gives the number that stands at the cursor and moves the cursor behind it. */
static unsigned long next_number(char **cursor)
{
    return strtoul(*cursor, cursor, 10);
}

/* Yes: every recipe row has its image in the listing. */
static enum status release(char *numbers)
{
    unsigned long roots = next_number(&numbers);
    next_number(&numbers); /* the corner's row, 0 in a yes */
    printf("release: all of the recipe was found, outermost rows: %lu\n", roots);
    for (unsigned long row = 1; *numbers == ' '; row++) {
        unsigned long image = next_number(&numbers);
        printf("  recipe row %lu is listing row %lu\n", row, image);
    }
    return RELEASE;
}

/* No: the corner says how far the copy got. */
static enum status keep(char *numbers)
{
    unsigned long width = next_number(&numbers);
    unsigned long row = next_number(&numbers);
    printf("keep: found beneath recipe row %lu, counted from the left: %lu\n", row, width);
    return KEEP;
}

/* Refused: the number says why, the place says where. */
static enum status report(char *numbers)
{
    unsigned long number = next_number(&numbers);
    unsigned long place = next_number(&numbers);
    printf("report: refusal %lu at place %lu\n", number, place);
    return REFUSED;
}

int main(int argc, char **argv)
{
    if (argc != 2) {
        fprintf(stderr, "usage: host FILE\n");
        return UNREADABLE;
    }
    size_t input_length = read_input(argv[1]);
    size_t length = polashvek_answer(input, input_length, (uint8_t *)answer, POLASHVEK_ANSWER_BYTES);
    if (length == 0) { /* number 19: it cannot come while the buffer has the header's length */
        fprintf(stderr, "the answer buffer is too short\n");
        return FAULT;
    }
    answer[length] = 0;
    fputs(answer, stdout);
    if (strncmp(answer, "included ", 9) == 0)
        return release(answer + 9);
    if (strncmp(answer, "absent ", 7) == 0)
        return keep(answer + 7);
    if (strncmp(answer, "refused ", 8) == 0)
        return report(answer + 8);
    return FAULT;
}
