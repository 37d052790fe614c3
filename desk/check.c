/*
 * The desk tool: it says whether a file holds a sound arena, as bytes or as a picture. To build it and run it:
 * bash desk/run FILE, or bash desk/run --picture FILE; the head of that script has the rest.
 */
#include <errno.h>
#include <inttypes.h>
#include <stdbool.h>
#include <stdio.h>
#include <stdlib.h>
#include <string.h>

#include "zandervlecht.h"

#define SAY "say bash desk/run FILE, or bash desk/run --picture FILE"

/* The statuses with which it ends where it has no code to end with. */
enum { NOT_TOLD = 64, NOT_READ = 66, NOT_WRITTEN = 74 };

/* The bytes of a word, and of the longest arena. */
enum { WORD_BYTES = 4, LONGEST_ARENA = WORD_BYTES * ZV_GREATEST_WORDS };

/*
 * A line of a picture: two digits that say which kind it is, four of a number, its words if it has any, and LF. As many
 * words as the number of the first line can say make the longest picture.
 */
enum {
    KIND_DIGITS = 2,
    NUMBER_DIGITS = 4,
    WORD_DIGITS = 8,
    LINE_WORDS = 8,
    MOST_WORDS = 0xFFFF,
    LINE_BYTES = KIND_DIGITS + NUMBER_DIGITS + 1,
    MOST_LINES = 1 + (MOST_WORDS + LINE_WORDS - 1) / LINE_WORDS,
    LONGEST_PICTURE = MOST_LINES * LINE_BYTES + MOST_WORDS * WORD_DIGITS
};

/* What was found: the code, and of how many words it speaks. */
struct finding {
    uint32_t code;
    size_t words;
};

/*
 * What was read of the file, at most one byte more than the longest arena or picture has: of a longer file that many
 * bytes get the code of them all, since both are too many.
 */
static uint8_t content[LONGEST_PICTURE + 1];

/* Where a picture is read to. */
static uint32_t arena[MOST_WORDS];

/* Ends the program with a complaint. */
static void give_up(int status, const char *what, const char *complaint)
{
    fprintf(stderr, "desk/check: %s: %s\n", what, complaint);
    exit(status);
}

/* Reads a file, at most so many bytes of it, and gives how many they were. */
static size_t read_file(const char *name, size_t most)
{
    FILE *file = strcmp(name, "-") == 0 ? stdin : fopen(name, "rb");
    size_t bytes = file != NULL ? fread(content, 1, most, file) : 0;
    if (file == NULL || ferror(file))
        give_up(NOT_READ, name, strerror(errno));
    fclose(file);
    return bytes;
}

/* Whether the file is an arena, as bytes. */
static struct finding check_bytes(const char *name)
{
    size_t bytes = read_file(name, LONGEST_ARENA + 1);
    return (struct finding){zv_check(content, bytes), bytes / WORD_BYTES};
}

/* The number in the first line of a picture. Of any other text zv_read says that it is none, whatever is lent. */
static size_t number_of(size_t bytes)
{
    char digits[NUMBER_DIGITS + 1] = "";
    if (bytes >= LINE_BYTES)
        memcpy(digits, content + KIND_DIGITS, NUMBER_DIGITS);
    unsigned long number = strtoul(digits, NULL, 16);
    return number <= MOST_WORDS ? number : 0;
}

/* Whether the file is a picture of an arena. */
static struct finding check_picture(const char *name)
{
    size_t bytes = read_file(name, LONGEST_PICTURE + 1);
    size_t words = number_of(bytes);
    return (struct finding){zv_read(content, bytes, arena, words), words};
}

/* Prints the code and what it means. */
static void tell(struct finding found)
{
    printf("%" PRIu32 ": ", found.code);
    switch (found.code) {
    case ZV_DONE:
        printf("a sound arena of %zu words\n", found.words);
        break;
    case ZV_LENGTH:
        printf("no arena has this length: it is an even number of words from %d to %d, as bytes four to a word\n",
               ZV_LEAST_WORDS, ZV_GREATEST_WORDS);
        break;
    case ZV_DAMAGED:
        printf("these %zu words are no sound arena\n", found.words);
        break;
    default:
        printf("these lines are no picture of an arena\n");
        break;
    }
    if (fflush(stdout) != 0)
        give_up(NOT_WRITTEN, "standard output", strerror(errno));
}

/* The one file that these words name. */
static const char *file_named(int count, char **words)
{
    for (int at = 0; at < count; at++)
        if (words[at][0] == '-' && words[at][1] != '\0')
            give_up(NOT_TOLD, words[at], "there is no such option; " SAY);
    if (count == 0)
        give_up(NOT_TOLD, "no file is named", SAY);
    if (count > 1)
        give_up(NOT_TOLD, words[1], "one file at a time; " SAY);
    return words[0];
}

int main(int count, char **words)
{
    bool picture = count > 1 && strcmp(words[1], "--picture") == 0;
    int before = picture ? 2 : 1;
    const char *name = file_named(count - before, words + before);
    struct finding found = picture ? check_picture(name) : check_bytes(name);
    tell(found);
    return (int)found.code;
}
