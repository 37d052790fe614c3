/*
 * Measures the calls for pictures against the same calls in plain C, and then the stack that they take.
 *
 *     pictures [--quick] [--emulated] [--control] [--spoil code|answer|word|text]
 *
 * The words mean what they mean to the program bench. Both libraries are compared first, as there: on every call that
 * will be timed, and on many that are refused.
 */
#include <stdio.h>
#include <stdlib.h>
#include <string.h>

#include "album.h"
#include "comparing.h"
#include "measuring.h"
#include "painting.h"

enum { OURS, PLAIN };

/* The picture that is tried in many ways: its words, its bytes, and what is tried beyond these. */
enum { TRIED_WORDS = 64, TRIED_BYTES = 7 + TRIED_WORDS * 8 + TRIED_WORDS / 8 * 7, EXCESS = 8 };

enum { LENGTHS = 3 };

/* What the compared calls have to answer, each of them at least once; a bit for each code. */
#define CODES_TO_SEE (1u << ZV_DONE | 1u << ZV_LENGTH | 1u << ZV_DAMAGED | 1u << ZV_FRAME | 1u << ZV_TEXT_ROOM)

/* The call whose stack is measured. */
struct errand {
    const struct library *library;
    const struct turn *turn;
    size_t words;
};

static const size_t lengths[LENGTHS] = {64, 1024, 16384};
static const struct library *measured = &ours;
static double seconds_a_row = 0.6;
static int emulated;

/* An album, and its arenas for each player; they lie alike in their pages. */
static uint32_t arenas[2][ALBUM_WORDS] __attribute__((aligned(4096)));
static struct album album;
static struct times times;
static struct errand errand;
static uint32_t codes_seen;

static void give_up(const char *what)
{
    fprintf(stderr, "pictures: %s\n", what);
    exit(1);
}

/* Makes a call for each arena of the album through both libraries. */
static void compare_turn(const struct turn *turn, size_t words)
{
    struct part part = {.album = &album};

    begin_comparing(arenas[OURS], ALBUM_WORDS, turn->name);
    if (turn->make(&both, arenas[OURS], words, &part) != turn->codes)
        give_up("a call was answered with another code than it should be");
    if (seen.calls != album.count)
        give_up("other calls were made than should be");
}

/* Fills the album for the timing. What is read in the end has to be what was written. */
static void compare_album(size_t words)
{
    fill_album(&album, arenas[OURS], words);
    memcpy(arenas[PLAIN], arenas[OURS], sizeof arenas[OURS]);
    compare_turn(&picture_turns[WRITE], words);
    compare_turn(&picture_turns[CHECK], words);
    memset(arenas[OURS], 0, sizeof arenas[OURS]);
    compare_turn(&picture_turns[READ], words);
    if (memcmp(arenas[OURS], arenas[PLAIN], sizeof arenas[OURS]) != 0)
        give_up("what was read is not what was written");
}

static void note(uint32_t code)
{
    codes_seen |= 1u << code;
}

/* A picture in which one byte is another: a digit, a letter of either case, what lies beside these, or a line's end. */
static void compare_changed_texts(uint8_t *picture, uint32_t *arena)
{
    static const uint8_t others[] = "0123456789ABCDEFabcdef/:@G`g \n\r";
    size_t at, i;

    for (at = 0; at < TRIED_BYTES; at++) {
        uint8_t kept = picture[at];

        for (i = 0; i < sizeof others; i++) {
            picture[at] = others[i];
            note(both.read(picture, TRIED_BYTES, arena, TRIED_WORDS));
        }
        picture[at] = kept;
    }
}

/* A picture that is cut anywhere or goes on too long, and one for an arena of every length around its own. */
static void compare_lengths(const uint8_t *picture, uint32_t *arena)
{
    size_t i;

    for (i = 0; i < TRIED_BYTES + EXCESS; i++)
        note(both.read(picture, i, arena, TRIED_WORDS));
    for (i = 0; i < TRIED_WORDS + EXCESS; i++)
        note(both.read(picture, TRIED_BYTES, arena, i));
}

/* A picture of more words than an arena can have, with a last frame that is good and then one that is not. */
static void compare_too_many_words(void)
{
    static const char two_words_more[] = "0740000000000000000000\n";
    size_t bytes;

    fill_album(&album, arenas[OURS], ALBUM_WORDS);
    compare_turn(&picture_turns[WRITE], ALBUM_WORDS);
    memcpy(album.pictures + 2, "4002", 4);
    memcpy(album.pictures + album.picture_bytes, two_words_more, sizeof two_words_more);
    bytes = album.picture_bytes + strlen(two_words_more);
    if (both.read(album.pictures, bytes, arenas[OURS], ALBUM_WORDS) != ZV_LENGTH)
        give_up("a picture of too many words is no picture");
    album.pictures[bytes - 2] = 'G';
    note(both.read(album.pictures, bytes, arenas[OURS], ALBUM_WORDS));
}

/* A text that is too short for the picture, or longer than it; and an arena of every length. */
static void compare_rooms(const uint32_t *arena)
{
    uint8_t text[TRIED_BYTES + EXCESS];
    uint32_t answer[1];
    size_t i;

    for (i = 0; i <= sizeof text; i++) {
        memset(text, '?', sizeof text);
        note(both.write(arena, TRIED_WORDS, text, i, answer));
    }
    for (i = 0; i < TRIED_WORDS + EXCESS; i++)
        note(both.write(arena, i, text, 0, answer));
}

/* An arena in which one word is another, written and checked. */
static void compare_changed_word(uint32_t *arena, size_t at, uint32_t other)
{
    uint8_t text[TRIED_BYTES] = {0};
    uint32_t kept = arena[at];
    uint32_t answer[1];

    arena[at] = other;
    begin_comparing(arena, TRIED_WORDS, "a damaged arena");
    begin_album(&album, arena, TRIED_WORDS, 1);
    note(both.write(arena, TRIED_WORDS, text, sizeof text, answer));
    note(both.write(arena, TRIED_WORDS, text, sizeof text - 1, answer));
    note(both.check(album.spelled, 4 * TRIED_WORDS));
    arena[at] = kept;
}

/* Each word as another, and as a live chunk's second with any number asked for; and every number of bytes to check. */
static void compare_damage(uint32_t *arena)
{
    size_t at, i;

    for (at = 0; at < TRIED_WORDS; at++) {
        const uint32_t others[] = {0, 2, 4, TRIED_WORDS, LIVE_MARK - 1, UINT32_MAX, arena[at] + 2, arena[at] - 2};

        for (i = 0; i < sizeof others / sizeof *others; i++)
            compare_changed_word(arena, at, others[i]);
        for (i = 0; i <= TRIED_WORDS; i++)
            compare_changed_word(arena, at, LIVE_MARK + (uint32_t)i);
    }
    begin_comparing(arena, TRIED_WORDS, "bytes of any number");
    begin_album(&album, arena, TRIED_WORDS, 1);
    for (i = 0; i < 4 * (TRIED_WORDS + EXCESS); i++)
        note(both.check(album.spelled, i));
}

/* Calls that are refused, and those that stand right beside them. A reading makes the arena sound again. */
static void compare_refusals(void)
{
    static uint8_t picture[TRIED_BYTES + EXCESS];
    static uint32_t arena[ALBUM_WORDS];
    uint32_t answer[1];

    fill_used(arena, TRIED_WORDS, MANY, 0);
    begin_comparing(arena, ALBUM_WORDS, "refusals");
    note(both.write(arena, TRIED_WORDS, picture, TRIED_BYTES, answer));
    compare_rooms(arena);
    compare_changed_texts(picture, arena);
    compare_lengths(picture, arena);
    note(both.read(picture, TRIED_BYTES, arena, TRIED_WORDS));
    compare_damage(arena);
    compare_too_many_words();
    if (codes_seen != CODES_TO_SEE)
        give_up("the calls that are compared are not refused for all reasons");
}

static void print_heading(void)
{
    printf("\nPictures: arenas in usual use, with noise in their blocks, are written, read and checked.\n"
           "A ratio is ours over plain C: the middle of all rounds, and their lowest and highest quartile.\n"
           "Codes, answers, texts and all words were compared first, also on calls that are refused.\n");
    if (measured == &again)
        printf("CONTROL: in place of ours this is plain C once more, so each ratio should be 1.00.\n");
    printf("\n%-8s%8s%8s%18s", "call", "words", "bytes", "ours / plain C");
    if (!emulated)
        printf("%12s%12s%14s%14s", "ours ns", "plain C ns", "ns a byte", "plain C");
    printf("\n");
}

static double nanoseconds(size_t player)
{
    return time_of(&times, player).middle * 1e9 / (double)album.count;
}

static void print_row(const struct turn *turn, size_t words, size_t bytes)
{
    struct spread ratio = ratio_of(&times, OURS, PLAIN, 0);
    double mine = nanoseconds(OURS), theirs = nanoseconds(PLAIN);

    printf("%-8s%8lu%8lu%8.2f %4.2f-%4.2f", turn->name, (unsigned long)words, (unsigned long)bytes, ratio.middle,
           ratio.low, ratio.high);
    if (!emulated)
        printf("%12.0f%12.0f%14.3f%14.3f", mine, theirs, mine / (double)bytes, theirs / (double)bytes);
    printf("\n");
    fflush(stdout);
}

static void run_row(const struct turn *turn, size_t words)
{
    struct part part = {.album = &album};
    struct player players[2] = {
        {measured, turn, arenas[OURS], words, part},
        {&plain, turn, arenas[PLAIN], words, part},
    };

    compare_album(words);
    measure(players, 2, seconds_a_row, &times);
    print_row(turn, words, turn == &picture_turns[CHECK] ? 4 * words : album.picture_bytes);
}

static void run_errand(void)
{
    struct part part = {.album = &album};

    errand.turn->make(errand.library, arenas[OURS], errand.words, &part);
}

static size_t depth_of(const struct library *library, const struct turn *turn, size_t words)
{
    errand = (struct errand){library, turn, words};
    run_errand();
    return painted_over(run_errand);
}

static void print_stacks(const char *name, const struct library *library, size_t words)
{
    int i;

    printf("  %-18s", name);
    for (i = 0; i < PICTURE_TURNS; i++) {
        const struct turn *turn = &picture_turns[i];

        printf("%10lu", (unsigned long)(depth_of(library, turn, words) - depth_of(&idle, turn, words)));
    }
    printf("\n");
}

/* The stack of the three calls on one arena. Pictures are written before they are read. */
static void run_stacks(const char *title, enum filling filling, size_t words)
{
    uint32_t report[4];

    fill_arena(arenas[OURS], words, filling, MANY);
    plain.report(arenas[OURS], words, report);
    begin_album(&album, arenas[OURS], words, 1);
    printf("\n%s, %lu words: %u chunks, %u of them free\n\n%-20s%10s%10s%10s\n", title, (unsigned long)words,
           report[ZV_LIVE_BLOCKS] + report[ZV_FREE_CHUNKS], report[ZV_FREE_CHUNKS], "", "write", "read", "check");
    print_stacks("ours", &ours, words);
    print_stacks("plain C", &plain, words);
}

static void refuse_options(void)
{
    fprintf(stderr, "usage: pictures [--quick] [--emulated] [--control] [--spoil code|answer|word|text]\n");
    exit(2);
}

static void read_options(int count, char **options)
{
    int i;

    for (i = 1; i < count; i++) {
        if (strcmp(options[i], "--quick") == 0)
            seconds_a_row = 0.03;
        else if (strcmp(options[i], "--emulated") == 0)
            emulated = 1;
        else if (strcmp(options[i], "--control") == 0)
            measured = &again;
        else if (strcmp(options[i], "--spoil") == 0 && i + 1 < count && spoil_comparing(options[i + 1]))
            i++;
        else
            refuse_options();
    }
}

int main(int count, char **options)
{
    int turn, i;

    read_options(count, options);
    compare_refusals();
    print_heading();
    for (turn = 0; turn < PICTURE_TURNS; turn++) {
        for (i = 0; i < LENGTHS; i++)
            run_row(&picture_turns[turn], lengths[i]);
    }
    printf("\nStack of these calls in bytes, beyond what an empty function takes\n");
    run_stacks("Usual use", USUAL_USE, lengths[0]);
    run_stacks("Usual use", USUAL_USE, lengths[LENGTHS - 1]);
    run_stacks("Every second chunk free", EVERY_SECOND, lengths[LENGTHS - 1]);
    return 0;
}
