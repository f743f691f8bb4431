/* Asks every question about document 01's pair, and the marks of a component of 64 states, prints the answers, and compares them with
 * document 01: exit code 0 if all agree. */
#include <stdio.h>
#include <string.h>

#include "../pinthar.h"

static const uint8_t pair[] = {2, 2, 2, 1, 1, 1, 0, 1, 0, 2, 1, 2, 2, 2, 0, 1, 1, 1, 0, 3, 2, 2, 1, 0, 5, 0, 1, 0, 0};
static int failures = 0;

static void expect(const char *what, int holds)
{
    printf("%s: %s\n", what, holds ? "yes" : "NO");
    failures += !holds;
}

/* Words, an exact, a longer and a shorter buffer. */
static void words(void)
{
    uint32_t out[7] = {9, 9, 9, 9, 9, 9, 9};
    uint64_t r = pinthar_full_words(pair, sizeof pair, out, 4);
    expect("full words 3 0 1 0", r == 4 && out[0] == 3 && out[1] == 0 && out[2] == 1 && out[3] == 0 && out[4] == 9);
    r = pinthar_merged_words(pair, sizeof pair, out, 7);
    expect("merged words", PINTHAR_REFUSAL(r) == 0 && PINTHAR_ANSWER(r) == 4 && out[0] == 3 && out[4] == 9);
    out[0] = 9;
    r = pinthar_full_words(pair, sizeof pair, out, 3);
    expect("three entries are refused by 13, and kept", PINTHAR_REFUSAL(r) == PINTHAR_BUFFER_TOO_SHORT && out[0] == 9);
    uint64_t marks[PINTHAR_MOST_MARKS];
    r = pinthar_mark_words(pair, sizeof pair, marks, PINTHAR_MOST_MARKS);
    expect("marks: two components and two nodes", r == 8 && marks[0] == 1 && marks[1] == 2);
}

/* One component of 64 states without signals, each of which goes to state 63, a set of ten bytes; true and not true, no starts. */
static void wide(void)
{
    static const uint8_t head[] = {1, 0, 64, 0, 0}, tail[] = {2, 0, 2, 0, 0};
    static const uint8_t last[] = {128, 128, 128, 128, 128, 128, 128, 128, 128, 1};
    uint8_t file[sizeof head + 64 + 64 * sizeof last + sizeof tail] = {0};
    uint8_t *at = file + sizeof head + 64;
    memcpy(file, head, sizeof head);
    for (int i = 0; i < 64; i++, at += sizeof last)
        memcpy(at, last, sizeof last);
    memcpy(at, tail, sizeof tail);
    uint64_t marks[5] = {9, 9, 9, 9, 9};
    uint64_t r = pinthar_mark_words(file, sizeof file, marks, 5);
    expect("64 states are PASS of true", r == 4 && marks[0] == UINT64_MAX && marks[1] == 0);
    expect("64 states are FAIL of not true", marks[2] == 0 && marks[3] == UINT64_MAX && marks[4] == 9);
    file[2] = 65;
    r = pinthar_mark_words(file, sizeof file, marks, 5);
    expect("65 states are refused by 3", PINTHAR_REFUSAL(r) == PINTHAR_OUTSIDE_RANGE && marks[0] == UINT64_MAX);
}

static void bytes(void)
{
    static const char text[] = "verdict holds merged\ncomponent 0 classes 0 1\ncomponent 1 classes 0 1\nmerged 4 of 4\n";
    uint8_t out[PINTHAR_MOST_TEXT];
    uint64_t r = pinthar_class_names(pair, sizeof pair, out, sizeof out);
    expect("class names 0 1 0 1", r == 4 && memcmp(out, "\0\1\0\1", 4) == 0);
    r = pinthar_listing(pair, sizeof pair, out, sizeof out);
    expect("listing", r == sizeof text - 1 && memcmp(out, text, sizeof text - 1) == 0);
}

static void values(void)
{
    expect("start (0, 0) holds merged", pinthar_verdict(pair, sizeof pair) == PINTHAR_HOLDS_MERGED);
    expect("the root is true in (0, 0)", pinthar_lookup(pair, sizeof pair, 0, 0, 0, 0) == 1);
    expect("the root is false in (1, 0)", pinthar_lookup(pair, sizeof pair, 1, 0, 0, 0) == 0);
    expect("no state (2, 0)", PINTHAR_REFUSAL(pinthar_lookup(pair, sizeof pair, 2, 0, 0, 0)) == PINTHAR_NO_SUCH_STATE);
    expect("no file", PINTHAR_REFUSAL(pinthar_verdict(pair, 0)) == PINTHAR_FILE_ENDS);
    uint64_t r = pinthar_component(pair, sizeof pair, 1);
    expect("component 1 is bytes 13 to 20", PINTHAR_REFUSAL(r) == 0 && PINTHAR_PLACE(r) == 13 && PINTHAR_SIZE(r) == 8);
    r = pinthar_component(pair, sizeof pair, 2);
    expect("no component 2", PINTHAR_REFUSAL(r) == PINTHAR_OUTSIDE_RANGE && PINTHAR_ANSWER(r) == 0);
}

int main(void)
{
    words();
    wide();
    bytes();
    values();
    printf("%d failures\n", failures);
    return failures != 0;
}
