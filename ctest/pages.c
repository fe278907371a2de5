/* The call of the morning page: a page to the last byte, its edges and ends, and each refusal in its
   order. */
#include <string.h>
#include "answers.h"

/* The samples of the longest page, and two more; its bytes, and one more. */
enum { MOST_SAMPLES = 262144, MOST_BYTES = 128 * WV_LINE_BYTES };
static int32_t many[MOST_SAMPLES + 2];
static uint8_t page[MOST_BYTES + 1];

/* A page into storage with a byte more, which keeps its value. */
static void expect_page(const char *what, size_t samples, uint32_t threshold, const char *wanted)
{
    const size_t bytes = strlen(wanted);
    uint32_t answer[2] = {77, 77};
    memset(page, 77, bytes + 1);
    expect(what, wv_morning_page(many, samples, threshold, page, bytes + 1, answer, 1), 0);
    expect("the bytes of a page", answer[0], (long long)bytes);
    expect("the number after them", answer[1], 77);
    for (size_t i = 0; i < bytes; i++)
        expect(what, page[i], wanted[i]);
    expect("the byte after a page", page[bytes], 77);
}

static void put(size_t frame, int32_t left, int32_t right)
{
    many[2 * frame] = left;
    many[2 * frame + 1] = right;
}

/* Left is loud in the frames 0 and 1, 3, and from 1,023 on; right in frame 1,024 alone. */
static void by_hand(void)
{
    memset(many, 0, sizeof many);
    put(0, 5, -3);
    put(1, -4, 0);
    put(2, 3, 0);
    put(3, INT32_MIN, 0);
    put(1023, 9, 3);
    put(1024, -9, 4);
    put(1025, 4, -1);
    expect_page("a page of two lines", 2 * 1026, 3,
                "     0 2147483648          3       3       0\n"
                "     1          9          4       0       1\n");
    expect_page("a page of whole blocks", 2 * 1024, 3, "     0 2147483648          3       3       0\n");
    expect_page("a page of one frame", 2, 3, "     0          5          3       1       0\n");
    expect_page("a page of no frames", 0, 3, "");
}

/* Distances of 2,147,483,647 on the left and 2,147,483,648 on the right, under every kind of
   threshold. */
static void at_the_ends(void)
{
    static const char both[] = "     0 2147483647 2147483648       1       1\n";
    static const char right[] = "     0 2147483647 2147483648       0       1\n";
    static const char none[] = "     0 2147483647 2147483648       0       0\n";
    put(0, INT32_MAX, INT32_MIN);
    put(1, -INT32_MAX, INT32_MIN);
    expect_page("a page over 0", 4, 0, both);
    expect_page("a page over 2,147,483,646", 4, 2147483646u, both);
    expect_page("a page over 2,147,483,647", 4, 2147483647u, right);
    expect_page("a page over 2,147,483,648", 4, 2147483648u, none);
    expect_page("a page over 4,294,967,295", 4, UINT32_MAX, none);
}

/* The longest page: every other frame is loud on the left, every one on the right, which is one
   click. */
static void longest(void)
{
    static const char lines[3][46] = {
        "     0          2          2     512       1\n",
        "    99          2          2     512       0\n",
        "   127          2          2     512       0\n"};
    static const size_t numbers[3] = {0, 99, 127};
    uint32_t answer[1] = {77};
    for (size_t frame = 0; frame < MOST_SAMPLES / 2; frame++)
        put(frame, frame % 2 ? -2 : 1, 2);
    page[MOST_BYTES] = 77;
    expect("the longest page", wv_morning_page(many, MOST_SAMPLES, 1, page, MOST_BYTES, answer, 1), 0);
    expect("its bytes", answer[0], MOST_BYTES);
    expect("the byte after it", page[MOST_BYTES], 77);
    for (size_t line = 0; line < 3; line++)
        for (size_t i = 0; i < WV_LINE_BYTES; i++)
            expect(lines[line], page[WV_LINE_BYTES * numbers[line] + i], lines[line][i]);
}

/* A row has the faults of the rows below it too, so that the order of the tests shows. */
static void refused_pages(void)
{
    static const struct { size_t slots, samples, bytes; uint32_t refusal; } rows[9] = {
        {0, MOST_SAMPLES + 1, 0, 6}, {1, MOST_SAMPLES + 1, 0, 5}, {1, MOST_SAMPLES + 2, 0, 5},
        {1, MOST_SAMPLES - 1, 0, 6}, {1, 1, 0, 6}, {1, MOST_SAMPLES, MOST_BYTES - 1, 11},
        {1, 2050, 89, 11}, {1, 2048, 44, 11}, {1, 2, 0, 11}};
    uint32_t answer[1] = {77};
    memset(page, 77, sizeof page);
    for (size_t i = 0; i < 9; i++) {
        uint32_t refusal =
            wv_morning_page(many, rows[i].samples, 1, page, rows[i].bytes, answer, rows[i].slots);
        expect("wv_morning_page of a row", refusal, rows[i].refusal);
    }
    expect("a page without a slot", wv_morning_page(many, 2, 1, page, WV_LINE_BYTES, answer, 0), 6);
    for (size_t i = 0; i < sizeof page; i++)
        expect("a byte after a refusal", page[i], 77);
    expect("the answer after a refusal", answer[0], 77);
}

void morning_pages(void)
{
    by_hand();
    at_the_ends();
    longest();
    refused_pages();
}
