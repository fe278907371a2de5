/* The calls of archives: a block to the last byte, recordings there and back up to the longest, those in
   force, each kind of bad block, and each refusal in its order. Every list stands between guards. */
#include <string.h>
#include "answers.h"

enum { GUARD = 77, MOST = WV_MAX_PAYLOAD_BYTES, MOST_BYTES = WV_ARCHIVE_BYTES(MOST), BLOCK = 512 };
static uint8_t payload[MOST + 1], file[MOST_BYTES + 2], back[MOST + 2];
static uint32_t list[4 * 3 + 2], answer[4];
static size_t lent;

/* Fills the lists that are written, and what stands around them; of the payloads so many bytes are lent. */
static void guard(size_t bytes)
{
    lent = bytes;
    memset(back, GUARD, lent + 2);
    for (size_t i = 0; i < sizeof list / sizeof *list; i++)
        list[i] = GUARD;
    for (size_t i = 0; i < 4; i++)
        answer[i] = GUARD;
}

/* Says so where one of a list's bytes from a place on is not a guard. */
static void expect_guards(const char *what, const uint8_t *bytes, size_t from, size_t count)
{
    for (size_t i = from; i < count; i++)
        expect(what, bytes[i], GUARD);
}

/* Writes a recording at a place of the file, whose first byte is a guard, and gives the place after it. */
static size_t append(size_t at, uint16_t house, uint32_t start, uint16_t issue, size_t length)
{
    const size_t bytes = WV_ARCHIVE_BYTES(length);
    guard(0);
    file[0] = GUARD;
    file[1 + at + bytes] = GUARD;
    expect("wv_archive_write",
           wv_archive_write(house, start, issue, payload, length, file + 1 + at, bytes, answer + 1, 1), 0);
    expect("the bytes of a recording", answer[1], (long long)bytes);
    expect("the number before them", answer[0], GUARD);
    expect("the number after them", answer[2], GUARD);
    expect("the byte before the file", file[0], GUARD);
    expect("the byte after a recording", file[1 + at + bytes], GUARD);
    return at + bytes;
}

/* Reads so many bytes of the file, with room for so many numbers and payload bytes. */
static uint32_t read_file(size_t length, size_t numbers, size_t bytes)
{
    guard(bytes);
    return wv_archive_read(file + 1, length, list + 1, numbers, back + 1, bytes, answer + 1, 2);
}

/* What a reading left: so many recordings with these numbers, and so many payload bytes. */
static void expect_read(size_t count, const uint32_t *numbers, size_t bytes)
{
    for (size_t i = 0; i < sizeof list / sizeof *list; i++)
        expect("a number of the list", list[i], i && i <= 4 * count ? numbers[i - 1] : GUARD);
    expect("the recordings in force", answer[1], (long long)count);
    expect("their payload bytes", answer[2], (long long)bytes);
    expect("the number before", answer[0], GUARD);
    expect("the number after", answer[3], GUARD);
    expect("the byte before the payloads", back[0], GUARD);
    expect_guards("a byte after the payloads", back, 1 + bytes, lent + 2);
}

/* A reading that is refused; only a bad block changes the answer. */
static void expect_refused(const char *what, uint32_t got, uint32_t refusal, uint32_t block)
{
    const uint32_t changed[4] = {GUARD, block, 0, GUARD};
    expect(what, got, refusal);
    for (size_t i = 0; i < 4; i++)
        expect("the answer after a refusal", answer[i], refusal == WV_BAD_BLOCK ? changed[i] : GUARD);
    for (size_t i = 0; i < sizeof list / sizeof *list; i++)
        expect("the list after a refusal", list[i], GUARD);
    expect_guards("the payloads after a refusal", back, 0, lent + 2);
}

/* House 258, start second 50,595,078, issue 1,800 and a payload of 5 and 6. The check is 3 * 14, 5 * 2 +
   6 * 1, 7 * 6 + 8 * 5 + 9 * 4 + 10 * 3, 11 * 8 + 12 * 7, 13 * 2 and 17 * 5 + 18 * 6, together 597. */
static void by_hand(void)
{
    static const uint8_t wanted[BLOCK] = {0, 0, 14, 0, 2, 1, 6, 5, 4, 3, 8, 7, 2, 0, 0, 0, 5, 6,
                                          [508] = 0x55, [509] = 2};
    guard(0);
    memset(file, GUARD, BLOCK + 2);
    expect("a block by hand",
           wv_archive_write(0x0102, 0x03040506, 0x0708, (const uint8_t[]){5, 6}, 2, file + 1, BLOCK + 1,
                            answer + 1, 1),
           0);
    for (size_t i = 0; i < BLOCK; i++)
        expect("a byte of a block", file[1 + i], wanted[i]);
    expect("the bytes of a block", answer[1], BLOCK);
    expect("the byte after a block", file[1 + BLOCK], GUARD);
    expect("a block read", read_file(BLOCK, 4, 2), 0);
    expect_read(1, (const uint32_t[]){0x0102, 0x03040506, 0x0708, 2}, 2);
    expect("a payload byte", back[1], 5);
    expect("a payload byte", back[2], 6);
}

static void lengths(void)
{
    static const size_t length[9] = {0, 1, 491, 492, 493, 996, 997, MOST - 1, MOST};
    for (size_t i = 0; i < 9; i++) {
        size_t bytes = append(0, 65535, 86400, (uint16_t)i, length[i]);
        expect("a recording read", read_file(bytes, 4, length[i]), 0);
        expect_read(1, (const uint32_t[]){65535, 86400, (uint32_t)i, (uint32_t)length[i]}, length[i]);
        expect("a payload that comes back", memcmp(back + 1, payload, length[i]), 0);
    }
    expect("an empty archive", read_file(0, 0, 0), 0);
    expect_read(0, NULL, 0);
}

/* Issues 1, 3 and 2 of house 1 and start second 50, with another house and another start second between
   them. */
static void in_force(void)
{
    size_t end = append(append(append(0, 1, 50, 1, 5), 1, 50, 3, 600), 2, 50, 0, 3);
    end = append(append(end, 1, UINT32_MAX, 0, 1), 1, 50, 2, 4);
    expect("the bytes of five recordings", (long long)end, 6 * BLOCK);
    expect("an archive with issues", read_file(end, 4 * 3, 604), 0);
    expect_read(3, (const uint32_t[]){1, 50, 3, 600, 2, 50, 0, 3, 1, UINT32_MAX, 0, 1}, 604);
    expect("the first payload", memcmp(back + 1, payload, 600), 0);
    expect("the second payload", memcmp(back + 601, payload, 3), 0);
    expect("the third payload", back[604], payload[0]);
}

/* A row has the faults of the rows below it too, so that the order of the tests shows. */
static void refused_writes(void)
{
    static const struct { size_t slots, length, bytes; uint32_t refusal; } rows[8] = {
        {0, MOST + 1, 0, 6}, {0, 1, BLOCK, 6}, {1, MOST + 1, 0, 5}, {1, MOST + 1, MOST_BYTES, 5},
        {1, MOST, MOST_BYTES - 1, 11}, {1, 493, 2 * BLOCK - 1, 11}, {1, 492, BLOCK - 1, 11}, {1, 0, 0, 11}};
    guard(0);
    memset(file, GUARD, sizeof file);
    for (size_t i = 0; i < 8; i++) {
        uint32_t refusal = wv_archive_write(1, 2, 3, payload, rows[i].length, file + 1, rows[i].bytes,
                                            answer + 1, rows[i].slots);
        expect("wv_archive_write of a row", refusal, rows[i].refusal);
        expect("the answer after a refusal", answer[1], GUARD);
    }
    expect_guards("a byte after a refusal", file, 0, sizeof file);
}

/* Puts the check of a block right. */
static void put_right(uint8_t *block)
{
    uint32_t check = 0;
    for (uint32_t i = 0; i < 508; i++)
        check += (i + 1) * block[i];
    for (size_t i = 0; i < 4; i++)
        block[508 + i] = (uint8_t)(check >> 8 * i);
}

/* Two recordings, of blocks 0 and 1 and of block 2, with one byte of a block altered under a right check. */
static void bad_blocks(void)
{
    static const struct { size_t block, at; uint8_t value; const char *what; } rows[8] = {
        {0, 0, 1, "a first number of 1"}, {1, 0, 2, "a number left out"}, {0, 3, 0, "a first block of 248"},
        {1, 2, 109, "one byte more used"}, {1, 112, 9, "a filling of 9"}, {2, 507, 1, "a last byte of 1"},
        {0, 12, 89, "a length of one more"}, {2, 14, 64, "a length over the limit"}};
    size_t end = append(append(0, 1, 5, 0, 600), 2, 5, 0, 3);
    for (size_t i = 0; i < 8; i++) {
        uint8_t saved[BLOCK], *block = file + 1 + BLOCK * rows[i].block;
        memcpy(saved, block, BLOCK);
        block[rows[i].at] = rows[i].value;
        put_right(block);
        /* A length of one more is first missed in the block that uses too few bytes. */
        expect_refused(rows[i].what, read_file(end, 8, 603), 18, i == 6 ? 1 : (uint32_t)rows[i].block);
        memcpy(block, saved, BLOCK);
    }
    for (size_t i = 0; i < end; i += 37) {
        file[1 + i] ^= 0x10;
        expect_refused("a byte altered", read_file(end, 8, 603), 18, (uint32_t)(i / BLOCK));
        file[1 + i] ^= 0x10;
    }
    for (size_t cut = 1; cut < end; cut++)
        if (cut != 2 * BLOCK)
            expect_refused("a file cut", read_file(cut, 8, 603), 18, (uint32_t)((cut - 1) / BLOCK));
    expect("the file as it was", read_file(end, 8, 603), 0);
}

/* The longest payload with a byte more, in blocks that are right but for the limit. */
static void over_the_limit(void)
{
    size_t end = append(0, 1, 5, 0, MOST);
    file[1 + 12]++;
    file[1 + end - BLOCK + 2]++;
    put_right(file + 1);
    put_right(file + 1 + end - BLOCK);
    expect_refused("a payload over the limit", read_file(end, 4, 603), 18, 0);
}

/* The same issue twice, with a bad block and without, and two recordings in too little storage. */
static void refused_reads(void)
{
    size_t end = append(append(append(0, 1, 5, 7, 3), 1, 5, 9, 0), 1, 5, 7, 2);
    file[1 + BLOCK + 100] ^= 1;
    guard(0);
    for (size_t slots = 0; slots < 2; slots++)
        expect_refused("no slot for an answer",
                       wv_archive_read(file + 1, end, list + 1, 0, back + 1, 0, answer + 1, slots), 6, 0);
    expect_refused("twice and bad", read_file(end, 0, 0), 18, 1);
    file[1 + BLOCK + 100] ^= 1;
    expect_refused("twice", read_file(end, 0, 0), 19, 0);
    expect_refused("twice, with room", read_file(end, 8, 5), 19, 0);
    end = append(append(0, 1, 5, 7, 3), 2, 5, 7, 2);
    expect_refused("no storage", read_file(end, 0, 0), 11, 0);
    expect_refused("a list one short", read_file(end, 7, 5), 11, 0);
    expect_refused("payloads one short", read_file(end, 8, 4), 11, 0);
    expect("room for both", read_file(end, 8, 5), 0);
    expect_read(2, (const uint32_t[]){1, 5, 7, 3, 2, 5, 7, 2}, 5);
    /* The issue that is superseded needs no storage. */
    end = append(append(0, 1, 5, 7, 3), 1, 5, 8, 2);
    expect("room for one", read_file(end, 4, 2), 0);
    expect_read(1, (const uint32_t[]){1, 5, 8, 2}, 2);
}

void archives(void)
{
    for (size_t i = 0; i < sizeof payload; i++)
        payload[i] = (uint8_t)(i * 2654435761u >> 24);
    by_hand();
    lengths();
    in_force();
    refused_writes();
    bad_blocks();
    over_the_limit();
    refused_reads();
}
