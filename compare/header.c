/* The header as a C program sees it: the tile of depth 2 of RULES, "Examples" is decoded, what was encoded decodes to itself,
 * and the whole file there is read and listed, its channel decoded, and the file written, also with a name in Latin-1. So is
 * its picture in version 11 read, listed, decoded, and written from what was read. */
#include "xcf.h"

#include <stddef.h>
#include <stdio.h>
#include <string.h>

_Static_assert(sizeof(xcf_tile_answer) == 40, "five numbers of 64 bits");
_Static_assert(sizeof(xcf_encode_answer) == 24, "three numbers of 64 bits");
_Static_assert(sizeof(xcf_read_answer) == 72, "nine numbers of 64 bits");
_Static_assert(offsetof(xcf_read_answer, pointer_size) == 64, "the size of pointers comes last");
_Static_assert(sizeof(xcf_decode_answer) == 24, "three numbers of 64 bits");
_Static_assert(offsetof(xcf_decode_answer, number) == 0, "the number comes first");
_Static_assert(offsetof(xcf_decode_answer, place) == 8, "the place comes second");
_Static_assert(offsetof(xcf_decode_answer, marked) == 16, "the count comes last");
_Static_assert(sizeof(xcf_list_answer) == 48, "six numbers of 64 bits");
_Static_assert(sizeof(xcf_write_answer) == 24, "three numbers of 64 bits");
_Static_assert(offsetof(xcf_write_answer, number) == 0, "the number comes first");
_Static_assert(offsetof(xcf_write_answer, place) == 8, "the place comes second");
_Static_assert(offsetof(xcf_write_answer, length) == 16, "the length comes last");

static int fails(const char *what) {
    fprintf(stderr, "header: %s\n", what);
    return 1;
}

static int tiles_fail(void) {
    const uint8_t window[] = {0x01, 0x10, 0xfe, 0x20, 0x30};
    const uint8_t expected[] = {0x10, 0x20, 0x10, 0x30};
    uint8_t pixels[4] = {0xaa, 0xaa, 0xaa, 0xaa};
    xcf_tile_answer t = xcf_decode_tile(window, sizeof window, 2, 1, 2, 1, pixels, sizeof pixels);
    if (t.number != 0 || t.place != 0 || t.mark != 0 || t.consumed != 5 || t.operations != 2)
        return fails("the answer of xcf_decode_tile");
    if (memcmp(pixels, expected, sizeof expected) != 0)
        return fails("the pixels of xcf_decode_tile");

    uint8_t output[16];
    xcf_encode_answer e = xcf_encode_tile(pixels, sizeof pixels, 2, 1, 2, output, sizeof output);
    if (e.number != 0 || e.place != 0 || e.length != 6)
        return fails("the answer of xcf_encode_tile");
    uint8_t back[4] = {0};
    t = xcf_decode_tile(output, e.length, 2, 1, 2, 1, back, sizeof back);
    if (t.number != 0 || t.mark != 0 || t.consumed != e.length || memcmp(back, pixels, sizeof back) != 0)
        return fails("what was encoded does not decode to itself");

    t = xcf_decode_tile(window, sizeof window, 65, 1, 2, 1, pixels, sizeof pixels);
    return t.number == 14 ? 0 : fails("the refusal of a side of 65");
}

/* A grey pixel in a channel named "s". */
static const uint8_t file[143] = {
    0x67, 0x69, 0x6d, 0x70, 0x20, 0x78, 0x63, 0x66, 0x20, 0x66, 0x69, 0x6c, 0x65, 0,
    0, 0, 0, 1, 0, 0, 0, 1, 0, 0, 0, 1, 0, 0, 0, 17, 0, 0, 0, 1, 1, 0, 0, 0, 0, 0, 0, 0, 0,
    0, 0, 0, 0, 0, 0, 0, 55, 0, 0, 0, 0,
    0, 0, 0, 1, 0, 0, 0, 1, 0, 0, 0, 2, 0x73, 0,
    0, 0, 0, 6, 0, 0, 0, 4, 0, 0, 0, 255, 0, 0, 0, 8, 0, 0, 0, 4, 0, 0, 0, 1, 0, 0, 0, 0, 0, 0, 0, 0,
    0, 0, 0, 105,
    0, 0, 0, 1, 0, 0, 0, 1, 0, 0, 0, 1, 0, 0, 0, 125, 0, 0, 0, 0,
    0, 0, 0, 1, 0, 0, 0, 1, 0, 0, 0, 141, 0, 0, 0, 0,
    0xff, 0xff,
};

/* The same in version 11: a precision at 26, and pointers of 8 bytes. */
static const uint8_t wide[179] = {
    0x67, 0x69, 0x6d, 0x70, 0x20, 0x78, 0x63, 0x66, 0x20, 0x76, 0x30, 0x31, 0x31, 0,
    0, 0, 0, 1, 0, 0, 0, 1, 0, 0, 0, 1, 0, 0, 0, 150, 0, 0, 0, 17, 0, 0, 0, 1, 1, 0, 0, 0, 0, 0, 0, 0, 0,
    0, 0, 0, 0, 0, 0, 0, 0, 0, 0, 0, 0, 0, 0, 0, 71, 0, 0, 0, 0, 0, 0, 0, 0,
    0, 0, 0, 1, 0, 0, 0, 1, 0, 0, 0, 2, 0x73, 0,
    0, 0, 0, 6, 0, 0, 0, 4, 0, 0, 0, 255, 0, 0, 0, 8, 0, 0, 0, 4, 0, 0, 0, 1, 0, 0, 0, 0, 0, 0, 0, 0,
    0, 0, 0, 0, 0, 0, 0, 125,
    0, 0, 0, 1, 0, 0, 0, 1, 0, 0, 0, 1, 0, 0, 0, 0, 0, 0, 0, 153, 0, 0, 0, 0, 0, 0, 0, 0,
    0, 0, 0, 1, 0, 0, 0, 1, 0, 0, 0, 0, 0, 0, 0, 177, 0, 0, 0, 0, 0, 0, 0, 0,
    0xff, 0xff,
};

/* Whether one of the two pictures was read in a version, with pointers of so many bytes. */
static int reads(xcf_read_answer r, uint64_t version, uint64_t pointer_size) {
    return r.number == 0 && r.place == 0 && r.width == 1 && r.height == 1 && r.base == 1 && r.version == version &&
           r.compression == 1 && r.rows == 1 && r.pointer_size == pointer_size;
}

static int reading_fails(void) {
    const uint32_t row[16] = {3, 1, 1, 1, 2, 67, 1, 69, 133, 1, 255, 1, 0, 0, 0, 0};
    uint32_t table[2048], expected[2048] = {0};
    memset(table, 0xaa, sizeof table);
    memcpy(expected, row, sizeof row);
    xcf_read_answer r = xcf_read(file, sizeof file, table, 2048);
    if (!reads(r, 0, 4))
        return fails("the answer of xcf_read");
    if (memcmp(table, expected, sizeof table) != 0)
        return fails("the table of xcf_read");

    r = xcf_read(file, sizeof file, table, 2047);
    if (r.number != 11 || r.place != 0 || r.rows != 0 || memcmp(table, expected, sizeof table) != 0)
        return fails("the refusal of a table of 2,047 numbers");

    memset(expected, 0, sizeof expected);
    r = xcf_read(file, 140, table, 2048);
    if (r.number != 13 || r.place != 133 || r.rows != 0 || r.pointer_size != 0 || memcmp(table, expected, sizeof table) != 0)
        return fails("the refusal of a file that is cut short");
    return 0;
}

static int lists(const uint8_t *bytes, size_t length, uint64_t refused, uint64_t at, uint64_t marked, const char *listing) {
    static uint32_t table[XCF_TABLE_LENGTH];
    static uint8_t text[XCF_TEXT_LENGTH];
    memset(text, 0xaa, sizeof text);
    xcf_list_answer l = xcf_list(bytes, length, table, XCF_TABLE_LENGTH, text, sizeof text);
    return l.number == 0 && l.place == 0 && l.refused == refused && l.at == at && l.marked == marked &&
           l.length == strlen(listing) && memcmp(text, listing, l.length) == 0 && text[l.length] == 0xaa;
}

static int listing_fails(void) {
    const char canvas[] = "canvas 1 1 base 1 version 0 compression 1 rows 1\n";
    const char row[] = "0 channel 1 1 1 2 67 1 69 133 1 255 1 0 0 0 0 bad";
    char good[200], marked[200];
    snprintf(good, sizeof good, "%s%s 0\n", canvas, row);
    snprintf(marked, sizeof marked, "%s%s 1\n", canvas, row);
    if (!lists(file, sizeof file, 0, 0, 0, good) || !lists(file, sizeof file - 1, 0, 0, 1, marked))
        return fails("the listing of an accepted file");
    if (!lists(file, 140, 13, 133, 0, "refused 13 at 133\n"))
        return fails("the listing of a refused file");

    uint32_t table[1] = {7};
    uint8_t text[1] = {7};
    xcf_list_answer l = xcf_list(file, sizeof file, table, 1, text, 1);
    if (l.number != 11 || l.place != 0 || l.refused != 0 || l.at != 0 || l.marked != 0 || l.length != 0 || table[0] != 7 ||
        text[0] != 7)
        return fails("the refusal of a short table by xcf_list");
    return 0;
}

static int answers(xcf_decode_answer d, uint64_t number, uint64_t place, uint64_t marked) {
    return d.number == number && d.place == place && d.marked == marked;
}

static int decoding_fails(void) {
    uint32_t table[2048];
    uint8_t pixel = 0xaa, mark = 0xaa;
    xcf_read(file, sizeof file, table, 2048);
    xcf_decode_answer d = xcf_decode(file, sizeof file, table, 2048, 0, 1, 4, &pixel, 1, &mark, 1);
    if (!answers(d, 0, 0, 0) || pixel != 0xff || mark != 0)
        return fails("the channel by xcf_decode");
    if (!answers(xcf_count_marked(file, sizeof file, table, 2048, 0, 1, 4), 0, 0, 0))
        return fails("the channel by xcf_count_marked");

    d = xcf_decode(file, sizeof file - 1, table, 2048, 0, 1, 4, &pixel, 1, &mark, 1);
    if (!answers(d, 0, 0, 1) || pixel != 0 || mark != 20)
        return fails("a tile that is cut short by xcf_decode");
    if (!answers(xcf_count_marked(file, sizeof file - 1, table, 2048, 0, 1, 4), 0, 0, 1))
        return fails("a tile that is cut short by xcf_count_marked");

    d = xcf_decode(file, sizeof file, table, 2048, 128, 1, 4, &pixel, 1, &mark, 1);
    if (!answers(d, 14, 0, 0) || pixel != 0 || mark != 20)
        return fails("the refusal of row 128");
    if (!answers(xcf_count_marked(file, 141, table, 2048, 0, 1, 4), 13, 133, 0))
        return fails("the refusal of a tile pointer");
    return 0;
}

/* Any size of pointers but 4 and 8 is refused, and so is one for which the file is too short. */
static int sizes_fail(void) {
    const uint32_t sizes[] = {0, 1, 2, 3, 5, 7, 9, 16, 0xffffffff};
    uint32_t table[2048];
    uint8_t pixel = 0xaa, mark = 0xaa;
    xcf_read(wide, sizeof wide, table, 2048);
    for (size_t i = 0; i < sizeof sizes / sizeof *sizes; i++) {
        xcf_decode_answer d = xcf_decode(wide, sizeof wide, table, 2048, 0, 1, sizes[i], &pixel, 1, &mark, 1);
        if (!answers(d, 14, 0, 0) || pixel != 0xaa || mark != 0xaa)
            return fails("the refusal of a size of pointers by xcf_decode");
        if (!answers(xcf_count_marked(wide, sizeof wide, table, 2048, 0, 1, sizes[i]), 14, 0, 0))
            return fails("the refusal of a size of pointers by xcf_count_marked");
    }
    xcf_read(file, sizeof file, table, 2048);
    if (!answers(xcf_count_marked(file, sizeof file, table, 2048, 0, 1, 8), 14, 0, 0))
        return fails("the refusal of pointers that the file does not have whole");
    return 0;
}

/* The file of version 11 is read, listed and decoded, and what was read is written as the other file. */
static int version_11_fails(void) {
    const uint32_t row[16] = {3, 1, 1, 1, 2, 83, 1, 85, 161, 1, 255, 1, 0, 0, 0, 0};
    const char listing[] = "canvas 1 1 base 1 version 11 compression 1 rows 1\n"
                           "0 channel 1 1 1 2 83 1 85 161 1 255 1 0 0 0 0 bad 0\n";
    uint32_t table[2048], expected[2048] = {0};
    uint8_t pixel = 0xaa, mark = 0xaa, output[sizeof file];
    memcpy(expected, row, sizeof row);
    if (!reads(xcf_read(wide, sizeof wide, table, 2048), 11, 8) || memcmp(table, expected, sizeof table) != 0)
        return fails("the reading of version 11");
    if (!lists(wide, sizeof wide, 0, 0, 0, listing))
        return fails("the listing of version 11");

    xcf_decode_answer d = xcf_decode(wide, sizeof wide, table, 2048, 0, 1, 8, &pixel, 1, &mark, 1);
    if (!answers(d, 0, 0, 0) || pixel != 0xff || mark != 0)
        return fails("the channel of version 11 by xcf_decode");
    if (!answers(xcf_count_marked(wide, sizeof wide - 1, table, 2048, 0, 1, 8), 0, 0, 1))
        return fails("a tile of version 11 that is cut short");
    if (!answers(xcf_count_marked(wide, sizeof wide, table, 2048, 0, 1, 4), 13, 161, 0))
        return fails("the pointers of version 11 as words");

    table[5] = table[7] = table[8] = 0;
    xcf_write_answer w = xcf_write(1, 1, 1, table, 2048, wide + 83, 1, &pixel, 1, output, sizeof output);
    if (w.number != 0 || w.length != sizeof file || memcmp(output, file, sizeof file) != 0)
        return fails("the writing of what was read of version 11");
    return 0;
}

/* Files of version 11 are refused: one in another precision, and one with a pointer as far as 64 bits reach. */
static int version_11_refusals_fail(void) {
    uint8_t changed[sizeof wide];
    memcpy(changed, wide, sizeof wide);
    changed[29] = 100;
    if (!lists(changed, sizeof changed, 25, 26, 0, "refused 25 at 26\n"))
        return fails("the refusal of a precision");

    memcpy(changed, wide, sizeof wide);
    memset(changed + 117, 0xff, 8);
    if (!lists(changed, sizeof changed, 1, UINT64_MAX, 0, "refused 1 at 18446744073709551615\n"))
        return fails("the refusal of a pointer of 64 bits");
    return 0;
}

/* The answer to writing with the name "s" and one white pixel. */
static xcf_write_answer written(uint32_t side, uint32_t base, const uint32_t *table, size_t pixels_length, uint8_t *output,
                                size_t output_length) {
    const uint8_t name = 's', pixel = 0xff;
    return xcf_write(side, side, base, table, 2048, &name, 1, &pixel, pixels_length, output, output_length);
}

static int refuses(xcf_write_answer w, uint64_t number, uint64_t place) {
    return w.number == number && w.place == place && w.length == 0;
}

static int writing_fails(void) {
    const uint32_t row[16] = {3, 1, 1, 1, 2, 0, 1, 0, 0, 1, 255, 1, 0, 0, 0, 0};
    uint32_t table[2048] = {0};
    uint8_t output[150], expected[150];
    memset(output, 0xaa, sizeof output);
    memset(expected, 0xaa, sizeof expected);
    memcpy(table, row, sizeof row);
    if (!refuses(written(16385, 1, table, 1, output, 150), 4, 14) || !refuses(written(1, 2, table, 1, output, 150), 5, 22) ||
        !refuses(written(1, 1, table, 0, output, 150), 11, 0) || !refuses(written(1, 1, table, 1, output, 142), 18, 0))
        return fails("a refusal of xcf_write");
    table[16] = 4;
    if (!refuses(written(1, 1, table, 1, output, 150), 17, 1))
        return fails("the refusal of a row by xcf_write");
    if (memcmp(output, expected, sizeof output) != 0)
        return fails("the output of a refusal by xcf_write");

    table[16] = 0;
    memcpy(expected, file, sizeof file);
    xcf_write_answer w = written(1, 1, table, 1, output, 150);
    if (w.number != 0 || w.place != 0 || w.length != sizeof file)
        return fails("the answer of xcf_write");
    return memcmp(output, expected, sizeof output) == 0 ? 0 : fails("the file of xcf_write");
}

/* The channel has a name of one byte that is not UTF-8. */
static int naming_fails(void) {
    uint8_t named[sizeof file], output[sizeof file];
    memcpy(named, file, sizeof file);
    named[67] = 0xe4;
    uint32_t table[2048];
    xcf_read_answer r = xcf_read(named, sizeof named, table, 2048);
    if (r.number != 0 || table[11] != 1 + 32)
        return fails("the flag of a name that is not UTF-8");

    const uint8_t pixel = 0xff;
    table[5] = table[7] = table[8] = 0;
    xcf_write_answer w = xcf_write(1, 1, 1, table, 2048, named + 67, 1, &pixel, 1, output, sizeof output);
    if (w.number != 0 || w.length != sizeof named || memcmp(output, named, sizeof named) != 0)
        return fails("the file with a name that is not UTF-8");

    table[11] = 1;
    w = xcf_write(1, 1, 1, table, 2048, named + 67, 1, &pixel, 1, output, sizeof output);
    return refuses(w, 17, 0) ? 0 : fails("the refusal of a name that is not UTF-8 and lacks the flag");
}

int main(void) {
    return tiles_fail() || reading_fails() || listing_fails() || decoding_fails() || sizes_fail() || version_11_fails() ||
           version_11_refusals_fail() || writing_fails() || naming_fails();
}
