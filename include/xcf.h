/* XCF files: read, listed, decoded and written; single tiles of them: decoded and encoded. docs/RULES.md has the rules.
 *
 * Lending. No pointer is NULL, not even one whose length is 0, and no buffer that is written overlaps another. Apart from
 * this, any bytes, numbers and lengths may be given: every call ends, touches only what it was lent, and returns a struct.
 *
 * Refusals. number is 0 where the call did its work, and otherwise says why not; place then counts the file's bytes from 0,
 * unless the table below has something else. All fields but these two are 0, and every buffer is as it was lent, but for the
 * table of xcf_read (see there). Each call names its refusals in the order in which they are tested, an 11 with the buffer it
 * is about; the first that applies is answered. A table of any length but XCF_TABLE_LENGTH is an 11.
 *
 * A word is 4 bytes of the file, the high one first. A pointer in the file is a word in versions 0 to 3; in version 11 it has
 * 8 bytes, the high one first, and so has the 0 that ends a list of pointers. One that leads past the file's end is a 1 at its
 * value, which may be any number of 64 bits, unless it is a tile's: then it is a 13.
 *
 *   No.  Why                                                              Place
 *    1   the file ends before a field, string or payload does             where that begins
 *    2   the file does not begin with "gimp xcf "                         0
 *    3   the version in bytes 9 to 13 is none of the tags file, v001,     9
 *        v002, v003 and v011, followed by a zero byte
 *    4   a side is not 1 to 16,384                                        its word; xcf_write: 14 width, 18 height
 *    5   the base type exceeds 2, or is 2 in version 0;                   its word
 *        xcf_write: it exceeds 1                                          22
 *    6   the length of a property does not fit its type; that of a        the length word
 *        colour map of n colours is 3n + 4, or n + 4 in old files, that
 *        of a floating selection 4, and in version 11 also 8
 *    7   a payload has a value that is not allowed;                       the payload's first byte
 *        an indexed image has no colour map                               the type word that ends the image's list
 *    8   there are more than 48 layers or 32 channels                     the first pointer too many
 *    9   the pointer to a hierarchy, or to its first level, is 0          that pointer
 *   10   a layer's type is not one of the base type; the sides of a       the word
 *        mask are not its layer's, or those of a channel the canvas's;
 *        a size or depth in a hierarchy or level is not its drawable's
 *   11   the length of a buffer does not fit                              0
 *   12   a string of length 1 or more has a last byte other than zero     its length word
 *   13   a tile pointer is 0, not above the one before it or not below    that pointer
 *        the length of the file; the pointer behind the last is not 0
 *   14   the row, tile, compression or size of pointers cannot be used    0
 *   15   the file is longer than XCF_FILE_LIMIT                           0
 *   16   a layer has the property of a floating selection                 that property's type word
 *   17   a row cannot be written                                          the number of the row
 *   18   the output is too short, or a file to be written would be        0
 *        longer than XCF_FILE_LIMIT
 *   25   the precision, in version 11, is not 150: 8-bit gamma            its word: 26
 */
#ifndef XCF_H
#define XCF_H

#include <stddef.h>
#include <stdint.h>

#ifdef __cplusplus
extern "C" {
#endif

/* Bytes of the longest file that is read or written. */
#define XCF_FILE_LIMIT 1073741824
/* Numbers in a row, and in a table, which has 128 rows. */
#define XCF_ROW_LENGTH 16
#define XCF_TABLE_LENGTH 2048
/* The side of a tile; those in the last column and line may be smaller. */
#define XCF_TILE_SIDE 64
/* Bytes that hold any listing. */
#define XCF_TEXT_LENGTH 65536

/* mark        0: the tile is good. 20: its window ends before it does. 21: an operation gives more bytes than its stream
 *             still takes
 * consumed    how many bytes of the window a good tile took. For a marked one: where in the window the failing operation
 *             begins, which is where the cut window ends if its opcode is missing; 0 if the tile is plain
 * operations  how many were carried out in full; 0 for a plain tile */
typedef struct {
    uint64_t number;
    uint64_t place;
    uint64_t mark;
    uint64_t consumed;
    uint64_t operations;
} xcf_tile_answer;

/* Decodes the tile that a window begins with, compression 0 plain or 1 run-length encoded. The pixels have exactly
 * width * height * depth bytes: line by line from the top, each from the left, depth bytes for a pixel. Those of a marked
 * tile are all set to zero. A window may have any length, but is cut to its first 24,576 bytes.
 * Refused: 14 unless width and height are 1 to 64, depth is 1 to 4, and compression is 0 or 1; 11 pixels. */
xcf_tile_answer xcf_decode_tile(const uint8_t *window, size_t window_length, uint32_t width, uint32_t height, uint32_t depth,
                                uint32_t compression, uint8_t *pixels, size_t pixels_length);

typedef struct {
    uint64_t number;
    uint64_t place;
    uint64_t length;
} xcf_encode_answer;

/* Encodes a tile at the start of the output, from pixels of the length and order that xcf_decode_tile has. length is how many
 * bytes that took; those behind it are unchanged. An output of 16,644 bytes is enough for any tile.
 * Refused: 14 unless width and height are 1 to 64 and depth is 1 to 4; 11 pixels; 18. */
xcf_encode_answer xcf_encode_tile(const uint8_t *pixels, size_t pixels_length, uint32_t width, uint32_t height, uint32_t depth,
                                  uint8_t *output, size_t output_length);

/* width, height  of the canvas
 * base           0 RGB, 1 greyscale, 2 indexed
 * version        0 to 3, or 11
 * compression    of the tiles: 0 plain, 1 run-length encoded
 * rows           how many rows of the table are used
 * pointer_size   bytes of a pointer: 4 in versions 0 to 3, 8 in version 11 */
typedef struct {
    uint64_t number;
    uint64_t place;
    uint64_t width;
    uint64_t height;
    uint64_t base;
    uint64_t version;
    uint64_t compression;
    uint64_t rows;
    uint64_t pointer_size;
} xcf_read_answer;

/* Reads a file into a table. Its rows are, from row 0 on, the layers in the order of the file, each with its mask, if it has
 * one, in the next row, and then the channels. All other rows are zero.
 *
 *   Field   Holds
 *   0       kind: 1 for a layer, 2 for a mask, 3 for a channel
 *   1, 2    width, height
 *   3       depth, the bytes of a pixel
 *   4       type: 0 RGB, 1 RGB with alpha, 2 grey, 3 grey with alpha, 4 indexed, 5 indexed with alpha; masks and channels
 *           have a 2
 *   5, 6    where in the file the name begins, and how many bytes it has, without the zero byte that closes it
 *   7       where the property list begins
 *   8       where the tile pointers begin
 *   9       number of tiles
 *   10      opacity, at most 255
 *   11      flags, added up: visible 1, apply mask 2, selection 4, active 8, group 16, and 32 where the name's bytes are not
 *           well-formed UTF-8 by RFC 3629 (an empty name is well-formed, and a zero byte in a name is a character)
 *   12, 13  offset to the right and down, in two's complement; a mask has those of its layer, and channels have 0
 *   14      mode; masks and channels have 0
 *   15      number of this row, or for a mask that of its layer
 *
 * Refused: 11 table and 15, which leave the table as lent; then the file's first fault, a 1 to 10, 12, 13, 16 or 25, which
 * sets the whole table to zero. */
xcf_read_answer xcf_read(const uint8_t *file, size_t file_length, uint32_t *table, size_t table_length);

/* number, place  of the call's own refusal: only ever an 11 at 0, and then all else is 0
 * refused, at    what xcf_read answers for the file as number and place: 0 and 0 where it is accepted
 * marked         how many tiles are marked, in all rows together
 * length         bytes of the listing */
typedef struct {
    uint64_t number;
    uint64_t place;
    uint64_t refused;
    uint64_t at;
    uint64_t marked;
    uint64_t length;
} xcf_list_answer;

/* Puts the listing of a file at the start of the text, which is unchanged behind it, and leaves the table as xcf_read does.
 * The listing has a line for the canvas, and one for each row: its number, its kind, its fields 1 to 15 and how many of its
 * tiles are marked. That of a refused file is a single line with number and place: `refused 13 at 133`.
 * Refused: 11 table; 11 text, where it has fewer than XCF_TEXT_LENGTH bytes. A file that is too long is not refused by this
 * call, but listed as `refused 15 at 0`. */
xcf_list_answer xcf_list(const uint8_t *file, size_t file_length, uint32_t *table, size_t table_length, uint8_t *text,
                         size_t text_length);

/* marked is how many tiles of the row are marked. */
typedef struct {
    uint64_t number;
    uint64_t place;
    uint64_t marked;
} xcf_decode_answer;

/* Decodes the drawable of a row. table, compression and pointer_size are those that xcf_read gave for this file; none is
 * trusted.
 *
 *   pixels  exactly width * height * depth bytes of the row: lines from the top, each from the left, depth bytes for a pixel
 *   marks   exactly a byte for each tile (field 9), its mark as in xcf_tile_answer. Tiles have sides of 64, in the last
 *           column and line what is left, and are numbered line by line from the top, in each from the left
 *
 * Every byte of both is set, whatever it held; where a tile is marked, its pixels are set to zero.
 * Where xcf_read gave table, compression and pointer_size for the file, a good tile depends only on the file's length, on the
 * bytes that xcf_read passes over and on those that the tile consumed: another file of that length that has these is read the
 * same and shows the same tile, whatever its other bytes are.
 * Refused: 11 table; 15; 14 unless
 *   - row is below 128 and its kind is 1 to 3,
 *   - its sides are 1 to 16,384 and its depth is 1 to 4,
 *   - field 9 is the number of tiles of these sides,
 *   - compression is 0 or 1, and pointer_size 4 or 8,
 *   - field 8 + pointer_size * (field 9 + 1) is at most file_length: the file has the tile pointers and the one behind them;
 * 11 pixels or marks; 13, at the first of these pointers that is wrong. */
xcf_decode_answer xcf_decode(const uint8_t *file, size_t file_length, const uint32_t *table, size_t table_length, uint32_t row,
                             uint32_t compression, uint32_t pointer_size, uint8_t *pixels, size_t pixels_length,
                             uint8_t *marks, size_t marks_length);

/* Counts the marked tiles of a row: the answer that xcf_decode gives where pixels and marks have the right lengths. */
xcf_decode_answer xcf_count_marked(const uint8_t *file, size_t file_length, const uint32_t *table, size_t table_length,
                                   uint32_t row, uint32_t compression, uint32_t pointer_size);

typedef struct {
    uint64_t number;
    uint64_t place;
    uint64_t length;
} xcf_write_answer;

/* Writes a file with run-length encoded tiles at the start of the output. length is how many bytes the file has; those behind
 * it are unchanged. base is 0 RGB or 1 greyscale; pixels are those of all used rows one after another, each row's as
 * xcf_decode gives them.
 *
 * Rows are as xcf_read could have given them for this canvas, but for what is said here:
 *
 *   Field  Usable
 *   4      of a layer: 0 to 3, and half of it, rounded down, is base
 *   5, 6   where in names the name begins, and its length: at most 1,024, and the sum of both at most names_length,
 *          also for an empty name
 *   7, 8   0
 *   11     32 is set exactly where the name's bytes in names are not well-formed UTF-8; group is never set; apply mask is set
 *          only where the next row is a mask; selection is set for one mask or channel at most, active for one layer at most,
 *          and for one mask or channel at most: a further one is the row refused
 *   14     at most 21
 *
 * First come the layers, 48 at most, each with its mask, if it has one, in the next row; then the channels, 32 at most. All
 * other rows are zero; a table of zeros only is right, too.
 *
 * xcf_read accepts the file and gives the same canvas and base, compression 1, version 2 where a mode is above 18 and 0
 * elsewhere, pointers of 4 bytes, and the same rows, but with places of the file in fields 5, 7 and 8. Names and pixels come
 * back as they were.
 * Refused: 11 table; 4 for width, then for height; 5; 17 for the first row that is not usable; 11 unless pixels_length is the
 * sum over all used rows; 18. */
xcf_write_answer xcf_write(uint32_t width, uint32_t height, uint32_t base, const uint32_t *table, size_t table_length,
                           const uint8_t *names, size_t names_length, const uint8_t *pixels, size_t pixels_length,
                           uint8_t *output, size_t output_length);

#ifdef __cplusplus
}
#endif

#endif
