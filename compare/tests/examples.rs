//! The examples that the rules give for streams, tiles and writing, held
//! against the implementations.

use xcf_compare::answer::{GOOD, OVERRUN, TOO_SOON, TileAnswer, UNUSABLE, WriteAnswer};
use xcf_compare::implementation::ALL;
use xcf_compare::tile;

/// Decodes an encoded tile, with all, into pixels that hold other bytes
/// before.
fn assert_decodes(window: &[u8], sides: [u32; 3], answer: TileAnswer, expected: &[u8]) {
    let [width, height, depth] = sides;
    for by in ALL {
        let mut pixels = vec![0xA5; expected.len()];
        let given = (by.decode_tile)(window, width, height, depth, 1, &mut pixels);
        assert_eq!(given, answer, "window {window:02X?}");
        assert_eq!(pixels, expected, "window {window:02X?}");
    }
}

/// Encodes a tile, with all, into an output with room to spare.
fn assert_encodes(pixels: &[u8], sides: [u32; 3], expected: &[u8]) {
    let [width, height, depth] = sides;
    for by in ALL {
        let mut output = vec![0xA5; expected.len() + 8];
        let answer = (by.encode_tile)(pixels, width, height, depth, &mut output);
        assert_eq!(answer, WriteAnswer::written(expected.len()));
        assert_eq!(&output[..expected.len()], expected);
        assert_eq!(&output[expected.len()..], [0xA5; 8]);
    }
}

#[test]
fn stream_of_127_by_the_reference() {
    let answer = tile::decode_stream(&[0x7E, 0x05], 127);
    assert_eq!(answer.bytes, [0x05; 127]);
    assert_eq!(
        (answer.mark, answer.consumed, answer.operations),
        (GOOD, 2, 1)
    );
    assert_eq!(tile::encode_stream(&[0x05; 127]), [0x7E, 0x05]);
}

#[test]
fn short_operations() {
    let one = TileAnswer::decoded(GOOD, 2, 1);
    assert_decodes(&[0xFF, 0x2A], [1, 1, 1], one, &[0x2A]);
    assert_decodes(&[0x00, 0x2A], [1, 1, 1], one, &[0x2A]);
}

/// No tile has 127 pixels; here the run of 127 is followed by one more byte.
#[test]
fn runs_of_127_and_128() {
    let mut pixels = [0x05; 128];
    let long = TileAnswer::decoded(GOOD, 4, 1);
    assert_decodes(&[0x7F, 0x00, 0x80, 0x05], [64, 2, 1], long, &pixels);
    assert_encodes(&pixels, [64, 2, 1], &[0x7F, 0x00, 0x80, 0x05]);
    pixels[127] = 0x06;
    let short = TileAnswer::decoded(GOOD, 4, 2);
    assert_decodes(&[0x7E, 0x05, 0xFF, 0x06], [64, 2, 1], short, &pixels);
    assert_encodes(&pixels, [64, 2, 1], &[0x7E, 0x05, 0xFF, 0x06]);
}

#[test]
fn zero_counts() {
    let copy = TileAnswer::decoded(GOOD, 5, 2);
    assert_decodes(&[0x80, 0x00, 0x00, 0xFF, 0x07], [1, 1, 1], copy, &[0x07]);
    let run = TileAnswer::decoded(GOOD, 6, 2);
    assert_decodes(
        &[0x7F, 0x00, 0x00, 0x33, 0xFF, 0x07],
        [1, 1, 1],
        run,
        &[0x07],
    );
    // A run of no bytes still has its value, which may be missing.
    let missing = TileAnswer::decoded(TOO_SOON, 0, 0);
    assert_decodes(&[0x7F, 0x00, 0x00], [1, 1, 1], missing, &[0]);
}

#[test]
fn overrun_and_missing_data() {
    let overrun = TileAnswer::decoded(OVERRUN, 0, 0);
    assert_decodes(&[0x02, 0x09], [2, 1, 1], overrun, &[0, 0]);
    let too_soon = TileAnswer::decoded(TOO_SOON, 0, 0);
    assert_decodes(&[0xFE, 0x01], [2, 1, 1], too_soon, &[0, 0]);
}

#[test]
fn rules_within_an_operation_in_order() {
    let overrun = TileAnswer::decoded(OVERRUN, 0, 0);
    let too_soon = TileAnswer::decoded(TOO_SOON, 0, 0);
    let pair = [2, 1, 1];
    // Length bytes come before the overrun.
    assert_decodes(&[0x7F, 0xFF], pair, too_soon, &[0, 0]);
    assert_decodes(&[0x80, 0xFF], pair, too_soon, &[0, 0]);
    // The overrun comes before the data.
    assert_decodes(&[0x02], pair, overrun, &[0, 0]);
    assert_decodes(&[0xFD], pair, overrun, &[0, 0]);
    assert_decodes(&[0x7F, 0x00, 0x03], pair, overrun, &[0, 0]);
    assert_decodes(&[0x80, 0x00, 0x03, 0x01], pair, overrun, &[0, 0]);
}

#[test]
fn two_streams() {
    let window = [0x01, 0x10, 0xFE, 0x20, 0x30];
    let answer = TileAnswer::decoded(GOOD, 5, 2);
    assert_decodes(&window, [2, 1, 2], answer, &[0x10, 0x20, 0x10, 0x30]);
    assert_encodes(
        &[0x10, 0x20, 0x10, 0x30],
        [2, 1, 2],
        &[0xFE, 0x10, 0x10, 0xFE, 0x20, 0x30],
    );
}

#[test]
fn run_does_not_cross_into_the_next_stream() {
    let answer = TileAnswer::decoded(OVERRUN, 0, 0);
    assert_decodes(&[0x03, 0x10], [2, 1, 2], answer, &[0; 4]);
    let answer = TileAnswer::decoded(OVERRUN, 2, 1);
    assert_decodes(&[0x01, 0x10, 0x02, 0x20], [2, 1, 2], answer, &[0; 4]);
    assert_encodes(&[0x10; 4], [2, 1, 2], &[0xFE, 0x10, 0x10, 0xFE, 0x10, 0x10]);
}

#[test]
fn writing() {
    assert_encodes(&[0xAA, 0xAA, 0xBB], [3, 1, 1], &[0xFD, 0xAA, 0xAA, 0xBB]);
    assert_encodes(
        &[0x01, 0x02, 0x02, 0x02],
        [4, 1, 1],
        &[0xFF, 0x01, 0x02, 0x02],
    );
}

/// The only tile of the example of a whole file.
#[test]
fn tile_of_the_whole_file() {
    let answer = TileAnswer::decoded(GOOD, 2, 1);
    assert_decodes(&[0xFF, 0xFF], [1, 1, 1], answer, &[0xFF]);
    assert_encodes(&[0xFF], [1, 1, 1], &[0xFF, 0xFF]);
}

#[test]
fn plain_windows() {
    for by in ALL {
        let mut pixels = [0xA5; 4];
        let answer = (by.decode_tile)(&[1, 2, 3, 4, 5], 2, 1, 2, 0, &mut pixels);
        assert_eq!(answer, TileAnswer::decoded(GOOD, 4, 0));
        assert_eq!(pixels, [1, 2, 3, 4]);
        let answer = (by.decode_tile)(&[1, 2, 3], 2, 1, 2, 0, &mut pixels);
        assert_eq!(answer, TileAnswer::decoded(TOO_SOON, 0, 0));
        assert_eq!(pixels, [0; 4]);
    }
}

#[test]
fn refusal_leaves_pixels_as_lent() {
    for by in ALL {
        for (width, compression) in [(0, 1), (65, 1), (1, 2)] {
            let mut pixels = [0xA5];
            let answer = (by.decode_tile)(&[0xFF, 0x2A], width, 1, 1, compression, &mut pixels);
            assert_eq!(answer, TileAnswer::refused(UNUSABLE));
            assert_eq!(pixels, [0xA5]);
        }
    }
}
