//! Pointers of 8 bytes, and the zeros that end them.

use xcf_compare::files::laid::version_11::{
    example, grey_layer, image_start, layered, pointers, pointers_only, with_pointers,
};
use xcf_compare::files::laid::{END, with, words};

use crate::version_11::{CHANNEL, GREY, LAYERED, LAYERED_IMAGE};
use crate::{assert_accepted, assert_refused};

/// Where pointers to structures stand in `layered`: to the layer, the mask and
/// the channel; to hierarchies; to levels.
const STRUCTURE_POINTERS: [usize; 9] = [47, 114, 63, 106, 210, 299, 134, 230, 319];

/// The first place that no pointer of 4 bytes has.
const FAR: u64 = 1 << 32;

/// Asserts that a structure is missed at a place of 64 bits.
fn assert_missed(file: &[u8], place: u64) {
    assert_refused(file, 1, place as usize);
}

/// A good tile pointer in a file that ends within the closing zero.
#[test]
fn number_1_within_the_closing_zero() {
    let file = with_pointers(&example(), &[(161, 1)]);
    for length in 169..177 {
        assert_refused(&file[..length], 1, 169);
    }
    assert_accepted(&file[..177], [1, 1, 1, 11, 1], &[CHANNEL]);
}

/// A pointer past the end is answered with its whole value, where no sum wraps;
/// one into the last three bytes lacks the first word of what it leads to.
#[test]
fn number_1_where_a_pointer_leads_past_the_end() {
    let file = layered();
    assert_eq!(file.len(), 373);
    for place in STRUCTURE_POINTERS {
        for value in [
            370,
            371,
            372,
            373,
            374,
            1 << 31,
            FAR - 1,
            FAR,
            FAR + 1,
            FAR + 79,
            1 << 40,
            1 << 63,
            u64::MAX - 8,
            u64::MAX - 7,
            u64::MAX - 4,
            u64::MAX - 3,
            u64::MAX - 1,
            u64::MAX,
        ] {
            assert_missed(&with_pointers(&file, &[(place, value)]), value);
        }
    }
}

/// The file's own pointers lead elsewhere if a bit of their high word is set.
#[test]
fn number_1_where_only_the_low_word_is_right() {
    let file = layered();
    for (place, right) in STRUCTURE_POINTERS
        .into_iter()
        .zip([79, 190, 278, 122, 218, 307, 158, 246, 335])
    {
        assert_accepted(
            &with_pointers(&file, &[(place, right)]),
            LAYERED_IMAGE,
            &LAYERED,
        );
        for bit in 32..64 {
            let value = right | 1 << bit;
            assert_missed(&with_pointers(&file, &[(place, value)]), value);
        }
    }
}

#[test]
fn number_1_at_the_last_place() {
    assert_missed(&pointers_only(1, 0), 18_446_744_073_709_551_615);
    assert_missed(&pointers_only(0, 1), 18_446_744_073_709_551_615);
    assert_missed(&pointers_only(48, 32), 18_446_744_073_709_551_615);
}

/// A pointer whose low word is 0 is no 0: it ends no pointers, and is no mask
/// and no hierarchy that is missing.
#[test]
fn high_words_are_not_zero() {
    // Of the layers' and the channels' pointers; a zero closes them later.
    let image = |leading: &[u64]| [image_start(1), words(&END), pointers(leading)].concat();
    assert_missed(&image(&[FAR, 0, 0]), FAR);
    assert_missed(&image(&[0, FAR, 0]), FAR);
    assert_refused(&image(&[FAR, 0]), 1, 54);
    assert_refused(&image(&[0, FAR]), 1, 54);
    // The mask, the hierarchy, the level.
    for place in [114, 106, 134] {
        assert_missed(&with_pointers(&layered(), &[(place, FAR)]), FAR);
    }
    assert_missed(&with_pointers(&grey_layer(&[]), &[(146, FAR)]), FAR);
    // The end of the tile pointers.
    assert_refused(&with_pointers(&layered(), &[(182, FAR)]), 13, 182);
}

/// Pointers behind the first level pointer are passed over up to eight zero bytes.
#[test]
fn the_end_of_a_hierarchy() {
    let file = layered();
    for further in [1, 7, FAR, 1 << 56, u64::MAX] {
        let file = with_pointers(&file, &[(142, further)]);
        assert_accepted(&file, LAYERED_IMAGE, &LAYERED);
    }
    // Here the end is not there, and then it is.
    let open = with_pointers(&example(), &[(117, 179)]);
    let hierarchy = [words(&[1, 1, 1]), pointers(&[153, FAR])].concat();
    let file = [&open[..], &hierarchy].concat();
    assert_refused(&file, 1, 207);
    assert_refused(&[&file[..], &[0; 7]].concat(), 1, 207);
    let file = [&file[..], &[0; 8]].concat();
    assert_accepted(&file, [1, 1, 1, 11, 1], &[CHANNEL]);
}

/// The zeros that end the image's pointers have 8 bytes each.
#[test]
fn closing_zeros() {
    let image = [&image_start(1)[..], &words(&END)].concat();
    let with_zeros = |count: usize| [&image[..], &vec![0; count]].concat();
    for count in 0..8 {
        assert_refused(&with_zeros(count), 1, 38);
        assert_refused(&with_zeros(8 + count), 1, 46);
    }
    assert_accepted(&with_zeros(16), GREY, &[]);
}

#[test]
fn number_8() {
    assert_refused(&pointers_only(49, 0), 8, 422);
    assert_refused(&pointers_only(0, 33), 8, 302);
    assert_refused(&pointers_only(48, 33), 8, 686);
    // The pointer that is one too many need not be one in its low word.
    let file = with_pointers(&pointers_only(49, 0), &[(422, FAR)]);
    assert_refused(&file, 8, 422);
}

#[test]
fn number_9() {
    for place in [106, 210, 299, 134, 230, 319] {
        assert_refused(&with_pointers(&layered(), &[(place, 0)]), 9, place);
    }
}

#[test]
fn number_13() {
    let file = layered();
    for (place, values) in [
        (166, [0, 373, 374, FAR, FAR | 367, 1 << 63 | 367, u64::MAX]),
        (174, [0, 366, 367, 373, FAR | 368, 1 << 56 | 368, u64::MAX]),
        (182, [1, 369, 1 << 31, FAR, FAR | 1, 1 << 56, u64::MAX]),
        (262, [369, 368, 373, FAR - 1, FAR | 370, u64::MAX - 7, 1]),
        (351, [371, 370, 373, FAR + 1, FAR | 372, u64::MAX - 3, 0]),
        (359, [1, 2, 372, FAR - 1, FAR, 1 << 40, u64::MAX - 1]),
    ] {
        for value in values {
            assert_refused(&with_pointers(&file, &[(place, value)]), 13, place);
        }
    }
    // The second pointer is the one that is not above the first.
    assert_refused(&with_pointers(&file, &[(166, 368)]), 13, 174);
    // Both are far, and the first of them is the fault.
    let far = [(166, FAR | 367), (174, FAR | 368)];
    assert_refused(&with_pointers(&file, &far), 13, 166);
    // Tiles may lie anywhere in the file, also in its structures.
    let file = with_pointers(&file, &[(166, 1), (174, 372)]);
    assert_accepted(&file, LAYERED_IMAGE, &LAYERED);
}

#[test]
fn fields_of_a_level_in_turn() {
    let mut bad = with(&layered(), &[(158, 1), (162, 1)]);
    bad = with_pointers(&bad, &[(166, FAR), (174, FAR), (182, FAR)]);
    for (place, right) in [(158, 65), (162, 3)] {
        assert_refused(&bad, 10, place);
        bad = with(&bad, &[(place, right)]);
    }
    for (place, right) in [(166, 367), (174, 368), (182, 0)] {
        assert_refused(&bad, 13, place);
        bad = with_pointers(&bad, &[(place, right)]);
    }
    assert_accepted(&bad, LAYERED_IMAGE, &LAYERED);
}

#[test]
fn fields_of_a_hierarchy_in_turn() {
    let mut bad = with(&layered(), &[(122, 1), (126, 1), (130, 1)]);
    bad = with_pointers(&bad, &[(134, 0)]);
    for (place, right) in [(122, 65), (126, 3), (130, 4)] {
        assert_refused(&bad, 10, place);
        bad = with(&bad, &[(place, right)]);
    }
    assert_refused(&bad, 9, 134);
}

#[test]
fn zero_hierarchy_pointer_before_the_missing_mask_pointer() {
    let file = grey_layer(&[]);
    let zero = with_pointers(&file, &[(138, 0)]);
    for length in 146..154 {
        assert_refused(&zero[..length], 9, 138);
        assert_refused(&file[..length], 1, 146);
    }
    // The mask pointer is missed before the hierarchy is followed.
    let file = with(&file, &[(62, 2)]);
    assert_refused(&file[..153], 1, 146);
    assert_refused(&file, 10, 62);
}

#[test]
fn layers_hierarchy_before_its_far_mask() {
    let far = with_pointers(&layered(), &[(114, u64::MAX)]);
    assert_missed(&far, u64::MAX);
    assert_refused(&with(&far, &[(122, 1)]), 10, 122);
    assert_refused(&with_pointers(&far, &[(182, FAR)]), 13, 182);
    // The layer and its mask come before a far channel.
    let far = with_pointers(&layered(), &[(63, FAR)]);
    assert_missed(&far, FAR);
    assert_refused(&with_pointers(&far, &[(270, 1)]), 13, 270);
}
