//! The size of pointers, told with each call, and pointers of 8 bytes.

use xcf_compare::files::laid::words;

use crate::{Call, pair, sized_drawable};

/// Two plain tiles side by side, at 25 and 89; the pointers, of 8 bytes each,
/// are at 1 and 9, the closing zero at 17, and the file has 90 bytes.
fn long_pair() -> Call {
    sized_drawable(8, [65, 1], 1, 0, &[&[1; 64], &[2]])
}

/// Sizes that are right but for high bits are none.
#[test]
fn number_14_for_the_pointer_size() {
    for size in [
        0,
        1,
        2,
        3,
        5,
        6,
        7,
        9,
        12,
        16,
        32,
        64,
        256 + 4,
        256 + 8,
        65_536 + 4,
        1 << 31 | 8,
        u32::MAX,
    ] {
        for call in [Call::example(), Call::long_example()] {
            call.told(size).assert_refused(14, 0);
            // Before pixels, marks and pointers are looked at.
            call.told(size).lent(0, 0).assert_refused(14, 0);
            let place = call.table[8] as usize;
            let bad = call.with_pointer(place, u64::MAX);
            bad.told(size).assert_refused(14, 0);
        }
    }
}

/// A pointer of 8 bytes and the closing zero take 16 of the file's 179 bytes.
#[test]
fn number_14_for_the_place_of_long_pointers() {
    let call = Call::long_example();
    for place in [
        164,
        171,
        178,
        179,
        180,
        1 << 31,
        u32::MAX - 15,
        u32::MAX - 14,
        u32::MAX - 7,
        u32::MAX,
    ] {
        call.with_field(8, place).assert_refused(14, 0);
    }
    // Here they are the file's last bytes, and the pointer is bad.
    call.with_field(8, 163).assert_refused(13, 163);
}

/// What does not fit as pointers of 8 bytes may fit as ones of 4.
#[test]
fn number_14_for_the_room_of_either_size() {
    let call = Call::example().told(8);
    call.assert_refused(14, 0);
    let mut longer = call.clone();
    longer.file.extend([0; 5]);
    longer.assert_refused(14, 0);
    longer.file.push(0);
    longer.assert_refused(13, 133);
    longer.told(4).assert_decodes(&[0], &[0xFF]);
}

/// Pointers read in the other size: a long one's high word is a pointer of 0, a
/// short one is the high word of one that leads far beyond the file.
#[test]
fn the_other_pointer_size() {
    Call::long_example().told(4).assert_refused(13, 161);
    long_pair().told(4).assert_refused(13, 1);
    pair().told(8).assert_refused(13, 1);
    // The first long pointer has all its bytes but the first four in common
    // with a short one.
    let file = words(&[0, 7, 0, 0, 0]);
    let row = |place| [2, 1, 1, 1, 0, 0, 0, 0, place, 1, 0, 0, 0, 0, 0, 0];
    let call = |place, size| Call::new(&file, row(place), 0).told(size);
    call(0, 8).assert_decodes(&[0], &[7]);
    call(4, 4).assert_decodes(&[0], &[7]);
    call(0, 4).assert_refused(13, 0);
    call(4, 8).assert_refused(13, 4);
}

/// All eight bytes count: those of the file's own pointers with another high
/// word are bad, and a high word alone closes nothing.
#[test]
fn number_13_for_long_pointers() {
    let far = [
        1 << 32,
        1 << 33,
        1 << 63,
        u64::MAX - 7,
        u64::MAX - 3,
        u64::MAX,
    ];
    let call = Call::long_example();
    for pointer in [0, 179, 180, 1 << 31, 1 << 32 | 177, 1 << 56 | 177] {
        call.with_pointer(161, pointer).assert_refused(13, 161);
    }
    for closing in [1, 178, 1 << 24, 1 << 31, 1 << 56] {
        call.with_pointer(169, closing).assert_refused(13, 169);
    }
    for pointer in far {
        call.with_pointer(161, pointer).assert_refused(13, 161);
        call.with_pointer(169, pointer).assert_refused(13, 169);
    }
    let call = long_pair();
    for pointer in [0, 1, 24, 25, 90, 91, 1 << 32 | 89] {
        call.with_pointer(9, pointer).assert_refused(13, 9);
    }
    for pointer in far {
        call.with_pointer(9, pointer).assert_refused(13, 9);
    }
    // The first is good, and the second no longer above it.
    call.with_pointer(1, 89).assert_refused(13, 9);
    // The first is bad, whatever the second is beside it.
    call.with_pointer(1, 1 << 32 | 25).assert_refused(13, 1);
    let both = call.with_pointer(1, 1 << 32 | 25);
    both.with_pointer(9, 1 << 32 | 89).assert_refused(13, 1);
    call.with_pointer(17, 1 << 32).assert_refused(13, 17);
}

#[test]
fn number_13_at_the_lowest_bad_long_pointer() {
    let bad = [(1, 0), (9, 90), (17, 1 << 32)]
        .into_iter()
        .fold(long_pair(), |call, (place, pointer)| {
            call.with_pointer(place, pointer)
        });
    bad.assert_refused(13, 1);
    let bad = bad.with_pointer(1, 25);
    bad.assert_refused(13, 9);
    let bad = bad.with_pointer(9, 89);
    bad.assert_refused(13, 17);
    bad.with_pointer(17, 0)
        .assert_decodes(&[0, 0], &[&[1; 64][..], &[2]].concat());
}
