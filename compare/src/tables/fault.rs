//! The faults of a call that writes a file, and the refusal of each.

mod number;
mod order;

use super::TableCase;
use crate::answer::{
    BAD_BASE, BAD_SIDE, OUTPUT_TOO_SHORT, TABLE_LENGTH, UNUSABLE_ROW, WRONG_LENGTH,
};
use crate::cases::wrong_length;
use crate::numbers::{above, bad_side};
use crate::random::Random;

/// A number, and the place that it stands at.
type Refused = (u64, usize);

/// What each of the writer's tests refuses with, in their order: the table,
/// the sides, the base, the rows, the pixels, the output.
const NUMBERS: [u64; 6] = [
    WRONG_LENGTH,
    BAD_SIDE,
    BAD_BASE,
    UNUSABLE_ROW,
    WRONG_LENGTH,
    OUTPUT_TOO_SHORT,
];

/// The last of the tests.
pub const LAST_TEST: usize = NUMBERS.len() - 1;

/// One thing that is wrong.
#[derive(Clone, Copy, Debug, PartialEq, Eq, PartialOrd, Ord)]
pub enum Fault {
    /// A table of another length.
    TableLength,
    Width,
    Height,
    Base,
    /// A kind above 3.
    Kind,
    /// A number in an unused row.
    Unused,
    /// A used row behind an unused one.
    Gap,
    /// A 49th layer.
    Layers,
    /// A 33rd channel.
    Channels,
    LayerAfterChannel,
    /// A mask that is not directly behind a layer.
    LooseMask,
    LayerSide,
    MaskSide,
    ChannelSide,
    /// Bytes per pixel that the type does not have.
    Depth,
    LayerType,
    /// The type of a mask or channel.
    OtherType,
    NameLength,
    /// A name that does not lie within the lent bytes.
    NamePlace,
    /// The flag says of the name that it is UTF-8 where it is not, or the reverse.
    NameFlag,
    PropertiesPlace,
    TilesPlace,
    TileCount,
    Opacity,
    /// A flag that no drawable of the kind has.
    Flag,
    /// The flag to apply a mask, without a mask.
    Apply,
    SecondSelection,
    SecondActiveLayer,
    /// A second active channel or mask.
    SecondActive,
    MaskOffset,
    ChannelOffset,
    LayerMode,
    /// The mode of a mask or channel.
    OtherMode,
    Owner,
    /// Pixels of another length.
    PixelsLength,
    /// An output that is too short.
    OutputLength,
}

impl Fault {
    pub const ALL: [Fault; 36] = [
        Fault::TableLength,
        Fault::Width,
        Fault::Height,
        Fault::Base,
        Fault::Kind,
        Fault::Unused,
        Fault::Gap,
        Fault::Layers,
        Fault::Channels,
        Fault::LayerAfterChannel,
        Fault::LooseMask,
        Fault::LayerSide,
        Fault::MaskSide,
        Fault::ChannelSide,
        Fault::Depth,
        Fault::LayerType,
        Fault::OtherType,
        Fault::NameLength,
        Fault::NamePlace,
        Fault::NameFlag,
        Fault::PropertiesPlace,
        Fault::TilesPlace,
        Fault::TileCount,
        Fault::Opacity,
        Fault::Flag,
        Fault::Apply,
        Fault::SecondSelection,
        Fault::SecondActiveLayer,
        Fault::SecondActive,
        Fault::MaskOffset,
        Fault::ChannelOffset,
        Fault::LayerMode,
        Fault::OtherMode,
        Fault::Owner,
        Fault::PixelsLength,
        Fault::OutputLength,
    ];

    /// Which of the tests finds the fault.
    fn test(self) -> usize {
        match self {
            Fault::TableLength => 0,
            Fault::Width | Fault::Height => 1,
            Fault::Base => 2,
            Fault::PixelsLength => 4,
            Fault::OutputLength => 5,
            _ => 3,
        }
    }

    /// A fault that the test finds.
    pub fn of_test(random: &mut Random, test: usize) -> Fault {
        let found = Fault::ALL.into_iter().filter(|fault| fault.test() == test);
        random.pick(&found.collect::<Vec<Fault>>())
    }

    /// The number that a call with only this fault is refused with.
    pub fn number(self) -> u64 {
        NUMBERS[self.test()]
    }

    /// Adds the fault to a call and gives the refusal, if there is no other
    /// fault; `None` where the call lacks what the fault takes.
    pub fn spoil(self, random: &mut Random, case: &mut TableCase) -> Option<Refused> {
        let place = match self {
            Fault::TableLength => {
                let any = wrong_length(random, TABLE_LENGTH);
                let length = random.pick(&[0, 16, 2_032, 2_047, 2_049, 2_064, any]);
                case.table.resize(length, 0);
                0
            }
            Fault::Width => {
                case.width = bad_side(random);
                14
            }
            Fault::Height => {
                case.height = bad_side(random);
                18
            }
            Fault::Base => {
                case.base = above(random, 1);
                22
            }
            Fault::PixelsLength => {
                let length = match case.pixels.len() {
                    0 => random.pick(&[1, 64]),
                    right => wrong_length(random, right),
                };
                case.pixels.resize(length, 0x55);
                0
            }
            Fault::OutputLength => {
                let needed = case.known.as_ref()?.file.len();
                let shorter = random.below(needed);
                let length = random.pick(&[needed - 1, needed - 1, 0, shorter]);
                case.output.truncate(length);
                0
            }
            _ => self.spoil_rows(random, case)?,
        };
        Some((self.number(), place))
    }

    /// Makes a row unusable; gives the lowest that is.
    fn spoil_rows(self, random: &mut Random, case: &mut TableCase) -> Option<usize> {
        match self {
            Fault::Unused => order::use_unused(random, case),
            Fault::Gap => order::leave_gap(random, case),
            Fault::Layers => order::add_layers(case),
            Fault::Channels => order::add_channels(case),
            Fault::LayerAfterChannel => order::add_late_layer(random, case),
            Fault::LooseMask => order::add_mask(random, case),
            Fault::SecondSelection => order::flag_two(random, case, 4, &[2, 3]),
            Fault::SecondActiveLayer => order::flag_two(random, case, 8, &[1]),
            Fault::SecondActive => order::flag_two(random, case, 8, &[2, 3]),
            _ => number::spoil(self, random, case),
        }
    }
}
