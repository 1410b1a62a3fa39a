//! How tiles change from one file to the other.

use std::fmt::{Display, Formatter, Result};

/// How many tiles changed, and how; marks that became other marks are in none
/// of these.
#[derive(Default)]
pub struct Changes {
    pub good_to_marked: usize,
    pub marked_to_good: usize,
    /// Tiles that stayed good, with other pixels.
    pub other_pixels: usize,
    /// Tiles whose mark and pixels did not change.
    pub unchanged: usize,
}

impl Changes {
    /// Counts a tile by its mark and pixels before and after.
    pub fn add(&mut self, old: &(u8, Vec<u8>), new: &(u8, Vec<u8>)) {
        match (old.0, new.0) {
            _ if old == new => self.unchanged += 1,
            (0, 0) => self.other_pixels += 1,
            (0, _) => self.good_to_marked += 1,
            (_, 0) => self.marked_to_good += 1,
            _ => {}
        }
    }
}

impl Display for Changes {
    fn fmt(&self, formatter: &mut Formatter) -> Result {
        write!(
            formatter,
            "{} went from good to marked, {} from marked to good, {} stayed good with other \
             pixels, {} did not change",
            self.good_to_marked, self.marked_to_good, self.other_pixels, self.unchanged
        )
    }
}
