//! A band of marks that is kept as a channel.

use crate::pam::GOOD;
use crate::row::{Row, field};

pub struct Kept {
    /// The row whose marks these are.
    pub row: Row,
    pub name: Vec<u8>,
    pub band: Vec<u8>,
}

impl Kept {
    /// Puts what is marked where it lies on the canvas into a channel of that
    /// size, all of which is good.
    pub fn put(&self, channel: &Row, pixels: &mut [u8]) -> Result<(), &'static str> {
        let columns = self.row[field::WIDTH] as usize;
        let marks = self.band.iter().enumerate();
        for (place, mark) in marks.filter(|(_, mark)| **mark != GOOD) {
            let x = self.place(field::OFFSET_X, place % columns, channel[field::WIDTH]);
            let y = self.place(field::OFFSET_Y, place / columns, channel[field::HEIGHT]);
            let (x, y) = x.zip(y).ok_or("marked pixels lie outside the canvas")?;
            pixels[y * channel[field::WIDTH] as usize + x] = *mark;
        }
        Ok(())
    }

    /// A place of the row on the canvas's side, if it is there.
    fn place(&self, offset: usize, place: usize, side: u32) -> Option<usize> {
        // Offsets are stored as two's complement.
        let place = i64::from(self.row[offset] as i32) + place as i64;
        let place = usize::try_from(place).ok()?;
        (place < side as usize).then_some(place)
    }
}
