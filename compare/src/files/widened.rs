//! Files written anew in version 11.

use super::block::word_at;
use super::{DrawableFields, ImageFields, Layer, write_file};
use crate::answer::{ReadAnswer, Row, TABLE_LENGTH};
use crate::decode::Drawable;
use crate::read::read;

/// Where the image's list of properties starts before version 4.
const IMAGE_LIST: usize = 26;

/// A file of version 0 to 3 that is accepted, and what reading it gives.
struct Source<'a> {
    file: &'a [u8],
    answer: ReadAnswer,
    table: Vec<u32>,
}

/// The same image in version 11: the names and the lists stay, and each tile
/// brings its whole window. That of a drawable's last tile goes on behind the
/// tile, so what follows there comes along.
pub fn widened(file: &[u8]) -> Vec<u8> {
    let mut table = vec![0; TABLE_LENGTH];
    let answer = read(file, &mut table);
    assert_eq!((answer.number, answer.pointer_size), (0, 4));
    let source = Source {
        file,
        answer,
        table,
    };
    let image = ImageFields {
        version: 11,
        sides: [answer.width, answer.height].map(|side| side as u32),
        base: answer.base as u32,
        list: source.list(IMAGE_LIST),
    };
    let (layers, channels) = source.drawables();
    write_file(&image, &layers, &channels)
}

impl Source<'_> {
    /// The list of properties at a place, without its end.
    fn list(&self, place: usize) -> Vec<u8> {
        let mut end = place;
        while word_at(self.file, end) != 0 {
            end += 8 + word_at(self.file, end + 4) as usize;
        }
        self.file[place..end].to_vec()
    }

    fn drawables(&self) -> (Vec<Layer>, Vec<DrawableFields>) {
        let rows: &[Row] = self.table.as_chunks().0;
        let (mut layers, mut channels) = (Vec::<Layer>::new(), Vec::new());
        for (index, row) in rows[..self.answer.rows as usize].iter().enumerate() {
            let fields = self.fields(index as u32, row);
            match row[0] {
                1 => layers.push(Layer {
                    kind: row[4],
                    fields,
                    mask: None,
                }),
                2 => layers.last_mut().expect("its layer").mask = Some(fields),
                _ => channels.push(fields),
            }
        }
        (layers, channels)
    }

    fn fields(&self, index: u32, row: &Row) -> DrawableFields {
        let [compression, size] = self.answer.form();
        let drawable = Drawable::new(self.file, &self.table, index, compression, size);
        let windows = drawable.and_then(|drawable| drawable.windows(self.file));
        let windows = windows.expect("a row that was read").into_iter();
        let name = row[5] as usize..(row[5] + row[6]) as usize;
        DrawableFields {
            sides: [row[1], row[2]],
            name: self.file[name].to_vec(),
            list: self.list(row[7] as usize),
            tiles: windows.map(|window| self.file[window].to_vec()).collect(),
        }
    }
}
