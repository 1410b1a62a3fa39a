//! Overwrites the first bytes of a tile in an encoded file, so that its first
//! operation gives more than its stream takes. The arguments are the file, the
//! row of the drawable, the number of the tile, and the file to write.

use std::{env, fs, process};

use xcf_compare::answer::TABLE_LENGTH;
use xcf_compare::decode::Drawable;
use xcf_compare::read::read;

/// A run of 65,535 bytes, more than any stream has.
const OVERRUN: [u8; 3] = [127, 255, 255];

fn main() {
    let arguments: Vec<String> = env::args().skip(1).collect();
    let [from, row, tile, to] = arguments.as_slice() else {
        eprintln!("usage: damage_tile FILE ROW TILE OUT");
        process::exit(2);
    };
    if let Err(reason) = damage(from, row, tile, to) {
        eprintln!("{from}: {reason}");
        process::exit(1);
    }
}

fn damage(from: &str, row: &str, tile: &str, to: &str) -> Result<(), String> {
    let mut file = fs::read(from).map_err(|error| error.to_string())?;
    let row = row.parse().map_err(|_| "the row is no number")?;
    let tile = tile.parse().map_err(|_| "the tile is no number")?;
    overwrite(&mut file, row, tile)?;
    fs::write(to, file).map_err(|error| error.to_string())
}

fn overwrite(file: &mut [u8], row: u32, tile: usize) -> Result<(), String> {
    let mut table = vec![0; TABLE_LENGTH];
    let answer = read(file, &mut table);
    if answer.number != 0 {
        return Err(format!("refused {} at {}", answer.number, answer.place));
    }
    if answer.compression == 0 {
        return Err("its tiles are plain".to_string());
    }
    let [compression, pointer_size] = answer.form();
    let drawable = Drawable::new(file, &table, row, compression, pointer_size);
    let drawable = drawable.map_err(|_| "no such row")?;
    let windows = drawable.windows(file).map_err(|_| "bad tile pointers")?;
    let window = windows.get(tile).ok_or("no such tile")?.clone();
    let start = file[window].get_mut(..OVERRUN.len());
    start
        .ok_or("the window is too short")?
        .copy_from_slice(&OVERRUN);
    Ok(())
}
