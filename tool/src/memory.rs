//! Large buffers, refused with a sentence where there is no memory for them.

use crate::fault::Fault;

/// A buffer of so many zeros. Its pages are taken only when they are written.
pub fn zeros(length: usize) -> Result<Vec<u8>, Fault> {
    // What is reserved here is given back, so that the zeros can come from
    // the system, which has them for nothing.
    drop(reserved(length)?);
    Ok(vec![0; length])
}

/// An empty buffer with room for so many bytes.
pub fn reserved(length: usize) -> Result<Vec<u8>, Fault> {
    let mut buffer = Vec::new();
    make_room(&mut buffer, length)?;
    Ok(buffer)
}

/// Makes room for so many bytes more.
pub fn make_room(buffer: &mut Vec<u8>, length: usize) -> Result<(), Fault> {
    let none = |_| Fault::system(format!("there is not enough memory for {length} bytes"));
    buffer.try_reserve_exact(length).map_err(none)
}
