//! What a tile depends on, in pairs of files through the library: damage stays in
//! the windows that it lies in; a good tile depends only on the structures and on
//! the bytes that it consumed, and does depend on these.

mod changes;
mod consumed;
mod damage;
mod needed;
mod places;
mod reading;
mod two_channels;
