//! An item of the command: a PAM file, its name and what is said of it.

use std::ffi::OsString;

use crate::arguments::{Arguments, number, other, pair};
use crate::fault::Fault;
use crate::row::{Kind, flag};

pub struct Item {
    pub kind: Kind,
    pub name: OsString,
    pub path: OsString,
    pub opacity: u32,
    pub mode: u32,
    /// Where nothing is said, that of its layer for a mask, else 0, 0.
    pub offset: Option<(i32, i32)>,
    pub visible: bool,
    pub active: bool,
    pub selection: bool,
    pub unapplied: bool,
    /// Whether the last band is one of marks; where nothing is said, the file
    /// tells.
    pub mark_band: Option<bool>,
    /// The name of a channel for the band of marks.
    pub marks: Option<OsString>,
}

impl Item {
    /// The kind of item that an option begins.
    pub fn kind(option: &str) -> Option<Kind> {
        match option {
            "--layer" => Some(Kind::Layer),
            "--mask" => Some(Kind::Mask),
            "--channel" => Some(Kind::Channel),
            _ => None,
        }
    }

    pub fn parse(kind: Kind, option: &str, arguments: &mut Arguments) -> Result<Self, Fault> {
        Ok(Item {
            kind,
            name: arguments.value(option)?,
            path: arguments.value(option)?,
            opacity: 255,
            mode: 0,
            offset: None,
            visible: kind == Kind::Layer,
            active: false,
            selection: false,
            unapplied: false,
            mark_band: None,
            marks: None,
        })
    }

    pub fn option(&mut self, option: &str, arguments: &mut Arguments) -> Result<(), Fault> {
        match option {
            "--opacity" => self.opacity = number(&arguments.value(option)?, option)?,
            "--mode" => self.mode = number(&arguments.value(option)?, option)?,
            "--offset" => self.offset = Some(pair(&arguments.value(option)?, ',', option)?),
            "--hidden" => self.visible = false,
            "--visible" => self.visible = true,
            "--active" => self.active = true,
            "--selection" => self.selection = true,
            "--unapplied" if self.kind == Kind::Mask => self.unapplied = true,
            "--mark-band" => self.mark_band = Some(true),
            "--no-mark-band" => self.mark_band = Some(false),
            "--marks" => self.marks = Some(arguments.value(option)?),
            _ => return Err(other(option)),
        }
        Ok(())
    }

    /// The flags of its row.
    pub fn flags(&self) -> u32 {
        let flags = [
            (self.visible, flag::VISIBLE),
            (self.selection, flag::SELECTION),
            (self.active, flag::ACTIVE),
        ];
        let set = flags.iter().filter(|(is_set, _)| *is_set);
        set.map(|(_, flag)| flag).sum()
    }
}
