//! The numbers that `xcf list` prints.

/// The listing of an accepted file.
#[derive(Debug, PartialEq, Eq)]
pub struct Listing {
    pub width: usize,
    pub height: usize,
    pub base: usize,
    pub version: usize,
    pub compression: usize,
    pub rows: Vec<Row>,
}

#[derive(Debug, PartialEq, Eq)]
pub struct Row {
    pub kind: String,
    /// By their numbers; field 0 stands in `kind` and is 0 here.
    pub fields: [usize; 16],
    pub bad: usize,
}

impl Listing {
    #[track_caller]
    pub fn parse(text: &str) -> Self {
        let mut lines = text.lines();
        let head = lines.next().unwrap_or_default();
        let words: Vec<&str> = head.split(' ').collect();
        let [
            "canvas",
            width,
            height,
            "base",
            base,
            "version",
            version,
            "compression",
            compression,
            "rows",
            rows,
        ] = words[..]
        else {
            panic!("not the listing of an accepted file: {text:?}");
        };
        let listing = Listing {
            width: number(width),
            height: number(height),
            base: number(base),
            version: number(version),
            compression: number(compression),
            rows: lines
                .enumerate()
                .map(|(row, line)| Row::parse(row, line))
                .collect(),
        };
        assert_eq!(listing.rows.len(), number(rows), "{text}");
        listing
    }

    pub fn tiles(&self) -> usize {
        self.rows.iter().map(|row| row.fields[9]).sum()
    }

    pub fn bad(&self) -> usize {
        self.rows.iter().map(|row| row.bad).sum()
    }
}

impl Row {
    #[track_caller]
    fn parse(row: usize, line: &str) -> Self {
        let words: Vec<&str> = line.split(' ').collect();
        assert_eq!(
            (words.len(), number(words[0]), words[17]),
            (19, row, "bad"),
            "{line}"
        );
        let mut fields = [0; 16];
        for (field, word) in fields[1..].iter_mut().zip(&words[2..17]) {
            *field = number(word);
        }
        Row {
            kind: words[1].to_string(),
            fields,
            bad: number(words[18]),
        }
    }

    pub fn width(&self) -> usize {
        self.fields[1]
    }

    pub fn height(&self) -> usize {
        self.fields[2]
    }

    /// The signed offsets.
    pub fn offset(&self) -> (i32, i32) {
        (self.fields[12] as u32 as i32, self.fields[13] as u32 as i32)
    }
}

#[track_caller]
fn number(word: &str) -> usize {
    word.parse()
        .unwrap_or_else(|_| panic!("not a number: {word:?}"))
}
