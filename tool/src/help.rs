//! The help texts.

pub const OVERVIEW: &str = "\
xcf: GIMP's XCF files, versions 0 to 3 and 11, by a proved library. A damaged
tile is marked, and its pixels are zero.

usage: xcf COMMAND ...
  xcf list FILE...             the listing: a line of numbers for each row
  xcf show FILE                the same for people, and where tiles are marked
  xcf check FILE...            a line for each file: accepted, marked or refused
  xcf extract FILE ROW OUT.pam the pixels of a row, with a band of marks
  xcf pack OUT.xcf ITEM...     an XCF file from PAM files and names
  xcf help COMMAND             all about a command; also xcf COMMAND --help

FILE may be - for standard input, and OUT for standard output. Exit status: 0
fine, 1 a file is refused or a tile is marked, 2 wrong usage or a fault of the
system.
";

pub const LIST: &str = "\
usage: xcf list FILE...

Prints the listing of each file: a line for the canvas, and one for each row
with its kind, its 15 other numbers and how many of its tiles are marked; or
`refused N at P` alone. Where several files are given, the file's name and a
colon stand above each listing.

example:
  $ xcf list chart.xcf
  canvas 200 150 base 1 version 0 compression 1 rows 1
  0 layer 200 150 1 2 71 5 77 173 12 255 1 0 0 0 0 bad 0
";

pub const SHOW: &str = "\
usage: xcf show FILE

Prints a table of the file's layers, masks and channels: size, type, flags, how
many tiles are marked, and the name, escaped where it is not printable; one
whose bytes are not well-formed UTF-8 has the flag `not UTF-8`. For each row
with marked tiles a map of its grid follows: . good, # marked.

example:
  $ xcf show chart.xcf
  $ xcf show - < chart.xcf
";

pub const CHECK: &str = "\
usage: xcf check FILE...

Prints a line for each file: accepted, with its rows and tiles and how many of
these are marked; or refused, with the number, the place and what it means. The
exit status is 0 only where every file is accepted and no tile is marked.

example:
  $ xcf check scans/*.xcf
";

pub const EXTRACT: &str = "\
usage: xcf extract [--no-marks] [--force] FILE ROW OUT.pam

Writes the pixels of a row, by its number in `xcf list`, as a Netpbm PAM file
with a band of marks behind its own: 255 for each pixel of a good tile, 0 for
each of a marked one. Marked tiles are also said on standard error, and the exit
status is then 1.

  --no-marks  leave the band of marks out
  --force     replace OUT where it exists

The header's comment names the bands. 1 to 4 bands have the tuple types
GRAYSCALE, GRAYSCALE_ALPHA, RGB and RGB_ALPHA, and 5 bands have CMYK_ALPHA, so
that programs that know these open the file with every band as it is.

example:
  $ xcf extract chart.xcf 1 pen.pam
";

pub const PACK: &str = "\
usage: xcf pack [--force] [--canvas WxH] [--base rgb|grey] OUT.xcf ITEM...

Writes an XCF file from PAM files and names. An ITEM is one of these: layers,
the topmost first, each mask directly behind its layer, channels last:

  --layer NAME IN.pam    of 1 band (grey), 2 (grey, alpha), 3 (RGB) or 4 (RGBA)
  --mask NAME IN.pam     of 1 band, of the layer's size
  --channel NAME IN.pam  of 1 band, of the canvas's size

and what is said of an item stands behind it:

  --opacity N            0 to 255; 255 if not said
  --offset X,Y           of a layer; 0,0 if not said
  --mode N               of a layer, 0 to 21; 0 if not said
  --hidden, --visible    layers are visible, masks and channels hidden if not said
  --active               the active layer or channel
  --selection            of a mask or channel: it is the selection
  --unapplied            of a mask: it is not applied to its layer
  --mark-band            the last band of the PAM file is a band of marks
  --no-mark-band         it is not; if neither is said, the comment in the PAM
                         file's header tells
  --marks NAME           keep the band of marks as a channel of this name, of
                         the canvas's size, 255 where nothing is marked

A band of marks, as `xcf extract` writes it, is not part of the pixels. Where it
has marked pixels the file is refused, unless --marks keeps the band. Names are
bytes, 1,024 at most, in UTF-8 or not.

  --canvas WxH  the canvas's size; that of the first item if not said
  --base B      rgb or grey; that of the first layer, else grey, if not said
  --force       replace OUT where it exists

example:
  $ xcf pack new.xcf --canvas 200x150 --layer pen pen.pam --offset 10,20 \\
      --mask 'pen mask' mask.pam --layer paper paper.pam \\
      --channel suspect suspect.pam --visible
";
