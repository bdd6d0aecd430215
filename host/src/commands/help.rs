//! What `--help` and `--version` say.

pub const VERSION: &str = concat!("dwg-hatch ", env!("CARGO_PKG_VERSION"), "\n");

/// The help of a command.
pub fn of(command: &str) -> Option<&'static str> {
    Some(match command {
        "read" => READ_HELP,
        "prefix" => PREFIX_HELP,
        "draw" => DRAW_HELP,
        "cut" => CUT_HELP,
        "answer" => ANSWER_HELP,
        _ => return None,
    })
}

pub const HELP: &str = "\
Reads hatch bodies and entity prefixes of DWG drawings with a proved reader. Of a whole drawing of R2000 (AC1015) they are found in the file; of
other releases your DWG reader cuts them out.

usage: dwg-hatch COMMAND [OPTION]...

  read      read hatch bodies and prefixes: a summary of each, or everything as JSON
  prefix    read entity prefixes alone
  draw      draw hatch bodies as a picture (SVG)
  cut       write the hatch bodies of a whole drawing of R2000 as request lines
  answer    answer request lines on standard input, one line each, for programs

dwg-hatch help COMMAND says more about a command, and so does dwg-hatch COMMAND --help; dwg-hatch --version says which
version this is. The status is 0 if all went well, 1 if something was refused or could not be read or written, 2 if the
command or a line is wrong.
";

pub const READ_HELP: &str = "\
Reads hatch bodies and entity prefixes, and prints a summary of each, or everything as JSON.

usage: dwg-hatch read [--json] [--names] [--quiet] [--jobs N] [--origin X,Y|auto] [--code-page 1252] [FILE]
       dwg-hatch read [OPTION]... --release N [--start BIT] [--strings FILE [--string-start BIT] [--string-end BIT]] [FILE]

  --json               print one JSON object a line for each request, with every field; docs/JSON.md has their names.
                       Finite doubles are the shortest numbers that give the same double back, NaNs and infinities
                       strings with their 64 bits, as \"0x7ff8000000000001\"
  --names              behind all else, list the names that stand in FILE both padded with a closing zero and not, and so
                       may have been filed as two: in how many hatches each way, names of patterns first, then those of
                       gradients. Hatches that are refused do not count
  --quiet              do not warn of hatches that may have been read wrongly
  --jobs N             work by so many jobs side by side, 1 to 256; as many as the machine has cores if not given. What is
                       written is the same for any number, in the order of the lines
  --origin X,Y         move each hatch there: X is taken off each x and Y off each y of its points, by one subtraction of
                       doubles; directions, such as tangents, stay. A hatch that cannot be moved is refused: 12 if its
                       extrusion is not (0, 0, 1), 13 if a coordinate is not within 1099511627776 (2^40) of 0
  --origin auto        the same with a whole multiple of 1000 near the middle of all hatches, which is told on standard
                       error; FILE is gone through twice
  --code-page 1252     show names of 8-bit units, which those before R2007 are, as characters of Windows code page 1252, and
                       compare them so by --names. A name with a byte that the page leaves undefined (81, 8D, 8F, 90, 9D) is
                       shown as its units, as all names that are not ASCII are without this option. ANSI_1252 is the same page
  --release N          the file is binary and holds a hatch body of this release: 1 R14, 2 R2000, 3 R2004, 4 R2007,
                       5 R2010, 6 R2013, 7 R2018; its name will do too, as R2000, or how a drawing of it begins, as AC1015
  --start BIT          where the body starts in it, in bits from its first byte's top bit; 0 if not given
  --strings FILE       the texts come from this binary file, through a string reader
  --string-start BIT   where the string reader starts; 0 if not given
  --string-end BIT     where it ends; the file's end if not given

Without --release FILE has request lines:

  hatch REL START HEX [L NWORDS NNUMBERS]
  hatchs REL START HEX STRSTART STREND STRHEX [L NWORDS NNUMBERS]
  prefix REL START HEX

REL is the release, START the start bit. HEX is bytes in hexadecimal, - for no bytes, zN for N zero bytes. Lines that
are blank or start with # are passed over. FILE - , or none, is standard input. No file is written to.

FILE may be a whole drawing of R2000 too: its hatch bodies are read, as dwg-hatch cut --help says.

What is refused is a line on standard error, with the refusal's number, what it means, its bit and what to do; with
--json it is an object too. A wrong release or start bit may give a whole hatch too: one that leaves more than a byte
unread, or is of R2007 or later and read without strings, has a line of warning there. The status is 0 if all was
read, 1 if something was refused or a file cannot be read, 2 if the command or a line is wrong; other lines are read all
the same, but a line that is no text ends the reading.
";

pub const PREFIX_HELP: &str = "\
Reads entity prefixes, and prints a summary of each, or everything as JSON. A hatch body starts where its prefix ends.

usage: dwg-hatch prefix [--json] [--jobs N] [FILE]
       dwg-hatch prefix [--json] --release N [--start BIT] [FILE]

  --json         print one JSON object a line for each request, with every field; docs/JSON.md has their names
  --jobs N       work by so many jobs side by side, 1 to 256; as many as the machine has cores if not given
  --release N    the file is binary and holds a prefix of this release, 1 (R14) to 7 (R2018), or by its name
  --start BIT    where the prefix starts in it, in bits from its first byte's top bit; 0 if not given

Without --release FILE has request lines: prefix REL START HEX, as dwg-hatch read --help has them, or is a whole drawing of
R2000, whose entities' prefixes are read. The same goes for refusals and for the status.
";

pub const DRAW_HELP: &str = "\
Draws hatch bodies as one picture in SVG, which a browser shows: outlines of polylines with their bulges, lines, arcs, ellipses
and splines, light inside by the even-odd rule, so that islands are holes; pattern lines with their dashes, gradients, and seed
points as crosses. Coordinates of the drawing stand at the frame with a scale bar in its units, and in each hatch where it fits
the number of its request line and its pattern's name.

usage: dwg-hatch draw [--output FILE] [--view X,Y,WIDTH,HEIGHT] [--only LINE] [--width PIXELS] [--max-lines N] [--single]
                      [--origin X,Y|auto] [--code-page 1252] [FILE]
       dwg-hatch draw [OPTION]... --release N [--start BIT] [--strings FILE [--string-start BIT] [--string-end BIT]] [FILE]

  --output FILE              write the picture to this file and not to standard output. It is written whole or not at all:
                             whatever fails leaves an old file of this name as it was
  --view X,Y,WIDTH,HEIGHT    show this part of the drawing, X,Y its lower left corner, in the drawing's units; if not given,
                             all that is drawn, with a margin
  --only LINE                draw the hatch of this line of FILE alone, from 1; no other line is looked at
  --width PIXELS             the picture's width, 1 to 100000; 1000 if not given
  --max-lines N              draw so many strokes of pattern lines at most, 0 to 10000000; 20000 if not given. Hatches whose
                             lines would be more are drawn without, and a warning says so
  --single                   narrow every number of the outlines to single precision first, to see what that tears apart
  --origin X,Y               move each hatch there first, as dwg-hatch read --help says: the coordinates at the frame and those of
                             --view are counted from there, and --single narrows what is left. The origin stands in the picture
  --origin auto              the same with a whole multiple of 1000 near the middle of what is drawn, which is told on standard
                             error too; FILE is gone through once more
  --code-page 1252           write names of 8-bit units as characters of Windows code page 1252, as dwg-hatch read --help says

Where the input is, its request lines, whole drawings and the options for a binary file are as dwg-hatch read --help has them. Lines with a
prefix have no outlines and are passed over. No file of the input is written to.

Each hatch is drawn in its own plane, mirrored where its extrusion points straight down. A spline whose knots, degree or
weights make no curve, or that has fit points alone, is drawn as its control points or fit points, joined by dashed lines;
the outline's title says so. An outline or pattern line with a number that is not finite or above 1e15 is left out. Where most
hatches are smaller than 3 pixels, since they lie far apart, a warning says so, and how to look at one.

What is refused, left out or no request is a line on standard error. The status is 0 if all was drawn, 1 if something was
refused or left out or a file cannot be read or written, 2 if the command or a line is wrong; what else there is is drawn
all the same, unless there is nothing.
";

pub const CUT_HELP: &str = "\
Finds the objects of a whole drawing of R2000 (a file that begins with AC1015), and writes a request line for each hatch body.

usage: dwg-hatch cut [--prefixes] [DRAWING]

  --prefixes    write a request line for each entity's prefix too

DRAWING - , or none, is standard input; it is not written to. Before each object's lines stands a comment with its handle, its
type, its place in the file, and the bit at which its own fields end. The lines are as dwg-hatch read --help has them, and
dwg-hatch read and draw take the drawing itself too; so cut is for a look at the lines, or to hand them to another program.

Entities are objects of the types 1 TEXT, 4 BLOCK, 5 ENDBLK, 7 INSERT, 17 ARC, 18 CIRCLE, 19 LINE, 20 to 26 DIMENSION, 27 POINT,
34 VIEWPORT, 77 LWPOLYLINE and 78 HATCH; of others none is cut. Drawings of other releases are not cut: docs/PAYLOADS.md says
where in an object a prefix and a hatch body lie, for who has a reader of drawings.

What is wrong with the drawing or an object is a line on standard error, and other objects are cut all the same; of many the
first ten are told, and how many more there are. The status is 0 if all was cut, 1 if something was wrong or the file cannot be
read, 2 if the command is wrong or the file is no drawing of R2000.
";

pub const ANSWER_HELP: &str = "\
Answers request lines on standard input, one answer line each, in order.

usage: dwg-hatch answer [--f64] [--jobs N]

  --f64     read doubles by the entries that hand over f64, and write a NaN as 7ff8000000000000;
            else by the entries that hand over a double's 64 bits
  --jobs N  work by so many jobs side by side, 1 to 256; as many as the machine has cores if not given

  b|bb|3b|bs|bsu|bl|blu|bd|bll|rc|rs|rl|rd|handle REL START HEX    one code
  dd REL START HEX DEFAULT                                         DEFAULT is 16 hexadecimal digits
  tv REL START HEX                                                 one inline text of the release
  prefix REL START HEX                                             one entity prefix of the release
  hatch REL START HEX [L NWORDS NNUMBERS]                          one hatch body of the release
  hatchs REL START HEX STRSTART STREND STRHEX [L NWORDS NNUMBERS]  one with a string reader
  move X Y [NAME=VALUE]...                                         the origin of a hatch moved to X, Y
  cp1252 HEX [L ROOM]                                              bytes of code page 1252 as 16-bit units
  uncp1252 UNITS [L ROOM]                                          the way back

REL is the release, 1 to 7 (of a prefix or a hatch any number), START the start bit. HEX is bytes in hexadecimal, - for
no bytes, zN for N zero bytes. L gives the lengths of the lent lists; without it they are long enough.
A text's value is SOURCE:WIDTH:POSITION:COUNT:UNITS:PADDED: m (main payload), s (string payload) or - (none), the bits of a
unit, the bit position of the first unit, how many there are, the units in hexadecimal, - for none, and 1 if a closing zero
unit was dropped, else 0; that unit is not counted.
A prefix's value is 0 and its fields, each NAME=VALUE; rgb, alpha and dataend are 0:0 if absent, else 1:NUMBER.
A hatch's value is the string payload's place, 0 without a reader, and its fields, each NAME=VALUE; a list is - if it
is empty, and a colour is DOUBLE/SHORT/RGB/BYTE.
A move takes X and Y as 16 hexadecimal digits, and the fields of a hatch's answer as they were printed, in any order; a
missing one is 0, absent or empty, and nw and nn are then the lengths of words and nums. solid, assoc and pdouble may be
0 to 255. It is answered `ok 0 0 nums=LIST`, every entry of nums afterwards, or `err NUMBER 0 0`.
A conversion takes HEX, here at most 268435456 bytes as zN, or UNITS of four hexadecimal digits each, - for none. L gives the
length of its output; without it that is the input's. It is answered `ok COUNT UNITS`, or `ok COUNT HEX` on the way back, or
`err NUMBER 0 0`: 14 for an entry that the page leaves undefined, then 11 for an output that is shorter than the input.
A reading is answered `ok PLACE VALUE`, a refusal `err NUMBER PLACE PLACE2`, the second place 0 without a reader,
and a line that is no request `bad request`.
";

pub const TRY_HELP: &str = "dwg-hatch --help lists what there is";
