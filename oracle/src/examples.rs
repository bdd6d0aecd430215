//! Document 01's examples and the protocol's, with the answers that those papers state, and corners worked out by hand
//! from document 01. `oracle examples` asks the Rust for each; oracle/build does not hand over an oracle that fails one.

use crate::answer;
use crate::examples_text;
use crate::show::Show;

const ONE: &str = "3ff0000000000000";
const ZERO: &str = "0000000000000000";

/// Requests with their whole answer; `..` stands for a part of it that is not stated.
const CASES: &[(&str, &str)] = &[
    // The protocol's examples.
    ("bs 2 0 3FFFC0", "ok 18 -1"),
    ("bd 2 0 C0", "err 2 2 0"),
    ("tv 2 0 80", "ok 2 m:8:2:0:-:0"),
    ("hatch 3 0 A9AAA0", "err 1 22 0"),
    ("hatchs 2 0 A9 0 16 4040", "err 6 8 10"),
    // Document 01, bitcursor.rs.
    ("bsu 2 0 3FFFC0", "ok 18 65535"),
    ("bll 5 0 3180", "ok 11 140"),
    ("bll 5 0 FFFFFFFFFFFFFFFF", "ok 59 72057594037927935"),
    ("bs 1 0 C0", "ok 2 256"),
    ("bl 1 0 C0", "err 2 2 0"),
    ("handle 1 0 08FFFFFFFFFFFFFFFF", "ok 72 0,8,18446744073709551615"),
    ("handle 1 0 09FFFFFFFFFFFFFFFFFF", "err 5 8 0"),
    // A number cut short stops after its last whole byte; tags, 3B and the handle's code nibble are consumed before.
    ("bl 1 0 000000", "err 1 18 0"),
    ("rd 1 3 00000000", "err 1 27 0"),
    ("bll 5 0 E0", "err 1 3 0"),
    ("handle 1 4 01", "err 1 8 0"),
    ("rs 1 0 FF", "err 1 8 0"),
    ("rs 1 0 FEFF", "ok 16 -2"),
    ("rl 1 0 FFFFFFFF", "ok 32 4294967295"),
    // DD: the default, four bytes over its low four, two over bytes 4 and 5 and then four, or all eight.
    ("dd 1 0 00 7ff0000000000001", "ok 2 7ff0000000000001"),
    ("dd 1 6 0101020304 1122334455667788", "ok 40 1122334404030201"),
    ("dd 1 6 02010203040506 1122334455667788", "ok 56 1122020106050403"),
    ("dd 1 6 030102030405060708 1122334455667788", "ok 72 0807060504030201"),
    // One closing zero unit is dropped, not more; a 16-bit unit can stop halfway.
    ("tv 3 0 41505080000000", "ok 50 m:8:10:4:41420000:1"),
    ("tv 4 0 404040", "err 1 18 0"),
    ("tv 4 0 4040400000", "ok 26 m:16:10:1:0001:0"),
    ("tv 4 0 40403600", "err 7 26 0"),
    // Document 01, hatch.rs and the refusal table.
    ("hatch 2 0 -", "err 1 0 0"),
    ("hatch 3 0 C0", "err 2 2 0"),
    ("hatch 2 0 A9A7FC", "err 3 22 0"),
    ("hatch 2 0 A9A406404140", "err 4 42 0"),
    ("hatchs 2 0 A9 0 32 40403600", "err 7 8 26"),
    ("hatch 8 0 A9AAA0", "err 9 0 0"),
    ("hatch 8 5 z268435457", "err 9 5 0"),
    ("hatch 2 5 z268435457", "err 10 5 0"),
    ("prefix 2 5 z268435457", "err 10 5 0"),
    ("prefix 8 5 z268435457", "err 9 5 0"),
    ("hatchs 2 5 - 6 7 z268435457", "err 10 5 6"),
    ("hatch 2 0 A9AA901000000000000000000000000000000000 L 0 1", "err 11 156 0"),
    ("hatch 2 0 A9AA901000000000000000000000000000000000 L 0 2", "ok 156 0 .."),
    // Starts: at the end is read from, past it is refused there; the string start is tested first.
    ("b 1 8 FF", "err 1 8 0"),
    ("b 1 9 FF", "err 1 9 0"),
    ("prefix 1 17 FFFF", "err 1 17 0"),
    ("hatch 2 9 A9", "err 1 9 0"),
    ("hatchs 2 9 A9 17 99 4040", "err 1 9 16"),
    ("hatchs 2 9 A9 16 99 4040", "err 1 9 16"),
    // 6 stands after the length code; an end bit past the payload gives 1.
    ("hatchs 2 0 A9 0 25 404000", "err 6 8 10"),
    ("hatchs 2 0 A9 0 26 404000", "err 1 8 18"),
    // Text lengths, XDATA sizes and graphics sizes are no counts: too long is 1.
    ("tv 2 0 3FFFC0", "err 1 18 0"),
    ("prefix 2 0 40C000", "err 1 18 0"),
    ("prefix 2 0 BFFFFFFFE0", "err 1 35 0"),
    ("prefix 5 0 BCFFFFFFFFFFFFFF00", "err 1 70 0"),
    // A unit sequence is judged after the drop; 8-bit units are never judged.
    ("tv 4 0 408036000000", "err 7 42 0"),
    ("tv 2 0 406000", "ok 18 m:8:10:1:80:0"),
    // A bad text in a gradient whose flag is 0 still refuses.
    ("hatch 4 0 AAA90100D8", "err 7 40 0"),
    // Every spline takes seven words at every release.
    ("hatch 2 0 A9A406404122AA80", "ok 58 0 .. nw=10 nn=0 words=0,1,4,0,0,0,0,0,0,0 nums=-"),
    // A handle count up to the bits left passes, one more is refused.
    ("hatch 2 0 A9A40690CA80", "ok 42 0 .. nw=3 nn=0 words=0,0,12 nums=-"),
    ("hatch 2 0 A9A40690DA80", "err 3 36 0"),
    // Controls are tested before knots are read (here a knot with tag 11).
    ("hatch 2 0 A9A406404121017FF0", "err 3 66 0"),
    // Document 02, the moved origin: nothing to move; the origin is judged all the same, and its bounds pass.
    ("move 3ff0000000000000 4000000000000000 ext=0000000000000000,8000000000000000,3ff0000000000000", "ok 0 0 nums=-"),
    ("move 4270000000000000 c270000000000000 ext=0000000000000000,0000000000000000,3ff0000000000000", "ok 0 0 nums=-"),
    ("move 4270000000000001 0000000000000000 ext=0000000000000000,0000000000000000,3ff0000000000000", "err 13 0 0"),
    // (3, 4) by (1, 2), and an entry past the length used; a bulge stays, and so do a NaN's bits.
    (
        "move 3ff0000000000000 4000000000000000 ext=0000000000000000,0000000000000000,3ff0000000000000 nseeds=1 nn=2 \
         nums=4008000000000000,4010000000000000,4008000000000000",
        "ok 0 0 nums=4000000000000000,4000000000000000,4008000000000000",
    ),
    (
        "move 3ff0000000000000 4000000000000000 ext=0000000000000000,0000000000000000,3ff0000000000000 npaths=1 words=2,1,0,1,0 \
         nums=4008000000000000,4010000000000000,7ff0000000000001",
        "ok 0 0 nums=4000000000000000,4000000000000000,7ff0000000000001",
    ),
    // 11 before 12 before 13.
    ("move 7ff8000000000000 0000000000000000 nseeds=1 nums=7ff8000000000000", "err 11 0 0"),
    ("move 7ff8000000000000 0000000000000000 nseeds=1 nums=7ff8000000000000,0000000000000000", "err 12 0 0"),
    ("move 0000000000000000 0000000000000000 solid=256", "bad request"),
    // A name has six parts in a record too, the last 0 or 1; a move looks at none of them.
    ("move 0000000000000000 0000000000000000 name=m:8:10:0:-:1", "err 12 0 0"),
    ("move 0000000000000000 0000000000000000 gname=-:0:0:0:-:0 name=s:16:10:1:0041:0", "err 12 0 0"),
    ("move 0000000000000000 0000000000000000 name=m:8:10:0:-", "bad request"),
    ("move 0000000000000000 0000000000000000 name=m:8:10:0:-:", "bad request"),
    ("move 0000000000000000 0000000000000000 name=m:8:10:0:-:2", "bad request"),
    ("move 0000000000000000 0000000000000000 gname=-:0:0:0:-:01", "err 12 0 0"),
    ("move 0000000000000000 0000000000000000 gname=-:0:0:0:-:0:0", "bad request"),
    // Document 02, accented names: "Küche", the euro sign, every sort of entry that is undefined; 14 before 11, whatever the place of the entry.
    ("cp1252 4bfc636865", "ok 5 004b00fc006300680065"),
    ("uncp1252 004b00fc006300680065", "ok 5 4bfc636865"),
    ("cp1252 80", "ok 1 20ac"),
    ("uncp1252 20AC", "ok 1 80"),
    ("cp1252 00FF9F", "ok 3 000000ff0178"),
    ("cp1252 81", "err 14 0 0"),
    ("cp1252 41428d", "err 14 0 0"),
    ("cp1252 8141 L 0", "err 14 0 0"),
    ("cp1252 4181 L 1", "err 14 0 0"),
    ("cp1252 41 L 0", "err 11 0 0"),
    ("uncp1252 ffff", "err 14 0 0"),
    ("uncp1252 0080", "err 14 0 0"),
    ("uncp1252 0081", "err 14 0 0"),
    ("uncp1252 d83d L 0", "err 14 0 0"),
    ("uncp1252 00410042 L 1", "err 11 0 0"),
    // Empty lists, rooms that are long enough, zeros by their number.
    ("cp1252 -", "ok 0 -"),
    ("uncp1252 - L 0", "ok 0 -"),
    ("cp1252 - L 18446744073709551615", "ok 0 -"),
    ("cp1252 z2", "ok 2 00000000"),
    ("uncp1252 0041 L 18446744073709551615", "ok 1 41"),
    ("cp1252 4", "bad request"),
    ("uncp1252 41", "bad request"),
    ("uncp1252 z1", "bad request"),
    ("cp1252 41 L 18446744073709551616", "bad request"),
    ("cp1252 41 L", "bad request"),
    // Prefix releases and single code releases.
    ("prefix 0 3 -", "err 9 3 0"),
    ("bs 0 0 80", "bad request"),
    ("bs 8 0 80", "bad request"),
    ("bs 2 0", "bad request"),
    ("nothing 2 0 80", "bad request"),
    ("", "bad request"),
];

/// Cases whose answer is long or whose bytes are made.
fn made() -> Vec<(String, String)> {
    let gradient = format!(
        "grad=0 gangle={ZERO} gshift={ZERO} gsingle=0 gtint={ZERO} gn=0 gcols=- gname=-:0:0:0:-:0"
    );
    let empty = format!(
        "ok 20 0 {gradient} elev={ZERO} ext={ZERO},{ZERO},{ONE} name=m:8:10:0:-:0 solid=1 assoc=0 style=0 type=0 \
         pangle={ZERO} pscale={ZERO} pdouble=0 pixel={ZERO} npaths=0 nlines=0 nseeds=0 nw=0 nn=0 words=- nums=-"
    );
    let prefix = format!(
        "ok 26 0 rawmode=0 mode=ByLayer reactors=0 nodict=1 chain=0 onlayer=1 nonfixed=0 plot=0 material=0 shadow=0 \
         invis=0 nolinks=1 color=256 rgb=0:0 alpha=0:0 scale={ONE} ltype=0 vis=0,0,0 weight=29 gfx=0 xdata=0 dataend=0:0"
    );
    vec![
        ("hatch 2 0 A9AAA0".to_string(), empty),
        ("prefix 2 0 85D08740".to_string(), prefix),
        // 256 blocks of size 1, an empty handle, one zero; refused even where a size 0 follows.
        (format!("prefix 2 0 {}", blocks(256, "")), "err 8 6656 0".to_string()),
        (format!("prefix 2 0 {}", blocks(256, "10")), "err 8 6656 0".to_string()),
        (format!("prefix 2 0 {}", blocks(255, "10")), "err 1 6632 0".to_string()),
    ]
    .into_iter()
    .chain((1..=7).map(|release| (format!("prefix {release} 0 404240"), "err 5 18 0".to_string())))
    .collect()
}

/// N blocks of 26 bits (01, a byte 1, a zero handle byte, a zero byte), then more bits, as hexadecimal.
fn blocks(count: usize, more: &str) -> String {
    hex("01000000010000000000000000".repeat(count) + more)
}

/// A BS or BL in full: 00 and its bytes, low byte first.
fn full(value: u32, bytes: usize) -> String {
    let byte = |low_first: &u8| format!("{low_first:08b}");
    "00".to_string() + &value.to_le_bytes()[..bytes].iter().map(byte).collect::<String>()
}

/// Counts at their caps and one above, each with as many zero bits after it (caps of 100,000 are left to the generator).
fn caps() -> Vec<(String, String)> {
    let body = |bits: &str, release: u32, count: u32, bytes: usize| {
        let zeros = "0".repeat(count as usize);
        format!("hatch {release} 0 {}", hex(bits.to_string() + &full(count, bytes) + &zeros))
    };
    let (solid, hollow) = ("101010011010", "101010011000"); // BD 0, 0, 0, 1, empty text, solid or not, not associative
    let paths = |count| body(solid, 2, count, 4);
    let handles = |count| body(&format!("{solid}01000000011010"), 2, count, 4); // one path without edges
    let seeds = |count| body(&format!("{solid}101010"), 2, count, 4);
    let lines = |count| body(&format!("{hollow}10101010100"), 2, count, 2);
    let dashes = |count| body(&format!("{hollow}1010101010001000000011010101010"), 2, count, 2);
    let colours = |count| body("101010101010", 3, count, 4);
    let cases = [
        (paths(10_000), "err 1 .."),
        (paths(10_001), "err 3 46 0"),
        (handles(1_024), "ok 130 0 .."),
        (handles(1_025), "err 3 60 0"),
        (seeds(1_024), "err 1 1076 0"),
        (seeds(1_025), "err 3 52 0"),
        (lines(4_096), "err 1 .."),
        (lines(4_097), "err 3 41 0"),
        (dashes(64), "err 1 .."),
        (dashes(65), "err 3 61 0"),
        (colours(16), "err 1 .."),
        (colours(17), "err 3 46 0"),
    ];
    cases.map(|(request, stated)| (request, stated.to_string())).to_vec()
}

/// Bits as a request writes their bytes, the last one filled up with zeros.
pub fn hex(mut bits: String) -> String {
    while bits.len() % 8 != 0 {
        bits.push('0');
    }
    let byte = |at: usize| u8::from_str_radix(&bits[at..at + 8], 2).expect("eight bits");
    (0..bits.len()).step_by(8).map(|at| format!("{:02x}", byte(at))).collect()
}

/// Every example with the answer that the papers state.
pub fn all() -> Vec<(String, String)> {
    let fixed = CASES.iter().map(|(request, stated)| (request.to_string(), stated.to_string()));
    fixed.chain(made()).chain(caps()).chain(examples_text::all()).collect()
}

fn agrees(got: &str, stated: &str) -> bool {
    match stated.split_once("..") {
        Some((beginning, end)) => got.starts_with(beginning) && got.ends_with(end),
        None => got == stated,
    }
}

pub fn run() -> Result<bool, String> {
    let mut wrong = 0;
    let cases = all();
    for (request, stated) in &cases {
        let got = answer::line(request, Show { f64_entries: false });
        if !agrees(&got, stated) {
            wrong += 1;
            println!("differs from the papers: {request}\n  stated {stated}\n  got    {got}");
        }
    }
    println!("{} examples, {} differ", cases.len(), wrong);
    Ok(wrong == 0)
}
