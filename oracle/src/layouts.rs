//! The encoder, written from document 01 alone, against the Rust: each layout must be read, end where it ends, and give
//! what was laid out. A difference is a finding about the Rust, document 01 or the oracle.

use crate::answer;
use crate::bits;
use crate::encode::Pen;
use crate::encode_hatch::{self, Texts};
use crate::encode_prefix;
use crate::encode_text;
use crate::laid::Laid;
use crate::rng::Rng;
use crate::show::Show;
use crate::spoil;

/// A request and the answer that document 01 gives.
type Case = (String, String);

pub fn run(seed: &str, count: &str) -> Result<bool, String> {
    let seed: u64 = seed.parse().map_err(|_| format!("no seed: {seed}"))?;
    let count: u64 = count.parse().map_err(|_| format!("no number of layouts: {count}"))?;
    let mut rng = Rng::new(seed);
    let mut wrong = 0;
    for index in 0..count {
        let release = 1 + rng.below(7);
        let (request, laid) = match index % 4 {
            0 => tv(&mut rng, release),
            1 => prefix(&mut rng, release),
            2 => hatch(&mut rng, release),
            _ => hatch_with_reader(&mut rng, release),
        };
        let got = answer::line(&request, Show { f64_entries: false });
        if got != laid {
            wrong += 1;
            println!("{request}\n  laid out {laid}\n  the Rust {got}");
        }
    }
    println!("{count} layouts, {wrong} read otherwise");
    Ok(wrong == 0)
}

fn tv(rng: &mut Rng, release: u64) -> Case {
    let mut pen = Pen::clean(rng);
    let text = encode_text::text(&mut pen, encode_text::width(release));
    let made = spoil::whole(rng, &pen.out);
    let end = made.start + pen.out.place() as u64;
    let request = format!("tv {release} {} {}", made.start, bits::hex(&made.bits));
    (request, format!("ok {end} {}", Laid::inline(text, made.start)))
}

fn prefix(rng: &mut Rng, release: u64) -> Case {
    let mut pen = Pen::clean(rng);
    encode_prefix::prefix(&mut pen, release);
    let made = spoil::whole(rng, &pen.out);
    let end = made.start + pen.out.place() as u64;
    let request = format!("prefix {release} {} {}", made.start, bits::hex(&made.bits));
    (request, format!("ok {end} 0 {}", pen.laid.prefix()))
}

fn hatch(rng: &mut Rng, release: u64) -> Case {
    let mut pen = Pen::clean(rng);
    encode_hatch::hatch(&mut pen, &mut Texts { strings: None }, release);
    let made = spoil::whole(rng, &pen.out);
    let end = made.start + pen.out.place() as u64;
    let request = format!("hatch {release} {} {}", made.start, bits::hex(&made.bits));
    (request, format!("ok {end} 0 {}", pen.laid.hatch('m', made.start)))
}

/// The end bit where the texts end or up to 20 bits after.
fn hatch_with_reader(rng: &mut Rng, release: u64) -> Case {
    let mut pen = Pen::clean(rng);
    let mut strings = Pen::clean(rng);
    encode_hatch::hatch(&mut pen, &mut Texts { strings: Some(&mut strings) }, release);
    let (made, text) = (spoil::whole(rng, &pen.out), spoil::whole(rng, &strings.out));
    let end = made.start + pen.out.place() as u64;
    let text_end = text.start + strings.out.place() as u64;
    let (main_hex, text_hex) = (bits::hex(&made.bits), bits::hex(&text.bits));
    let end_bit = text_end + if rng.bit() { 0 } else { rng.below(21) };
    let request = format!("hatchs {release} {} {main_hex} {} {end_bit} {text_hex}", made.start, text.start);
    (request, format!("ok {end} {text_end} {}", pen.laid.hatch('s', text.start)))
}
