//! One code of document 01's section on bitcursor.rs, or one inline text.

use crate::bitcursor::BitCursor;
use crate::error::Result;
use crate::refusal::{self, Refusal};
use crate::request::{Code, Payload};
use crate::show::{self, Show};
use crate::text_place;
use crate::version::Version;

pub fn answer(code: Code, version: Version, start: u64, main: &Payload, show: Show) -> String {
    if main.too_long() {
        return Refusal::new(10, start, 0).line(); // added by document 01
    }
    let Some(mut c) = refusal::cursor_at(main.bytes(), start) else {
        return Refusal::new(1, start, 0).line(); // added by document 01
    };
    match value(code, version, &mut c, show) {
        Ok(value) => format!("ok {} {}", c.position_bits(), value),
        Err(error) => Refusal::new(refusal::number_of(&error), c.position_bits() as u64, 0).line(),
    }
}

fn value(code: Code, version: Version, c: &mut BitCursor<'_>, show: Show) -> Result<String> {
    Ok(match code {
        Code::B => u8::from(c.read_b()?).to_string(),
        Code::Bb => c.read_bb()?.to_string(),
        Code::ThreeB => c.read_3b()?.to_string(),
        Code::Bs => c.read_bs()?.to_string(),
        Code::Bsu => c.read_bs_u()?.to_string(),
        Code::Bl => c.read_bl()?.to_string(),
        Code::Blu => c.read_bl_u()?.to_string(),
        Code::Bd => show.double(c.read_bd()?),
        Code::Bll => c.read_bll()?.to_string(),
        Code::Rc => c.read_rc()?.to_string(),
        Code::Rs => c.read_rs()?.to_string(),
        Code::Rl => c.read_rl()?.to_string(),
        Code::Rd => show.double(c.read_rd()?),
        Code::Dd(default) => show.double(c.read_dd(f64::from_bits(default))?),
        Code::Handle => handle(c)?,
        Code::Tv => text(c, version)?,
    })
}

fn handle(c: &mut BitCursor<'_>) -> Result<String> {
    let handle = c.read_handle()?;
    Ok(format!("{},{},{}", handle.code, handle.counter, handle.value))
}

fn text(c: &mut BitCursor<'_>, version: Version) -> Result<String> {
    let mut again = c.clone();
    let rust = crate::tables::read_tv(c, version)?;
    let text = text_place::inline(&mut again, version)?;
    text_place::check(&text, &rust);
    assert_eq!(again.position_bits(), c.position_bits(), "the second walk of a text ends elsewhere");
    Ok(show::text(&text))
}
