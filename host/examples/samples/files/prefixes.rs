//! Entity prefixes, by document 01's field order, and hatch bodies behind them.

use super::body::{hex, plan, request, straight};
use super::records::prefix_of;

/// A prefix of each release that changes the field order, and a whole entity: a prefix with a body behind it.
pub fn text() -> String {
    let mut text = "# Entity prefixes of all releases, without XDATA and graphics: colour 256, or from release 3 on an rgb value; linetype\n\
        # scale 1.0; lineweight 29.\n"
        .to_string();
    for release in 1..=7 {
        text += &format!("prefix {release} 0 {}\n", hex(&prefix_of(release, 4096)));
    }
    let body = plan(7, "SOLID", vec![straight(3, &[(0.0, 0.0), (30.0, 0.0), (30.0, 12.0), (12.0, 12.0), (12.0, 20.0), (0.0, 20.0)])]);
    let entity = request(&body, prefix_of(7, 0), false, 13);
    let payload = entity.split(' ').nth(3).expect("the payload").trim_end();
    text + &format!("# A prefix of release 7, and the hatch body that starts in the same payload where the prefix ends.\nprefix 7 0 {payload}\n{entity}")
}
