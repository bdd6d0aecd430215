//! What is refused, one line for each number of document 01's table, by its own examples.

use super::body::{hatch, plan, straight};

pub fn text() -> String {
    // 256 XDATA blocks (size 1, empty handle, one zero); four are 13 bytes.
    let blocks = "40400010100004040001010000".repeat(64);
    let lines = [
        (1, "no bytes", "hatch 2 0 -".to_string()),
        (2, "a BL whose tag is 11", "hatch 3 0 C0".to_string()),
        (3, "255 paths, and fewer bits left", "hatch 2 0 A9A7FC".to_string()),
        (4, "an edge of kind 5", "hatch 2 0 A9A406404140".to_string()),
        (5, "a handle whose counter is 9", "prefix 2 0 404240".to_string()),
        (6, "a text that passes the string reader's end bit", "hatchs 2 0 A9 0 16 4040".to_string()),
        (7, "half of a pair of UTF-16 alone", "hatchs 2 0 A9 0 32 40403600".to_string()),
        (8, "256 XDATA blocks", format!("prefix 2 0 {blocks}")),
        (9, "no release", "hatch 8 0 A9AAA0".to_string()),
        (10, "one byte above the limit", "hatch 2 0 z268435457".to_string()),
        (11, "one number lent, two needed", format!("hatch 2 0 A9AA9010{} L 0 1", "00".repeat(16))),
    ];
    let refused: String = lines.into_iter().map(|(number, why, line)| format!("# Refusal {number}: {why}.\n{line}\n")).collect();
    let nan = plan(2, "SOLID", vec![straight(3, &[(0.0, 0.0), (f64::NAN, 0.0), (0.0, 1.0)])]);
    let whole = plan(2, "SOLID", vec![straight(3, &[(0.0, 0.0), (4.0, 0.0), (4.0, 3.0)])]);
    format!(
        "# What is refused, and why; each other line of the file is read and drawn all the same.\n{refused}\
        # A coordinate that is no number: it is read, and cannot be drawn.\n{}\
        # No request.\nhatch 2 0 A9A\n\
        # A hatch without a fault.\n{}",
        hatch(&nan, 17),
        hatch(&whole, 19)
    )
}
