//! Texts that are written straight into the text that they are a part of: a summary has dozens of them, and to make each for itself first costs more than
//! to read the hatch.

use std::fmt::{self, Display, Formatter};

struct Written<Write>(Write);

impl<Write: Fn(&mut Formatter<'_>) -> fmt::Result> Display for Written<Write> {
    fn fmt(&self, f: &mut Formatter<'_>) -> fmt::Result {
        self.0(f)
    }
}

/// What a function writes, wherever it is shown.
pub fn written(write: impl Fn(&mut Formatter<'_>) -> fmt::Result) -> impl Display {
    Written(write)
}

/// A number as a person reads it, with a comma before each three digits.
pub fn grouped(number: u128) -> impl Display {
    written(move |f| write_grouped(number, f))
}

fn write_grouped(number: u128, f: &mut Formatter<'_>) -> fmt::Result {
    if number < 1000 {
        return write!(f, "{number}");
    }
    write_grouped(number / 1000, f)?;
    write!(f, ",{:03}", number % 1000)
}

/// A count and what is counted, in its plural unless there is one.
pub fn counted(count: usize, what: &str) -> impl Display + '_ {
    written(move |f| {
        count.fmt(f)?;
        f.write_str(" ")?;
        f.write_str(what)?;
        f.write_str(if count == 1 { "" } else { "s" })
    })
}

/// Things with commas between them.
pub fn listed<Items: Iterator<Item: Display> + Clone>(items: Items) -> impl Display {
    written(move |f| {
        items.clone().enumerate().try_for_each(|(at, item)| {
            f.write_str(if at == 0 { "" } else { ", " })?;
            item.fmt(f)
        })
    })
}

#[cfg(test)]
mod tests {
    use super::*;

    #[test]
    fn numbers_are_grouped_by_three_digits() {
        let numbers = [0, 999, 1_000, 12_345, 1_234_567, 1_000_000_000];
        assert_eq!(numbers.map(|number| grouped(number).to_string()), ["0", "999", "1,000", "12,345", "1,234,567", "1,000,000,000"]);
        assert_eq!(grouped(u128::MAX).to_string().replace(',', ""), u128::MAX.to_string());
    }

    #[test]
    fn one_is_no_plural() {
        assert_eq!([0, 1, 2].map(|count| counted(count, "path").to_string()), ["0 paths", "1 path", "2 paths"]);
    }

    #[test]
    fn commas_stand_between_things() {
        assert_eq!([&[][..], &[7], &[1, 2, 3]].map(|numbers| listed(numbers.iter()).to_string()), ["", "7", "1, 2, 3"]);
    }
}
