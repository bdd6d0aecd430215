
/// Appended by the oracle: `decode_with_strings` is private, and the oracle lends it a reader of its own.
pub fn decode_with_strings_for_the_oracle(
    c: &mut BitCursor<'_>,
    version: Version,
    strings: Option<&mut StringReader<'_>>,
) -> Result<Hatch> {
    decode_with_strings(c, version, strings)
}
