//! Lines, fields and numbers of every text that is read or written.

/// The fields of the first line, parted by single tabs, and the text after its line feed; none if no line feed ends it.
pub fn take_line(text: &[u8]) -> Option<(Vec<&[u8]>, &[u8])> {
    let end = text.iter().position(|&byte| byte == b'\n')?;
    Some((
        text[..end].split(|&byte| byte == b'\t').collect(),
        &text[end + 1..],
    ))
}

/// "A number is 1 to 7 decimal digits without a sign, and without a leading zero unless it is 0", for any greatest
/// number of digits.
pub fn number(field: &[u8], most_digits: usize) -> Option<i128> {
    let digits = field.iter().all(u8::is_ascii_digit);
    let sized = (1..=most_digits).contains(&field.len());
    let leading_zero = field.len() > 1 && field[0] == b'0';
    (digits && sized && !leading_zero).then(|| {
        field
            .iter()
            .fold(0, |number, digit| 10 * number + i128::from(digit - b'0'))
    })
}

/// A line of fields, parted by tabs and ended by a line feed.
pub fn line<F: ToString>(fields: impl IntoIterator<Item = F>) -> String {
    let fields: Vec<String> = fields.into_iter().map(|field| field.to_string()).collect();
    fields.join("\t") + "\n"
}

/// A line of a tag and numbers.
pub fn tagged(tag: &str, numbers: &[i128]) -> String {
    line(std::iter::once(tag.to_string()).chain(numbers.iter().map(i128::to_string)))
}
