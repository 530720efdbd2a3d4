//! The words of a line, read and written.
use std::fmt::Display;
use std::str::FromStr;

/// A decimal number, as it is written: no sign but a minus, no zeros in front.
pub fn number<T: FromStr + Display>(word: &str) -> Result<T, String> {
    let number = word.parse().ok().filter(|number: &T| number.to_string() == word);
    number.ok_or_else(|| format!("{word} is no number of its width"))
}

/// Numbers with commas between them.
pub fn numbers<T: FromStr + Display>(word: &str) -> Result<Vec<T>, String> {
    match word {
        "-" => Ok(Vec::new()),
        _ => word.split(',').map(number).collect(),
    }
}

/// Bytes as pairs of hexadecimal digits.
pub fn bytes(word: &str) -> Result<Vec<u8>, String> {
    let digits = if word == "-" { "" } else { word };
    let value = |digit: u8| char::from(digit).to_digit(16).map(|value| value as u8);
    let byte = |pair: &[u8]| match *pair {
        [high, low] => Some(16 * value(high)? + value(low)?),
        _ => None,
    };
    let bytes = digits.as_bytes().chunks(2).map(byte).collect::<Option<_>>();
    bytes.ok_or_else(|| format!("{word} is no buffer"))
}

pub fn hex(bytes: &[u8]) -> String {
    bytes.iter().map(|byte| format!("{byte:02x}")).collect()
}

/// Numbers with spaces between them.
pub fn spaced<T: Display>(numbers: &[T]) -> String {
    numbers.iter().map(T::to_string).collect::<Vec<_>>().join(" ")
}
