//! Bytes of lines, words, numbers and names.

/// The lines of a text: each ends with a line feed, before which one carriage return is dropped.
pub fn lines(data: &[u8]) -> impl Iterator<Item = &[u8]> {
    data.split_inclusive(|&byte| byte == b'\n').map(|line| match line.strip_suffix(b"\n") {
        Some(whole) => whole.strip_suffix(b"\r").unwrap_or(whole),
        None => line,
    })
}

/// The words of a line, up to its comment.
pub fn words(line: &[u8]) -> impl Iterator<Item = &[u8]> {
    let end = line.iter().position(|&byte| byte == b'#').unwrap_or(line.len());
    line[..end].split(|&byte| byte == b' ' || byte == b'\t').filter(|word| !word.is_empty())
}

/// Whether a line has only bytes that lines may have.
pub fn is_plain(line: &[u8]) -> bool {
    line.iter().all(|&byte| byte == b'\t' || (b' '..=b'~').contains(&byte))
}

/// The decimal number that a word spells. One of any length is a number; the greatest stands for those above.
pub fn number(word: &[u8]) -> Option<u128> {
    let (&first, rest) = word.split_first()?;
    if !word.iter().all(u8::is_ascii_digit) || (first == b'0' && !rest.is_empty()) {
        return None;
    }
    Some(word.iter().fold(0, |n: u128, digit| n.saturating_mul(10).saturating_add(u128::from(digit - b'0'))))
}

/// The number that a word spells, where it is in the range.
pub fn number_within(word: &[u8], least: u64, greatest: u64) -> Option<u64> {
    let n = u64::try_from(number(word)?).ok()?;
    (least..=greatest).contains(&n).then_some(n)
}

/// Whether a word is a name: a letter, then letters, digits and `_`, at most 16 bytes.
pub fn is_name(word: &[u8]) -> bool {
    word.first().is_some_and(u8::is_ascii_alphabetic)
        && word.len() <= 16
        && word.iter().all(|&byte| byte.is_ascii_alphanumeric() || byte == b'_')
}

/// The identifier that a word spells in twelve hexadecimal digits.
pub fn uid(word: &[u8]) -> Option<u64> {
    if word.len() != 12 {
        return None;
    }
    word.iter().try_fold(0, |uid, &digit| Some(uid << 4 | u64::from(char::from(digit).to_digit(16)?)))
}

/// Writes a number in decimal digits.
pub fn push_number(out: &mut Vec<u8>, mut n: u64) {
    let mut digits = [0; 20];
    let mut at = digits.len();
    loop {
        at -= 1;
        digits[at] = b'0' + (n % 10) as u8;
        n /= 10;
        if n == 0 {
            break;
        }
    }
    out.extend_from_slice(&digits[at..]);
}
