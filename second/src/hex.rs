//! Bytes as text: dotted for the lines written, free hex text with comments for the fixed tests.

/// Upper-case pairs joined by dots, `-` for none.
pub fn dotted(bytes: &[u8]) -> String {
    if bytes.is_empty() {
        return "-".to_string();
    }
    let pairs: Vec<String> = bytes.iter().map(|byte| format!("{byte:02X}")).collect();
    pairs.join(".")
}

/// The bytes of hex text: `#` begins a comment up to the line's end, blanks are free.
pub fn bytes(text: &[u8]) -> Result<Vec<u8>, String> {
    let digits = text
        .split(|&byte| byte == b'\n')
        .enumerate()
        .flat_map(|(number, line)| digits(line).map(move |digit| (number + 1, digit)))
        .map(|(number, digit)| digit.ok_or(format!("line {number}: not a hex digit")))
        .collect::<Result<Vec<u8>, String>>()?;
    if digits.len() % 2 == 1 {
        return Err("an odd number of hex digits".to_string());
    }
    Ok(digits
        .chunks_exact(2)
        .map(|pair| pair[0] << 4 | pair[1])
        .collect())
}

fn digits(line: &[u8]) -> impl Iterator<Item = Option<u8>> + '_ {
    line.iter()
        .take_while(|&&byte| byte != b'#')
        .filter(|byte| !byte.is_ascii_whitespace())
        .map(|&byte| char::from(byte).to_digit(16).map(|digit| digit as u8))
}

#[cfg(test)]
mod tests {
    use super::*;

    #[test]
    fn hex_text_with_comments() {
        assert_eq!(bytes(b"FD 0 0 # FE\n2a\n"), Ok(vec![0xFD, 0x00, 0x2A]));
        assert!(bytes(b"F").is_err());
        assert!(bytes(b"G0").is_err());
    }
}
