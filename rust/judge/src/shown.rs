//! Bytes as text that is safe to print: whatever a certificate holds, a terminal sees printable ASCII only.

/// Printable ASCII as it is, all else as `\xNN`; a backslash is doubled.
pub fn plainly(bytes: &[u8]) -> String {
    bytes.iter().map(|byte| shown(*byte)).collect()
}

/// The same in quotes, with quotes inside escaped.
pub fn quoted(bytes: &[u8]) -> String {
    format!("\"{}\"", plainly(bytes).replace('"', "\\\""))
}

fn shown(byte: u8) -> String {
    match byte {
        b'\\' => "\\\\".into(),
        b' '..=b'~' => char::from(byte).into(),
        _ => format!("\\x{byte:02x}"),
    }
}
