//! The words of commands and answers, as they are written.

/// Two lower-case hex digits for each byte; `-` for none.
pub fn bytes(bytes: &[u8]) -> String {
    if bytes.is_empty() {
        return "-".to_string();
    }
    bytes.iter().map(|byte| format!("{byte:02x}")).collect()
}
