//! Stand-in for what `value.rs` uses of the crate `hex`: lower-case digits of a run of bytes.
//!
//! Only the text form of words uses it; no compared answer does.

/// Bytes that can be shown as hex digits.
pub trait DisplayHex {
    /// Two lower-case digits a byte.
    fn as_hex(&self) -> String;
}

impl DisplayHex for Vec<u8> {
    fn as_hex(&self) -> String {
        self.iter().map(|byte| format!("{byte:02x}")).collect()
    }
}
