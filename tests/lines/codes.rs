//! The codes of calls that write bytes: accepted, how many were written; refused,
//! 2^63 plus the number times 2^56 plus the place; one such call beside an answer.

use oracle::checks::Refusal;

use crate::lent::{Input, Output};

/// The code for an answer.
pub fn code_of<T: AsRef<[u8]>>(answer: &Result<T, Refusal>) -> u64 {
    match answer {
        Ok(bytes) => bytes.as_ref().len() as u64,
        Err(Refusal { number, place }) => (1 << 63) + (u64::from(*number) << 56) + *place as u64,
    }
}

/// The code for a check alone: 0 where it accepts.
pub fn code_of_check(check: &Result<(), Refusal>) -> u64 {
    code_of(&check.map(|()| [0; 0]))
}

/// A code in words.
pub fn said(code: u64) -> String {
    match code >> 63 {
        0 => format!("{code} bytes"),
        _ => format!("refused {} {}", code >> 56 & 0x7f, code & ((1 << 56) - 1)),
    }
}

/// One call from an input into so many bytes; what differs from this answer.
pub fn fault_of_call<T: AsRef<[u8]>>(
    call: impl FnOnce(&[u8], &mut [u8]) -> u64,
    input: &Input,
    output: &mut Output,
    length: usize,
    answer: &Result<T, Refusal>,
) -> Option<String> {
    let code = call(input.bytes(), output.lend(length));
    let written = answer.as_ref().map_or(&[][..], |bytes| bytes.as_ref());
    let right = code_of(answer);
    let fault = if code != right {
        Some(format!("{}, expected {}", said(code), said(right)))
    } else if input.altered() {
        Some("the input was altered".to_string())
    } else {
        output.difference(length, written)
    };
    fault.map(|fault| format!("into {length} bytes: {fault}"))
}
