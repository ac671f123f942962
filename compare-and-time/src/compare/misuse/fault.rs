//! Libraries with a fault, made of the library by changing what it answers: a comparison that passes over one shows nothing.

use super::lent::Told;

#[derive(Clone, Copy, PartialEq, Eq, Debug)]
pub enum Fault {
    None,
    /// A part of a test is left out: what no other part objects to is taken for sound.
    LeftOut(u8),
    /// Beside a 40 the memory is changed,
    Changed,
    /// or a value is told,
    Valued,
    /// or a byte beside what was lent is written.
    Guard,
}

impl Fault {
    /// What a library with this fault tells, where these parts of the call's test fail; and whether it changes a byte.
    pub fn of(self, failing: &[u8], told: &mut Told, is_test: bool) -> bool {
        match self {
            Fault::LeftOut(part) if failing == [part] => told.number = is_test.into(),
            Fault::Changed => return told.number == 40,
            Fault::Valued if told.number == 40 => told.value = 7,
            _ => {}
        }
        false
    }
}
