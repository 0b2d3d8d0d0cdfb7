//! The refusal numbers, in the order in which the checks run ("Where a sheet is stopped").

/// Over 16,384 bytes.
pub const OVERLONG: u32 = 1;
/// Form, field count, line count or a range is broken; or the request is empty.
pub const FORM: u32 = 2;
/// An interval with from > to, in a head, a step or a formula.
pub const INTERVAL: u32 = 3;
/// A break that is neither 0,0 nor strictly inside its interval, in a head, a step or a formula.
pub const BREAK: u32 = 43;
/// A named formula is not there.
pub const NO_FORMULA: u32 = 10;
/// `q` within `q`; or holder 0 outside `q` in a credential's formula or the goal of a booking.
pub const HOLDER: u32 = 53;
/// Formula size over 64.
pub const SIZE: u32 = 12;
/// The formula's line is already there.
pub const SAME_LINE: u32 = 13;
/// 200 formulas are there.
pub const FORMULAS_FULL: u32 = 14;
/// A linear credential, or the goal of a booking, that is not plain.
pub const NOT_PLAIN: u32 = 20;
/// An unrestricted credential that is not balanced.
pub const NOT_BALANCED: u32 = 21;
/// The booking's minute lies outside the goal's interval.
pub const NOT_NOW: u32 = 30;
/// A serial that is not live.
pub const NOT_LIVE: u32 = 24;
/// A serial held twice.
pub const HELD_TWICE: u32 = 31;
/// A step breaks its rule.
pub const STEP: u32 = 40;
/// A step is right but needs label 64.
pub const LABELS: u32 = 41;
/// Steps end with a premise open, or lines follow the close.
pub const STEP_COUNT: u32 = 42;
/// Live credentials, less the linear ones held, are 2,048 or more.
pub const CREDENTIALS_FULL: u32 = 22;
/// Serial 999,999 was given.
pub const SERIALS_SPENT: u32 = 23;

// A closed till's text (document 02, asks 5 and 8)

/// Form or a range is broken, counts do not match or are too high, serials do not rise, or the edition is
/// not the one in which the lines would be written.
pub const TEXT_FORM: u32 = 50;
/// A formula or credential breaks a rule of word or issue, or a serial is not below next.
pub const TEXT_RULE: u32 = 51;
/// The buffer is too short for the text.
pub const BUFFER: u32 = 52;
