//! Document 01, "A step": the refusals by number.

/// The length of the file.
pub const FILE_LENGTH: u32 = 1;
/// The first two bytes, the edition, or the number of parts.
pub const OPENING: u32 = 2;
/// The pairs, or the length of the table.
pub const LAYOUT: u32 = 3;
/// An entry of the type table.
pub const TYPE_ENTRY: u32 = 4;
/// A part is not exactly one term.
pub const NO_TERM: u32 = 5;
/// Nesting or nodes above the limit.
pub const TERM_SIZE: u32 = 6;
/// An index, a name or a type number that names nothing.
pub const SCOPE: u32 = 7;
/// The type of a lambda or a constant.
pub const ANNOTATION: u32 = 8;
/// The type of an application or a body.
pub const TYPE: u32 = 9;
/// A once-variable not used exactly once, or under a many-lambda.
pub const LINEARITY: u32 = 10;
/// A bay whose type is usable once.
pub const BAY_ONCE: u32 = 11;
/// An out buffer that is too short.
pub const BUFFER: u32 = 12;
/// The image breaks a rule or a limit.
pub const IMAGE: u32 = 13;
/// The number is no thread.
pub const NO_THREAD: u32 = 14;
/// No room for the outcome of a rule.
pub const ROOM: u32 = 15;
/// A used handle is applied.
pub const USED_HANDLE: u32 = 16;
/// Two values meet that nothing fits.
pub const WRONG_KIND: u32 = 17;
/// A seed of zero, of the test load (document 02, T-06).
pub const SEED: u32 = 18;
/// A starting part whose length is not twice the number of bays (document 02, T-07).
pub const STARTING: u32 = 19;
/// A bay of the separate profile that names another's setting (document 02, T-09).
pub const OTHER_SETTING: u32 = 20;
/// A bay of the separate profile that starts above its share (document 02, T-09).
pub const SHARE: u32 = 21;
