//! The numbers of an answer. Checks are made from the lowest number to the
//! highest, but for 36, which follows 22, and 33 to 35, which follow 23; the
//! first that finds a fault is the answer.

/// Accepted.
pub const ACCEPTED: u64 = 0;

/// An entry has 32 bytes, a list a multiple of 32.
pub const LENGTH: u64 = 1;
/// Kinds are 1 to 9, and 10 to 12 in new ledgers and archives only.
pub const KIND: u64 = 2;
/// The calendar of 2000 to 2099 has no such day.
pub const DATE: u64 = 3;
/// A used account, or the seller of a partner list, is above 15.
pub const ACCOUNT: u64 = 4;
/// Something is set that the kind does not use.
pub const UNUSED: u64 = 5;
/// A word, or the quantity of a partner list, is too small or too large.
pub const WORD: u64 = 6;
/// TRANSFER of A to A, or w1 and w2 differ; or NOTICE of A to A.
pub const TRANSFER: u64 = 7;

/// Archive: the header is wrong, or the directory is cut off.
pub const HEADER: u64 = 8;
/// Archive: directory and file do not fit each other.
pub const DIRECTORY: u64 = 9;
/// Archive: a kind 9 inside a section, or none at its end, though the last
/// section needs none.
pub const SECTION_END: u64 = 10;
/// Writer: more than 1,200 sections or 2^32 − 1 bytes.
pub const TOO_LARGE: u64 = 11;
/// Writer: the output is too small.
pub const OUTPUT: u64 = 12;
/// Reader: the archive is sound, but has fewer sections.
pub const NO_SECTION: u64 = 13;

/// The ledger handed in holds a number that is out of range.
pub const BAD_LEDGER: u64 = 20;
/// Nothing but TERMS can begin a ledger.
pub const NOT_BEGUN: u64 = 21;
/// The ledger stands at another day.
pub const OTHER_DATE: u64 = 22;
/// The kind is not for this day.
pub const WRONG_DAY: u64 = 23;
/// The account is open and the kind ENROL, or neither; or one of two parties,
/// or the seller of a partner list, is not open.
pub const OPEN: u64 = 24;
/// The supplier is not served under EFBS.
pub const STAYS: u64 = 25;
/// DELIVER or CONFISCATED was posted today, or MEASURE or USAGE this month; or
/// a letter of the account's own stands.
pub const SECOND: u64 = 26;
/// A closing finds an open account without a posting that it needs.
pub const LACKING: u64 = 27;
/// Too large an opening, or a bank moved past the month's band.
pub const LIMIT: u64 = 28;
/// A number of the ledger would go out of range.
pub const LEAVES_RANGE: u64 = 29;

/// Back-cast: base, slope, turning temperature or temperature is a NaN or an
/// infinity.
pub const NOT_FINITE: u64 = 31;
/// Back-cast: the load is no number from 0 to 10^9.
pub const LOAD: u64 = 32;

/// HOLIDAY names no date of 2000 to 2099, or one that is not to come.
pub const NOT_AHEAD: u64 = 33;
/// HOLIDAY finds all places taken, or its date in one of them.
pub const NO_PLACE: u64 = 34;
/// HOLIDAY names the last business day from the 25th of its month on.
pub const NO_BUSINESS_DAY: u64 = 35;

/// A new ledger takes no TRANSFER any more.
pub const RETIRED: u64 = 36;
