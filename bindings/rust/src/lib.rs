//! Safe functions over the proved bank recorder library. What each answers is stated, and proved for every input, in
//! the contracts of `crates/nedrulov`; names and units are those of `include/nedrulov.h`.
//!
//! The library allocates nothing and keeps no state. A refusal changes nothing.
//!
//! A ledger or an archive is old or new, and stays so. In a new one a supplier forfeits no more than the storage
//! provider confiscated, as entries of kind 10, CONFISCATED, tell, entries of kind 11, HOLIDAY, name days on which no meter
//! is read, and gas goes from one supplier to another by two letters, entries of kind 12, NOTICE, one from each of them: from
//! 1 April 2027 on by these alone. In an old one it forfeits all excess, and there are kinds 1 to 9 only. [`fresh`],
//! [`entry_number`] and [`write`] must be told which is meant; every other function sees it in what it is given.

mod ffi;

pub const ACCOUNTS: usize = 16;
pub const HOLIDAYS: usize = 16;
pub const MONTHS: usize = 12;
pub const ENTRY_BYTES: usize = 32;

#[repr(C)]
#[derive(Clone, Copy, Debug, Default, PartialEq, Eq)]
pub struct Date {
    pub year: u64,
    pub month: u64,
    pub day: u64,
}

#[repr(C)]
#[derive(Clone, Copy, Debug, Default, PartialEq, Eq)]
pub struct Terms {
    /// NN, Dth.
    pub no_notice: u64,
    /// DD, Dth.
    pub design_day: u64,
    /// S, Dth.
    pub storage: u64,
    /// R, ten-thousandths.
    pub retainage: u64,
    /// Mills per Dth.
    pub demand_rate: u64,
    /// Mills per Mcf.
    pub commodity_rate: u64,
}

#[repr(C)]
#[derive(Clone, Copy, Debug, Default, PartialEq, Eq)]
pub struct Step {
    pub k: u64,
    pub pending: u64,
    pub over: u64,
    pub under: u64,
}

/// In Dth.
#[repr(C)]
#[derive(Clone, Copy, Debug, Default, PartialEq, Eq)]
pub struct Capacity {
    pub mddq: u64,
    pub bcq: u64,
}

/// What an account moved and used since the month began: gas in hundredths of a Dth, usage in Mcf.
#[repr(C)]
#[derive(Clone, Copy, Debug, Default, PartialEq, Eq)]
pub struct Totals {
    pub net: i64,
    pub sales: u64,
    pub purchases: u64,
    pub cash_ins: u64,
    pub cash_outs: u64,
    pub usage: u64,
}

/// A supplier's letter for a transfer, or none: of none the other members mean nothing, and a fresh account's are zeros.
#[repr(C)]
#[derive(Clone, Copy, Debug, Default, PartialEq, Eq)]
pub struct Notice {
    /// NOTICE was accepted, and its counterpart has not come.
    pub stands: bool,
    /// The writer takes the gas; else it gives it.
    pub takes: bool,
    /// The account that the letter names.
    pub other: usize,
    /// Hundredths of a Dth, 1 to 10^9.
    pub units: u64,
}

/// The day so far: every closing clears it.
#[repr(C)]
#[derive(Clone, Copy, Debug, Default, PartialEq, Eq)]
pub struct Today {
    pub delivered: bool,
    pub v1: bool,
    pub v2: bool,
    /// CONFISCATED was accepted, be it of 0.
    pub confiscated: bool,
    /// The hundredths of a Dth that it told of.
    pub confiscation: u64,
    pub notice: Notice,
}

/// The month so far: CLOSE MONTH clears it.
#[repr(C)]
#[derive(Clone, Copy, Debug, Default, PartialEq, Eq)]
pub struct ThisMonth {
    pub totals: Totals,
    pub measured: bool,
    pub metered: bool,
}

/// Gas in hundredths of a Dth, MDQ in Dth, money in mills.
#[repr(C)]
#[derive(Clone, Copy, Debug, Default, PartialEq, Eq)]
pub struct Account {
    pub opened: bool,
    pub excused: bool,
    pub today: Today,
    pub bank: i64,
    pub mdq: u64,
    pub step: Step,
    pub capacity: Capacity,
    pub month: ThisMonth,
    pub carry: u64,
    pub owed: i64,
    pub violation_days: u64,
}

/// The days that were named as holidays, in the order of posting: the first `count` of `dates`. CLOSE MONTH drops those
/// that have passed; what stands past the count is not looked at.
#[repr(C)]
#[derive(Clone, Copy, Debug, Default, PartialEq, Eq)]
pub struct Holidays {
    pub count: u64,
    pub dates: [Date; HOLIDAYS],
}

#[repr(C)]
#[derive(Clone, Copy, Debug, PartialEq, Eq)]
pub struct Ledger {
    pub begun: bool,
    pub touched: bool,
    /// A forfeit is at most what was confiscated, and kinds 10 to 12 exist.
    pub is_new: bool,
    pub date: Date,
    pub terms: Terms,
    pub holidays: Holidays,
    pub accounts: [Account; ACCOUNTS],
}

/// What a closing reports of an account: gas in hundredths of a Dth, the bill in mills.
#[repr(C)]
#[derive(Clone, Copy, Debug, Default, PartialEq, Eq)]
pub struct Report {
    pub mask: u64,
    pub cash: i64,
    pub forfeit: u64,
    pub bill: i64,
}

#[repr(C)]
#[derive(Clone, Copy, Debug, PartialEq, Eq)]
pub struct Answer {
    pub number: u64,
    pub reports: [Report; ACCOUNTS],
}

#[repr(C)]
#[derive(Clone, Copy, Debug, PartialEq, Eq)]
pub struct Posted {
    pub answer: Answer,
    pub ledger: Ledger,
}

#[repr(C)]
#[derive(Clone, Copy, Debug, PartialEq, Eq)]
pub struct Panel {
    pub number: u64,
    pub figure: i64,
}

/// What is wrong with an archive, and at which entry.
#[repr(C)]
#[derive(Clone, Copy, Debug, PartialEq, Eq)]
pub struct Checked {
    pub number: u64,
    pub index: usize,
}

/// Where a section lies in its archive.
#[repr(C)]
#[derive(Clone, Copy, Debug, PartialEq, Eq)]
pub struct Place {
    pub number: u64,
    pub index: usize,
    pub start: usize,
    pub length: usize,
}

#[repr(C)]
#[derive(Clone, Copy, Debug, PartialEq, Eq)]
pub struct Written {
    pub number: u64,
    pub index: usize,
    pub length: usize,
}

#[repr(C)]
#[derive(Clone, Copy, Debug, PartialEq, Eq)]
pub struct Figures {
    pub number: u64,
    pub index: usize,
    pub accepted: u64,
    pub refused: u64,
    pub figure: i64,
}

/// The least and the largest bank of a month, in units.
#[repr(C)]
#[derive(Clone, Copy, Debug, PartialEq, Eq)]
pub struct Band {
    pub minimum: u64,
    pub maximum: u64,
}

/// What a supplier's customers take at a temperature, in units; temperatures are on any one scale.
#[repr(C)]
#[derive(Clone, Copy, Debug, PartialEq)]
pub struct LoadCurve {
    /// The load at the turning temperature and above it.
    pub base: f64,
    /// Units more for each degree below it.
    pub slope: f64,
    pub turning: f64,
}

/// A back-cast in units, as the word w2 of a DELIVER takes it; 0 with a refusal.
#[repr(C)]
#[derive(Clone, Copy, Debug, PartialEq, Eq)]
pub struct BackCast {
    pub number: u64,
    pub quantity: u64,
}

/// Who can take gas of a seller: the account numbers of the first `count` places, the most headroom first, and 0 past them.
#[repr(C)]
#[derive(Clone, Copy, Debug, PartialEq, Eq)]
pub struct PartnerList {
    pub number: u64,
    pub count: u64,
    pub accounts: [u64; ACCOUNTS],
}

/// A ledger with no terms, no date and no open account, old or new.
pub fn fresh(is_new: bool) -> Ledger {
    unsafe { ffi::nedrulov_fresh(is_new) }
}

/// What is wrong with an entry by itself, for old or new ledgers: 0, or 1 to 7.
pub fn entry_number(is_new: bool, entry: &[u8]) -> u64 {
    unsafe { ffi::nedrulov_entry_number(is_new, entry.as_ptr(), entry.len()) }
}

/// Posts an entry to the ledger in its storage.
pub fn post(ledger: &mut Ledger, entry: &[u8]) -> Answer {
    unsafe { ffi::nedrulov_post(ledger, entry.as_ptr(), entry.len()) }
}

/// Posts an entry to a ledger by value.
pub fn post_by_value(ledger: Ledger, entry: &[u8]) -> Posted {
    unsafe { ffi::nedrulov_post_by_value(ledger, entry.as_ptr(), entry.len()) }
}

/// Total gas in bank, or 20 on a ledger out of range.
pub fn panel(ledger: Ledger) -> Panel {
    unsafe { ffi::nedrulov_panel(ledger) }
}

/// The day of a month on which MEASURE is posted, by the holidays that the ledger holds: the first Monday to Friday from the
/// 25th on that is none of them. 0 on a ledger out of range, or where there is no such month in 2000 to 2099; never else.
pub fn measurement_day(ledger: Ledger, year: u64, month: u64) -> u64 {
    unsafe { ffi::nedrulov_measurement_day(ledger, year, month) }
}

/// Whether the first four bytes are those of a new archive, whatever follows them.
pub fn is_new(archive: &[u8]) -> bool {
    unsafe { ffi::nedrulov_is_new(archive.as_ptr(), archive.len()) }
}

/// What is wrong with an archive, and at which entry; 0 and 0 where nothing is.
pub fn check(archive: &[u8]) -> Checked {
    unsafe { ffi::nedrulov_check(archive.as_ptr(), archive.len()) }
}

/// Where a section lies.
pub fn place(archive: &[u8], section: usize) -> Place {
    unsafe { ffi::nedrulov_place(archive.as_ptr(), archive.len(), section) }
}

/// A section as a part of the archive, or a refusal with its number and index.
pub fn section(archive: &[u8], section: usize) -> Result<&[u8], Checked> {
    let p = place(archive, section);
    match p.number {
        0 => Ok(&archive[p.start..p.start + p.length]),
        number => Err(Checked { number, index: p.index }),
    }
}

/// Writes the archive of a list of entries, an old or a new one, to the start of the output.
pub fn write(is_new: bool, list: &[u8], out: &mut [u8]) -> Written {
    unsafe { ffi::nedrulov_write(is_new, list.as_ptr(), list.len(), out.as_mut_ptr(), out.len()) }
}

/// Posts an archive's entries in order to a fresh ledger, new if the archive is.
pub fn figures(archive: &[u8]) -> Figures {
    unsafe { ffi::nedrulov_figures(archive.as_ptr(), archive.len()) }
}

/// The banks just after each accepted CLOSE MONTH of a gas year, accounts by months from April.
pub fn year_sheet(archive: &[u8], year: u64) -> [[i64; MONTHS]; ACCOUNTS] {
    let mut cells = [0; ACCOUNTS * MONTHS];
    let number =
        unsafe { ffi::nedrulov_year_sheet(archive.as_ptr(), archive.len(), year, cells.as_mut_ptr(), cells.len()) };
    assert_eq!(number, 0, "192 cells are enough");
    std::array::from_fn(|account| std::array::from_fn(|month| cells[MONTHS * account + month]))
}

/// What a DELIVER adds to its bank under a retainage, in units; 0 where one of the three is out of its range.
pub fn amount(retainage: u64, delivered: u64, back_cast: u64) -> i64 {
    unsafe { ffi::nedrulov_amount(retainage, delivered, back_cast) }
}

/// The least and the largest bank of a month, 1 to 12, for a BCQ in Dth; 0 and 0 where one of the two is out of its range.
pub fn band(month: u64, bcq: u64) -> Band {
    unsafe { ffi::nedrulov_band(month, bcq) }
}

/// The load at a temperature, rounded down to whole units; its difference, product and sum are each rounded to double by
/// itself before. 31 if one of the four is infinite or not a number, 32 if the load is not from 0 to 10^9.
pub fn back_cast(curve: LoadCurve, temperature: f64) -> BackCast {
    unsafe { ffi::nedrulov_back_cast(curve, temperature) }
}

/// Every open account but the seller that could take the quantity, in units, on the ledger's day under the month's maximum,
/// the most headroom first and the lower number among equals; none where the seller would fall below its minimum. With an
/// empty list: 4 if the seller is above 15, 6 if the quantity is not 1 to 10^9, then 20, 21, and 24 if the seller is not open.
pub fn partners(ledger: Ledger, seller: u64, quantity: u64) -> PartnerList {
    unsafe { ffi::nedrulov_partners(ledger, seller, quantity) }
}
