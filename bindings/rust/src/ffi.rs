// The functions of the static library. A slice passes as a pointer and then a length.
use crate::{Answer, BackCast, Band, Checked, Figures, Ledger, LoadCurve, Panel, PartnerList, Place, Posted, Written};

extern "C" {
    pub fn nedrulov_fresh(is_new: bool) -> Ledger;
    pub fn nedrulov_entry_number(is_new: bool, entry: *const u8, length: usize) -> u64;
    pub fn nedrulov_post(ledger: *mut Ledger, entry: *const u8, length: usize) -> Answer;
    pub fn nedrulov_post_by_value(ledger: Ledger, entry: *const u8, length: usize) -> Posted;
    pub fn nedrulov_panel(ledger: Ledger) -> Panel;
    pub fn nedrulov_measurement_day(ledger: Ledger, year: u64, month: u64) -> u64;
    pub fn nedrulov_is_new(archive: *const u8, length: usize) -> bool;
    pub fn nedrulov_check(archive: *const u8, length: usize) -> Checked;
    pub fn nedrulov_place(archive: *const u8, length: usize, section: usize) -> Place;
    pub fn nedrulov_write(
        is_new: bool,
        list: *const u8,
        list_length: usize,
        out: *mut u8,
        out_length: usize,
    ) -> Written;
    pub fn nedrulov_figures(archive: *const u8, length: usize) -> Figures;
    pub fn nedrulov_year_sheet(archive: *const u8, length: usize, year: u64, cells: *mut i64, count: usize) -> u64;
    pub fn nedrulov_amount(retainage: u64, delivered: u64, back_cast: u64) -> i64;
    pub fn nedrulov_band(month: u64, bcq: u64) -> Band;
    pub fn nedrulov_back_cast(curve: LoadCurve, temperature: f64) -> BackCast;
    pub fn nedrulov_partners(ledger: Ledger, seller: u64, quantity: u64) -> PartnerList;
}
