//! Sizes and offsets of what crosses the door, as `include/nedrulov.h` asserts them too.
use nedrulov::*;
use std::mem::{offset_of, size_of};

#[test]
fn sizes() {
    assert_eq!(size_of::<usize>(), 8);
    assert_eq!(size_of::<Date>(), 24);
    assert_eq!(size_of::<Terms>(), 48);
    assert_eq!(size_of::<Step>(), 32);
    assert_eq!(size_of::<Capacity>(), 16);
    assert_eq!(size_of::<Totals>(), 48);
    assert_eq!(size_of::<Notice>(), 24);
    assert_eq!(size_of::<Today>(), 40);
    assert_eq!(size_of::<ThisMonth>(), 56);
    assert_eq!(size_of::<Account>(), 192);
    assert_eq!(size_of::<Holidays>(), 392);
    assert_eq!(size_of::<Ledger>(), 3544);
    assert_eq!(size_of::<Report>(), 32);
    assert_eq!(size_of::<Answer>(), 520);
    assert_eq!(size_of::<Posted>(), 4064);
    assert_eq!(size_of::<Panel>(), 16);
    assert_eq!(size_of::<Checked>(), 16);
    assert_eq!(size_of::<Place>(), 32);
    assert_eq!(size_of::<Written>(), 24);
    assert_eq!(size_of::<Figures>(), 40);
    assert_eq!(size_of::<Band>(), 16);
    assert_eq!(size_of::<LoadCurve>(), 24);
    assert_eq!(size_of::<BackCast>(), 16);
    assert_eq!(size_of::<PartnerList>(), 144);
}

#[test]
fn offsets() {
    assert_eq!(offset_of!(Notice, takes), 1);
    assert_eq!(offset_of!(Notice, other), 8);
    assert_eq!(offset_of!(Notice, units), 16);
    assert_eq!(offset_of!(Today, confiscated), 3);
    assert_eq!(offset_of!(Today, confiscation), 8);
    assert_eq!(offset_of!(Today, notice), 16);
    assert_eq!(offset_of!(ThisMonth, measured), 48);
    assert_eq!(offset_of!(Account, excused), 1);
    assert_eq!(offset_of!(Account, today), 8);
    assert_eq!(offset_of!(Account, bank), 48);
    assert_eq!(offset_of!(Account, mdq), 56);
    assert_eq!(offset_of!(Account, step), 64);
    assert_eq!(offset_of!(Account, capacity), 96);
    assert_eq!(offset_of!(Account, month), 112);
    assert_eq!(offset_of!(Account, carry), 168);
    assert_eq!(offset_of!(Account, owed), 176);
    assert_eq!(offset_of!(Account, violation_days), 184);
    assert_eq!(offset_of!(Ledger, touched), 1);
    assert_eq!(offset_of!(Ledger, is_new), 2);
    assert_eq!(offset_of!(Ledger, date), 8);
    assert_eq!(offset_of!(Ledger, terms), 32);
    assert_eq!(offset_of!(Holidays, dates), 8);
    assert_eq!(offset_of!(Ledger, holidays), 80);
    assert_eq!(offset_of!(Ledger, accounts), 472);
    assert_eq!(offset_of!(LoadCurve, slope), 8);
    assert_eq!(offset_of!(LoadCurve, turning), 16);
    assert_eq!(offset_of!(BackCast, quantity), 8);
    assert_eq!(offset_of!(PartnerList, count), 8);
    assert_eq!(offset_of!(PartnerList, accounts), 16);
}
