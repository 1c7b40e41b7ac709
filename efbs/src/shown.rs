//! Amounts for readers: with thousands separators, in Dth and dollars.

use crate::amounts::{self, grouped};

pub fn gas(units: i64) -> String {
    grouped(&amounts::gas(units))
}

pub fn money(mills: i64) -> String {
    grouped(&amounts::money(mills))
}

pub fn whole(number: u64) -> String {
    grouped(&number.to_string())
}
