//! What the tests share: the sample year and other texts as archives.

use efbs::archive::of_list;

pub fn pack(text: &str) -> Vec<u8> {
    let list = efbs::text::read(text.as_bytes()).expect("the text is right");
    of_list(list.rules(), list.bytes()).expect("the list fits")
}

#[allow(dead_code)] // Not every test is about the sample.
pub fn sample() -> Vec<u8> {
    pack(include_str!("../../../samples/gas-year.txt"))
}

#[allow(dead_code)]
pub fn holiday_sample() -> Vec<u8> {
    pack(include_str!("../../../samples/holiday-year.txt"))
}

#[allow(dead_code)]
pub fn letter_sample() -> Vec<u8> {
    pack(include_str!("../../../samples/letters.txt"))
}
