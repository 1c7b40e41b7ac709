//! Amounts as text. Units are hundredths of a Dth, mills thousandths of a dollar.

/// "1234.56", "-0.05".
pub fn gas(units: i64) -> String {
    decimal(units, 2)
}

/// "1234.567".
pub fn money(mills: i64) -> String {
    decimal(mills, 3)
}

/// "1,234.56": thousands separators, for tables.
pub fn grouped(text: &str) -> String {
    let (sign, size) = match text.strip_prefix('-') {
        Some(size) => ("-", size),
        None => ("", text),
    };
    let (whole, part) = size.split_at(size.find('.').unwrap_or(size.len()));
    let mut out = String::with_capacity(text.len() + text.len() / 3);
    out.push_str(sign);
    for (place, digit) in whole.chars().enumerate() {
        if place > 0 && (whole.len() - place) % 3 == 0 {
            out.push(',');
        }
        out.push(digit);
    }
    out + part
}

/// A number of the smallest parts, `places` of them decimals.
fn decimal(value: i64, places: u32) -> String {
    let one = 10u64.pow(places);
    let size = value.unsigned_abs();
    let sign = if value < 0 { "-" } else { "" };
    let width = places as usize;
    format!("{sign}{}.{:0width$}", size / one, size % one)
}

/// The reverse of a decimal without a sign: digits, and exactly `places` decimals. What u64 cannot hold is its largest.
pub fn read_decimal(text: &str, places: usize) -> Option<u64> {
    let (whole, part) = match places {
        0 => (text, ""),
        _ => text.split_once('.')?,
    };
    let digits = |text: &str| text.bytes().all(|b| b.is_ascii_digit());
    let right = !whole.is_empty() && digits(whole) && part.len() == places && digits(part);
    right.then(|| format!("{whole}{part}").parse().unwrap_or(u64::MAX))
}

#[cfg(test)]
mod tests {
    use super::*;

    #[test]
    fn gas_and_money() {
        assert_eq!(gas(123_456), "1234.56");
        assert_eq!(gas(-5), "-0.05");
        assert_eq!(gas(0), "0.00");
        assert_eq!(gas(i64::MIN), "-92233720368547758.08");
        assert_eq!(money(1_234_567), "1234.567");
        assert_eq!(money(-7), "-0.007");
    }

    #[test]
    fn thousands() {
        for (plain, with) in [
            ("0.00", "0.00"),
            ("999.99", "999.99"),
            ("1000.00", "1,000.00"),
            ("-123456.789", "-123,456.789"),
            ("-1234567", "-1,234,567"),
        ] {
            assert_eq!(grouped(plain), with);
        }
    }

    #[test]
    fn decimals_read() {
        assert_eq!(read_decimal("1234.56", 2), Some(123_456));
        assert_eq!(read_decimal(&"9".repeat(30), 0), Some(u64::MAX));
        assert_eq!(read_decimal("4200", 0), Some(4200));
        for wrong in [
            "", ".50", "1.5", "1.500", "1", "-1.00", "+1.00", "1,000.00", "1.0x", "1 .00",
        ] {
            assert_eq!(read_decimal(wrong, 2), None, "{wrong}");
        }
        assert_eq!(read_decimal("1.00", 0), None);
    }
}
