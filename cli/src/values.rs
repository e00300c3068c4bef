//! Values as a person reads them.
use crate::names::{ranges, Form, Kind};
use std::net::{Ipv4Addr, Ipv6Addr};

/// What the library reads out of a value.
#[derive(Clone, Debug, PartialEq, Eq)]
pub enum Value {
    Number(u32),
    Pair(u32, u32),
    /// The bits of a 32-bit float.
    Bandwidth(u32),
    Bytes(Vec<u8>),
    Srlgs(Vec<u32>),
}

/// Bytes in hex, two digits each, with something between them.
pub fn hex_with(bytes: &[u8], between: &str) -> String {
    const DIGITS: [u8; 16] = *b"0123456789ABCDEF";
    let mut text = String::with_capacity((2 + between.len()) * bytes.len());
    for (i, byte) in bytes.iter().enumerate() {
        text.push_str(if i == 0 { "" } else { between });
        text.push(char::from(DIGITS[usize::from(byte >> 4)]));
        text.push(char::from(DIGITS[usize::from(byte & 15)]));
    }
    text
}

/// Bytes in hex, with blanks between them.
pub fn hex(bytes: &[u8]) -> String {
    hex_with(bytes, " ")
}

/// Four bytes each as numbers; what is left at the end is left out.
pub fn words(bytes: &[u8]) -> Vec<u32> {
    let word = |w: &[u8]| w.iter().fold(0, |n, b| n << 8 | u32::from(*b));
    bytes.chunks_exact(4).map(word).collect()
}

/// The same number as a plain decimal, exactly.
fn decimal(x: f64) -> String {
    if x.fract() == 0.0 {
        return format!("{x:.0}");
    }
    let all = format!("{x:.160}");
    all.trim_end_matches('0').trim_end_matches('.').to_string()
}

/// A bandwidth in bytes per second by its bits: the exact decimal, or none where it is no number.
pub fn bytes_per_second(bits: u32) -> Option<String> {
    let x = f32::from_bits(bits);
    x.is_finite().then(|| decimal(f64::from(x)))
}

/// A bandwidth in bits per second, exactly: `10 Gbit/s`, `399.999991808 Gbit/s`.
pub fn bandwidth(bits: u32) -> String {
    let x = f32::from_bits(bits);
    if x.is_nan() {
        return format!("no number ({bits:08X})");
    }
    if x.is_infinite() {
        return format!("{}infinite", if x < 0.0 { "minus " } else { "" });
    }
    // Eight times a 32-bit float is exact in 64 bits.
    let rate = f64::from(x) * 8.0;
    let (places, unit) = scale(rate.abs());
    let text = shifted(&decimal(rate), places);
    if text.len() > 24 {
        return format!("{:e} bit/s ({bits:08X})", x * 8.0);
    }
    format!("{text} {unit}")
}

/// The same in three digits where it is long: `~400G`.
pub fn about(bits: u32) -> Option<String> {
    let rate = f64::from(f32::from_bits(bits)) * 8.0;
    if !(1e3..1e15).contains(&rate) {
        return None;
    }
    let (places, unit) = scale(rate);
    let scaled = rate / 10f64.powi(places as i32);
    let digits = if scaled >= 99.95 { 0 } else { 1 };
    let number = format!("{scaled:.digits$}");
    let number = number.strip_suffix(".0").unwrap_or(&number);
    Some(format!("~{number}{}", &unit[..1]))
}

fn scale(rate: f64) -> (usize, &'static str) {
    match rate {
        r if r >= 1e12 => (12, "Tbit/s"),
        r if r >= 1e9 => (9, "Gbit/s"),
        r if r >= 1e6 => (6, "Mbit/s"),
        r if r >= 1e3 => (3, "kbit/s"),
        _ => (0, "bit/s"),
    }
}

/// A decimal with its point so many places further left.
fn shifted(decimal: &str, places: usize) -> String {
    let (sign, digits) = match decimal.strip_prefix('-') {
        Some(rest) => ("-", rest),
        None => ("", decimal),
    };
    let (whole, part) = digits.split_once('.').unwrap_or((digits, ""));
    let whole = format!("{whole:0>width$}", width = places + 1);
    let (front, back) = whole.split_at(whole.len() - places);
    let back = format!("{back}{part}");
    match back.trim_end_matches('0') {
        "" => format!("{sign}{front}"),
        back => format!("{sign}{front}.{back}"),
    }
}

/// The bits that are set, the lowest of each word first: `bits 0-3,17`, or `no bit`.
pub fn bits(words: &[u32]) -> String {
    let set = |(i, w): (usize, &u32)| {
        let w = *w;
        (0..32).filter(move |b| w >> b & 1 == 1).map(move |b| 32 * i + b)
    };
    let all: Vec<usize> = words.iter().enumerate().flat_map(set).collect();
    match all.is_empty() {
        true => "no bit".into(),
        false => format!("bits {}", ranges(&all).join(",")),
    }
}

/// What stands in the byte before a number of three bytes.
fn flags(word: u32, has_anomalous: bool) -> String {
    let anomalous = if has_anomalous { word >> 31 } else { 0 };
    let reserved = word >> 24 & if has_anomalous { 0x7F } else { 0xFF };
    let mut text = String::new();
    if anomalous == 1 {
        text += ", anomalous";
    }
    if reserved != 0 {
        text += &format!(", reserved bits {reserved:02X}");
    }
    text
}

const LOW: u32 = 0x00FF_FFFF;

fn loss(word: u32) -> String {
    let millionths = u64::from(word & LOW) * 3;
    format!("{} %{}", shifted(&millionths.to_string(), 6), flags(word, true))
}

fn delays(min: u32, max: u32) -> String {
    let text = format!("{} to {} us{}", min & LOW, max & LOW, flags(min, true));
    match max >> 24 {
        0 => text,
        reserved => format!("{text}, reserved bits {reserved:02X} of the maximum"),
    }
}

/// Eight bandwidths, priorities with the same one together: `0-1: 10 Gbit/s; 2-7: 9 Gbit/s`.
fn bandwidths(all: &[u32]) -> String {
    let mut texts = Vec::new();
    let mut at = 0;
    while at < all.len() {
        let count = all[at..].iter().take_while(|w| **w == all[at]).count();
        let numbers: Vec<usize> = (at..at + count).collect();
        texts.push(format!("{}: {}", ranges(&numbers).join(","), bandwidth(all[at])));
        at += count;
    }
    texts.join("; ")
}

/// Numbers with a sign between them.
pub fn numbers(all: &[u32], between: &str) -> String {
    let texts: Vec<String> = all.iter().map(u32::to_string).collect();
    texts.join(between)
}

/// A value in words.
pub fn text(kind: &Kind, value: &Value) -> String {
    match (kind.form, value) {
        (Form::Bits, Value::Number(n)) => bits(&[*n]),
        (Form::Bits, Value::Bytes(bytes)) => bits(&words(bytes)),
        (Form::Delay, Value::Number(n)) => {
            format!("{} us{}", n & LOW, flags(*n, kind.code == 1114))
        }
        (Form::Delays, Value::Pair(min, max)) => delays(*min, *max),
        (Form::Loss, Value::Number(n)) => loss(*n),
        (Form::Bandwidths, Value::Bytes(bytes)) => bandwidths(&words(bytes)),
        (_, Value::Number(n)) => n.to_string(),
        (_, Value::Pair(first, second)) => format!("{first} and {second}"),
        (_, Value::Bandwidth(bits)) => bandwidth(*bits),
        (_, Value::Bytes(bytes)) => hex(bytes),
        (_, Value::Srlgs(all)) => numbers(all, ","),
    }
}

/// The value of a known element by its bytes, whose length was checked.
pub fn of_bytes(kind: &Kind, bytes: &[u8]) -> Value {
    let number = bytes.iter().fold(0, |n: u32, b| n << 8 | u32::from(*b));
    match (kind.form, words(bytes).as_slice()) {
        (Form::Bits, [word]) if kind.code == 1088 => Value::Number(*word),
        (Form::Bits | Form::Bandwidths, _) => Value::Bytes(bytes.to_vec()),
        (Form::Delays, [min, max]) => Value::Pair(*min, *max),
        (Form::Bandwidth, [word]) => Value::Bandwidth(*word),
        (Form::Srlgs, all) => Value::Srlgs(all.to_vec()),
        _ => Value::Number(number),
    }
}

/// An identifier of a link in words.
pub fn identifier(bytes: &[u8]) -> String {
    if let Ok(four) = <[u8; 4]>::try_from(bytes) {
        return Ipv4Addr::from(four).to_string();
    }
    if let Ok(sixteen) = <[u8; 16]>::try_from(bytes) {
        return Ipv6Addr::from(sixteen).to_string();
    }
    match words(bytes).as_slice() {
        [local, remote] => format!("local {local}, remote {remote}"),
        _ => hex(bytes),
    }
}

/// The seven neighbour bytes of a TLV 238: a system id and a pseudonode number.
pub fn neighbour(bytes: &[u8]) -> String {
    let digits: String = bytes.iter().map(|b| format!("{b:02x}")).collect();
    let parts: Vec<&str> =
        [0..4, 4..8, 8..12, 12..14].into_iter().filter_map(|r| digits.get(r)).collect();
    parts.join(".")
}

#[cfg(test)]
mod tests {
    use super::*;

    fn shown(code: u16, bytes: &[u8]) -> String {
        let kind = Kind::of_code(code).unwrap();
        text(kind, &of_bytes(kind, bytes))
    }

    #[test]
    fn bandwidths_are_exact() {
        assert_eq!(bandwidth(0x4E95_02F9), "10 Gbit/s");
        assert_eq!(bandwidth(0x513A_43B7), "399.999991808 Gbit/s");
        assert_eq!(bandwidth(0x0000_0000), "0 bit/s");
        assert_eq!(bandwidth(0xCE95_02F9), "-10 Gbit/s");
        assert_eq!(bandwidth(0x3F00_0000), "4 bit/s");
        assert_eq!(bandwidth(0x7FA1_2345), "no number (7FA12345)");
        assert_eq!(bandwidth(0x7F80_0000), "infinite");
        assert_eq!(bandwidth(0x0000_0001), "1.1e-44 bit/s (00000001)");
        assert_eq!(bandwidth(0x4200_0000), "256 bit/s");
    }

    #[test]
    fn bandwidths_in_short() {
        assert_eq!(about(0x513A_43B7).as_deref(), Some("~400G"));
        assert_eq!(about(0x4E5F_8476).as_deref(), Some("~7.5G"));
        assert_eq!(about(0x7F80_0000), None);
    }

    #[test]
    fn bytes_per_second_are_exact() {
        assert_eq!(bytes_per_second(0x4E95_02F9).as_deref(), Some("1250000000"));
        assert_eq!(bytes_per_second(0x3F00_0000).as_deref(), Some("0.5"));
        assert_eq!(bytes_per_second(0xFF80_0000), None);
        let most = "340282346638528859811704183484516925440";
        assert_eq!(bytes_per_second(0x7F7F_FFFF).as_deref(), Some(most));
    }

    #[test]
    fn groups_are_listed_by_bits() {
        assert_eq!(shown(1088, &[0, 0, 0, 0x0F]), "bits 0-3");
        assert_eq!(shown(1088, &[0, 0, 0, 0]), "no bit");
        assert_eq!(shown(1173, &[0, 0, 0, 1, 0x80, 0, 0, 0]), "bits 0,63");
    }

    #[test]
    fn delays_and_loss_have_flags() {
        assert_eq!(shown(1114, &[0x80, 0, 0x09, 0xC4]), "2500 us, anomalous");
        assert_eq!(shown(1114, &[0x81, 0, 0, 1]), "1 us, anomalous, reserved bits 01");
        assert_eq!(shown(1116, &[0x80, 0, 0, 1]), "1 us, reserved bits 80");
        assert_eq!(shown(1115, &[0, 0, 3, 0xE8, 0, 0, 7, 0xD0]), "1000 to 2000 us");
        assert_eq!(shown(1117, &[0, 0, 0, 10]), "0.00003 %");
        assert_eq!(shown(1117, &[0, 0xFF, 0xFF, 0xFF]), "50.331645 %");
    }

    #[test]
    fn metrics_of_three_and_four_bytes() {
        assert_eq!(shown(1092, &[0, 0, 10]), "10");
        assert_eq!(shown(1092, &[1, 0, 0, 10]), "16777226");
    }

    #[test]
    fn eight_bandwidths_by_priority() {
        let mut all = Vec::new();
        for i in 0..8u8 {
            all.extend([0x4E, 0x95, 0x02, if i < 2 { 0xF9 } else { 0xF8 }]);
        }
        assert_eq!(shown(1091, &all), "0-1: 10 Gbit/s; 2-7: 9.999998976 Gbit/s");
    }

    #[test]
    fn identifiers_are_addresses() {
        assert_eq!(identifier(&[192, 0, 2, 1]), "192.0.2.1");
        assert_eq!(identifier(&[0, 0, 0, 1, 0, 0, 0, 2]), "local 1, remote 2");
        assert_eq!(neighbour(&[0x19, 0x21, 0x68, 0, 0x10, 2, 0]), "1921.6800.1002.00");
    }
}
