//! Keys and texts of the specification once more, for tests only.

/// Widths of the nine fields, from the top bit down.
const WIDTHS: [u32; 9] = [12, 4, 5, 5, 6, 6, 7, 5, 14];

pub fn unpack(key: u64) -> [u64; 9] {
    let mut fields = [0; 9];
    let mut left = 64;
    for (f, w) in fields.iter_mut().zip(WIDTHS) {
        left -= w;
        *f = key >> left & ((1 << w) - 1);
    }
    fields
}

fn days(year: u64, month: u64) -> u64 {
    let leap = year % 4 == 0 && year % 100 != 0 || year % 400 == 0;
    match month {
        4 | 6 | 9 | 11 => 30,
        2 => 28 + leap as u64,
        1..=12 => 31,
        _ => 0,
    }
}

fn exists(f: &[u64]) -> bool {
    let (year, month, day) = (f[0], f[1], f[2]);
    (1990..=2999).contains(&year) && day >= 1 && day <= days(year, month) && f[3] < 24 && f[4] < 60 && f[5] < 60
}

fn in_range(f: &[u64; 9]) -> bool {
    exists(f) && f[6] < 100 && f[7] < 32 && f[8] < 10000
}

pub fn legal(key: u64) -> bool {
    in_range(&unpack(key))
}

pub fn pack(fields: &[u64; 9], key: &mut u64) -> u64 {
    if !in_range(fields) {
        return 3;
    }
    *key = join(fields);
    0
}

/// The fields as one number, whatever they say.
pub fn join(fields: &[u64; 9]) -> u64 {
    fields.iter().zip(WIDTHS).fold(0, |k, (f, w)| k << w | f)
}

fn part(block: &[u8], place: usize, length: usize) -> Option<&[u8]> {
    block.get(place..place.checked_add(length)?)
}

/// All of it digits, as a number.
fn digits(s: &[u8]) -> Option<u64> {
    std::str::from_utf8(s).ok().filter(|t| t.bytes().all(|b| b.is_ascii_digit()))?.parse().ok()
}

/// The six fields of a text of one of the forms, whatever they say.
fn told(t: &[u8]) -> Option<[u64; 6]> {
    let (date, rest) = (t.get(..11)?, &t[11..]);
    if date[4] != b':' || date[7] != b':' || date[10] != b' ' {
        return None;
    }
    // hour, and :MM:SS with what follows it
    let (hour, rest) = match rest.iter().position(|b| *b == b':')? {
        2 if rest[0] == b' ' => (digits(&rest[1..2])?, &rest[2..]),
        2 => (digits(&rest[..2])?, &rest[2..]),
        1 => (digits(&rest[..1])?, &rest[1..]),
        _ => return None,
    };
    let one_digit = rest.len() + 12 == t.len();
    let end = rest.get(6..)?;
    if rest[3] != b':' || !(end == b"\0" || one_digit && end == b"\0\0") {
        return None;
    }
    Some([digits(&date[..4])?, digits(&date[5..7])?, digits(&date[8..10])?, hour, digits(&rest[1..3])?, digits(&rest[4..6])?])
}

pub fn read_text(block: &[u8], place: usize, length: usize, fields: &mut [u64; 6]) -> u64 {
    let Some(t) = part(block, place, length) else { return 11 };
    if t == b"                   \0" || t == b"    :  :     :  :  \0" {
        return 12;
    }
    match told(t) {
        Some(f) if exists(&f) => {
            *fields = f;
            0
        }
        _ => 10,
    }
}

pub fn write_text(buffer: &mut [u8], place: usize, key: u64) -> u64 {
    if !legal(key) {
        return 3;
    }
    if part(buffer, place, 20).is_none() {
        return 11;
    }
    let f = unpack(key);
    let text = format!("{:04}:{:02}:{:02} {:02}:{:02}:{:02}\0", f[0], f[1], f[2], f[3], f[4], f[5]);
    buffer[place..place + 20].copy_from_slice(text.as_bytes());
    0
}

pub fn read_sub_second(block: &[u8], place: usize, length: usize, hundredths: &mut u64) -> u64 {
    let Some(t) = part(block, place, length) else { return 11 };
    let said = match t {
        [] => Some(0),
        [d @ .., 0] if (1..=2).contains(&d.len()) => digits(d),
        _ => None,
    };
    match said {
        Some(n) => {
            *hundredths = n;
            0
        }
        None => 10,
    }
}
