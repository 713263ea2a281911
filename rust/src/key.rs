//! Keys: what orders frames.
use crate::answer::{told, Refusal};
use crate::raw;
use std::fmt;

/// A date and a time of day, as a capture text says it.
#[derive(Clone, Copy, Debug, PartialEq, Eq, PartialOrd, Ord, Hash)]
pub struct Moment {
    pub year: u64,
    pub month: u64,
    pub day: u64,
    pub hour: u64,
    pub minute: u64,
    pub second: u64,
}

/// The fields of a key. Year 1990 to 2999, a date and time of day that exist, hundredth to 99, camera to 31 (31: from the
/// wire), file number to 9999.
#[derive(Clone, Copy, Debug, PartialEq, Eq, PartialOrd, Ord, Hash)]
pub struct Fields {
    pub moment: Moment,
    pub hundredth: u64,
    pub camera: u64,
    pub number: u64,
}

/// A legal key. Keys order as the moments do, then by camera, then by file number.
///
/// ```
/// use pannuqreik::{Fields, Key, Moment, Refusal};
/// let moment = Moment { year: 2024, month: 6, day: 15, hour: 9, minute: 58, second: 7 };
/// let early = Key::pack(Fields { moment, hundredth: 0, camera: 1, number: 101 })?;
/// let late = Key::pack(Fields { moment: Moment { hour: 10, minute: 2, ..moment }, hundredth: 0, camera: 1, number: 102 })?;
/// assert!(early < late);
/// assert_eq!(early.number(), 0x7E86_7A7A_1C00_4065);
/// assert_eq!(Key::new(early.number()), Ok(early));
/// assert_eq!(Key::new(0), Err(Refusal::Range));
/// # Ok::<(), Refusal>(())
/// ```
#[derive(Clone, Copy, Debug, PartialEq, Eq, PartialOrd, Ord, Hash)]
pub struct Key(u64);

impl Key {
    /// The key that is this number, or 3.
    pub fn new(number: u64) -> Result<Key, Refusal> {
        if raw::legal(number) {
            Ok(Key(number))
        } else {
            Err(Refusal::Range)
        }
    }

    /// The key of the fields, or 3.
    pub fn pack(f: Fields) -> Result<Key, Refusal> {
        let m = f.moment;
        let fields = [m.year, m.month, m.day, m.hour, m.minute, m.second, f.hundredth, f.camera, f.number];
        let mut key = 0;
        let said = raw::pack(&fields, &mut key);
        told(said, Key(key))
    }

    /// Its fields again.
    pub fn fields(self) -> Fields {
        let mut f = [0; 9];
        raw::unpack(self.0, &mut f);
        let [year, month, day, hour, minute, second, hundredth, camera, number] = f;
        Fields { moment: Moment { year, month, day, hour, minute, second }, hundredth, camera, number }
    }

    /// The 64-bit number that lies in the table.
    pub fn number(self) -> u64 {
        self.0
    }

    /// A key that a call handed back.
    pub(crate) fn handed(number: u64) -> Key {
        debug_assert!(raw::legal(number));
        Key(number)
    }
}

impl fmt::Display for Key {
    fn fmt(&self, f: &mut fmt::Formatter<'_>) -> fmt::Result {
        let mut text = [0; 20];
        crate::write_text(&mut text, 0, *self).expect("a legal key, and room for 20 bytes");
        let time = std::str::from_utf8(&text[..19]).expect("digits and colons");
        let k = self.fields();
        write!(f, "{}.{:02} camera {} file {}", time, k.hundredth, k.camera, k.number)
    }
}
