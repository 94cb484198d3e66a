//! The cookies of a record, a request or a host: a value for some keys.

use crate::KEYS;

/// Cookies of one host: a value for each key that is present.
///
/// ```
/// use zolherima::Cookies;
///
/// let cookies = Cookies::NONE.with(0, 7).and_then(|cookies| cookies.with(2, 9)).unwrap();
/// assert_eq!((cookies.get(0), cookies.get(1), cookies.get(2)), (Some(7), None, Some(9)));
/// assert_eq!(cookies.key_map(), 0b101);
/// assert!(cookies.iter().eq([(0, 7), (2, 9)]));
///
/// // Keys are 0 to 7.
/// assert_eq!(cookies.with(8, 1), None);
/// ```
#[derive(Clone, Copy, Debug, Default, PartialEq, Eq, Hash)]
pub struct Cookies {
    present: u8,
    /// 0 where the key is not present.
    values: [u32; KEYS],
}

impl Cookies {
    /// No cookie.
    pub const NONE: Cookies = Cookies {
        present: 0,
        values: [0; KEYS],
    };

    /// These, and this value for a key, whatever was there; None where the key is above 7.
    pub const fn with(mut self, key: u32, value: u32) -> Option<Cookies> {
        if key >= KEYS as u32 {
            return None;
        }
        self.present |= 1 << key;
        self.values[key as usize] = value;
        Some(self)
    }

    /// The value of a key; None where it is not present, or the key is above 7.
    pub const fn get(&self, key: u32) -> Option<u32> {
        if key < KEYS as u32 && self.present >> key & 1 == 1 {
            Some(self.values[key as usize])
        } else {
            None
        }
    }

    /// The keys that are present: bit k stands for key k.
    pub const fn key_map(&self) -> u8 {
        self.present
    }

    /// Keys and values of those that are present, the lowest key first.
    pub fn iter(&self) -> impl Iterator<Item = (u32, u32)> {
        let cookies = *self;
        (0..KEYS as u32).filter_map(move |key| Some((key, cookies.get(key)?)))
    }

    /// Whether none is present.
    pub const fn is_empty(&self) -> bool {
        self.present == 0
    }

    /// How many are present.
    pub const fn len(&self) -> usize {
        self.present.count_ones() as usize
    }
}
