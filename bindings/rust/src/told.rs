//! Answers as the archive tells them: a number, and values each as a size and a sign.
use crate::error::Error;

/// A whole number: its size, and whether it is negative. The flag is read as a byte, so that any byte is a legal value here.
#[repr(C)]
#[derive(Clone, Copy)]
pub(crate) struct Whole {
    pub size: u64,
    pub negative: u8,
}

/// The number of an answer, how many values it carries, and the values; those behind `count` are 0.
#[repr(C)]
#[derive(Clone, Copy)]
pub(crate) struct Told {
    pub number: u64,
    pub count: u64,
    pub values: [Whole; 4],
}

const OTHER: &str = "the archive that is linked is another one: a value does not fit its type";

impl Whole {
    #[inline]
    fn value(self) -> i128 {
        let size = i128::from(self.size);
        if self.negative == 0 {
            size
        } else {
            -size
        }
    }

    #[inline]
    pub fn word(self) -> u32 {
        self.value().try_into().expect(OTHER)
    }

    #[inline]
    pub fn long(self) -> u64 {
        self.value().try_into().expect(OTHER)
    }

    #[inline]
    pub fn signed(self) -> i64 {
        self.value().try_into().expect(OTHER)
    }
}

impl Told {
    /// The values that an answer of this number carries, which must be so many.
    #[inline]
    pub fn carried<const N: usize>(&self) -> [Whole; N] {
        assert_eq!(self.count, N as u64, "the archive that is linked is another one: {} with other values", self.number);
        self.values[..N].try_into().expect("at most four")
    }

    /// The values of a call that was done, or its refusal.
    #[inline]
    pub fn values<const N: usize>(&self) -> Result<[Whole; N], Error> {
        if self.number == 0 {
            Ok(self.carried())
        } else {
            Err(Error::of(self))
        }
    }

    /// Whether a call that answers nothing more was done, or its refusal.
    pub fn done(&self) -> Result<(), Error> {
        self.values().map(|[]| ())
    }

    /// The one value of an answer that counts places or bytes.
    pub fn length(&self) -> Result<usize, Error> {
        self.values().map(|[length]| length.long() as usize)
    }
}
