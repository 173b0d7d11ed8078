//! Entries of logs.

/// The most entries of a log.
pub const MAX_ENTRIES: usize = 1_024;

/// An entry of a log: which bits were logged at a moment, and what they were. A state fits it where
/// its bits under the mask equal the value: none does where the value has a bit outside the mask.
///
/// ```
/// use kudzuclamp::Entry;
///
/// // Bit 1 was on and bit 4 off; of the others nothing is known.
/// let entry = Entry::none().bit(1, true).bit(4, false);
/// assert_eq!(entry, Entry::new(0b10010, 0b00010));
/// assert!(entry.fits(0b01011) && !entry.fits(0b11011));
/// ```
#[must_use]
#[derive(Clone, Copy, Debug, Default, PartialEq, Eq, Hash)]
#[repr(C)]
pub struct Entry {
    /// Bit p is 1 where bit p of the state was logged.
    pub mask: u16,
    /// What the logged bits were.
    pub value: u16,
}

impl Entry {
    /// The bits of a mask had this value.
    pub const fn new(mask: u16, value: u16) -> Entry {
        Entry { mask, value }
    }

    /// Nothing was logged: every state fits.
    pub const fn none() -> Entry {
        Entry::new(0, 0)
    }

    /// The same entry, in which bit p was logged too.
    ///
    /// # Panics
    ///
    /// Where p is not 0 to 15.
    pub const fn bit(self, p: u32, on: bool) -> Entry {
        assert!(p < 16, "a state has at most 16 bits");
        let (mask, bit) = (self.mask | 1 << p, 1 << p);
        match on {
            true => Entry::new(mask, self.value | bit),
            false => Entry::new(mask, self.value & !bit),
        }
    }

    /// Whether a state fits.
    #[must_use]
    pub const fn fits(self, state: u16) -> bool {
        state & self.mask == self.value
    }
}
