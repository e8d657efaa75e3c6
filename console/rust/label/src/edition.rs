//! The edition of a record, with what it names.

/// The edition of a record.
///
/// In edition 2 each block names the arm that shot the picture and a mount number, in which all blocks of a record agree.
/// What was made before version 0.5.0 knows edition 1 alone, and refuses every block of edition 2 whose checks are right
/// as [`Refusal::Fields`](crate::Refusal::Fields).
///
/// ```
/// use label::Edition;
///
/// let by_arm_2 = Edition::Two { arm: 2, mount: 70_123 };
/// assert_eq!((by_arm_2.number(), by_arm_2.arm(), by_arm_2.mount()), (2, 2, 70_123));
/// assert_eq!((Edition::One.number(), Edition::One.arm(), Edition::One.mount()), (1, 0, 0));
/// ```
#[derive(Clone, Copy, Debug, PartialEq, Eq, Hash)]
#[non_exhaustive]
pub enum Edition {
    /// Names neither arm nor mount.
    One,
    /// Names both.
    Two {
        /// The arm, 1 or 2.
        arm: u32,
        /// The mount number, 0 to [`MOST_MOUNT`](crate::MOST_MOUNT).
        mount: u32,
    },
}

impl Edition {
    /// The edition's number.
    #[must_use]
    pub const fn number(self) -> u32 {
        match self {
            Edition::One => 1,
            Edition::Two { .. } => 2,
        }
    }

    /// The arm; 0 in edition 1.
    #[must_use]
    pub const fn arm(self) -> u32 {
        match self {
            Edition::One => 0,
            Edition::Two { arm, .. } => arm,
        }
    }

    /// The mount number; 0 in edition 1.
    #[must_use]
    pub const fn mount(self) -> u32 {
        match self {
            Edition::One => 0,
            Edition::Two { mount, .. } => mount,
        }
    }

    /// What the reader's plain answer says.
    ///
    /// # Panics
    /// If there is no edition of this number. The archive has no such answer: it would be one of another version.
    pub(crate) const fn named(number: u32, arm: u32, mount: u32) -> Edition {
        match number {
            1 => Edition::One,
            2 => Edition::Two { arm, mount },
            _ => panic!("label: an edition without a name; the archive is not of this package's version"),
        }
    }
}
