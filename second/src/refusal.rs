//! The refusal numbers: those of the paper's table, and what requests add.

/// Why a call is refused; each case stands for its number.
#[derive(Clone, Copy, Debug, PartialEq, Eq)]
pub enum Refusal {
    Side = 1,
    Levels = 2,
    Length = 3,
    Magnitude = 4,
    Planes = 5,
    Room = 6,
    Label = 7,
    Check = 8,
    Field = 9,
    Turn = 10,
    State = 11,
    Halvings = 13,
}

impl Refusal {
    pub fn number(self) -> u32 {
        self as u32
    }

    /// Refuses exactly when `wrong` holds.
    pub fn when(self, wrong: bool) -> Result<(), Refusal> {
        if wrong {
            Err(self)
        } else {
            Ok(())
        }
    }
}
