//! The 64-bit number that every service returns, taken apart.

use std::fmt;

/// Run: the walk ended, or stopped with or without a layout in hand.
pub const ENDED: u8 = 0;
pub const STOPPED_WITH_LAYOUT: u8 = 1;
pub const STOPPED_WITH_NOTHING: u8 = 2;

#[derive(Clone, Copy, PartialEq, Eq)]
pub struct Answer {
    /// 0, or the refusal number.
    pub number: u8,
    pub verdict: u8,
    /// A length (check, run), numbers written (read), bytes written (save), words written (row) or triangles
    /// written (cut).
    pub count: u16,
    pub steps: u32,
}

impl Answer {
    pub fn refused(number: u8) -> Answer {
        Answer { number, verdict: 0, count: 0, steps: 0 }
    }

    pub fn counted(count: usize) -> Answer {
        Answer { number: 0, verdict: 0, count: u16::try_from(count).expect("fits"), steps: 0 }
    }

    pub fn pack(self) -> u64 {
        u64::from(self.number)
            | u64::from(self.verdict) << 8
            | u64::from(self.count) << 16
            | u64::from(self.steps) << 32
    }

    pub fn unpack(packed: u64) -> Answer {
        Answer {
            number: packed as u8,
            verdict: (packed >> 8) as u8,
            count: (packed >> 16) as u16,
            steps: (packed >> 32) as u32,
        }
    }
}

impl fmt::Debug for Answer {
    fn fmt(&self, f: &mut fmt::Formatter<'_>) -> fmt::Result {
        write!(f, "number {} verdict {} count {} steps {}", self.number, self.verdict, self.count, self.steps)
    }
}
