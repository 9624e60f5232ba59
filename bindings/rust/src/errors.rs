//! What went wrong, in words; so that it goes on by `?`.
use core::error::Error;
use core::fmt::{Display, Formatter, Result};

use crate::brightness::BadPoint;
use crate::figures::NoReport;
#[cfg(feature = "std")]
use crate::playback;
use crate::{compare, BadSetup, Code, Fault, Refusal, Unfit};

/// A refusal, or the damage of a state.
impl Error for Code {}

impl Display for Fault {
    fn fmt(&self, f: &mut Formatter<'_>) -> Result {
        f.pad(match self {
            Fault::S1 => "S1, the bytes end before a needed word is whole",
            Fault::S2 => "S2, a count outside its range",
            Fault::S3 => "S3, an entry outside its range",
            Fault::S4 => "S4, bytes left over",
        })
    }
}

impl Display for BadSetup {
    fn fmt(&self, f: &mut Formatter<'_>) -> Result {
        write!(
            f,
            "the setup has a fault at byte {}: {}",
            self.place, self.fault
        )
    }
}

impl Error for BadSetup {}

impl Display for Unfit {
    fn fmt(&self, f: &mut Formatter<'_>) -> Result {
        f.pad(match self {
            Unfit::Ragged => "the event words are no multiple of five",
            Unfit::FewCodes => "no place for a code of each event",
            Unfit::FewWords => "no place for four words of each event",
        })
    }
}

impl Error for Unfit {}

impl Display for Refusal {
    fn fmt(&self, f: &mut Formatter<'_>) -> Result {
        match self {
            Refusal::Events(unfit) => unfit.fmt(f),
            Refusal::Setup(bad) => bad.fmt(f),
        }
    }
}

impl Error for Refusal {}

impl Display for BadPoint {
    fn fmt(&self, f: &mut Formatter<'_>) -> Result {
        match self.0 {
            0 => f.pad("the curve's count of points is bad"),
            point => write!(f, "point {point} of the curve is bad"),
        }
    }
}

impl Error for BadPoint {}

impl Display for NoReport {
    fn fmt(&self, f: &mut Formatter<'_>) -> Result {
        f.pad(match self {
            NoReport::T1 => "T1, too many records",
            NoReport::T2 => "T2, an output of another length",
            NoReport::T3 => "T3, a total beyond 2^32 - 1",
        })
    }
}

impl Error for NoReport {}

impl Display for compare::Short {
    fn fmt(&self, f: &mut Formatter<'_>) -> Result {
        write!(f, "the text takes {} bytes", self.needed)
    }
}

impl Error for compare::Short {}

#[cfg(feature = "std")]
impl Display for playback::Short {
    fn fmt(&self, f: &mut Formatter<'_>) -> Result {
        write!(f, "the text takes {} bytes", self.needed)
    }
}

#[cfg(feature = "std")]
impl Error for playback::Short {}
