//! Whose answers the tool gives: the proved library's where it is built in, else the model's.

use crate::answers::Implementation;
#[cfg(not(feature = "library"))]
pub use crate::answers::Model as Judge;
#[cfg(feature = "library")]
pub use crate::ffi::Library as Judge;
use crate::limits;
use crate::profile::Profile;
use crate::tool::faults::{fault_in, Fault};
use crate::tool::refusals;
use crate::tool::text::spot::Spot;

/// Who gives the verdicts and steps.
pub const NAME: &str = if cfg!(feature = "library") {
    "the proved library"
} else {
    "the model"
};

/// A refusal, and its place where the tool finds the same cause.
pub struct Refusal {
    pub number: u32,
    pub fault: Option<Fault>,
}

impl Refusal {
    pub fn of(profile: Profile, number: u32, file: &[u8], spots: &[Vec<Spot>]) -> Refusal {
        let fault = fault_in(profile, file, spots).filter(|fault| fault.number == number);
        Refusal { number, fault }
    }

    /// "refused 9 by the proved library"
    pub fn short(&self) -> String {
        format!("refused {} by {NAME}", self.number)
    }

    /// The same with the cause.
    pub fn in_words(&self) -> String {
        format!("{}: {}", self.short(), refusals::in_words(self.number))
    }

    /// The same with the place in the file and what was found there.
    pub fn in_full(&self) -> String {
        let place = match &self.fault {
            Some(fault) => format!("; {}, byte {}: {}", fault.place, fault.offset, fault.found),
            None => String::new(),
        };
        format!("{}{place}", self.in_words())
    }
}

/// "accepted by the proved library", and in the separate profile how.
pub fn accepted(profile: Profile) -> String {
    match profile {
        Profile::Common => format!("accepted by {NAME}"),
        Profile::Separate => format!("accepted by {NAME}, as separate bays"),
    }
}

/// Why a file is refused in that profile, if it is.
pub fn refusal(profile: Profile, file: &[u8]) -> Option<Refusal> {
    refusal_in(profile, file, &[])
}

/// The same for a file made from a text, in the text's own names and places.
pub fn refusal_in(profile: Profile, file: &[u8], spots: &[Vec<Spot>]) -> Option<Refusal> {
    let number = match profile {
        Profile::Common => Judge.check(file).refusal,
        // there is no check of its own: the load tells
        Profile::Separate => {
            let mut out = vec![0; limits::MAX_IMAGE];
            let loaded = Judge.load_in(profile, file, &mut out);
            loaded.unwrap_or_default().refusal
        }
    };
    (number != 0).then(|| Refusal::of(profile, number, file, spots))
}
