//! What came up on rolls, besides each call's answers and refusals.
use std::fmt;

#[derive(Clone, Copy, Debug, PartialEq, Eq)]
pub enum Event {
    Opened,
    NeverOpened,
    TooShort,
    /// Full by joins on a roll that was opened.
    Full,
    FullAgain,
    CameBack,
    OtherBasis,
    /// The pension's 5, which is not counted as the basis's.
    Pension,
    PensionOfNothing,
    OnFullRoll,
    FirstLeft,
    BetweenLeft,
    LastLeft,
    TooLarge,
}

const EVENTS: [(Event, &str); 14] = [
    (Event::Opened, "lists opened"),
    (Event::NeverOpened, "never opened"),
    (Event::TooShort, "too short"),
    (Event::Full, "rolls that became full"),
    (Event::FullAgain, "full again after a leave"),
    (Event::CameBack, "joins by one who had left"),
    (Event::OtherBasis, "joins on another basis than the one before"),
    (Event::Pension, "pensions refused by 5"),
    (Event::PensionOfNothing, "pensions of 0 refused by 9 or 10"),
    (Event::OnFullRoll, "joins to a full roll refused by 16"),
    (Event::FirstLeft, "leaves of the first"),
    (Event::BetweenLeft, "leaves of one between"),
    (Event::LastLeft, "leaves of the last"),
    (Event::TooLarge, "sums above 8 bytes"),
];

/// How often each came up.
#[derive(Clone, Default)]
pub struct Rolls {
    counts: [u64; EVENTS.len()],
}

impl Rolls {
    pub fn note(&mut self, event: Event) {
        self.counts[event as usize] += 1;
    }

    pub fn add(&mut self, other: &Rolls) {
        self.counts.iter_mut().zip(other.counts).for_each(|(sum, count)| *sum += count);
    }

    pub fn missing(&self) -> impl Iterator<Item = String> {
        EVENTS.iter().filter(|(event, _)| self.counts[*event as usize] == 0).map(|(_, what)| format!("rolls: {what}"))
    }
}

impl fmt::Display for Rolls {
    fn fmt(&self, f: &mut fmt::Formatter) -> fmt::Result {
        let parts = EVENTS.map(|(event, what)| format!("{} {what}", self.counts[event as usize]));
        writeln!(f, "rolls: {}", parts.join("; "))
    }
}
