//! What a call answers: a count, or the number of a refusal.

use std::fmt;

/// A refusal's count is zero, so only its number is kept.
pub type Answer<T = u32> = Result<T, Refusal>;

macro_rules! refusals {
    ($($number:literal $name:ident $words:literal)*) => {
        #[derive(Clone, Copy, Debug, PartialEq, Eq, PartialOrd, Ord)]
        pub enum Refusal {
            $(#[doc = $words] $name = $number,)*
        }

        impl Refusal {
            pub const ALL: &'static [Refusal] = &[$(Refusal::$name),*];

            pub fn words(self) -> &'static str {
                match self {
                    $(Refusal::$name => $words,)*
                }
            }
        }
    };
}

refusals! {
    1 MeshHead "Mesh under 12 bytes, or d not 1 to 3."
    2 Counts "A count above d not zero; a count up to d zero; N over 2,000; R over 12,000."
    3 MeshLength "Mesh length not exactly 2 × (6 + N + 2R)."
    4 Record "Head or next above R, a point with a head, or a record met twice."
    5 ChainElement "A chain's element 0, above N, not of lower dimension, or twice in the chain."
    6 Closure "g in f's chain, f in e's, g not in e's."
    7 Uncovered "A lower element in no cell's chain."
    8 PartMap "P, the part wanted, an owner or the map's length wrong."
    9 EmptyPart "A part owning no cell."
    10 Stencil "Not a stencil."
    11 Rule "Unknown rule, or weights wrong in number or range."
    12 Held "Held cells over all parts above 4,096."
    13 Reach "Sizes of all cells' reaches together above 8,000."
    14 Field "Field length or a depth wrong; a gap is let through."
    15 Message "Message under 8 bytes, length not 8 + 4 × count, or a depth out of range; a gap is let through."
    16 Output "An output buffer too short."
    20 State "Not a part state."
    21 Sender "To is not this part, or from is no part that this one imports from, or count is not the length of that import list."
    22 MessageRound "The message's round is not the state's."
    23 AlreadyTaken "Already taken this round."
    24 NotTaken "Advance or points with an import not taken."
    25 NotWritten "Advance with an export not written."
    26 LastRound "Advance at round 60,000."
    27 Receiver "Write to a number that isn't a part importing from here."
    28 OtherRound "Collect for another round than the state's."
    29 PointReach "A cell incident to a point of an owned cell is outside that cell's reach."
}

impl Refusal {
    pub fn number(self) -> u32 {
        self as u32
    }

    pub fn of_number(number: u32) -> Option<Refusal> {
        Refusal::ALL.iter().copied().find(|r| r.number() == number)
    }
}

impl fmt::Display for Refusal {
    fn fmt(&self, f: &mut fmt::Formatter<'_>) -> fmt::Result {
        write!(f, "{}: {}", self.number(), self.words())
    }
}

impl std::error::Error for Refusal {}
