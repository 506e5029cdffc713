//! The refusals of the scope, by name and number.

use std::error::Error;
use std::fmt;

/// Why a call was refused. A refused call changes nothing.
#[derive(Clone, Copy, Debug, PartialEq, Eq, Hash, PartialOrd, Ord)]
#[repr(u32)]
pub enum Refusal {
    /// 1: a map record has a wrong length or kind, is cut, or bytes follow.
    MapRecord = 1,
    /// 2: a count in record 1 is outside its limits.
    MapCounts = 2,
    /// 3: a rule for parts, leaves or the 128 borders is broken.
    MapParts = 3,
    /// 4: a rule for roads is broken.
    MapRoads = 4,
    /// 5: memory is below the need, or answer words below 3 × k.
    TooFewWords = 5,
    /// 6: memory has no opened head.
    NotOpened = 6,
    /// 7: van, desk, k or the asked vertex is outside its range.
    OutOfRange = 7,
    /// 8: no such van.
    NoSuchVan = 8,
    /// 9: van already present.
    VanPresent = 9,
    /// 10: neither (u, v) nor (v, u) is a road, also where u or v is no vertex.
    NoRoad = 10,
    /// 11: offset above the weight.
    OffsetAboveWeight = 11,
    /// 12: van is held.
    VanHeld = 12,
    /// 13: van is not held by this desk.
    NotHeldByDesk = 13,
    /// 14: stamp differs from the van's.
    StampDiffers = 14,
    /// 15: change count is 4,294,967,295.
    CountFull = 15,
    /// 20: (u, v) is no road but (v, u) is.
    WrongWay = 20,
}

impl Refusal {
    /// All refusals, in the order of their numbers.
    pub const ALL: [Refusal; 16] = [
        Refusal::MapRecord,
        Refusal::MapCounts,
        Refusal::MapParts,
        Refusal::MapRoads,
        Refusal::TooFewWords,
        Refusal::NotOpened,
        Refusal::OutOfRange,
        Refusal::NoSuchVan,
        Refusal::VanPresent,
        Refusal::NoRoad,
        Refusal::OffsetAboveWeight,
        Refusal::VanHeld,
        Refusal::NotHeldByDesk,
        Refusal::StampDiffers,
        Refusal::CountFull,
        Refusal::WrongWay,
    ];

    /// The scope's number of the refusal: 1 to 15, or 20.
    ///
    /// ```
    /// assert_eq!(hailtrellis::Refusal::VanHeld.number(), 12);
    /// ```
    pub fn number(self) -> u32 {
        self as u32
    }

    /// The refusal of a number.
    ///
    /// ```
    /// use hailtrellis::Refusal;
    /// assert_eq!(Refusal::from_number(14), Some(Refusal::StampDiffers));
    /// assert_eq!(Refusal::from_number(0), None);
    /// ```
    pub fn from_number(number: u32) -> Option<Refusal> {
        Refusal::ALL
            .into_iter()
            .find(|refusal| refusal.number() == number)
    }
}

impl fmt::Display for Refusal {
    fn fmt(&self, f: &mut fmt::Formatter<'_>) -> fmt::Result {
        f.write_str(match self {
            Refusal::MapRecord => {
                "a map record has a wrong length or kind, is cut, or bytes follow"
            }
            Refusal::MapCounts => "a count of the map is outside its limits",
            Refusal::MapParts => "a rule for parts, leaves or the 128 borders is broken",
            Refusal::MapRoads => "a rule for roads is broken",
            Refusal::TooFewWords => "too few words of memory or answer",
            Refusal::NotOpened => "the memory has no opened head",
            Refusal::OutOfRange => "van, desk, k or the asked vertex is outside its range",
            Refusal::NoSuchVan => "no such van",
            Refusal::VanPresent => "the van is already present",
            Refusal::NoRoad => "no such road, nor one the other way",
            Refusal::OffsetAboveWeight => "the offset is above the road's weight",
            Refusal::VanHeld => "the van is held",
            Refusal::NotHeldByDesk => "the van is not held by this desk",
            Refusal::StampDiffers => "the stamp differs from the van's",
            Refusal::CountFull => "the change count is at its end",
            Refusal::WrongWay => "no such road, but one the other way",
        })
    }
}

impl Error for Refusal {}
