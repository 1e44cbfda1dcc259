//! What a comparison or a recorded session can reach: kinds of events, each in
//! cases.

use crate::values::*;

/// What can reach a case.
#[derive(Clone, Copy, PartialEq, Eq)]
pub enum By {
    Nothing,
    /// The calls that are compared, also from a state that no session leads to.
    Calls,
    /// A session that has a fault, or hardly a step.
    Files,
    /// A few steps from a fresh card.
    Steps,
    /// The code, shown to a fresh card.
    Tries,
    /// A way over the addresses, from a fresh card.
    Journeys,
}

/// A session of any form.
pub const SESSIONS: &[By] = &[By::Files, By::Steps, By::Tries, By::Journeys];

/// The comparison.
pub const ALL: &[By] = &[By::Calls, By::Files, By::Steps, By::Tries, By::Journeys];

macro_rules! kinds {
    ($($kind:ident $by:ident $name:literal [$($values:ident)*])*) => {
        #[derive(Clone, Copy, Debug, PartialEq, Eq, Hash)]
        pub enum Kind {
            $($kind,)*
        }

        const KINDS: &[(Kind, By, &str, &[Values])] =
            &[$((Kind::$kind, By::$by, $name, &[$($values),*]),)*];
    };
}

kinds! {
    Edge Steps "edges" [LINE WAY VCC]
    Same Steps "no difference" [STATE]
    PowerUp Journeys "VCC rises" []
    Cut Journeys "VCC falls with" [LOST]
    CutIn Journeys "VCC falls in programming that would take effect" [CUT PGM]
    Followed Steps "without VCC" [FOLLOWED]
    Latched Steps "CLK rises" [IO RST PGM]
    LatchHeld Steps "CLK high, I/O" [WAY LATCH]
    Fallen Steps "CLK falls out of programming" [RST LATCH]
    Still Journeys "with every flag and match" [STILL]
    Reset Journeys "RST falls with" [RESET]
    Wrap Journeys "from 1519 to 0 with" [WRAPPED]
    At104 Tries "arriving at 104" [MATCH]
    At1360 Journeys "arriving at 1360" [MATCH E1]
    At1519 Journeys "arriving at 1519" [E1]
    At176 Journeys "arriving at 176" [BIT P1 LEVEL SV]
    At177 Journeys "arriving at 177" [BIT R1 LEVEL SV]
    At1232 Journeys "arriving at 1232" [MATCH EC_EN SV]
    On176 Journeys "standing on 176, written with P1 or erased without" [OPERATION]
    On177 Journeys "standing on 177, written with R1 or erased without" [OPERATION]
    Code Tries "bit of the code" [SIXTEEN COMPARED]
    CodeBit Tries "bit of the code, match so far" [BIT LATCH]
    Key Journeys "bit of the key" [NUMBERS COMPARED]
    KeyBit Journeys "bit of the key, match so far" [BIT LATCH]
    Try Tries "write at 96 to 103" [EIGHT BIT MATCH LEVEL]
    Count Journeys "write in EC" [PLACE BIT MATCH LEVEL EC_EN SV]
    Write Journeys "write on a 1" [ZONE PLACE LEVEL SV]
    WriteAz Journeys "write on a 1 in AZ" [PLACE LEVEL SV P1]
    Erase Journeys "erase of a word with a 0" [ZONE PLACE LEVEL SV]
    EraseEc Journeys "erase in EC" [PLACE LEVEL SV E1 EC_EN]
    Mfz Journeys "in MFZ" [OPERATION PLACE LEVEL SV MF]
    RstHigh Journeys "RST high alone bars" [BLOCKED OPERATION LEVEL]
    Block Journeys "block" [PLACE OPERATION LEVEL_BY SV]
    Fuse Journeys "write at a fuse, RST high" [FUSE EIGHT SV FUS]
    BlownAt Journeys "fuse blown at" [FUSE_AT]
    NotBlown Journeys "fuse not blown by" [FUSE NOT_BLOWN]
    Beside Journeys "no fuse at" [BESIDE]
    Read Journeys "pin at a bit" [ZONE PLACE LEVEL SV BIT]
    ReadAz Journeys "pin in AZ" [PLACE SV R1 BIT]
    Outside Journeys "pin where no memory is" [AREA LEVEL SV]
    Released Journeys "a 0 not shown" [RELEASED]
    Refused1 Steps "refused by 1" [VCC OVER DIFFER]
    Refused2 Steps "refused by 2" [PAIR STATE]
    Refused2More Steps "refused by 2" [MORE VCC]
    Refused3Rst Steps "refused by 3, RST" [WAY PGM]
    Refused3Fus Steps "refused by 3, FUS" [WAY PGM]
    Refused4 Steps "refused by 4" [RST LATCH]
    Refused5 Steps "refused by 5" [LATCH]
    Refused6 Steps "refused by 6" [IDLE RST]
    Refused7 Steps "refused by 7" [RISES_WITH]
    RefusedBefore Calls "steps refused by" [BEFORE]
    MadeUp Calls "9 alone by" [CLAUSE]
    Reason Calls "reasons" [REASON PGM]
    ReasonRefused Calls "reasons refused by" [CHECKS]
    Ran Calls "runs" [RAN]
    Act Calls "acts" [ACT MADE]
    CardFile Calls "card files" [OPENED]
    SessionFile Calls "sessions" [OPENED]
    Fault Files "session refused" [FAULT]
    Faults Files "session refused by the first of" [FAULTS FAULTS]
    Given Files "session with" [GIVEN]
    Left Files "tries left at the end" [NINE]
}

/// A kind and the number of a case.
pub type Event = (Kind, usize);

/// What a compare comes to, as a value of its kind.
pub const RIGHT: usize = 0;
pub const WRONG: usize = 1;
pub const LATE: usize = 2;
pub const BARRED: usize = 3;

impl Kind {
    pub fn all() -> impl Iterator<Item = Kind> {
        KINDS.iter().map(|kind| kind.0)
    }

    /// Its events that these can reach.
    pub fn events(self, by: &[By]) -> impl Iterator<Item = Event> + '_ {
        let numbers = 0..self.count();
        let reachable = numbers.filter(move |&number| by.contains(&self.by(number)));
        reachable.map(move |number| (self, number))
    }

    pub fn name(self) -> &'static str {
        KINDS[self as usize].2
    }

    fn values(self) -> &'static [Values] {
        KINDS[self as usize].3
    }

    /// How many cases there are, those that nothing can reach among them.
    pub fn count(self) -> usize {
        self.values().iter().map(|values| values.len()).product()
    }

    /// The number of a case.
    pub fn number(self, case: &[usize]) -> usize {
        let values = self.values();
        assert_eq!(values.len(), case.len(), "{self:?}");
        values.iter().zip(case).fold(0, |number, (values, &value)| {
            assert!(value < values.len(), "{self:?} {case:?}");
            number * values.len() + value
        })
    }

    /// The case of a number.
    pub fn case(self, mut number: usize) -> Vec<usize> {
        let mut case = vec![];
        for values in self.values().iter().rev() {
            case.insert(0, number % values.len());
            number /= values.len();
        }
        case
    }

    /// A case in words.
    pub fn told(self, number: usize) -> String {
        let case = self.case(number);
        let words = self.values().iter().zip(case);
        let words: Vec<_> = words.map(|(values, value)| values[value]).collect();
        format!("{}: {}", self.name(), words.join(", "))
    }

    /// What can reach a case.
    pub fn by(self, number: usize) -> By {
        match (self, &self.case(number)[..]) {
            // No bit comes before the first.
            (Kind::Code | Kind::Key, [0, LATE]) => By::Nothing,
            // The first compare fails with SV, and SV is set behind the code.
            (Kind::Code, [1..=15, BARRED]) => By::Calls,
            // Without SV the bit that set the flag stays 1.
            (Kind::At176 | Kind::At177, [0, 1, _, 0]) => By::Calls,
            // A 1 at 176 sets P1 on arrival, and without SV it stays what it was.
            (Kind::WriteAz, [0, _, 0, 0]) => By::Calls,
            // With EC_EN blown E1 came with match.
            (Kind::Count, [_, _, 1, _, 0, _]) => By::Calls,
            (Kind::Fuse, &[fuse, fuses, ..]) if fuses >> fuse & 1 == 0 => By::Calls,
            (Kind::RstHigh, &[zone, operation, level]) if !has_right(zone, operation, level) => {
                By::Nothing
            }
            // E1 comes with match, which holds as long.
            (Kind::At1360, [0, 1]) => By::Calls,
            (Kind::Faults, &[first, second]) if !both(first, second) => By::Nothing,
            (Kind::Act, &[act, 2]) if ACT[act] != "walk" && ACT[act] != "open" => By::Nothing,
            // A card file has no steps.
            (Kind::CardFile, [6 | 7]) => By::Nothing,
            _ => KINDS[self as usize].1,
        }
    }
}

/// Whether the rules have a right, under some flags, with RST low.
fn has_right(zone: usize, operation: usize, level: usize) -> bool {
    match BLOCKED[zone] {
        "FZ" => false,
        "IZ" | "EZ" | "MFZ" | "block" => level == 1,
        "AZ" => level == 1 || operation == 0,
        _ => true,
    }
}

/// Whether a session can have both faults; the first is the one that is told.
fn both(first: usize, second: usize) -> bool {
    match (FAULTS[first], FAULTS[second]) {
        ("11", "12" | "13") => true,
        ("11", _) | ("15", _) => false,
        _ => first < second,
    }
}
