//! The words of the answers, as types.

use std::fmt;

/// A refusal, by its name.
#[derive(Clone, Copy, Debug, PartialEq, Eq)]
pub enum Refusal {
    Short,
    Mark,
    Count,
    Offsets,
    Weight,
    Node,
    Rule,
    ActionByte,
    Atom,
    PlanFull,
    NoRoom,
    Configuration,
    NoRule,
    Front,
    /// A condition is false; the number of the node that settled it.
    Condition(u16),
    /// The text is not of the grammar; the place of the first wrong byte.
    Text(usize),
    Nested,
    Program,
    /// A sheet breaks its rules; which of the two.
    Sheet(Sheet),
    NoAction,
    Large,
}

impl Refusal {
    /// Its number in the header.
    pub fn number(self) -> u16 {
        self.told().0
    }

    /// Its number and its name.
    fn told(self) -> (u16, &'static str) {
        match self {
            Refusal::Short => (1, "short"),
            Refusal::Mark => (2, "mark"),
            Refusal::Count => (3, "count"),
            Refusal::Offsets => (4, "offsets"),
            Refusal::Weight => (5, "weight"),
            Refusal::Node => (6, "node"),
            Refusal::Rule => (7, "rule"),
            Refusal::ActionByte => (8, "action byte"),
            Refusal::Atom => (9, "atom"),
            Refusal::PlanFull => (11, "plan full"),
            Refusal::NoRoom => (12, "no room"),
            Refusal::Configuration => (13, "configuration"),
            Refusal::NoRule => (14, "no rule"),
            Refusal::Front => (15, "front"),
            Refusal::Condition(_) => (16, "condition"),
            Refusal::Text(_) => (17, "text"),
            Refusal::Nested => (18, "nested"),
            Refusal::Program => (19, "program"),
            Refusal::Sheet(_) => (20, "sheet"),
            Refusal::NoAction => (21, "no action"),
            Refusal::Large => (25, "large"),
        }
    }

    /// The refusal of a number, with the node, the place or the sheet that is answered beside it.
    fn of(number: u16, carried: usize) -> Refusal {
        match number {
            1 => Refusal::Short,
            2 => Refusal::Mark,
            3 => Refusal::Count,
            4 => Refusal::Offsets,
            5 => Refusal::Weight,
            6 => Refusal::Node,
            7 => Refusal::Rule,
            8 => Refusal::ActionByte,
            9 => Refusal::Atom,
            11 => Refusal::PlanFull,
            12 => Refusal::NoRoom,
            13 => Refusal::Configuration,
            14 => Refusal::NoRule,
            15 => Refusal::Front,
            16 => Refusal::Condition(carried as u16),
            17 => Refusal::Text(carried),
            18 => Refusal::Nested,
            19 => Refusal::Program,
            20 => Refusal::Sheet(Sheet::of(carried as u8)),
            21 => Refusal::NoAction,
            25 => Refusal::Large,
            other => panic!("no refusal has the number {other}"),
        }
    }
}

impl fmt::Display for Refusal {
    fn fmt(&self, out: &mut fmt::Formatter) -> fmt::Result {
        out.write_str(self.told().1)?;
        match self {
            Refusal::Condition(node) => write!(out, " (node {node})"),
            Refusal::Text(place) => write!(out, " (place {place})"),
            Refusal::Sheet(Sheet::Master) => out.write_str(" (the master's)"),
            Refusal::Sheet(Sheet::Shed) => out.write_str(" (the shed's)"),
            _ => Ok(()),
        }
    }
}

impl std::error::Error for Refusal {}

/// Takes an answer's number apart. A number that no table has is a fault, and stops the program.
pub fn done(answer: u16) -> Result<(), Refusal> {
    done_with(answer, 0)
}

/// The same of a call that answers a node, a place or a sheet beside its number.
pub fn done_with(answer: u16, carried: usize) -> Result<(), Refusal> {
    match answer {
        0 => Ok(()),
        number => Err(Refusal::of(number, carried)),
    }
}

/// A refusal of the two calls for bounded cards: none says that a plan got too long.
#[derive(Clone, Copy, Debug, PartialEq, Eq)]
pub enum BoundedRefusal {
    Short,
    Mark,
    Count,
    Offsets,
    Weight,
    Node,
    Rule,
    ActionByte,
    Atom,
    Configuration,
    /// The card is open, or the plan weighs more than 1,024.
    OpenOrHeavy,
    NoRule,
    Front,
    /// A condition is false; the number of the node that settled it.
    Condition(u16),
}

impl BoundedRefusal {
    /// Its number in the header.
    pub fn number(self) -> u16 {
        self.told().0
    }

    /// Its number and its name.
    fn told(self) -> (u16, &'static str) {
        match self {
            BoundedRefusal::Short => (1, "short"),
            BoundedRefusal::Mark => (2, "mark"),
            BoundedRefusal::Count => (3, "count"),
            BoundedRefusal::Offsets => (4, "offsets"),
            BoundedRefusal::Weight => (5, "weight"),
            BoundedRefusal::Node => (6, "node"),
            BoundedRefusal::Rule => (7, "rule"),
            BoundedRefusal::ActionByte => (8, "action byte"),
            BoundedRefusal::Atom => (9, "atom"),
            BoundedRefusal::Configuration => (13, "configuration"),
            BoundedRefusal::OpenOrHeavy => (22, "open or heavy"),
            BoundedRefusal::NoRule => (14, "no rule"),
            BoundedRefusal::Front => (15, "front"),
            BoundedRefusal::Condition(_) => (16, "condition"),
        }
    }

    /// The refusal of a number, with the node that is answered beside it.
    fn of(number: u16, node: u16) -> BoundedRefusal {
        match number {
            1 => BoundedRefusal::Short,
            2 => BoundedRefusal::Mark,
            3 => BoundedRefusal::Count,
            4 => BoundedRefusal::Offsets,
            5 => BoundedRefusal::Weight,
            6 => BoundedRefusal::Node,
            7 => BoundedRefusal::Rule,
            8 => BoundedRefusal::ActionByte,
            9 => BoundedRefusal::Atom,
            13 => BoundedRefusal::Configuration,
            22 => BoundedRefusal::OpenOrHeavy,
            14 => BoundedRefusal::NoRule,
            15 => BoundedRefusal::Front,
            16 => BoundedRefusal::Condition(node),
            other => panic!("no refusal on a bounded card has the number {other}"),
        }
    }
}

impl fmt::Display for BoundedRefusal {
    fn fmt(&self, out: &mut fmt::Formatter) -> fmt::Result {
        out.write_str(self.told().1)?;
        match self {
            BoundedRefusal::Condition(node) => write!(out, " (node {node})"),
            _ => Ok(()),
        }
    }
}

impl std::error::Error for BoundedRefusal {}

/// Takes the answer's number of a call for bounded cards apart.
pub fn done_bounded(answer: u16, node: u16) -> Result<(), BoundedRefusal> {
    match answer {
        0 => Ok(()),
        number => Err(BoundedRefusal::of(number, node)),
    }
}

/// Why a run on a bounded card ended.
#[derive(Clone, Copy, Debug, PartialEq, Eq)]
pub enum BoundedEnding {
    Spent,
    Rest,
}

impl BoundedEnding {
    pub(crate) fn of(number: u8) -> BoundedEnding {
        [BoundedEnding::Spent, BoundedEnding::Rest][usize::from(number)]
    }
}

/// One of the two sheets of names.
#[derive(Clone, Copy, Debug, PartialEq, Eq)]
pub enum Sheet {
    Master,
    Shed,
}

impl Sheet {
    pub(crate) fn of(number: u8) -> Sheet {
        [Sheet::Master, Sheet::Shed][usize::from(number)]
    }
}

/// Why a run ended.
#[derive(Clone, Copy, Debug, PartialEq, Eq)]
pub enum Ending {
    Spent,
    Rest,
    Full,
}

impl Ending {
    pub(crate) fn of(number: u8) -> Ending {
        [Ending::Spent, Ending::Rest, Ending::Full][usize::from(number)]
    }
}

/// What comes next of the guide's own: a move by its code, rest, or a move by its code whose plan
/// would get too long.
#[derive(Clone, Copy, Debug, PartialEq, Eq)]
pub enum Coming {
    Move(u16),
    Rest,
    Full(u16),
}

impl Coming {
    pub(crate) fn of(coming: u8, choice: u16) -> Coming {
        [Coming::Move(choice), Coming::Rest, Coming::Full(choice)][usize::from(coming)]
    }
}

/// Why a deliberation ended.
#[derive(Clone, Copy, Debug, PartialEq, Eq)]
pub enum DeliberationEnding {
    Spent,
    Finished,
    Stuck,
    Full,
}

impl DeliberationEnding {
    pub(crate) fn of(number: u8) -> DeliberationEnding {
        use DeliberationEnding::*;
        [Spent, Finished, Stuck, Full][usize::from(number)]
    }
}

/// An entry of a program. A rule and a node are numbers of the card, a part is the number of an
/// entry before it; the last entry is the whole.
#[derive(Clone, Copy, Debug, PartialEq, Eq)]
pub enum Entry {
    Execute,
    Apply(u8),
    Select(u8),
    WhilePlan(u8),
    /// While a node holds, a part.
    WhileBelief(u8, u8),
    Then(u8, u8),
    Or(u8, u8),
}

impl Entry {
    /// "a kind, a, b and 0".
    pub fn bytes(self) -> [u8; 4] {
        match self {
            Entry::Execute => [0, 0, 0, 0],
            Entry::Apply(rule) => [1, rule, 0, 0],
            Entry::Select(rule) => [2, rule, 0, 0],
            Entry::WhilePlan(body) => [3, 0, body, 0],
            Entry::WhileBelief(node, body) => [4, node, body, 0],
            Entry::Then(first, second) => [5, first, second, 0],
            Entry::Or(left, right) => [6, left, right, 0],
        }
    }
}

/// What makes a card open; a rule is told by its number.
#[derive(Clone, Copy, Debug, PartialEq, Eq)]
pub enum Offender {
    InitialPlan,
    Selection(u16),
    Revision(u16),
}

/// The verdict on a card.
#[derive(Clone, Copy, Debug, PartialEq, Eq)]
pub enum Verdict {
    Bounded,
    Open(Offender),
}

impl Verdict {
    pub(crate) fn of(verdict: u8, offender: u8, number: u16) -> Verdict {
        match (verdict, offender) {
            (0, 0) => Verdict::Bounded,
            (1, 1) => Verdict::Open(Offender::InitialPlan),
            (1, 2) => Verdict::Open(Offender::Selection(number)),
            (1, 3) => Verdict::Open(Offender::Revision(number)),
            other => panic!("no verdict has the numbers {other:?}"),
        }
    }
}

/// A choice: the kind of move, and the number of its rule or specification.
#[derive(Clone, Copy, Debug, PartialEq, Eq)]
pub enum Choice {
    Selection(u8),
    Action(u8),
    Revision(u8),
}

impl Choice {
    /// "256 times the kind plus the number of the rule or specification".
    pub fn code(self) -> u16 {
        match self {
            Choice::Selection(number) => u16::from(number),
            Choice::Action(number) => 256 + u16::from(number),
            Choice::Revision(number) => 512 + u16::from(number),
        }
    }
}
