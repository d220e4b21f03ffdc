//! The sixteen calls of the weaving guide for Rust. What each does is said in rigtemple.h.
//!
//! SAFETY of every call below: the pointers come from references and slices, so that none is null,
//! all are aligned, the lengths are true, and what is written overlaps nothing.

mod parts;
mod words;

use words::{done, done_bounded, done_with};
pub use words::{
    BoundedEnding, BoundedRefusal, Choice, Coming, DeliberationEnding, Ending, Entry, Offender,
    Refusal, Sheet, Verdict,
};

pub const SET_BYTES: usize = 32;
pub const MOST_ATOMS: usize = 256;
pub const MOST_CARD_BYTES: usize = 32352;
pub const MOST_PLAN_ACTIONS: usize = 1024;
pub const MOST_PLACE_BYTES: usize = 1100;
pub const MOST_CARD_BYTES_OF_EDITION_1: usize = 24128;
pub const MOST_PLACE_BYTES_OF_EDITION_1: usize = 1068;
pub const MOST_LIST_ENTRIES: usize = 768;
pub const MOST_PRINTED_BYTES: usize = 894;
pub const MOST_PROGRAM_BYTES: usize = 512;
pub const MOST_REMAINING: usize = 128;
pub const MOST_SHEET_BYTES: usize = 65535;

/// Where a weaver stands in a card; the plan is the first `length` bytes of `plan`, and `finished`
/// is how many moves have left it empty, to be shown as "bands finished".
#[derive(Clone, Debug, PartialEq, Eq)]
pub struct Configuration {
    pub beliefs: [u8; SET_BYTES],
    pub goals: [u8; SET_BYTES],
    pub plan: [u8; MOST_PLAN_ACTIONS],
    pub length: u16,
    pub phase: u8,
    pub finished: u16,
}

impl Configuration {
    /// No atoms, empty plan, phase 0, nothing finished.
    pub const EMPTY: Configuration = Configuration {
        beliefs: [0; SET_BYTES],
        goals: [0; SET_BYTES],
        plan: [0; MOST_PLAN_ACTIONS],
        length: 0,
        phase: 0,
        finished: 0,
    };
}

/// What a run took, and why it ended.
#[derive(Clone, Copy, Debug, PartialEq, Eq)]
pub struct Ran {
    pub moves: u16,
    pub ending: Ending,
}

/// What a run on a bounded card took, and why it ended.
#[derive(Clone, Copy, Debug, PartialEq, Eq)]
pub struct BoundedRan {
    pub moves: u16,
    pub ending: BoundedEnding,
}

/// What a deliberation made, idle moves too, why it ended, and what remains of its program: the
/// entry numbers, the next first.
#[derive(Clone, Debug, PartialEq, Eq)]
pub struct Deliberated {
    pub moves: u16,
    pub ending: DeliberationEnding,
    pub remaining: Vec<u8>,
}

/// The name of an action, a part of the sheet that it lies in.
#[derive(Clone, Copy, Debug, PartialEq, Eq)]
pub struct Name<'a> {
    pub sheet: Sheet,
    pub text: &'a str,
}

/// Judges a card.
pub fn check(card: &[u8]) -> Result<(), Refusal> {
    done(unsafe { parts::rigtemple_4_check_parts(card.as_ptr(), card.len()) })
}

/// The configuration that a weaver begins with.
pub fn load(card: &[u8]) -> Result<Configuration, Refusal> {
    let mut c = Configuration::EMPTY;
    done(unsafe {
        parts::rigtemple_4_load_parts(
            card.as_ptr(),
            card.len(),
            c.beliefs.as_mut_ptr(),
            c.goals.as_mut_ptr(),
            c.plan.as_mut_ptr(),
            &mut c.length,
            &mut c.phase,
            &mut c.finished,
        )
    })?;
    Ok(c)
}

/// Grades a card.
pub fn grade(card: &[u8]) -> Result<Verdict, Refusal> {
    let (mut verdict, mut offender, mut number) = (0, 0, 0);
    done(unsafe {
        parts::rigtemple_4_grade_parts(
            card.as_ptr(),
            card.len(),
            &mut verdict,
            &mut offender,
            &mut number,
        )
    })?;
    Ok(Verdict::of(verdict, offender, number))
}

/// Lists the codes of the enabled choices to the front of a list; how many they are.
pub fn list(card: &[u8], c: &Configuration, list: &mut [u16]) -> Result<usize, Refusal> {
    let mut entries = 0;
    done(unsafe {
        parts::rigtemple_4_list_parts(
            card.as_ptr(),
            card.len(),
            c.beliefs.as_ptr(),
            c.goals.as_ptr(),
            c.plan.as_ptr(),
            c.length,
            c.phase,
            c.finished,
            list.as_mut_ptr(),
            list.len(),
            &mut entries,
        )
    })?;
    Ok(usize::from(entries))
}

/// How much a listing looks at: how many choices are enabled, how many conditions were judged for
/// them, and how many goals are open.
#[derive(Clone, Copy, Debug, Default, PartialEq, Eq)]
pub struct Looks {
    pub entries: u16,
    pub judged: u16,
    pub open_goals: u16,
}

/// Lists as `list` does, and tells how much was looked at.
pub fn list_looks(card: &[u8], c: &Configuration, list: &mut [u16]) -> Result<Looks, Refusal> {
    let mut looks = Looks::default();
    done(unsafe {
        parts::rigtemple_4_list_looks_parts(
            card.as_ptr(),
            card.len(),
            c.beliefs.as_ptr(),
            c.goals.as_ptr(),
            c.plan.as_ptr(),
            c.length,
            c.phase,
            c.finished,
            list.as_mut_ptr(),
            list.len(),
            &mut looks.entries,
            &mut looks.judged,
            &mut looks.open_goals,
        )
    })?;
    Ok(looks)
}

/// Tells what comes next of the guide's own, and makes no move.
pub fn next(card: &[u8], c: &Configuration) -> Result<Coming, Refusal> {
    let (mut coming, mut choice) = (0, 0);
    done(unsafe {
        parts::rigtemple_4_next_parts(
            card.as_ptr(),
            card.len(),
            c.beliefs.as_ptr(),
            c.goals.as_ptr(),
            c.plan.as_ptr(),
            c.length,
            c.phase,
            c.finished,
            &mut coming,
            &mut choice,
        )
    })?;
    Ok(Coming::of(coming, choice))
}

/// Takes a chosen move, by its code.
pub fn take(card: &[u8], c: &mut Configuration, choice: u16) -> Result<(), Refusal> {
    let mut node = 0;
    let answer = unsafe {
        parts::rigtemple_4_take_parts(
            card.as_ptr(),
            card.len(),
            c.beliefs.as_mut_ptr(),
            c.goals.as_mut_ptr(),
            c.plan.as_mut_ptr(),
            &mut c.length,
            &mut c.phase,
            &mut c.finished,
            choice,
            &mut node,
        )
    };
    done_with(answer, usize::from(node))
}

/// Runs by itself, for `budget` moves at most.
pub fn run(card: &[u8], c: &mut Configuration, budget: u16) -> Result<Ran, Refusal> {
    let (mut moves, mut ending) = (0, 0);
    done(unsafe {
        parts::rigtemple_4_run_parts(
            card.as_ptr(),
            card.len(),
            c.beliefs.as_mut_ptr(),
            c.goals.as_mut_ptr(),
            c.plan.as_mut_ptr(),
            &mut c.length,
            &mut c.phase,
            &mut c.finished,
            budget,
            &mut moves,
            &mut ending,
        )
    })?;
    Ok(Ran {
        moves,
        ending: Ending::of(ending),
    })
}

/// Takes a chosen move on a bounded card, from a plan that weighs at most 1,024: no plan gets too
/// long there, and no refusal says so.
pub fn take_bounded(card: &[u8], c: &mut Configuration, choice: u16) -> Result<(), BoundedRefusal> {
    let mut node = 0;
    let answer = unsafe {
        parts::rigtemple_4_take_bounded_parts(
            card.as_ptr(),
            card.len(),
            c.beliefs.as_mut_ptr(),
            c.goals.as_mut_ptr(),
            c.plan.as_mut_ptr(),
            &mut c.length,
            &mut c.phase,
            &mut c.finished,
            choice,
            &mut node,
        )
    };
    done_bounded(answer, node)
}

/// Runs by itself on a bounded card, for `budget` moves at most: it ends spent or at rest.
pub fn run_bounded(
    card: &[u8],
    c: &mut Configuration,
    budget: u16,
) -> Result<BoundedRan, BoundedRefusal> {
    let (mut moves, mut ending) = (0, 0);
    let answer = unsafe {
        parts::rigtemple_4_run_bounded_parts(
            card.as_ptr(),
            card.len(),
            c.beliefs.as_mut_ptr(),
            c.goals.as_mut_ptr(),
            c.plan.as_mut_ptr(),
            &mut c.length,
            &mut c.phase,
            &mut c.finished,
            budget,
            &mut moves,
            &mut ending,
        )
    };
    done_bounded(answer, 0)?;
    Ok(BoundedRan {
        moves,
        ending: BoundedEnding::of(ending),
    })
}

/// Moves by a program, for `budget` moves at most; `Entry::bytes` makes the program's entries.
pub fn deliberate(
    card: &[u8],
    program: &[u8],
    c: &mut Configuration,
    budget: u16,
) -> Result<Deliberated, Refusal> {
    let (mut moves, mut ending, mut remaining_length) = (0, 0, 0);
    let mut remaining = [0; MOST_REMAINING];
    done(unsafe {
        parts::rigtemple_4_deliberate_parts(
            card.as_ptr(),
            card.len(),
            program.as_ptr(),
            program.len(),
            c.beliefs.as_mut_ptr(),
            c.goals.as_mut_ptr(),
            c.plan.as_mut_ptr(),
            &mut c.length,
            &mut c.phase,
            &mut c.finished,
            budget,
            &mut moves,
            &mut ending,
            remaining.as_mut_ptr(),
            &mut remaining_length,
        )
    })?;
    Ok(Deliberated {
        moves,
        ending: DeliberationEnding::of(ending),
        remaining: remaining[..usize::from(remaining_length)].to_vec(),
    })
}

/// Goes on with a program, from the numbers that remain of it, for `budget` moves at most.
pub fn go_on(
    card: &[u8],
    program: &[u8],
    numbers: &[u8],
    c: &mut Configuration,
    budget: u16,
) -> Result<Deliberated, Refusal> {
    let (mut moves, mut ending, mut remaining_length) = (0, 0, 0);
    let mut remaining = [0; MOST_REMAINING];
    done(unsafe {
        parts::rigtemple_4_go_on_parts(
            card.as_ptr(),
            card.len(),
            program.as_ptr(),
            program.len(),
            numbers.as_ptr(),
            numbers.len(),
            c.beliefs.as_mut_ptr(),
            c.goals.as_mut_ptr(),
            c.plan.as_mut_ptr(),
            &mut c.length,
            &mut c.phase,
            &mut c.finished,
            budget,
            &mut moves,
            &mut ending,
            remaining.as_mut_ptr(),
            &mut remaining_length,
        )
    })?;
    Ok(Deliberated {
        moves,
        ending: DeliberationEnding::of(ending),
        remaining: remaining[..usize::from(remaining_length)].to_vec(),
    })
}

/// Saves a configuration to the front of a place; how many bytes it has.
pub fn save(card: &[u8], c: &Configuration, place: &mut [u8]) -> Result<usize, Refusal> {
    let mut bytes = 0;
    done(unsafe {
        parts::rigtemple_4_save_parts(
            card.as_ptr(),
            card.len(),
            c.beliefs.as_ptr(),
            c.goals.as_ptr(),
            c.plan.as_ptr(),
            c.length,
            c.phase,
            c.finished,
            place.as_mut_ptr(),
            place.len(),
            &mut bytes,
        )
    })?;
    Ok(usize::from(bytes))
}

/// Restores the configuration that a place holds.
pub fn restore(card: &[u8], place: &[u8]) -> Result<Configuration, Refusal> {
    let mut c = Configuration::EMPTY;
    done(unsafe {
        parts::rigtemple_4_restore_parts(
            card.as_ptr(),
            card.len(),
            place.as_ptr(),
            place.len(),
            c.beliefs.as_mut_ptr(),
            c.goals.as_mut_ptr(),
            c.plan.as_mut_ptr(),
            &mut c.length,
            &mut c.phase,
            &mut c.finished,
        )
    })?;
    Ok(c)
}

/// Makes the card that a text stands for at the front of a card; how many bytes it has.
pub fn text(text: &[u8], card: &mut [u8]) -> Result<usize, Refusal> {
    let (mut bytes, mut place) = (0, 0);
    let answer = unsafe {
        parts::rigtemple_4_text_parts(
            text.as_ptr(),
            text.len(),
            card.as_mut_ptr(),
            card.len(),
            &mut bytes,
            &mut place,
        )
    };
    done_with(answer, place)?;
    Ok(usize::from(bytes))
}

/// Prints the condition of a node to the front of a text; how many bytes it has.
pub fn print(card: &[u8], node: u16, text: &mut [u8]) -> Result<usize, Refusal> {
    let mut bytes = 0;
    done(unsafe {
        parts::rigtemple_4_print_parts(
            card.as_ptr(),
            card.len(),
            node,
            text.as_mut_ptr(),
            text.len(),
            &mut bytes,
        )
    })?;
    Ok(usize::from(bytes))
}

/// Finds the name of an action: in the shed's sheet, which may be empty for none, or in the master's
/// where the shed's name is empty.
pub fn name<'a>(
    card: &[u8],
    shed: &'a [u8],
    master: &'a [u8],
    action: u16,
) -> Result<Name<'a>, Refusal> {
    let (mut sheet, mut start, mut length) = (0, 0, 0);
    let answer = unsafe {
        parts::rigtemple_4_name_parts(
            card.as_ptr(),
            card.len(),
            shed.as_ptr(),
            shed.len(),
            master.as_ptr(),
            master.len(),
            action,
            &mut sheet,
            &mut start,
            &mut length,
        )
    };
    done_with(answer, usize::from(sheet))?;
    let sheet = Sheet::of(sheet);
    let held = match sheet {
        Sheet::Master => master,
        Sheet::Shed => shed,
    };
    let part = &held[usize::from(start)..][..usize::from(length)];
    Ok(Name {
        sheet,
        text: std::str::from_utf8(part).expect("a name is UTF-8"),
    })
}
