//! A weaving guide in a terminal, which loses no pick: turned_screen CARD KEPT [PROGRAM]
//!
//! The same app is written in C, Rust, Python and JavaScript, and each goes on from another's file.
//!
//! It shows the last move done and, behind it, what comes next: `last: none` or `last: 1 select 0`,
//! and `next: 2 revise 0` or, if that is all, `end: ` and rest, full, finished, stuck or idle. By
//! itself the guide tells what comes next, with PROGRAM the shed's own deliberation.
//! It reads a line with the number of the move that the weaver has made: that is when it is taken,
//! kept, and the one after it shown. Another line, such as a second touch of one screen, changes
//! nothing. The end of the input is the turn of the screen: it goes on then from the file KEPT.
//! It keeps one file, replaced in one step; numbers have their low byte first:
//!     4 bytes    the card's fingerprint: another card's place is not gone on with
//!     4          how many moves are done: two moves in a row may be alike
//!     2          the code of the last one, 65535 where none is done
//!     2, 2       how many bytes the program has, 0 for no program, and how many numbers remain
//!     those      the program, the numbers
//!     the rest   the place
//! What is refused of it is told and left as it is. Without a file the card begins.

use rigtemple::{Coming, Configuration, DeliberationEnding};
use std::error::Error;
use std::fs::{self, File};
use std::io::{self, ErrorKind, Write};
use std::path::Path;

type Tried<T> = Result<T, Box<dyn Error>>;

const NO_CHOICE: u16 = 65535;
const MOST_IDLE: usize = 1000;
const HEAD_BYTES: usize = 14;

/// A weaving as far as it is done: how many moves, the code of the last one, the program and the
/// numbers that remain of it, both empty where there is none, and the configuration.
#[derive(Clone)]
struct Weaving {
    moves: u32,
    last: u16,
    program: Vec<u8>,
    numbers: Vec<u8>,
    c: Configuration,
}

/// The card's fingerprint: FNV-1a of 32 bits.
fn fingerprint(card: &[u8]) -> u32 {
    card.iter().fold(2166136261, |sum, byte| {
        (sum ^ u32::from(*byte)).wrapping_mul(16777619)
    })
}

/// Puts bytes in a file's stead in one step: they are written beside it, and then renamed.
fn replace(name: &str, bytes: &[u8]) -> io::Result<()> {
    let beside = format!("{name}.beside");
    let mut file = File::create(&beside)?;
    file.write_all(bytes)?;
    file.sync_all()?;
    fs::rename(&beside, name)?; // dies before it: the file is the former one; after it: the new one
    let folder = Path::new(name).parent().unwrap_or(Path::new(""));
    File::open(Path::new(".").join(folder))?.sync_all()
}

/// Keeps a weaving.
fn keep(card: &[u8], name: &str, w: &Weaving) -> Tried<()> {
    let mut place = [0; rigtemple::MOST_PLACE_BYTES];
    let bytes = rigtemple::save(card, &w.c, &mut place)?;
    let mut kept = Vec::new();
    kept.extend(fingerprint(card).to_le_bytes());
    kept.extend(w.moves.to_le_bytes());
    kept.extend(w.last.to_le_bytes());
    kept.extend((w.program.len() as u16).to_le_bytes());
    kept.extend((w.numbers.len() as u16).to_le_bytes());
    for part in [&w.program, &w.numbers, &place[..bytes]] {
        kept.extend(part);
    }
    Ok(replace(name, &kept)?)
}

/// The weaving that was kept: the program too is that one.
fn restore(card: &[u8], kept: &[u8]) -> Tried<Weaving> {
    let number = |at: usize| u16::from_le_bytes([kept[at], kept[at + 1]]);
    let long = |at: usize| u32::from(number(at)) + 65536 * u32::from(number(at + 2));
    if kept.len() < HEAD_BYTES {
        return Err("what was kept is cut off".into());
    }
    if long(0) != fingerprint(card) {
        return Err("what was kept is of another card".into());
    }
    let (program, numbers) = (usize::from(number(10)), usize::from(number(12)));
    let (moves, last, held) = (long(4), number(8), &kept[HEAD_BYTES..]);
    if held.len() < program + numbers || (moves != 0 && last >= 768) {
        return Err("what was kept is cut off, or is no such file".into());
    }
    Ok(Weaving {
        moves,
        last,
        program: held[..program].to_vec(),
        numbers: held[program..program + numbers].to_vec(),
        c: rigtemple::restore(card, &held[program + numbers..])?,
    })
}

/// Begins the card: at first the program's last entry remains, which is the whole. It is kept
/// before anything is shown, so that a folder that cannot be written is told before that.
fn load(card: &[u8], name: &str, program: Option<String>) -> Tried<Weaving> {
    let mut w = Weaving {
        moves: 0,
        last: NO_CHOICE,
        program: Vec::new(),
        numbers: Vec::new(),
        c: rigtemple::load(card)?,
    };
    if let Some(file) = program {
        w.program = fs::read(file)?;
        w.numbers = rigtemple::deliberate(card, &w.program, &mut w.c, 0)?.remaining;
    }
    keep(card, name, &w)?;
    Ok(w)
}

/// The code of the move that a program made: the first of the list that leaves the same.
fn made(card: &[u8], before: &Configuration, after: &Configuration) -> Tried<u16> {
    let mut list = [0; rigtemple::MOST_LIST_ENTRIES];
    let entries = rigtemple::list(card, before, &mut list)?;
    let leaves = |choice: &&u16| {
        let mut c = before.clone();
        rigtemple::take(card, &mut c, **choice).is_ok() && c == *after
    };
    let found = list[..entries].iter().find(leaves);
    Ok(*found.expect("a program makes moves of the card"))
}

/// What comes next: a code, or how the card ends.
enum Shown {
    Next(u16),
    End(&'static str),
}

/// The guide's own: nothing is made.
fn next_of_guide(card: &[u8], w: &Weaving) -> Tried<Shown> {
    Ok(match rigtemple::next(card, &w.c)? {
        Coming::Move(choice) => Shown::Next(choice),
        Coming::Rest => Shown::End("rest"),
        Coming::Full(_) => Shown::End("full"),
    })
}

/// The program's, made on a copy. A move that changes nothing, as an idle one does, is passed and
/// not shown, so many in a row.
fn next_of_program(card: &[u8], w: &Weaving, copy: &mut Weaving) -> Tried<Shown> {
    for _ in 0..MOST_IDLE {
        let moved = rigtemple::go_on(card, &copy.program, &copy.numbers, &mut copy.c, 1)?;
        match moved.ending {
            DeliberationEnding::Spent => copy.numbers = moved.remaining,
            DeliberationEnding::Finished => return Ok(Shown::End("finished")),
            DeliberationEnding::Stuck => return Ok(Shown::End("stuck")),
            DeliberationEnding::Full => return Ok(Shown::End("full")),
        }
        if copy.c != w.c {
            return Ok(Shown::Next(made(card, &w.c, &copy.c)?));
        }
    }
    Ok(Shown::End("idle"))
}

/// A move in words: its number, its kind and the number of its rule.
fn told(number: u32, choice: u16) -> String {
    let kind = ["select", "act", "revise"][usize::from(choice / 256)];
    format!("{number} {kind} {}", choice % 256)
}

/// Shows the finished count, the last move done, and what comes next.
fn show(w: &Weaving, shown: &Shown) -> io::Result<()> {
    let last = match w.moves {
        0 => "none".to_string(),
        done => told(done, w.last),
    };
    let next = match shown {
        Shown::Next(choice) => format!("next: {}", told(w.moves + 1, *choice)),
        Shown::End(word) => format!("end: {word}"),
    };
    println!("bands finished: {}\nlast: {last}\n{next}", w.c.finished);
    io::stdout().flush()
}

/// Guides to the card's end or the turn of the screen. Beside the lines stands what becomes of the
/// move that is shown as the next, number n, if the tablet dies there.
fn guide(card: &[u8], name: &str, mut w: Weaving) -> Tried<()> {
    loop {
        // Dies here: n is not shown yet. What is kept is done up to n - 1, and n is shown then.
        let mut after = w.clone();
        let shown = match w.program.is_empty() {
            true => next_of_guide(card, &w)?,
            false => next_of_program(card, &w, &mut after)?,
        };
        show(&w, &shown)?;
        // Dies here, while the weaver makes n: the same screen is shown again, n - 1 as the last.
        let Shown::Next(choice) = shown else {
            return Ok(());
        };
        let mut line = String::new();
        if io::stdin().read_line(&mut line)? == 0 {
            return Ok(());
        }
        // Dies from here on, n made and said to be: her touch is lost. The same screen is shown
        // again, and as n - 1 is the last she sees that n does not count yet: she does not make it
        // twice, but says so once more.
        if line.trim().parse() != Ok(w.moves + 1) {
            continue;
        }
        if w.program.is_empty() {
            rigtemple::take(card, &mut after.c, choice)?;
        }
        after.moves += 1;
        after.last = choice;
        keep(card, name, &after)?;
        // Dies from the rename in `keep` on: n is kept, and shown as the last beside n + 1.
        w = after;
    }
}

fn main() -> Tried<()> {
    let mut words = std::env::args().skip(1);
    let (Some(card), Some(kept)) = (words.next(), words.next()) else {
        return Err("usage: turned_screen CARD KEPT [PROGRAM]".into());
    };
    let card = fs::read(card)?;
    let w = match fs::read(&kept) {
        Ok(bytes) => restore(&card, &bytes)?,
        Err(none) if none.kind() == ErrorKind::NotFound => load(&card, &kept, words.next())?,
        Err(other) => return Err(other.into()),
    };
    guide(&card, &kept, w)
}
