//! The stored requests of crates/drill: each is read, the call is made, and every byte that is
//! answered is held against the stored answers. `drill.md` says how both are written. Those of the
//! plain engine, which the library does not have, are passed over.

use rigtemple::{
    BoundedEnding, BoundedRefusal, Coming, Configuration, Deliberated, DeliberationEnding, Ending,
    Name, Offender, Refusal, Sheet, Verdict, SET_BYTES,
};

/// What a lent list and a lent place are filled with.
const LENT_ENTRY: u16 = 0xEEEE;
const LENT_BYTE: u8 = 0xEE;

/// The requests that are still to be read; or the answers.
struct Requests<'a>(&'a [u8]);

impl<'a> Requests<'a> {
    fn bytes(&mut self, count: usize) -> &'a [u8] {
        let (first, rest) = self.0.split_at(count);
        self.0 = rest;
        first
    }

    fn byte(&mut self) -> u8 {
        self.bytes(1)[0]
    }

    fn number(&mut self) -> u16 {
        u16::from_le_bytes([self.byte(), self.byte()])
    }

    fn long_number(&mut self) -> u32 {
        u32::from_le_bytes([self.byte(), self.byte(), self.byte(), self.byte()])
    }

    /// A length and as many bytes.
    fn counted(&mut self) -> &'a [u8] {
        let count = self.number();
        self.bytes(usize::from(count))
    }

    fn image(&mut self) -> Configuration {
        let mut c = Configuration::EMPTY;
        c.beliefs.copy_from_slice(self.bytes(SET_BYTES));
        c.goals.copy_from_slice(self.bytes(SET_BYTES));
        c.length = self.number();
        c.phase = self.byte();
        c.finished = self.number();
        let plan = self.counted();
        c.plan[..plan.len()].copy_from_slice(plan);
        c
    }
}

/// The answers written so far.
#[derive(Default)]
struct Answers(Vec<u8>);

impl Answers {
    fn byte(&mut self, byte: u8) {
        self.0.push(byte);
    }

    fn number(&mut self, number: u16) {
        self.0.extend(number.to_le_bytes());
    }

    /// The number of an answer.
    fn answer<T>(&mut self, answer: &Result<T, Refusal>) {
        self.number(
            answer
                .as_ref()
                .map_or_else(|refusal| refusal.number(), |_| 0),
        );
    }

    fn image(&mut self, c: &Configuration) {
        let most = c
            .plan
            .iter()
            .rposition(|action| *action != 0)
            .map_or(0, |last| last + 1);
        self.0.extend(c.beliefs);
        self.0.extend(c.goals);
        self.number(c.length);
        self.byte(c.phase);
        self.number(c.finished);
        self.number(most as u16);
        self.0.extend(&c.plan[..most]);
    }

    /// The numbers of a verdict: 0 for a card that is refused.
    fn verdict(&mut self, answer: &Result<Verdict, Refusal>) {
        let (verdict, offender, number) = match answer {
            Err(_) | Ok(Verdict::Bounded) => (0, 0, 0),
            Ok(Verdict::Open(Offender::InitialPlan)) => (1, 1, 0),
            Ok(Verdict::Open(Offender::Selection(rule))) => (1, 2, *rule),
            Ok(Verdict::Open(Offender::Revision(rule))) => (1, 3, *rule),
        };
        self.byte(verdict);
        self.byte(offender);
        self.number(number);
    }
}

fn list(card: &[u8], requests: &mut Requests, answers: &mut Answers) {
    let c = requests.image();
    let mut lent = vec![LENT_ENTRY; usize::from(requests.number())];
    let answer = rigtemple::list_looks(card, &c, &mut lent);
    answers.answer(&answer);
    let looks = answer.unwrap_or_default();
    answers.number(looks.entries);
    answers.number(looks.judged);
    answers.number(looks.open_goals);
    lent.into_iter().for_each(|code| answers.number(code));
}

fn take(card: &[u8], requests: &mut Requests, answers: &mut Answers) {
    let mut c = requests.image();
    let answer = rigtemple::take(card, &mut c, requests.number());
    answers.answer(&answer);
    answers.number(match answer {
        Err(Refusal::Condition(node)) => node,
        _ => 0,
    });
    answers.image(&c);
}

fn run(card: &[u8], requests: &mut Requests, answers: &mut Answers) {
    let mut c = requests.image();
    let answer = rigtemple::run(card, &mut c, requests.number());
    answers.answer(&answer);
    answers.image(&c);
    answers.number(answer.map_or(0, |ran| ran.moves));
    answers.byte(match answer.map(|ran| ran.ending) {
        Err(_) | Ok(Ending::Spent) => 0,
        Ok(Ending::Rest) => 1,
        Ok(Ending::Full) => 2,
    });
}

fn take_bounded(card: &[u8], requests: &mut Requests, answers: &mut Answers) {
    let mut c = requests.image();
    let answer = rigtemple::take_bounded(card, &mut c, requests.number());
    answers.number(answer.map_or_else(BoundedRefusal::number, |()| 0));
    answers.number(match answer {
        Err(BoundedRefusal::Condition(node)) => node,
        _ => 0,
    });
    answers.image(&c);
}

fn run_bounded(card: &[u8], requests: &mut Requests, answers: &mut Answers) {
    let mut c = requests.image();
    let answer = rigtemple::run_bounded(card, &mut c, requests.number());
    answers.number(answer.map_or_else(BoundedRefusal::number, |_| 0));
    answers.image(&c);
    answers.number(answer.map_or(0, |ran| ran.moves));
    answers.byte(match answer.map(|ran| ran.ending) {
        Err(_) | Ok(BoundedEnding::Spent) => 0,
        Ok(BoundedEnding::Rest) => 1,
    });
}

/// Tells what comes next: a refusal answers 0 and no choice.
fn next(card: &[u8], requests: &mut Requests, answers: &mut Answers) {
    let answer = rigtemple::next(card, &requests.image());
    answers.answer(&answer);
    let (coming, choice) = match answer {
        Ok(Coming::Move(choice)) => (0, choice),
        Ok(Coming::Rest) => (1, 0),
        Ok(Coming::Full(choice)) => (2, choice),
        Err(_) => (0, 0),
    };
    answers.byte(coming);
    answers.number(choice);
}

fn deliberate(card: &[u8], requests: &mut Requests, answers: &mut Answers) {
    let program = requests.counted();
    let mut c = requests.image();
    let answer = rigtemple::deliberate(card, program, &mut c, requests.number());
    deliberated(answer, &c, answers);
}

fn go_on(card: &[u8], requests: &mut Requests, answers: &mut Answers) {
    let (program, numbers) = (requests.counted(), requests.counted());
    let mut c = requests.image();
    let answer = rigtemple::go_on(card, program, numbers, &mut c, requests.number());
    deliberated(answer, &c, answers);
}

/// Answers a deliberation: a refusal has no moves, is spent, and nothing remains.
fn deliberated(answer: Result<Deliberated, Refusal>, c: &Configuration, answers: &mut Answers) {
    answers.answer(&answer);
    answers.image(c);
    let Deliberated {
        moves,
        ending,
        remaining,
    } = answer.unwrap_or(Deliberated {
        moves: 0,
        ending: DeliberationEnding::Spent,
        remaining: Vec::new(),
    });
    answers.number(moves);
    answers.byte(match ending {
        DeliberationEnding::Spent => 0,
        DeliberationEnding::Finished => 1,
        DeliberationEnding::Stuck => 2,
        DeliberationEnding::Full => 3,
    });
    answers.number(remaining.len() as u16);
    answers.0.extend(remaining);
}

/// Saves; the number of bytes is not in the answer, and is held here.
fn save(card: &[u8], requests: &mut Requests, answers: &mut Answers) {
    let c = requests.image();
    let mut lent = vec![LENT_BYTE; usize::from(requests.number())];
    let answer = rigtemple::save(card, &c, &mut lent);
    let header = if card.get(2) == Some(&2) { 76 } else { 44 };
    assert!(answer.map_or(true, |bytes| bytes == header + usize::from(c.length)));
    answers.answer(&answer);
    answers.0.extend(lent);
}

/// Answers what was written to a lent buffer: how much, and all of the buffer.
fn written(answer: Result<usize, Refusal>, lent: Vec<u8>, answers: &mut Answers) {
    answers.number(answer.unwrap_or(0) as u16);
    answers.0.extend(lent);
}

fn text(requests: &mut Requests, answers: &mut Answers) {
    let count = requests.long_number();
    let text = requests.bytes(count as usize);
    let mut lent = vec![LENT_BYTE; usize::from(requests.number())];
    let answer = rigtemple::text(text, &mut lent);
    answers.answer(&answer);
    let place = match answer {
        Err(Refusal::Text(place)) => place,
        _ => 0,
    };
    answers.0.extend((place as u32).to_le_bytes());
    written(answer, lent, answers);
}

fn print(card: &[u8], requests: &mut Requests, answers: &mut Answers) {
    let node = requests.number();
    let mut lent = vec![LENT_BYTE; usize::from(requests.number())];
    let answer = rigtemple::print(card, node, &mut lent);
    answers.answer(&answer);
    written(answer, lent, answers);
}

/// Finds a name: where its part lies in its sheet is told by the two pointers.
fn name(card: &[u8], requests: &mut Requests, answers: &mut Answers) {
    let (shed, master) = (requests.counted(), requests.counted());
    let answer = rigtemple::name(card, shed, master, requests.number());
    answers.answer(&answer);
    let (sheet, start, length) = match answer {
        Ok(Name { sheet, text }) => {
            let held = if sheet == Sheet::Shed { shed } else { master };
            let start = text.as_ptr() as usize - held.as_ptr() as usize;
            (sheet, start, text.len())
        }
        Err(Refusal::Sheet(sheet)) => (sheet, 0, 0),
        Err(_) => (Sheet::Master, 0, 0),
    };
    answers.byte(u8::from(sheet == Sheet::Shed));
    answers.number(start as u16);
    answers.number(length as u16);
}

/// Loads and restores: a refusal answers the empty configuration.
fn begun(answer: Result<Configuration, Refusal>, answers: &mut Answers) {
    answers.answer(&answer);
    answers.image(&answer.unwrap_or(Configuration::EMPTY));
}

/// Reads a request and answers it.
fn answer<'a>(card: &mut &'a [u8], requests: &mut Requests<'a>, answers: &mut Answers) {
    match requests.byte() {
        0 => *card = requests.counted(),
        1 => answers.answer(&rigtemple::check(card)),
        2 => begun(rigtemple::load(card), answers),
        3 => {
            let verdict = rigtemple::grade(card);
            answers.answer(&verdict);
            answers.verdict(&verdict);
        }
        4 => list(card, requests, answers),
        5 => take(card, requests, answers),
        6 => run(card, requests, answers),
        7 => save(card, requests, answers),
        8 => begun(rigtemple::restore(card, requests.counted()), answers),
        9 => text(requests, answers),
        10 => print(card, requests, answers),
        11 => deliberate(card, requests, answers),
        12 => name(card, requests, answers),
        13 => take_bounded(card, requests, answers),
        14 => run_bounded(card, requests, answers),
        21 => go_on(card, requests, answers),
        22 => next(card, requests, answers),
        other => panic!("there is no request {other}"),
    }
}

/// Passes over a request of the plain engine and its answer: load, list, take or run.
fn pass_over(requests: &mut Requests, wanted: &mut Requests) {
    let request = requests.byte();
    wanted.number();
    match request {
        15 => _ = wanted.image(),
        16 => {
            requests.image();
            let room = usize::from(requests.number());
            wanted.bytes(6 + 2 * room);
        }
        17 => {
            requests.image();
            requests.number();
            wanted.number();
            wanted.image();
        }
        _ => {
            requests.image();
            requests.number();
            wanted.image();
            wanted.bytes(3);
        }
    }
}

#[test]
fn every_answered_byte_is_the_stored_one() {
    let drill = concat!(env!("CARGO_MANIFEST_DIR"), "/../../crates/drill");
    let asked = std::fs::read(format!("{drill}/stdin")).expect("the stored requests are there");
    let wanted = std::fs::read(format!("{drill}/stdout")).expect("the stored answers are there");
    let (mut requests, mut wanted) = (Requests(&asked), Requests(&wanted));
    let (mut card, mut count, mut bytes) = (&[][..], 0, 0);
    while let Some(request) = requests.0.first() {
        if (15..=18).contains(request) {
            pass_over(&mut requests, &mut wanted);
            continue;
        }
        let mut answers = Answers::default();
        answer(&mut card, &mut requests, &mut answers);
        let size = answers.0.len();
        assert_eq!(
            answers.0,
            wanted.bytes(size.min(wanted.0.len())),
            "request {count}"
        );
        count += 1;
        bytes += size;
    }
    assert!(wanted.0.is_empty());
    println!("{count} requests, {bytes} bytes answered");
}
