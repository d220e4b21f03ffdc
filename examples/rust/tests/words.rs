//! The words of the answers, the codes of choices, the bytes of entries and the names of actions.

use rigtemple::{
    BoundedEnding, BoundedRefusal, Choice, Coming, DeliberationEnding, Entry, Refusal, Sheet,
};

#[test]
fn refusals_have_their_numbers_and_names() {
    assert_eq!(rigtemple::check(&[]), Err(Refusal::Short));
    assert_eq!(Refusal::Short.number(), 1);
    assert_eq!(Refusal::PlanFull.number(), 11);
    assert_eq!(Refusal::PlanFull.to_string(), "plan full");
    assert_eq!(Refusal::Configuration.number(), 13);
    assert_eq!(Refusal::Condition(2).number(), 16);
    assert_eq!(Refusal::Condition(2).to_string(), "condition (node 2)");
    assert_eq!(Refusal::Text(70000).number(), 17);
    assert_eq!(Refusal::Text(70000).to_string(), "text (place 70000)");
    assert_eq!(Refusal::Program.number(), 19);
    assert_eq!(Refusal::Program.to_string(), "program");
    assert_eq!(Refusal::Sheet(Sheet::Shed).number(), 20);
    let refused = Refusal::Sheet(Sheet::Shed).to_string();
    assert_eq!(refused, "sheet (the shed's)");
    assert_eq!(Refusal::NoAction.number(), 21);
    assert_eq!(Refusal::NoAction.to_string(), "no action");
    assert_eq!(Refusal::Large.number(), 25);
}

#[test]
fn a_bounded_card_has_two_endings() {
    let card = std::fs::read(concat!(
        env!("CARGO_MANIFEST_DIR"),
        "/../../cards/stripe.card"
    ))
    .expect("the file is there");
    let mut c = rigtemple::load(&card).expect("the card is good");
    let closed = rigtemple::take_bounded(&card, &mut c, 256);
    assert_eq!(closed, Err(BoundedRefusal::Front));
    let ran = rigtemple::run_bounded(&card, &mut c, 1000).expect("the card is bounded");
    assert_eq!((ran.moves, ran.ending), (6, BoundedEnding::Rest));
    assert_eq!(BoundedRefusal::OpenOrHeavy.number(), 22);
    assert_eq!(BoundedRefusal::OpenOrHeavy.to_string(), "open or heavy");
}

#[test]
fn choices_have_their_codes() {
    assert_eq!(Choice::Selection(255).code(), 255);
    assert_eq!(Choice::Action(0).code(), 256);
    assert_eq!(Choice::Revision(1).code(), 513);
}

#[test]
fn entries_make_a_program() {
    let cards = concat!(env!("CARGO_MANIFEST_DIR"), "/../../cards");
    let read = |name| std::fs::read(format!("{cards}/{name}")).expect("the file is there");
    let teaching = [
        Entry::Execute,
        Entry::Apply(0),
        Entry::Apply(1),
        Entry::Apply(2),
        Entry::Or(1, 2),
        Entry::Or(4, 3),
        Entry::Or(5, 0),
        Entry::WhilePlan(6),
        Entry::Select(0),
        Entry::Then(8, 7),
    ];
    let program = teaching.map(Entry::bytes).concat();
    assert_eq!(program, read("teaching.program"));
    assert_eq!(Entry::WhileBelief(2, 1).bytes(), [4, 2, 1, 0]);
    let card = read("stripe.card");
    let mut c = rigtemple::load(&card).expect("the card is good");
    let first = rigtemple::deliberate(&card, &program, &mut c, 2).expect("the program is good");
    assert_eq!(first.ending, DeliberationEnding::Spent);
    assert_eq!((first.moves, first.remaining), (2, vec![6, 7]));
    let before = c.clone();
    let broken = rigtemple::deliberate(&card, &program[..5], &mut c, 2);
    assert_eq!(broken, Err(Refusal::Program));
    let beyond = rigtemple::go_on(&card, &program, &[9, 0], &mut c, 2);
    assert_eq!(beyond, Err(Refusal::Program));
    assert_eq!(c, before);
    let gone = rigtemple::go_on(&card, &program, &[6, 7], &mut c, 1).expect("they are good");
    assert_eq!((gone.ending, gone.moves), (DeliberationEnding::Spent, 1));
    let rest = rigtemple::go_on(&card, &program, &gone.remaining, &mut c, 1000);
    let rest = rest.expect("they are good");
    assert_eq!((rest.ending, rest.moves), (DeliberationEnding::Finished, 9));
    assert_eq!((rest.remaining, c.finished), (vec![], 1));
}

#[test]
fn what_comes_next_is_taken() {
    let path = concat!(env!("CARGO_MANIFEST_DIR"), "/../../cards/stripe.card");
    let card = std::fs::read(path).expect("the file is there");
    let mut c = rigtemple::load(&card).expect("the card is good");
    let mut moves = Vec::new();
    while let Coming::Move(choice) = rigtemple::next(&card, &c).expect("all is good") {
        rigtemple::take(&card, &mut c, choice).expect("it is open");
        moves.push(choice);
    }
    assert_eq!(moves, [0, 512, 257, 513, 258, 256]);
    assert_eq!(rigtemple::next(&card, &c), Ok(Coming::Rest));
    c.phase = 3;
    assert_eq!(rigtemple::next(&card, &c), Err(Refusal::Configuration));
    c.phase = 2;
    (c.beliefs[0], c.plan, c.length) = (8, [3; 1024], 1024);
    assert_eq!(rigtemple::next(&card, &c), Ok(Coming::Full(513)));
    let taken = rigtemple::take(&card, &mut c, 513);
    assert_eq!(taken, Err(Refusal::PlanFull));
}

#[test]
fn names_are_those_of_two_sheets() {
    let path = concat!(env!("CARGO_MANIFEST_DIR"), "/../../cards/stripe.card");
    let card = std::fs::read(path).expect("the file is there");
    let master = b"\x05\0\x0E\0\x13\0\x17\0\x1D\0\x21\0\x27\0weavewindrepairpickstripe";
    let shed = b"\x05\0\x0E\0\x12\0\x17\0\x17\0\x1D\0\x1D\0v\xC3\xA4vspolainslag";
    let named = |action| rigtemple::name(&card, shed, master, action).map(|it| (it.sheet, it.text));
    assert_eq!(named(0), Ok((Sheet::Shed, "v\u{E4}v")));
    assert_eq!(named(1), Ok((Sheet::Shed, "spola")));
    assert_eq!(named(2), Ok((Sheet::Master, "repair")));
    assert_eq!(named(4), Ok((Sheet::Master, "stripe")));
    assert_eq!(named(5), Err(Refusal::NoAction));
    let none = rigtemple::name(&card, &[], master, 0).expect("a shed may have no sheet");
    assert_eq!((none.sheet, none.text), (Sheet::Master, "weave"));
    let (shed_refused, master_refused) =
        (Refusal::Sheet(Sheet::Shed), Refusal::Sheet(Sheet::Master));
    assert_eq!(
        rigtemple::name(&card, &shed[1..], &[], 5),
        Err(shed_refused)
    );
    assert_eq!(rigtemple::name(&card, shed, shed, 5), Err(master_refused));
}
