//! Boards (request 6): random sheets fed cycle by cycle with refused cycles among them, boards made by
//! hand and damaged in every field, and the order of the refusals. Each feed is compared with the
//! reference and with the library's own check of the cycles taken (`compare::board`).

mod build;
mod compare;
mod generate;
mod reference;

use build::Role::*;
use build::{hex, Part, Sheet};
use compare::board::{Boards, Pieces};
use compare::Tally;
use fasunqir::{CYCLES, SHEET};
use generate::{Random, Shape, DRAWS};
use reference::clauses::{Finding, Verdict};
use reference::Number;

/// What a board was fed, and what came of it.
#[derive(Default)]
struct Fed {
    tally: Tally,
    /// Verdicts Broken by a clause of each type.
    types: [usize; 6],
    /// From one verdict of a board to its next: Holds to Broken, Holds to Excused, Broken to Excused.
    turns: [usize; 3],
    /// Boards made again by hand, which then went on.
    again: usize,
}

impl Fed {
    fn count(
        &mut self,
        sheet: &Sheet,
        last: Option<Verdict>,
        answer: Result<Verdict, Number>,
    ) -> Option<Verdict> {
        self.tally.count(&answer);
        let Ok(verdict) = answer else { return last };
        if let Finding::Broken(clause, ..) = verdict.finding {
            self.types[sheet.clauses[clause][0] as usize - 1] += 1;
        }
        match (last.map(|last| last.finding), verdict.finding) {
            (Some(Finding::Holds), Finding::Broken(..)) => self.turns[0] += 1,
            (Some(Finding::Holds), Finding::Excused(_)) => self.turns[1] += 1,
            (Some(Finding::Broken(..)), Finding::Excused(_)) => self.turns[2] += 1,
            _ => (),
        }
        Some(verdict)
    }

    /// Prints the counts and demands so many at least: verdicts as `Tally::demand` has them, of each
    /// refusal of a sound board, Broken by each clause type, and of each turn.
    fn demand(&self, what: &str, verdicts: [usize; 3], refused: usize, broken: usize, turn: usize) {
        let Fed { tally, types, turns: [breaks, excuses, excuses_broken], again } = self;
        let [holds, excused, broke] = verdicts;
        tally.demand(what, [holds, excused, broke, 0, 0, 0]);
        compare::report(format!(
            "{what}: broken by a clause of type 1 to 6 {types:?} times; {breaks} turn from HOLDS to \
             BROKEN, {excuses} from HOLDS to EXCUSED, {excuses_broken} from BROKEN to EXCUSED; \
             {again} boards made again by hand"
        ));
        tally.demand_numbers(what, [15, 21, 22], refused);
        let enough = types.iter().all(|&count| count >= broken)
            && self.turns.iter().all(|&count| count >= turn);
        assert!(enough, "{what}: {broken} of each type and {turn} of each turn are demanded");
    }
}

/// The board made again by hand: its sheet, its cycles, and anything at all where it says that nothing
/// is looked at, the verdict too.
fn made_again(random: &mut Random, boards: &Boards) -> Boards {
    let mut pieces = boards.pieces().clone();
    pieces.sheet[boards.sheet_end()..].fill_with(|| random.next() as u8);
    pieces.cycles[pieces.taken..].fill_with(|| random.next() as u16);
    pieces.verdict = random.next();
    Boards::by_hand(pieces)
}

/// Feeds a new board with the cycles of a random trace, and before each, now and then, with one that
/// is refused. Now and then the board is made again by hand. A full board is fed three more.
fn feed(random: &mut Random, counts: &mut Fed, sheet: &Sheet, cycles: usize) {
    let signals = sheet.signals as usize;
    let mut boards = Boards::open(&sheet.bytes()).unwrap();
    let trace = generate::trace(random, signals, cycles).cycles;
    let mut last = None;
    let past = if cycles == CYCLES { 3 } else { 0 };
    for cycle in trace.into_iter().chain(std::iter::repeat_n(0, past)) {
        while random.one_in(3) {
            let (cycle, words) = generate::refused_feed(random, signals, cycle);
            let answer = boards.feed(cycle, words);
            assert!(answer.is_err(), "sheet {}", hex(&sheet.bytes()));
            counts.count(sheet, last, answer);
        }
        if random.one_in(8) {
            boards = made_again(random, &boards);
            counts.again += 1;
        }
        let answer = boards.feed(cycle, random.pick(&[4096, 4096, 4097, 5000]));
        last = counts.count(sheet, last, answer);
    }
    assert_eq!(boards.pieces().taken, cycles);
}

/// Short boards with up to three names, half of the sheets with advice; a few of them are then given
/// 64 cycles by hand and fed one more.
#[test]
fn short() {
    let mut random = Random::new(71);
    let mut counts = Fed::default();
    for case in 0..12_000 {
        let names = random.below(4);
        let shape = Shape {
            signals: random.pick(&[1, 1, 2, 2, 3, 4, 16]),
            names,
            nodes: random.between(2, 20),
            clauses: random.between(1, 5),
            numbers: 5,
        };
        let sheet = match case % 4 {
            3 if names > 0 => generate::shared(&mut random, shape),
            draw => DRAWS[draw % 3](&mut random, shape),
        };
        let sheet = if case % 8 < 4 { generate::advised(&mut random, &sheet) } else { sheet };
        let cycles = random.between(1, [8, 7, 6, 5][names]);
        feed(&mut random, &mut counts, &sheet, cycles);
        if case % 10 == 0 {
            let mut full = Boards::by_hand(Pieces::new(&sheet.bytes(), &[0; CYCLES]));
            counts.count(&sheet, None, full.feed(0, 4096));
        }
    }
    counts.demand("short boards", [20_000, 4000, 10_000], 1000, 800, 120);
    counts.tally.demand_advice("short boards", [1000, 500, 500]);
}

/// Boards of many cycles, as many as the brute force can follow.
struct Long {
    seed: u64,
    sheets: usize,
    names: usize,
    nodes: usize,
    cycles: usize,
}

fn long(Long { seed, sheets, names, nodes, cycles }: Long) -> Fed {
    let mut random = Random::new(seed);
    let mut counts = Fed::default();
    for case in 0..sheets {
        let shape = Shape {
            signals: random.pick(&[1, 2, 3, 5, 15, 16]),
            names,
            nodes: random.between(nodes / 2, nodes),
            clauses: random.between(1, [4, 2, 2, 1][names]),
            numbers: random.pick(&[5, 20, 70]),
        };
        let sheet = DRAWS[case % 3](&mut random, shape);
        let sheet = if case % 2 == 0 { generate::advised(&mut random, &sheet) } else { sheet };
        feed(&mut random, &mut counts, &sheet, cycles);
    }
    counts
}

#[test]
fn full_without_names() {
    let what = "full boards, no names";
    let counts = long(Long { seed: 72, sheets: 90, names: 0, nodes: 16, cycles: CYCLES });
    counts.demand(what, [1000, 500, 500], 150, 1, 1);
    counts.tally.demand_advice(what, [200, 200, 50]);
}

#[test]
fn full_with_a_name() {
    let counts = long(Long { seed: 79, sheets: 9, names: 1, nodes: 6, cycles: CYCLES });
    counts.demand("full boards, one name", [100, 1, 100], 20, 0, 0);
}

#[test]
fn long_with_two_names() {
    let counts = long(Long { seed: 75, sheets: 30, names: 2, nodes: 8, cycles: 14 });
    counts.demand("long boards, two names", [100, 0, 50], 0, 0, 0);
}

#[test]
fn long_with_three_names() {
    let counts = long(Long { seed: 76, sheets: 30, names: 3, nodes: 8, cycles: 9 });
    counts.demand("long boards, three names", [80, 0, 40], 0, 0, 0);
}

/// Sheets that are damaged: a board opens on those alone that pass.
#[test]
fn opened() {
    let mut random = Random::new(74);
    let mut tally = Tally::default();
    let mut opened = 0;
    for case in 0..20_000 {
        let shape = Shape {
            signals: random.between(1, 3),
            names: random.below(4),
            nodes: random.between(2, 10),
            clauses: random.between(1, 2),
            numbers: 4,
        };
        let sheet = DRAWS[case % 3](&mut random, shape).bytes();
        let sheet = generate::damaged(&mut random, &sheet);
        match Boards::open(&sheet) {
            Ok(_) => opened += 1,
            Err(number) => tally.count(&Err(number)),
        }
    }
    compare::report(format!("opened: {opened} boards"));
    assert!(opened >= 1000, "{opened} boards");
    tally.demand_numbers("opened", 1..=9, 60);

    // The longest sheet fills the board's bytes. A longer one never opens, whatever its beginning is.
    let longest = longest().bytes();
    for length in 0..=SHEET {
        assert_eq!(Boards::open(&longest[..length]).is_ok(), length == SHEET);
    }
    for more in [1, 17, 65_536] {
        assert_eq!(Boards::open(&[&longest[..], &vec![0; more]].concat()).err(), Some(1));
    }
}

/// 64 nodes and 8 clauses, 481 bytes.
fn longest() -> Sheet {
    let mut sheet = Sheet::new(2, 1);
    let (p, u) = (sheet.signal(1), sheet.name(0));
    let mut row = sheet.point(p);
    let at_u = sheet.point(u);
    while sheet.nodes.len() < 64 {
        row = sheet.chop(row, at_u);
    }
    for clause in 0..8 {
        let role = [Assumption, Commitment, Advice][clause % 3];
        sheet.anti(role, Part(row, 1));
    }
    sheet
}

/// Two signals, two names, two clauses, and two nodes that nothing names.
fn sound() -> Sheet {
    let mut sheet = Sheet::new(2, 2);
    let p = sheet.signal(1);
    let u = sheet.name(0);
    let both = sheet.and(p, u);
    let at_both = sheet.point(both);
    let gap = sheet.gap(0, 1, 0, 1);
    let mark = sheet.mark(1);
    let row = sheet.chop(at_both, mark);
    assert_eq!(sheet.anywhere().0 as usize, SPARE_6);
    assert_eq!(sheet.anywhere().0 as usize, SPARE_7);
    sheet.follows(Commitment, Part(row, 3), Part(gap, 3), Part(mark, 2));
    sheet.anti(Advice, Part(at_both, 1));
    sheet
}

/// One node for damage 6, and one for damage 7.
const SPARE_6: usize = 7;
const SPARE_7: usize = 8;

const TAKEN: [u16; 3] = [0b01, 0b11, 0b10];

/// A feed: a board made by hand, the cycle and the words that it is lent.
#[derive(Clone)]
struct Input {
    pieces: Pieces,
    cycle: u16,
    words: usize,
}

impl Input {
    fn of(sheet: &Sheet) -> Self {
        Input { pieces: Pieces::new(&sheet.bytes(), &TAKEN), cycle: 0b10, words: 4096 }
    }

    fn answer(self) -> Result<Verdict, Number> {
        Boards::by_hand(self.pieces).feed(self.cycle, self.words)
    }
}

/// Every byte of a board's sheet: changed within the sheet, the board is refused or has another sheet;
/// changed after its end, nothing is another.
#[test]
fn every_byte_of_the_sheet() {
    let mut tally = Tally::default();
    let few: Vec<u8> = vec![0, 1, 2, 3, 16, 20, 63, 64, 128, 255];
    let all: Vec<u8> = (0..=255).collect();
    let mut passed_over = 0;
    for (sheet, values) in [(sound(), all), (longest(), few.clone())] {
        let end = sheet.bytes().len();
        let input = Input::of(&sheet);
        let verdict = input.clone().answer();
        assert!(verdict.is_ok());
        for at in 0..SHEET {
            for &value in if at < end { &values } else { &few } {
                let mut input = input.clone();
                input.pieces.sheet[at] = value;
                let answer = input.answer();
                tally.count(&answer);
                if at >= end {
                    assert_eq!(answer, verdict, "byte {at} after the sheet");
                    passed_over += 1;
                }
            }
        }
    }
    compare::report(format!("every byte of the sheet: {passed_over} changes after its end"));
    tally.demand("every byte of the sheet", [10, 500, 3000, 15_000, 0, 0]);
    tally.demand_numbers("every byte of the sheet", 1..=9, 20);
}

/// A bit from s up in a cycle is refused where the cycle is taken, and not seen where it isn't.
#[test]
fn every_bit_of_the_cycles() {
    let input = Input::of(&sound());
    let verdict = input.clone().answer();
    for at in 0..CYCLES {
        for bit in 0..16 {
            let mut input = input.clone();
            input.pieces.cycles[at] ^= 1 << bit;
            let answer = input.answer();
            match (at < TAKEN.len(), bit < 2) {
                (true, true) => assert!(answer.is_ok()),
                (true, false) => assert_eq!(answer, Err(13), "bit {bit} of cycle {at}"),
                (false, _) => assert_eq!(answer, verdict, "bit {bit} of cycle {at}"),
            }
        }
    }
}

/// Each number of taken cycles up to 64, and past it. With none taken a board has no verdict, but
/// takes its first cycle.
#[test]
fn every_count_of_cycles() {
    for taken in (0..=70).chain([128, 1000, 65_536, 1 << 32, usize::MAX / 2, usize::MAX]) {
        let mut input = Input::of(&sound());
        input.pieces.taken = taken;
        let expected = match taken {
            0..=63 => None,
            64 => Some(22),
            _ => Some(13),
        };
        assert_eq!(input.answer().err(), expected, "{taken} taken");
    }
}

/// For every number of signals, each bit of a cycle that is taken already, and of the one that is fed.
#[test]
fn every_signal() {
    for signals in 1..=16 {
        let mut sheet = Sheet::new(signals, 0);
        let first = sheet.signal(0);
        let at_first = sheet.point(first);
        sheet.anti(Commitment, Part(at_first, 0));
        for bit in 0..16 {
            let too_high = bit >= signals;
            let input = |taken, cycle| Input {
                pieces: Pieces::new(&sheet.bytes(), &[0, taken]),
                cycle,
                words: 4096,
            };
            let (held, fed) = (input(1 << bit, 0).answer(), input(0, 1 << bit).answer());
            assert_eq!(held.err(), too_high.then_some(13), "bit {bit} of {signals} signals");
            assert_eq!(fed.err(), too_high.then_some(21), "bit {bit} of {signals} signals");
            let broken = |at| Ok(Finding::Broken(0, at, at, at));
            if bit == 0 {
                let finding = |answer: Result<Verdict, Number>| answer.map(|v| v.finding);
                assert_eq!([finding(held), finding(fed)], [broken(1), broken(2)]);
            }
        }
    }
}

/// A verdict that nobody gave is not looked at. A refusal leaves it, and the first cycle taken puts
/// another in its place (`Boards::feed` compares it before and after).
#[test]
fn any_verdict() {
    let expected = Input::of(&sound()).answer();
    for verdict in [0, 1, 2, 3, 4, 255, 256, 256 * 21, 1 << 32, 1 << 63, u64::MAX] {
        let mut input = Input::of(&sound());
        input.pieces.verdict = verdict;
        let mut boards = Boards::by_hand(input.pieces);
        assert_eq!(boards.feed(0b100, 4096), Err(21));
        assert_eq!(boards.feed(0b10, 4095), Err(15));
        assert_eq!(boards.pieces().verdict, verdict);
        assert_eq!(boards.feed(input.cycle, 4096), expected);
        assert_ne!(boards.pieces().verdict, verdict);
    }
}

type Damage = (Number, &'static str, fn(&mut Input));

fn length_field(input: &mut Input, length: u16) {
    input.pieces.sheet[..2].copy_from_slice(&length.to_be_bytes());
}

fn node(input: &mut Input, at: usize, node: [u8; 6]) {
    input.pieces.sheet[9 + 6 * at..][..6].copy_from_slice(&node);
}

/// Where the sheet's two clauses start, nodes before them.
const CLAUSES: [usize; 2] = [9 + 6 * 9, 9 + 6 * 9 + 11];

/// Each is seen whatever the damages of higher numbers are.
#[rustfmt::skip]
fn damages() -> Vec<Damage> {
    vec![
        (1, "no sheet", |i| i.pieces.sheet = [0; SHEET]),
        (1, "eight bytes", |i| length_field(i, 6)),
        (1, "a byte longer than the array", |i| length_field(i, SHEET as u16 - 1)),
        (1, "as long as can be said", |i| length_field(i, u16::MAX)),
        (2, "version 0", |i| i.pieces.sheet[2] = 0),
        (2, "version 2", |i| i.pieces.sheet[2] = 2),
        (3, "kind 2", |i| i.pieces.sheet[3] = 2),
        (4, "no signals", |i| i.pieces.sheet[4] = 0),
        (4, "17 signals", |i| i.pieces.sheet[4] = 17),
        (4, "4 names", |i| i.pieces.sheet[5] = 4),
        (4, "no clauses", |i| i.pieces.sheet[8] = 0),
        (5, "a byte of what follows", |i| length_field(i, 84)),
        (5, "a byte less", |i| length_field(i, 82)),
        (5, "all of the array", |i| length_field(i, SHEET as u16 - 2)),
        (5, "64 nodes", |i| i.pieces.sheet[7] = 64),
        (6, "op 30", |i| node(i, SPARE_6, [30, 0, 0, 3, 0, 0])),
        (6, "signal 2 of 2", |i| node(i, SPARE_6, [3, 0, 0, 2, 0, 0])),
        (7, "not of a formula", |i| node(i, SPARE_7, [5, 0, 0, 3, 0, 0])),
        (7, "star of itself", |i| node(i, SPARE_7, [23, 0, 0, SPARE_7 as u8, 0, 0])),
        (8, "type 7", |i| i.pieces.sheet[CLAUSES[1]] = 7),
        (8, "role 3", |i| i.pieces.sheet[CLAUSES[1] + 1] = 3),
        (9, "a mask with name 2 of 2", |i| i.pieces.sheet[CLAUSES[0] + 8] = 7),
        (9, "a part without its name", |i| i.pieces.sheet[CLAUSES[0] + 8] = 1),
        (13, "65 cycles", |i| i.pieces.taken = 65),
        (13, "a thousand cycles", |i| i.pieces.taken = 1000),
        (13, "as many cycles as can be said", |i| i.pieces.taken = usize::MAX),
        (13, "a bit for signal 2 of 2", |i| i.pieces.cycles[0] |= 4),
        (13, "bit 15 of the last cycle", |i| i.pieces.cycles[2] |= 0x8000),
        (15, "4,095 words", |i| i.words = 4095),
        (15, "no words", |i| i.words = 0),
        (21, "a bit for signal 2 of 2 in the cycle", |i| i.cycle = 0b101),
        (21, "bit 15 of the cycle", |i| i.cycle = 0x8000),
        (22, "64 cycles", |i| i.pieces.taken = 64),
    ]
}

#[test]
fn alone() {
    assert!(Input::of(&sound()).answer().is_ok());
    for (number, what, damage) in damages() {
        let mut input = Input::of(&sound());
        damage(&mut input);
        assert_eq!(input.answer(), Err(number), "{what}");
    }
}

/// The lowest number applies, which is the first that is asked.
#[test]
fn two_at_once() {
    let damages = damages();
    let mut pairs = 0;
    for (at, low) in damages.iter().enumerate() {
        for high in damages[at..].iter().filter(|high| high.0 > low.0) {
            let mut input = Input::of(&sound());
            high.2(&mut input);
            low.2(&mut input);
            assert_eq!(input.answer(), Err(low.0), "{} and {}", low.1, high.1);
            pairs += 1;
        }
    }
    compare::report(format!("refusals of a feed two at once: {pairs} pairs"));
}

/// The last damage of each number, in every set of them.
#[test]
fn any_at_once() {
    let mut damages = damages();
    damages.reverse();
    damages.dedup_by_key(|damage| damage.0);
    assert!(damages
        .iter()
        .rev()
        .map(|damage| damage.0)
        .eq([1, 2, 3, 4, 5, 6, 7, 8, 9, 13, 15, 21, 22]));
    let mut sets = 0;
    for set in 1..1u32 << damages.len() {
        let mut input = Input::of(&sound());
        let mut lowest = 0;
        for (_, damage) in damages.iter().enumerate().filter(|(at, _)| set >> at & 1 == 1) {
            damage.2(&mut input);
            lowest = damage.0;
        }
        assert_eq!(input.answer(), Err(lowest), "set {set:b}");
        sets += 1;
    }
    compare::report(format!("refusals of a feed at once: {sets} sets"));
}
