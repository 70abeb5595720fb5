//! The programs beside the reference. FASUNQIR_PROGRAMS is the directory of the crates, where each has
//! its own program in out/.

mod build;
mod cases;
mod compare;
mod generate;
mod reference;

use build::{hex, Sheet};
use cases::{advice, examples, names, paper, Case};
use compare::{Tally, TextTally, Translated};
use generate::text::{typed, Flaw, TextShape};
use generate::{damaged, Random, Shape, DRAWS};
use reference::{formula, program};
use std::io::{BufRead, BufReader, Write};
use std::path::PathBuf;
use std::process::{Child, ChildStdin, Command, Stdio};
use std::sync::mpsc::{channel, Receiver, RecvTimeoutError};
use std::time::Duration;

/// A program that was started, its input and output in our hands.
fn started(name: &str) -> Child {
    let programs = std::env::var_os("FASUNQIR_PROGRAMS").expect("FASUNQIR_PROGRAMS isn't set");
    let path = PathBuf::from(programs).join(name).join("out").join(name);
    Command::new(&path)
        .stdin(Stdio::piped())
        .stdout(Stdio::piped())
        .spawn()
        .unwrap_or_else(|error| panic!("{}: {error}", path.display()))
}

/// What a program writes for its input.
fn written(name: &str, input: &[u8]) -> Vec<u8> {
    let mut child = started(name);
    // The program may end before it has taken a long input.
    child.stdin.take().unwrap().write_all(input).ok();
    child.wait_with_output().unwrap().stdout
}

/// A program that is watched: its lines come one by one, as soon as they are written.
struct Watched {
    child: Child,
    input: Option<ChildStdin>,
    lines: Receiver<String>,
}

/// A line or the end comes within moments, or else the program waits for something.
const MOMENTS: Duration = Duration::from_secs(20);

impl Watched {
    fn new(name: &str) -> Self {
        let mut child = started(name);
        let input = child.stdin.take();
        let mut output = BufReader::new(child.stdout.take().unwrap());
        let (sender, lines) = channel();
        std::thread::spawn(move || loop {
            let mut line = String::new();
            if output.read_line(&mut line).unwrap() == 0 || sender.send(line).is_err() {
                break;
            }
        });
        Watched { child, input, lines }
    }

    fn write(&mut self, bytes: &[u8]) {
        self.input.as_mut().unwrap().write_all(bytes).unwrap();
    }

    fn line(&self) -> String {
        self.lines.recv_timeout(MOMENTS).expect("no line was written")
    }

    /// The program ends by itself, with nothing more to say.
    fn ends(mut self) {
        let end = self.lines.recv_timeout(MOMENTS);
        assert_eq!(end, Err(RecvTimeoutError::Disconnected), "the program goes on");
        assert!(self.child.wait().unwrap().success());
    }

    /// It ends with its input.
    fn ends_with_input(mut self) {
        self.input.take();
        self.ends();
    }
}

fn cases() -> Vec<Case> {
    let mut cases = vec![examples::program()];
    cases.extend(examples::traps());
    cases.extend(examples::corners());
    cases.extend(names::cases().into_iter().map(|stays| stays.case));
    cases.extend(paper::cases());
    cases
}

/// The cases of advice, after all else, so that the other inputs are drawn as without them.
fn advised() -> Vec<Case> {
    advice::cases().into_iter().map(|advised| advised.case).collect()
}

/// Inputs that are no sheet at all.
fn odd() -> Vec<Vec<u8>> {
    vec![vec![], vec![0], vec![0, 0], vec![255; 1024], vec![0; 3000]]
}

/// A small random sheet.
fn small(random: &mut Random, case: usize) -> Sheet {
    let shape = Shape { signals: 2, names: case % 4, nodes: 10, clauses: 2, numbers: 4 };
    generate::drawn(random, shape)
}

/// The input, and with bytes after it: one more, up to the last that is read, and past it.
fn with_tails(input: Vec<u8>, read: usize) -> Vec<Vec<u8>> {
    let tails = [0, 1, read - input.len(), 4096];
    tails.iter().map(|&tail| [input.clone(), vec![0; tail]].concat()).collect()
}

/// The stored runs: runs/PROGRAM/NAME.hex is the input, NAME.out what is written.
#[test]
#[ignore = "needs FASUNQIR_PROGRAMS"]
fn stored_runs() {
    let runs = std::path::Path::new(env!("CARGO_MANIFEST_DIR")).join("../runs");
    let mut count = 0;
    for folder in std::fs::read_dir(runs).unwrap().map(|folder| folder.unwrap().path()) {
        if !folder.is_dir() {
            continue;
        }
        for input in std::fs::read_dir(&folder).unwrap().map(|file| file.unwrap().path()) {
            if input.extension().is_none_or(|extension| extension != "hex") {
                continue;
            }
            let program = folder.file_name().unwrap().to_str().unwrap();
            let bytes = build::hex_file(&std::fs::read_to_string(&input).unwrap());
            let expected = std::fs::read(input.with_extension("out")).unwrap();
            assert_eq!(written(program, &bytes), expected, "{}", input.display());
            count += 1;
        }
    }
    assert!(count >= 35, "{count} stored runs");
}

#[test]
#[ignore = "needs FASUNQIR_PROGRAMS"]
fn sheetcheck() {
    let mut inputs = odd();
    for case in cases() {
        inputs.extend(with_tails([case.sheet, case.trace].concat(), 1024));
    }
    let mut random = Random::new(61);
    for case in 0..300 {
        let sheet = small(&mut random, case).bytes();
        let input = [sheet, generate::trace(&mut random, 2, 4).bytes()].concat();
        inputs.push(if case % 3 == 0 { damaged(&mut random, &input) } else { input });
    }
    for case in 0..150 {
        let shape = Shape { signals: 2, names: case % 3, nodes: 12, clauses: 5, numbers: 4 };
        let sheet = generate::plain(&mut random, shape);
        let sheet = generate::advised(&mut random, &sheet).bytes();
        inputs.push([sheet, generate::trace(&mut random, 2, 4).bytes()].concat());
    }
    inputs.extend(advised().into_iter().map(|case| [case.sheet, case.trace].concat()));
    let mut tally = Tally::default();
    for input in &inputs {
        assert_eq!(written("sheetcheck", input), program::line(input).as_bytes(), "{}", hex(input));
        tally.count(&program::verdict(input));
    }
    tally.demand("sheetcheck", [30, 25, 60, 100, 0, 0]);
    tally.demand_advice("sheetcheck", [40, 20, 30]);
}

#[test]
#[ignore = "needs FASUNQIR_PROGRAMS"]
fn sheettable() {
    let mut random = Random::new(62);
    let mut inputs = odd();
    inputs.extend((1..6).map(|length| vec![1; length]));
    for case in cases() {
        for node in 0..4 {
            let fields = [0, node, 0, random.below(2) as u8, 0];
            inputs.extend(with_tails([&fields, &case.sheet[..], &case.trace].concat(), 1029));
        }
    }
    for case in 0..300 {
        let sheet = small(&mut random, case);
        let node = random.below(sheet.nodes.len() + 1) as u16;
        let cycles = [0; 3].map(|_| random.below(5) as u8);
        let trace = generate::trace(&mut random, 2, 4).bytes();
        let input = [&node.to_be_bytes()[..], &cycles, &sheet.bytes(), &trace].concat();
        inputs.push(if case % 3 == 0 { damaged(&mut random, &input) } else { input });
    }
    for case in advised() {
        for node in 0..2 {
            inputs.push([&[0, node, 0, 0, 0], &case.sheet[..], &case.trace].concat());
        }
    }
    let (mut tables, mut numbers) = (0, [0; 18]);
    for input in &inputs {
        let page = program::page(input);
        let text = page.as_ref().unwrap_or_else(|line| line);
        assert_eq!(written("sheettable", input), text.as_bytes(), "{}", hex(input));
        match page {
            Ok(_) => tables += 1,
            Err(line) => numbers[line["REFUSED ".len()..].trim().parse::<usize>().unwrap()] += 1,
        }
    }
    compare::report(format!("sheettable: {tables} tables, refusals {:?}", &numbers[1..]));
    let seldom = [1, 6, 10, 16, 17].iter().any(|&number| numbers[number] < 10);
    assert!(tables >= 120 && !seldom, "tables or refusals came too seldom");
}

#[test]
#[ignore = "needs FASUNQIR_PROGRAMS"]
fn sheetformula() {
    let mut random = Random::new(63);
    let mut inputs = odd();
    for case in cases() {
        inputs.push([&case.sheet[..], &[0]].concat());
        inputs.push([&case.sheet[..], &[0; 4096]].concat());
        inputs.push(case.sheet);
    }
    for case in 0..300 {
        let sheet = small(&mut random, case).bytes();
        inputs.push(if case % 3 == 0 { damaged(&mut random, &sheet) } else { sheet });
    }
    inputs.extend(advised().into_iter().map(|case| case.sheet));
    let mut tally = Tally::default();
    for input in &inputs {
        let bytes = written("sheetformula", input);
        let source = match program::sheet(input) {
            Ok(source) => source,
            Err(line) => {
                assert_eq!(bytes, line.as_bytes(), "{}", hex(input));
                tally.refused += 1;
                continue;
            }
        };
        let formula = formula::formula(&bytes, &source)
            .unwrap_or_else(|wrong| panic!("{wrong}\nformula {}\n{}", hex(&bytes), hex(input)));
        tally.formulas += 1;
        let cycles = random.between(1, [5, 5, 4, 3][source.names]);
        let trace = generate::trace(&mut random, source.signals, cycles);
        let translated = Translated { sheet: input.clone(), source, formula };
        tally.evaluated(translated.agrees(&trace.cycles));
    }
    tally.demand("sheetformula", [0, 0, 0, 90, 70, 50]);
}

/// A good text of so many bytes.
fn of_length(length: usize) -> Vec<u8> {
    let (first, clause) = ("1 0\n", "require anti(<s0>:)\n");
    let blanks = length - first.len() - clause.len();
    [first, &" ".repeat(blanks), clause].concat().into()
}

#[test]
#[ignore = "needs FASUNQIR_PROGRAMS"]
fn sheettext() {
    let mut inputs = odd();
    inputs.extend(cases::texts::cases().into_iter().map(|case| case.text));
    let mut random = Random::new(64);
    for case in 0..400 {
        let shape = TextShape {
            signals: random.between(1, 16),
            names: random.below(4),
            nodes: random.between(1, 70),
            clauses: random.between(1, 9),
            flaw: random.pick(&[Flaw::Nothing, Flaw::Nothing, Flaw::Masks, Flaw::Nesting(33)]),
        };
        let text = typed(&mut random, shape).text;
        let damage = generate::text::damaged;
        inputs.push(if case % 3 == 0 { damage(&mut random, &text) } else { text });
    }
    // The longest text that is held, and longer ones, whose beginning is a good sheet or is not.
    for length in [8192, 65_535, 65_536, 65_537, 65_538, 131_072, 200_000] {
        inputs.extend([of_length(length), vec![b'('; length], vec![b'\n'; length]]);
        let mut tail = of_length(8192);
        tail.resize(length, b' ');
        inputs.push(tail);
    }
    let mut tally = TextTally::default();
    for input in &inputs {
        assert_eq!(written("sheettext", input), program::stored(input), "{}", hex(input));
        tally.count(&program::text(input));
    }
    tally.demand("sheettext", [250, 60, 500, 40, 15, 15, 30, 0]);
    assert!(tally.numbers[0] >= 15, "long texts came too seldom");
}

/// The minutes of a trace as `sheetboard` reads them, now and then one with any bits at all.
fn minutes(random: &mut Random, signals: usize, cycles: usize) -> Vec<u8> {
    let trace = generate::trace(random, signals, cycles).cycles;
    let minute = |cycle: u16| if random.one_in(6) { random.next() as u16 } else { cycle };
    trace.into_iter().map(minute).flat_map(u16::to_be_bytes).collect()
}

#[test]
#[ignore = "needs FASUNQIR_PROGRAMS"]
fn sheetboard() {
    let mut inputs = odd();
    let mut random = Random::new(65);
    // Sheets and their minutes, the first of them cut after every byte.
    let given = cases().into_iter().chain(advised());
    inputs.extend(given.map(|case| [&case.sheet, &case.trace[4..]].concat()));
    let first = inputs[odd().len()].clone();
    inputs.extend((0..first.len()).map(|length| first[..length].to_vec()));
    for case in 0..300 {
        let sheet = small(&mut random, case).bytes();
        let input = [sheet, minutes(&mut random, 2, 5)].concat();
        inputs.push(if case % 3 == 0 { damaged(&mut random, &input) } else { input });
    }
    // Past the 64th minute, and bytes at random after a sheet and from the start.
    for case in 0..30 {
        let shape = Shape { signals: 2, names: 0, nodes: 12, clauses: 5, numbers: 20 };
        let sheet = DRAWS[case % 2](&mut random, shape);
        let sheet = generate::advised(&mut random, &sheet).bytes();
        inputs.push([sheet, minutes(&mut random, 2, 90)].concat());
    }
    for case in 0..100 {
        let length = random.below(200);
        let bytes: Vec<u8> = (0..length).map(|_| random.next() as u8).collect();
        let shape = Shape { signals: 16, names: 0, nodes: 10, clauses: 2, numbers: 4 };
        let sheet = generate::drawn(&mut random, shape).bytes();
        inputs.push(if case % 2 == 0 { [sheet, bytes].concat() } else { bytes });
    }
    // Sheets as long as a length field can say: their end is where it says, and only then refused.
    for length in [482, 1024, 65_537] {
        let mut sheet = vec![1; length];
        sheet[..2].copy_from_slice(&(length as u16 - 2).to_be_bytes());
        inputs.extend([sheet[..length - 1].to_vec(), [&sheet[..], &[0; 100]].concat(), sheet]);
    }
    let mut tally = Tally::default();
    for input in &inputs {
        let answers = program::answers(input);
        match &answers {
            Ok(answers) => answers.iter().for_each(|answer| tally.count(answer)),
            Err(number) => tally.count(&Err(*number)),
        }
        let lines = program::lines(answers).concat();
        assert_eq!(written("sheetboard", input), lines.as_bytes(), "{}", hex(input));
    }
    tally.demand("sheetboard", [500, 100, 300, 300, 0, 0]);
    tally.demand_advice("sheetboard", [50, 20, 20]);
    tally.demand_numbers("sheetboard", [1, 4, 5, 6, 21, 22], 5);
}

fn board_lines(input: &[u8]) -> Vec<String> {
    program::lines(program::answers(input))
}

/// A minute's line comes before the next minute is written, and a refused sheet's before the input
/// ends.
#[test]
#[ignore = "needs FASUNQIR_PROGRAMS"]
fn sheetboard_watched() {
    let mut random = Random::new(66);
    for case in 0..40 {
        let sheet = small(&mut random, case).bytes();
        // The brute force follows a sheet without names past the 64th minute.
        let minutes = minutes(&mut random, 2, if case % 4 == 0 { 70 } else { 5 });
        let lines = board_lines(&[&sheet[..], &minutes].concat());
        let mut board = Watched::new("sheetboard");
        match case % 3 {
            0 => board.write(&sheet),
            1 => sheet.iter().for_each(|&byte| board.write(&[byte])),
            _ => sheet.chunks(7).for_each(|bytes| board.write(bytes)),
        }
        for (minute, line) in minutes.chunks(2).zip(lines) {
            // In one piece, or the second byte after the first.
            match case % 2 {
                0 => board.write(minute),
                _ => minute.iter().for_each(|&byte| board.write(&[byte])),
            }
            assert_eq!(board.line(), line, "{}", hex(&sheet));
        }
        if case % 5 == 0 {
            board.write(&[0]);
        }
        board.ends_with_input();
    }
    for case in 0..9 {
        let mut sheet = small(&mut random, case).bytes();
        sheet[2 + case % 3] = 99;
        let mut board = Watched::new("sheetboard");
        board.write(&sheet);
        assert_eq!(board.line(), board_lines(&sheet)[0]);
        board.ends();
    }
}
