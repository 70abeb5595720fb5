//! Check, table, a board, translate and the reader of typed sheets measured in one run, beside the
//! brute force and a plain bit-parallel checker and reader without proofs. Prints Markdown tables and
//! writes them, with a plot, to `target/bench` or to the directory in FASUNQIR_BENCH_DIR.

#[path = "../tests/build/mod.rs"]
mod build;
mod cases;
#[path = "../tests/generate/mod.rs"]
mod generate;
mod plain;
mod plot;
#[path = "../tests/reference/mod.rs"]
mod reference;
mod timing;

use build::Trace;
use cases::{places, Advised, Case};
use fasunqir::bytes::{OUTPUT, ROWS, WORDS};
use std::fmt::Write;
use std::hint::black_box;
use std::path::PathBuf;
use timing::{median_and_most, microseconds, warm_up};

struct Row {
    what: String,
    library: f64,
    plain: f64,
    brute: Option<f64>,
}

/// Whether the brute force ends in seconds: the placements that it remembers.
fn brute_force_ends(names: u32, cycles: usize) -> bool {
    cycles.pow(names) <= 4096 && (names < 2 || cycles < 64)
}

fn check(case: Case) -> Row {
    let Case { what, sheet, trace, cycles } = case;
    let mut words = vec![0; WORDS];
    let names = sheet.names as u32;
    let sheet = sheet.bytes();
    let [library, plain] = microseconds([
        &mut || {
            black_box(fasunqir::bytes::check_with(&sheet, &trace, &mut words)).unwrap();
        },
        &mut || {
            black_box(plain::Checker::new(&sheet, &trace).check());
        },
    ]);
    let brute = brute_force_ends(names, cycles).then(|| {
        let [brute] = microseconds([&mut || {
            black_box(reference::check(&sheet, &trace, WORDS)).unwrap();
        }]);
        brute
    });
    Row { what, library, plain, brute }
}

fn table((case, node): (Case, usize)) -> Row {
    let Case { what, sheet, trace, cycles } = case;
    let mut words = vec![0; WORDS];
    let mut rows = vec![0; ROWS];
    let sheet = sheet.bytes();
    let places = places(cycles);
    let [library, plain, brute] = microseconds([
        &mut || {
            fasunqir::bytes::table_with(&sheet, &trace, node, places, &mut words, &mut rows)
                .unwrap();
            black_box(&rows);
        },
        &mut || {
            black_box(plain::Checker::new(&sheet, &trace).table(node, places));
        },
        &mut || {
            black_box(reference::table(&sheet, &trace, node, places, WORDS, ROWS)).unwrap();
        },
    ]);
    Row { what, library, plain, brute: Some(brute) }
}

fn write_rows(text: &mut String, title: &str, rows: &[Row]) {
    writeln!(text, "| {title} | library µs | plain µs | brute force µs | library : plain | brute force : library |").unwrap();
    writeln!(text, "|---|---:|---:|---:|---:|---:|").unwrap();
    for Row { what, library, plain, brute } in rows {
        let (brute_time, brute_ratio) = match brute {
            Some(brute) => (format!("{brute:.1}"), format!("{:.0}", brute / library)),
            None => ("–".to_string(), "–".to_string()),
        };
        let ratio = library / plain;
        writeln!(
            text,
            "| {what} | {library:.1} | {plain:.1} | {brute_time} | {ratio:.2} | {brute_ratio} |"
        )
        .unwrap();
    }
    writeln!(text).unwrap();
}

/// The median and the worst of the drawn sheets.
fn drawn(text: &mut String) {
    let times: Vec<[f64; 2]> =
        cases::drawn().into_iter().map(check).map(|row| [row.library, row.plain]).collect();
    writeln!(text, "| check, forty drawn sheets, 3 names, 64 cycles | library µs | plain µs | library : plain |")
        .unwrap();
    writeln!(text, "|---|---:|---:|---:|").unwrap();
    for (what, [library, plain]) in ["median", "worst"].into_iter().zip(median_and_most(&times)) {
        let ratio = library / plain;
        writeln!(text, "| {what} | {library:.1} | {plain:.1} | {ratio:.2} |").unwrap();
    }
    writeln!(text).unwrap();
}

/// What advice costs: the variants of a sheet take turns, and each stands beside the first, which
/// has none.
fn advice(text: &mut String) {
    writeln!(text, "| check, one name, 64 cycles | clauses of advice | library µs | more, a clause | to none |")
        .unwrap();
    writeln!(text, "|---|---:|---:|---:|---:|").unwrap();
    for Advised { what, trace, clauses, sheets } in cases::advice() {
        let sheets = sheets.map(|sheet| sheet.bytes());
        let mut lent = [(); 4].map(|()| vec![0; WORDS]);
        let [none, one, half, all] = &mut lent;
        let call = |k: usize, words: &mut [u64]| {
            black_box(fasunqir::bytes::check_with(&sheets[k], &trace, words)).unwrap();
        };
        let times = microseconds([
            &mut || call(0, none),
            &mut || call(1, one),
            &mut || call(2, half),
            &mut || call(3, all),
        ]);
        for (clauses, time) in clauses.into_iter().zip(times) {
            let more = match clauses {
                0 => "–".to_string(),
                _ => format!("{:.1}", (time - times[0]) / clauses as f64),
            };
            let ratio = time / times[0];
            writeln!(text, "| {what} | {clauses} | {time:.1} | {more} | {ratio:.2} |").unwrap();
        }
    }
    writeln!(text).unwrap();
}

/// What a verdict after each cycle costs: a board opened and fed all cycles, beside one check of them
/// at the end and beside a check of every beginning of the trace.
fn boards(text: &mut String) {
    writeln!(text, "| board | one check at the end µs | a check after each cycle µs | a board µs | a feed µs | board : one check | board : checks |")
        .unwrap();
    writeln!(text, "|---|---:|---:|---:|---:|---:|---:|").unwrap();
    for Case { what, sheet, trace, cycles: count } in cases::boards() {
        let sheet = sheet.bytes();
        let cycles: Vec<u16> =
            trace[4..].chunks(2).map(|word| u16::from_be_bytes([word[0], word[1]])).collect();
        let beginnings: Vec<Vec<u8>> =
            (1..=count).map(|end| Trace::new(sheet[4], &cycles[..end]).bytes()).collect();
        let mut lent = [(); 3].map(|()| (vec![0; WORDS], None));
        let [at_the_end, after_each, fed] = &mut lent;
        let check = |trace: &[u8], words: &mut [u64]| {
            Some(black_box(fasunqir::bytes::check_with(&sheet, trace, words)).unwrap())
        };
        let [one, each, board] = microseconds([
            &mut || {
                let (words, last) = &mut *at_the_end;
                *last = check(&trace, words);
            },
            &mut || {
                let (words, last) = &mut *after_each;
                for beginning in &beginnings {
                    *last = check(beginning, words);
                }
            },
            &mut || {
                let (words, last) = &mut *fed;
                let mut board = fasunqir::bytes::open(&sheet).unwrap();
                for &cycle in &cycles {
                    black_box(board.feed_with(cycle, words)).unwrap();
                }
                *last = board.verdict();
            },
        ]);
        let same = lent.iter().all(|(_, last)| *last == lent[0].1);
        assert!(same, "{what}: the verdicts differ");
        let feed = board / count as f64;
        let (to_one, to_each) = (board / one, board / each);
        writeln!(text, "| {what} | {one:.1} | {each:.1} | {board:.1} | {feed:.1} | {to_one:.1} | {to_each:.2} |")
            .unwrap();
    }
    writeln!(text).unwrap();
}

fn translations(text: &mut String) {
    writeln!(text, "| translate | nodes read | nodes written | µs | read a µs | written a µs |")
        .unwrap();
    writeln!(text, "|---|---:|---:|---:|---:|---:|").unwrap();
    let mut out = vec![0; OUTPUT];
    let sheets = cases::translations();
    for (what, sheet) in sheets {
        let bytes = sheet.bytes();
        let length = fasunqir::bytes::translate_into(&bytes, &mut out).unwrap();
        let (read, written) = (sheet.nodes.len(), (length - 9) / 6);
        let [time] = microseconds([&mut || {
            black_box(fasunqir::bytes::translate_into(&bytes, &mut out)).unwrap();
        }]);
        writeln!(
            text,
            "| {what} | {read} | {written} | {time:.2} | {:.1} | {:.1} |",
            read as f64 / time,
            written as f64 / time
        )
        .unwrap();
    }
}

/// The largest sheet that is accepted, 64 nodes and 8 clauses, in other spellings: eight times a
/// clause of eight nodes.
fn typed() -> [(&'static str, Vec<u8>); 4] {
    let (open, close) = ("(".repeat(30), ")".repeat(30));
    let deep = format!("requireimplies({open}<s0&!s1>^slen>=3{close}:,{open}at(u0){close}:u0)\n");
    let loose = "  require\t implies (  ( ( < ( s0 )  &  ! ( (s1) ) > )  ^  ( slen  >=  0003 ) )  :  ,  ( ( at ( u0 ) ) )  :  u0  ) \n";
    [
        ("no blanks", "requireimplies(<s0&!s1>^slen>=3:,at(u0):u0)\n"),
        ("as people type", "require implies(<s0 & !s1> ^ slen >= 3:, at(u0): u0)\n"),
        ("many brackets and blanks", loose),
        ("32 brackets deep", &deep),
    ]
    .map(|(what, clause)| (what, format!("2 1\n{}", clause.repeat(8)).into()))
}

fn texts(text: &mut String) {
    writeln!(text, "\n| read text, 64 nodes and 8 clauses | bytes | library µs | plain µs | library, bytes a µs | plain, bytes a µs | library : plain |").unwrap();
    writeln!(text, "|---|---:|---:|---:|---:|---:|---:|").unwrap();
    let sheet = fasunqir::bytes::read_text(&typed()[0].1).unwrap();
    assert_eq!(sheet[6..9], [0, 64, 8]);
    for (what, typed) in typed() {
        let mut outs = [vec![0; OUTPUT], vec![0; OUTPUT]];
        let [out, plain_out] = &mut outs;
        let [library, plain] = microseconds([
            &mut || {
                black_box(fasunqir::bytes::read_text_into(&typed, out)).unwrap();
            },
            &mut || {
                black_box(plain::text::read_text(&typed, plain_out)).unwrap();
            },
        ]);
        let same = outs.iter().all(|out| out[..sheet.len()] == sheet);
        assert!(same, "{what}: the readers differ");
        let bytes = typed.len() as f64;
        writeln!(
            text,
            "| {what} | {bytes} | {library:.2} | {plain:.2} | {:.0} | {:.0} | {:.2} |",
            bytes / library,
            bytes / plain,
            library / plain
        )
        .unwrap();
    }
}

fn bars(rows: &[Row]) -> Vec<plot::Group> {
    rows.iter()
        .map(|row| plot::Group {
            label: row.what.clone(),
            values: [Some(row.library), Some(row.plain), row.brute],
        })
        .collect()
}

fn main() {
    let directory = match std::env::var_os("FASUNQIR_BENCH_DIR") {
        Some(directory) => PathBuf::from(directory),
        None => PathBuf::from(env!("CARGO_MANIFEST_DIR")).join("target/bench"),
    };
    std::fs::create_dir_all(&directory).unwrap();
    warm_up();
    let checks: Vec<Row> = cases::checks().into_iter().map(check).collect();
    let tables: Vec<Row> = cases::tables().into_iter().map(table).collect();
    let mut text = String::new();
    write_rows(&mut text, "check", &checks);
    write_rows(&mut text, "table", &tables);
    drawn(&mut text);
    advice(&mut text);
    boards(&mut text);
    translations(&mut text);
    texts(&mut text);
    print!("{text}");
    std::fs::write(directory.join("bench.md"), &text).unwrap();
    let names = ["library", "plain", "brute force"];
    let drawing = plot::svg(
        "Check and table, microseconds a call",
        names,
        &[("check", bars(&checks)), ("table", bars(&tables))],
    );
    std::fs::write(directory.join("bench.svg"), drawing).unwrap();
}
