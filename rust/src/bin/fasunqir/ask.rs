//! The commands that ask the library once.

use crate::arguments::Arguments;
use crate::input::{self, Anything, Given, Source};
use crate::output::{Failure, Output, Status};
use fasunqir::{Clause, Finding, Table, Trace};

/// The verdict's line.
pub fn check(arguments: &Arguments, output: &mut Output) -> Result<Status, Failure> {
    let (given, trace) = sheet_and_trace(arguments)?;
    let verdict = given.sheet.check(&trace).map_err(|error| Failure::refused(error, vec![]))?;
    output.line(&verdict.to_string())?;
    Ok(status(verdict.finding))
}

pub fn sheet_and_trace(arguments: &Arguments) -> Result<(Given, Trace), Failure> {
    let given = input::sheet(&arguments.files[0], arguments)?;
    let trace = input::trace(&arguments.files[1], &given.sheet, arguments)?;
    Ok((given, trace))
}

/// The status of a finding.
pub fn status(finding: Finding) -> Status {
    match finding {
        Finding::Broken(_) => Status::Broken,
        _ => Status::Well,
    }
}

/// The stored bytes of a file. Bytes and hexadecimal text are not judged: what they are is for whoever
/// reads them.
pub fn store(arguments: &Arguments, output: &mut Output) -> Result<Status, Failure> {
    let source = Source::read(&arguments.files[0])?;
    if arguments.advice.is_empty() {
        if let Some(bytes) = source.stored()? {
            return output.bytes(&bytes);
        }
    }
    match input::anything(source, arguments)? {
        Anything::Sheet(given) => output.bytes(given.sheet.as_bytes()),
        Anything::Trace(trace) => output.bytes(trace.as_bytes()),
        Anything::Formula(formula) => output.bytes(formula.as_bytes()),
    }
}

/// The stored formula of a sheet.
pub fn formula(arguments: &Arguments, output: &mut Output) -> Result<Status, Failure> {
    let given = input::sheet(&arguments.files[0], arguments)?;
    output.bytes(given.sheet.formula().as_bytes())
}

/// The intervals on which a part of a clause, or a node, holds.
pub fn table(arguments: &Arguments, output: &mut Output) -> Result<Status, Failure> {
    let (given, trace) = sheet_and_trace(arguments)?;
    let sheet = &given.sheet;
    let node = match arguments.node {
        Some(node) => node,
        None => root(&sheet.clauses(), &arguments.numbers)?,
    };
    let cycles = names_on(arguments, sheet.reached_names(node))?;
    let table = sheet.table(&trace, node, cycles).map_err(|error| {
        let found = match error.number() {
            16 => format!(
                "node {node} isn't a formula node: the nodes are 0 to {}",
                sheet.nodes().len() - 1
            ),
            17 => format!(
                "a name is put on no minute of the trace: they are 0 to {}",
                trace.cycles().len() - 1
            ),
            _ => error.text().to_string(),
        };
        Failure::refused(error, vec![format!("{}: {found}", error.number())])
    })?;
    output.text(&intervals(&table, trace.cycles().len()))
}

/// The node that is the root of a part, by the numbers of its clause, from 0, and of the part, from 1.
fn root(clauses: &[Clause], numbers: &[usize]) -> Result<usize, Failure> {
    let &[clause, part] = numbers else {
        return Err(Failure::Message("it takes a clause and a part".to_string()));
    };
    let Some(found) = clauses.get(clause) else {
        let last = clauses.len() - 1;
        return Err(Failure::Message(format!(
            "no clause {clause}: the sheet's clauses are 0 to {last}"
        )));
    };
    match part.checked_sub(1).and_then(|part| found.parts.get(part)) {
        Some(part) => Ok(part.root),
        None => {
            let (word, last) = (found.kind.word(), found.parts.len());
            Err(Failure::Message(format!(
                "no part {part}: clause {clause}, {word}, has parts 1 to {last}"
            )))
        }
    }
}

/// Where the options put the names, each that is reached on a minute; the others may be anywhere.
fn names_on(arguments: &Arguments, reached: u8) -> Result<[usize; 3], Failure> {
    let missing = |name: &usize| reached >> name & 1 == 1 && arguments.minutes[*name].is_none();
    match (0..3).find(missing) {
        None => Ok(arguments.minutes.map(|minute| minute.unwrap_or(0))),
        Some(name) => Err(Failure::Message(format!(
            "it goes by the minute of u{name}: put it there by -u{name} MINUTE"
        ))),
    }
}

/// A line for each minute from which there are intervals.
fn intervals(table: &Table, cycles: usize) -> String {
    let mut text = String::new();
    for b in 0..cycles {
        let mut runs: Vec<(usize, usize)> = vec![];
        for e in (b..cycles).filter(|&e| table.holds(b, e)) {
            match runs.last_mut() {
                Some((_, last)) if *last + 1 == e => *last = e,
                _ => runs.push((e, e)),
            }
        }
        if runs.is_empty() {
            continue;
        }
        let runs: Vec<_> = runs
            .into_iter()
            .map(
                |(first, last)| {
                    if first == last {
                        first.to_string()
                    } else {
                        format!("{first}-{last}")
                    }
                },
            )
            .collect();
        text += &format!("from minute {b} to minute {}\n", runs.join(", "));
    }
    if text.is_empty() {
        text += "on no interval\n";
    }
    text
}
