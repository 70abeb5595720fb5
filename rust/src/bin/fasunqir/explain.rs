//! What became of each clause, in words.

use crate::arguments::Arguments;
use crate::ask;
use crate::input::Given;
use crate::output::{escaped, listed, numbered, Failure, Output, Status};
use fasunqir::{Clause, Explanation, Finding, Outcome, Place, Role, Trace, Type, Verdict};

/// The verdict's line; a sentence about it; each clause with what became of it; the trace as a grid.
pub fn explain(arguments: &Arguments, output: &mut Output) -> Result<Status, Failure> {
    let (given, trace) = ask::sheet_and_trace(arguments)?;
    let explanation = fasunqir::explain(&given.sheet, &trace)
        .map_err(|error| Failure::refused(error, vec![error.to_string()]))?;
    output.line(&explanation.verdict.to_string())?;
    output.line("")?;
    for sentence in summary(&given.sheet.clauses(), &explanation) {
        output.line(&sentence)?;
    }
    output.line("")?;
    clauses(&given, &explanation, output)?;
    output.line("")?;
    for line in grid(&trace, &explanation.clauses, &given.sheet.clauses()) {
        output.line(&line)?;
    }
    Ok(ask::status(explanation.verdict.finding))
}

/// The verdict in a sentence, and one more where advice fails.
fn summary(clauses: &[Clause], explanation: &Explanation) -> Vec<String> {
    let Verdict { finding, .. } = explanation.verdict;
    let failing = |role: Role| -> Vec<usize> {
        let fails = |k: &usize| matches!(explanation.clauses[*k], Outcome::Fails { .. });
        (0..clauses.len()).filter(|&k| clauses[k].role == role).filter(fails).collect()
    };
    let mut sentences = vec![match finding {
        Finding::Holds => "It holds: nothing that the sheet requires was late or wrong. What is still open when the \
                           trace ends is not broken."
            .to_string(),
        Finding::Excused { .. } => {
            format!("Excused: {} assumed, and the trace is not so.", these(&failing(Role::Assumption), "is", "are"))
        }
        Finding::Broken(_) => {
            let assumed = clauses.iter().any(|clause| clause.role == Role::Assumption);
            let so = if assumed { ", and every assumption holds" } else { "" };
            format!("Broken: {}{so}.", these(&failing(Role::Commitment), "fails", "fail"))
        }
        _ => finding.to_string(),
    }];
    let advice = failing(Role::Advice);
    if !advice.is_empty() {
        sentences.push(format!("Advice that was not kept: {}.", numbered("clause", &advice)));
    }
    sentences
}

/// Clauses by their numbers, and a verb for one or for more.
fn these(clauses: &[usize], one: &str, more: &str) -> String {
    format!("{} {}", numbered("clause", clauses), if clauses.len() == 1 { one } else { more })
}

fn clauses(given: &Given, explanation: &Explanation, output: &mut Output) -> Result<(), Failure> {
    for (number, (clause, outcome)) in
        given.sheet.clauses().iter().zip(&explanation.clauses).enumerate()
    {
        let role = match clause.role {
            Role::Assumption => "an assumption",
            Role::Commitment => "a commitment",
            Role::Advice => "advice",
        };
        output.line(&format!("clause {number}, {role}: {}", became(clause, outcome)))?;
        output.line(&format!("    {}", escaped(&given.clause_line(number), 2000)))?;
        if let Outcome::Fails { place, names } = outcome {
            output.line(&format!("    {}", why(clause, *place, *names)))?;
        }
    }
    Ok(())
}

/// What became of a clause, in short.
fn became(clause: &Clause, outcome: &Outcome) -> String {
    match outcome {
        Outcome::NeverAsked => "holds, and was never asked: its premise never came".to_string(),
        Outcome::Holds { asked: Some(place) } => {
            let (first, last) = extent(clause.kind, *place);
            format!("holds; it was asked first {}", stretch(first, last))
        }
        Outcome::Holds { asked: None } => "holds".to_string(),
        Outcome::Fails { place, .. } => {
            let (first, last) = extent(clause.kind, *place);
            format!("fails {}", stretch(first, last))
        }
        _ => "can't be told".to_string(),
    }
}

/// The first and last of the minutes that a place is about.
fn extent(kind: Type, Place { i, j, k, .. }: Place) -> (usize, usize) {
    match kind {
        Type::Follows | Type::Triggers => (i, j.max(k)),
        _ => (i, j),
    }
}

fn stretch(first: usize, last: usize) -> String {
    if first == last {
        format!("in minute {first}")
    } else {
        format!("from minute {first} to minute {last}")
    }
}

/// Which parts hold where, by the clause's type, and where the names of its premise stood.
fn why(clause: &Clause, Place { i, j, k, .. }: Place, names: [Option<usize>; 3]) -> String {
    let parts = match clause.kind {
        Type::Pref => format!("its part doesn't hold {}", stretch(0, j)),
        Type::Anti => format!("its part holds {}", stretch(i, j)),
        Type::Init => {
            format!("its second part holds {}, its first on no beginning of that", stretch(i, j))
        }
        Type::Implies => {
            format!("its first part holds {}, its second doesn't hold there", stretch(i, j))
        }
        Type::Follows | Type::Triggers => {
            let start = if clause.kind == Type::Follows { j } else { i };
            format!(
                "its first part holds {}, its third {} and no sooner, its second on no beginning of that",
                stretch(i, j),
                stretch(start, k)
            )
        }
    };
    format!("{parts}{}{}", untold(clause, names), standing(names))
}

/// The names that are listed by no part of the premise: they were tried on every minute.
fn untold(clause: &Clause, names: [Option<usize>; 3]) -> String {
    let listed_by_some = |name: &usize| clause.parts.iter().any(|part| part.names >> name & 1 == 1);
    let tried: Vec<_> = (0..3)
        .filter(|&name| names[name].is_none())
        .filter(listed_by_some)
        .map(|name| format!("u{name}"))
        .collect();
    match tried.len() {
        0 => String::new(),
        1 => format!(", wherever {} is put", listed(&tried)),
        _ => format!(", wherever {} are put", listed(&tried)),
    }
}

/// Where the names stood.
fn standing(names: [Option<usize>; 3]) -> String {
    let stood: Vec<_> = (0..3)
        .filter_map(|name| names[name].map(|minute| format!("u{name} is in minute {minute}")))
        .collect();
    if stood.is_empty() {
        String::new()
    } else {
        format!("; {}", listed(&stood))
    }
}

/// The trace, a column a minute and a line a signal, and under it for each clause that fails the minutes
/// that it is about, and its names.
fn grid(trace: &Trace, outcomes: &[Outcome], clauses: &[Clause]) -> Vec<String> {
    let cycles = trace.cycles();
    let line = |label: String, mark: &dyn Fn(usize) -> char| {
        let marks: String = (0..cycles.len()).map(mark).collect();
        format!("{label:9}{marks}").trim_end().to_string()
    };
    let digit = |number: usize| char::from(b'0' + (number % 10) as u8);
    let mut lines = vec![];
    if cycles.len() > 10 {
        lines.push(line("minute".to_string(), &|t| if t % 10 == 0 { digit(t / 10) } else { ' ' }));
        lines.push(line(String::new(), &|t| digit(t)));
    } else {
        lines.push(line("minute".to_string(), &|t| digit(t)));
    }
    for signal in 0..trace.signals() {
        lines.push(line(format!("s{signal}"), &|t| {
            if cycles[t] >> signal & 1 == 1 {
                '#'
            } else {
                '.'
            }
        }));
    }
    for (number, outcome) in outcomes.iter().enumerate() {
        if let Outcome::Fails { place, names } = outcome {
            let (first, last) = extent(clauses[number].kind, *place);
            let within = |t: usize| (first..=last).contains(&t);
            lines.push(line(format!("clause {number}"), &|t| if within(t) { '^' } else { ' ' }));
            for (name, minute) in names.iter().enumerate() {
                if let Some(minute) = *minute {
                    lines.push(line(format!("  u{name}"), &|t| {
                        if t == minute {
                            '^'
                        } else {
                            ' '
                        }
                    }));
                }
            }
        }
    }
    lines
}
