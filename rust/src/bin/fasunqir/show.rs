//! Stored bytes as people read them: a sheet as typed text, a trace as minutes, a formula in its
//! notation. What these can't say is said beside them, on standard error.

use crate::arguments::Arguments;
use crate::input::{self, Anything, Source};
use crate::output::{numbered, say, Failure, Output, Status};
use fasunqir::{Formula, Role, Sheet, Trace};

pub fn show(arguments: &Arguments, output: &mut Output) -> Result<Status, Failure> {
    match input::anything(Source::read(&arguments.files[0])?, arguments)? {
        Anything::Sheet(given) => sheet(&given.sheet, output),
        Anything::Trace(trace) => minutes(&trace, output),
        Anything::Formula(found) => formula(&found, arguments.ascii, output),
    }
}

fn sheet(sheet: &Sheet, output: &mut Output) -> Result<Status, Failure> {
    let shown = output.text(&sheet.to_string())?;
    let advice = advice(sheet);
    if !advice.is_empty() {
        let (are, so) = if advice.len() == 1 { ("is", "it so") } else { ("are", "them so") };
        say(&format!(
            "{} {are} advice, which a text has no word for; with this text --advice {} makes {so}",
            numbered("clause", &advice),
            advice.iter().map(usize::to_string).collect::<Vec<_>>().join(",")
        ));
    }
    if let Some(why) = unlike(sheet, &advice) {
        say(&why);
    }
    not_shown(sheet.unreached(), "no clause reaches");
    Ok(shown)
}

/// The clauses that are advice.
fn advice(sheet: &Sheet) -> Vec<usize> {
    let clauses = sheet.clauses().into_iter().enumerate();
    clauses.filter(|(_, clause)| clause.role == Role::Advice).map(|(k, _)| k).collect()
}

/// Why the text, with its advice, doesn't give the same bytes again, where it doesn't.
fn unlike(sheet: &Sheet, advice: &[usize]) -> Option<String> {
    let Some(text) = sheet.text() else {
        return Some(
            "typed out the sheet has more than 65536 bytes; here what is used more than once has a \
             name, and this can't be read back"
                .to_string(),
        );
    };
    match text.parse::<Sheet>() {
        Err(error) if error.number() == 20 => Some(format!(
            "the text can't be read back: typed out, with what is shared typed each time, the sheet \
             has {} nodes, and 64 is the most",
            sheet.typed_nodes()
        )),
        Err(error) => Some(format!("the text can't be read back: {}", error.text())),
        Ok(read) => {
            let read = advice.iter().fold(read, |read, &k| read.with_role(k, Role::Advice));
            (read != *sheet).then(|| {
                "stored again the text has other bytes, of the same meaning: each node once for each \
                 time that it is typed, in the order of the text"
                    .to_string()
            })
        }
    }
}

fn minutes(trace: &Trace, output: &mut Output) -> Result<Status, Failure> {
    let text = trace.to_string();
    let shown = output.text(&text)?;
    if text.parse().as_ref() != Ok(trace) {
        let signals = trace.signals();
        say(&format!(
            "the trace has {signals} signals, which the minutes don't say; with them -s {signals} \
             makes it so"
        ));
    }
    Ok(shown)
}

fn formula(formula: &Formula, ascii: bool, output: &mut Output) -> Result<Status, Failure> {
    let shown = output.text(&formula.notation(ascii))?;
    not_shown(formula.unreached(), "the root doesn't reach");
    Ok(shown)
}

fn not_shown(nodes: usize, reached: &str) {
    match nodes {
        0 => {}
        1 => say(&format!("1 node that {reached} is not shown")),
        _ => say(&format!("{nodes} nodes that {reached} are not shown")),
    }
}
