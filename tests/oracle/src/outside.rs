//! Questions outside the domain in which the Rust decides, with document 01's answer for the port:
//! `oracle outside-cases` writes them as cases, `oracle outside` prints what the Rust does with each
//! beside what the port does.

mod column;
mod column_cases;
mod filter;
mod pack;
mod pack_cases;

use std::any::Any;
use std::io::{self, Write};
use std::panic::{self, AssertUnwindSafe};

use crate::line::{self, Line};

/// A question, told in the cells of a row.
trait Question {
    /// The line of docs/DIFFERENCES.md that it shows.
    fn line(&self) -> &'static str;
    /// What is asked: a packer, a column, some values.
    fn of(&self) -> String;
    fn asked(&self) -> String;
    /// What the Rust does, in words. It may panic.
    fn rust(&self) -> String;
    fn port(&self) -> String;
    /// The steps of the case, or none where it has more bytes than can be lent.
    fn case(&self) -> Option<Vec<Line>>;
}

fn questions() -> Vec<Box<dyn Question>> {
    let mut all = pack_cases::questions();
    all.extend(column_cases::questions());
    all.extend(filter::questions());
    all
}

pub fn write_cases(out: &mut impl Write) -> io::Result<()> {
    let questions = questions();
    let mut cases = questions.iter().filter_map(|question| question.case());
    cases.try_for_each(|lines| line::write(&lines, out))
}

pub fn print(out: &mut impl Write) -> io::Result<()> {
    // What a panic says is printed in its row, and not when it happens.
    panic::set_hook(Box::new(|_| {}));
    writeln!(
        out,
        "| what it shows | asked of | question | the Rust | the port |"
    )?;
    writeln!(out, "|---|---|---|---|---|")?;
    for question in questions() {
        let by_contract = match question.case() {
            Some(_) => "",
            None => BY_CONTRACT,
        };
        writeln!(
            out,
            "| {} | {} | {} | {} | {}{by_contract} |",
            question.line(),
            question.of(),
            question.asked(),
            run(|| question.rust())
                .unwrap_or_else(|why| why)
                .replace('|', "\\|"),
            question.port(),
        )?;
    }
    Ok(())
}

/// What the Rust answers, or what its panic says.
fn run<T>(ask: impl FnOnce() -> T) -> Result<T, String> {
    panic::catch_unwind(AssertUnwindSafe(ask))
        .map_err(|why| format!("panics: {}", message(why.as_ref())))
}

fn message(why: &(dyn Any + Send)) -> &str {
    let owned = why.downcast_ref::<String>().map(String::as_str);
    owned
        .or_else(|| why.downcast_ref::<&str>().copied())
        .unwrap_or("without a message")
}

/// After the answer to a question that is no case.
pub const BY_CONTRACT: &str = ", by its contract: too large to be a case";

/// The Rust's fields are private, so that no one can forge them there.
pub const NOT_RUN: &str = "not run: its fields are private";

fn listed(values: impl IntoIterator<Item = impl ToString>) -> String {
    let values: Vec<String> = values.into_iter().map(|value| value.to_string()).collect();
    match values.as_slice() {
        [] => "nothing".to_string(),
        [first, .., last] if values.len() > 5 => format!("{}: {first} to {last}", values.len()),
        _ => values.join(", "),
    }
}
