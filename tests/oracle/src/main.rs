//! Writes the steps of cases with the Rust's answers; the program `replay` has the port take the same steps:
//!
//!     oracle SEED KIND COUNT [KIND COUNT ..]
//!     oracle outside-cases
//!     oracle outside-store-cases
//!
//! and prints what the Rust does outside its domain, beside what the port does: `oracle outside` and
//! `oracle outside-store`. The same words give the same lines. tests/README.md has their form.

mod column;
mod draw;
mod filter;
mod history;
mod line;
mod minmax;
mod outside;
mod outside_store;
mod pack;
mod store;
mod width;

use std::io::{self, BufWriter, Write};

use draw::Draw;

fn main() {
    let words: Vec<String> = std::env::args().skip(1).collect();
    let mut out = BufWriter::new(io::stdout().lock());
    match words.split_first() {
        Some((word, [])) if word == "outside" => outside::print(&mut out),
        Some((word, [])) if word == "outside-cases" => outside::write_cases(&mut out),
        Some((word, [])) if word == "outside-store" => outside_store::print(&mut out),
        Some((word, [])) if word == "outside-store-cases" => outside_store::write_cases(&mut out),
        Some((seed, kinds)) => write_kinds(number(seed), kinds, &mut out),
        None => fail("oracle SEED KIND COUNT [KIND COUNT ..] | outside | outside-cases"),
    }
    .and_then(|()| out.flush())
    .expect("the cases cannot be written");
}

fn write_kinds(seed: u64, kinds: &[String], out: &mut impl Write) -> io::Result<()> {
    for pair in kinds.chunks(2) {
        let [kind, count] = pair else {
            fail("each kind has a count");
        };
        let count = number(count);
        write_kind(kind, count, Draw::new(seed, kind), out)?;
    }
    Ok(())
}

/// A kind's cases come from a sequence of their own, so that they stay the same beside other kinds.
fn write_kind(kind: &str, count: u64, draw: Draw, out: &mut impl Write) -> io::Result<()> {
    match kind {
        "width" => width::write(count, draw, out),
        "minmax" => minmax::write_u64(count, draw, out),
        "minmaxf" => minmax::write_f64(count, draw, out),
        "pack" => pack::write(count, draw, out),
        "get" => column::write_get(count, draw, out),
        "range" => column::write_range(count, draw, out),
        "search" => column::write_search(count, draw, out),
        "filter" => filter::write(count, draw, out),
        "store" => store::write(count, draw, out),
        _ => fail(&format!("there is no kind {kind}")),
    }
}

fn number(word: &str) -> u64 {
    word.parse()
        .unwrap_or_else(|_| fail(&format!("{word} is not a number")))
}

fn fail(why: &str) -> ! {
    eprintln!("oracle: {why}");
    std::process::exit(2)
}
