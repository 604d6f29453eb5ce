//! Prints the bounds from lists of branch sets.
//!
//! A line of standard input has the name of a deck, `FINISHED` or `OPEN`, and
//! branch sets as decimal numbers in which bit k stands for branch k.  Each
//! line is printed again, with the bounds below it.

use std::collections::HashMap;
use std::error::Error;
use std::fs;
use std::io::{self, BufWriter, Write};

use peer::deck;
use peer::network::{BranchSet, Rating};
use peer::sheet::print_bounds;

type Outcome<T> = Result<T, Box<dyn Error>>;

/// One line of the input.
struct Case<'a> {
    deck: &'a str,
    finished: bool,
    rows: Vec<BranchSet>,
}

impl<'a> Case<'a> {
    fn read(line: &'a str) -> Outcome<Self> {
        let mut words = line.split(' ');
        let deck = words.next().ok_or("no deck")?;
        let finished = match words.next() {
            Some("FINISHED") => true,
            Some("OPEN") => false,
            _ => return Err(format!("neither FINISHED nor OPEN: {line}").into()),
        };
        let rows = words.map(str::parse).collect::<Result<_, _>>()?;
        Ok(Self {
            deck,
            finished,
            rows,
        })
    }
}

fn ratings_of(file: &str) -> Outcome<Vec<Rating>> {
    let bytes = fs::read(file).map_err(|error| format!("{file}: {error}"))?;
    let deck = deck::read(&bytes).map_err(|refusal| format!("{file}: {refusal}"))?;
    Ok(deck.network.ratings())
}

fn main() -> Outcome<()> {
    let mut known = HashMap::new();
    let mut out = BufWriter::new(io::stdout().lock());
    for line in io::stdin().lines() {
        let line = line?;
        let case = Case::read(&line)?;
        if !known.contains_key(case.deck) {
            known.insert(case.deck.to_owned(), ratings_of(case.deck)?);
        }
        writeln!(out, "{line}")?;
        print_bounds(&mut out, &known[case.deck], &case.rows, case.finished)?;
    }
    Ok(out.flush()?)
}
