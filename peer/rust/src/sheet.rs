//! The text of sheets.

use std::io::{Result, Write};

use crate::bounds::bounds;
use crate::deck::{self, Deck};
use crate::network::{members, BranchSet, Links, Rating};
use crate::scale::{Billionths, NineFigures};
use crate::search::{Ending, Search};

/// Prints the sheets of all doors of a deck, or the refusal of the deck.
pub fn print(out: &mut impl Write, deck: &[u8]) -> Result<()> {
    match deck::read(deck) {
        Ok(deck) => print_doors(out, &deck),
        Err(refusal) => writeln!(out, "{refusal}"),
    }
}

fn print_doors(out: &mut impl Write, deck: &Deck) -> Result<()> {
    let links = Links::new(&deck.network);
    let ratings = deck.network.ratings();
    for &door in &deck.doors {
        match Search::aim(&links, deck.head, door) {
            Ok(mut search) => {
                let ending = search.run();
                print_door(out, door, &search, ending)?;
                let rows: Vec<_> = search.cuts().map(|(branches, _)| branches).collect();
                print_bounds(out, &ratings, &rows, ending == Ending::Finished)?;
            }
            Err(fault) => writeln!(out, "DOOR {door} REFUSED {}", fault.number())?,
        }
    }
    Ok(())
}

/// Prints the first line of a door and its cuts.
fn print_door(out: &mut impl Write, door: u32, search: &Search, ending: Ending) -> Result<()> {
    let word = match ending {
        Ending::Finished => "FINISHED",
        Ending::Full => "FULL",
    };
    let cuts = search.cuts();
    writeln!(
        out,
        "DOOR {door} CUTS {} TRIES {} {word}",
        cuts.len(),
        search.tries()
    )?;
    for (branches, nodes) in cuts {
        out.write_all(b"CUT ")?;
        for k in members(branches) {
            write!(out, "{k} ")?;
        }
        out.write_all(b"/")?;
        for v in members(nodes) {
            write!(out, " {v}")?;
        }
        out.write_all(b"\n")?;
    }
    Ok(())
}

/// Prints the bounds from a list of branch sets in both scales.
pub fn print_bounds(
    out: &mut impl Write,
    ratings: &[Rating],
    rows: &[BranchSet],
    finished: bool,
) -> Result<()> {
    let coarse = bounds::<Billionths>(ratings, rows, finished);
    writeln!(out, "LOW {} HIGH {}", coarse.low, coarse.high)?;
    let fine = bounds::<NineFigures>(ratings, rows, finished);
    let (low, high) = (fine.low, fine.high);
    writeln!(
        out,
        "FINE {} {} {} {}",
        low.m(),
        low.e(),
        high.m(),
        high.e()
    )
}

#[cfg(test)]
mod tests {
    use super::*;

    fn printed(deck: &str) -> String {
        let mut out = Vec::new();
        print(&mut out, deck.as_bytes()).unwrap();
        String::from_utf8(out).unwrap()
    }

    const BRIDGE: &str = "NODES 4 0\nBRANCH 0 1 100000000 9\nBRANCH 0 2 100000000 9\n\
                          BRANCH 1 2 100000000 9\nBRANCH 1 3 100000000 9\n\
                          BRANCH 2 3 100000000 9\n";

    #[test]
    fn the_bridge() {
        let sheet = "DOOR 3 CUTS 4 TRIES 3 FINISHED\nCUT 0 1 / 1 2 3\nCUT 1 2 3 / 2 3\n\
                     CUT 0 2 4 / 1 3\nCUT 3 4 / 3\nLOW 21490000 HIGH 22000000\n\
                     FINE 214900000 10 220000000 10\n";
        assert_eq!(printed(&format!("{BRIDGE}DOOR 3\n")), sheet);
        let twice = format!("DOOR 4 REFUSED 6\n{sheet}DOOR 0 REFUSED 7\n{sheet}");
        assert_eq!(
            printed(&format!("{BRIDGE}DOOR 4\nDOOR 3\nDOOR 0\nDOOR 3\n")),
            twice
        );
    }

    #[test]
    fn bounds_at_the_ends() {
        let sheet = printed("NODES 2 0\nBRANCH 0 1 0 9\nDOOR 1\n");
        assert!(sheet.ends_with("LOW 0 HIGH 0\nFINE 0 9 0 9\n"));
        let sheet = printed("NODES 2 0\nBRANCH 0 1 1000000000 9\nDOOR 1\n");
        assert!(sheet.ends_with("LOW 1000000000 HIGH 1000000000\nFINE 100000000 8 100000000 8\n"));
    }

    #[test]
    fn a_refused_deck_prints_its_refusal_alone() {
        assert_eq!(
            printed("NODES 2 2\n"),
            "DECK REFUSED 5 LAYER S PLACE 0 LINE 1\n"
        );
    }
}
