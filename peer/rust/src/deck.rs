//! Reading decks.

use std::fmt;

use crate::network::{Branch, Condition, Network, Rating, MOST_BRANCHES, MOST_NODES};

/// The most bytes of a deck.
const MOST_BYTES: usize = 65_536;

/// The most digits of a number on a card.
const MOST_DIGITS: usize = 10;

/// What an accepted deck says.
#[derive(Clone, Debug, PartialEq, Eq)]
pub struct Deck {
    pub head: u32,
    pub network: Network,
    /// The doors in the order of their cards; there may be no such nodes.
    pub doors: Vec<u32>,
}

/// A question that a deck answered with no.
#[derive(Clone, Copy, Debug, PartialEq, Eq)]
pub enum Fault {
    NodeCount,
    BranchCount,
    /// An end of this branch is not a node.
    End(usize),
    /// The rating of this branch is out of range.
    Rating(usize),
    Head,
    Size,
    Word,
    Order,
    Numbers,
    Mark,
}

impl Fault {
    /// The number of the question.
    pub fn number(self) -> u32 {
        match self {
            Self::NodeCount => 1,
            Self::BranchCount => 2,
            Self::End(_) => 3,
            Self::Rating(_) => 4,
            Self::Head => 5,
            Self::Size => 15,
            Self::Word => 16,
            Self::Order => 17,
            Self::Numbers => 18,
            Self::Mark => 19,
        }
    }

    /// The letter of the layer it belongs to.
    pub fn layer(self) -> char {
        match self.number() {
            1..=4 => 'N',
            14..=19 => 'D',
            _ => 'S',
        }
    }

    /// The branch in question, or 0.
    pub fn place(self) -> usize {
        match self {
            Self::End(branch) | Self::Rating(branch) => branch,
            _ => 0,
        }
    }
}

/// A fault and the line it is on; 0 stands for the deck as a whole.
#[derive(Clone, Copy, Debug, PartialEq, Eq)]
pub struct Refusal {
    pub fault: Fault,
    pub line: usize,
}

impl fmt::Display for Refusal {
    fn fmt(&self, f: &mut fmt::Formatter) -> fmt::Result {
        let Self { fault, line } = self;
        let (number, layer, place) = (fault.number(), fault.layer(), fault.place());
        write!(
            f,
            "DECK REFUSED {number} LAYER {layer} PLACE {place} LINE {line}"
        )
    }
}

/// Reads a deck.
pub fn read(bytes: &[u8]) -> Result<Deck, Refusal> {
    let text = match bytes {
        [text @ .., b'\n'] if bytes.len() <= MOST_BYTES => text,
        _ => {
            return Err(Refusal {
                fault: Fault::Size,
                line: 0,
            })
        }
    };
    let mut reader = Reader::default();
    let mut line = 0;
    for words in text.split(|&byte| byte == b'\n') {
        line += 1;
        reader
            .card(words)
            .map_err(|fault| Refusal { fault, line })?;
    }
    reader.finished().map_err(|fault| Refusal {
        fault,
        line: line + 1,
    })
}

/// The five words.
#[derive(Clone, Copy)]
enum Word {
    Nodes,
    Branch,
    Mark(Condition),
    Door,
}

impl Word {
    fn read(word: &[u8]) -> Option<Self> {
        match word {
            b"NODES" => Some(Self::Nodes),
            b"BRANCH" => Some(Self::Branch),
            b"FAILED" => Some(Self::Mark(Condition::Failed)),
            b"WORKING" => Some(Self::Mark(Condition::Working)),
            b"DOOR" => Some(Self::Door),
            _ => None,
        }
    }
}

/// The kind of the last card.
#[derive(Clone, Copy, Default, PartialEq)]
enum Stage {
    #[default]
    Empty,
    Nodes,
    Branches,
    Marks,
    Doors,
}

impl Stage {
    /// The stage after one more card, if that card is in turn.
    fn then(self, word: Word) -> Option<Self> {
        match (self, word) {
            (Self::Empty, Word::Nodes) => Some(Self::Nodes),
            (Self::Nodes | Self::Branches, Word::Branch) => Some(Self::Branches),
            (Self::Branches | Self::Marks, Word::Mark(_)) => Some(Self::Marks),
            (Self::Branches | Self::Marks | Self::Doors, Word::Door) => Some(Self::Doors),
            _ => None,
        }
    }
}

/// What the cards so far have said.
#[derive(Default)]
struct Reader {
    stage: Stage,
    nodes: u32,
    head: u32,
    branches: Vec<Branch>,
    doors: Vec<u32>,
}

impl Reader {
    /// Takes in the card on one line.
    fn card(&mut self, line: &[u8]) -> Result<(), Fault> {
        let mut words = line.split(|&byte| byte == b' ');
        let word = words.next().and_then(Word::read).ok_or(Fault::Word)?;
        self.stage = self.stage.then(word).ok_or(Fault::Order)?;
        match word {
            Word::Nodes => self.nodes(numbers(words)?),
            Word::Branch => self.branch(numbers(words)?),
            Word::Mark(condition) => self.mark(condition, numbers(words)?),
            Word::Door => self.door(numbers(words)?),
        }
    }

    fn nodes(&mut self, [nodes, head]: [u32; 2]) -> Result<(), Fault> {
        if !(2..=MOST_NODES as u32).contains(&nodes) {
            return Err(Fault::NodeCount);
        }
        if head >= nodes {
            return Err(Fault::Head);
        }
        self.nodes = nodes;
        self.head = head;
        Ok(())
    }

    fn branch(&mut self, [a, b, m, e]: [u32; 4]) -> Result<(), Fault> {
        let k = self.branches.len();
        if k == MOST_BRANCHES {
            return Err(Fault::BranchCount);
        }
        if a >= self.nodes || b >= self.nodes {
            return Err(Fault::End(k));
        }
        let rating = Rating::new(m, e).ok_or(Fault::Rating(k))?;
        self.branches.push(Branch {
            ends: [a, b],
            condition: Condition::Able,
            rating,
        });
        Ok(())
    }

    fn mark(&mut self, condition: Condition, [k]: [u32; 1]) -> Result<(), Fault> {
        let branch = self.branches.get_mut(k as usize).ok_or(Fault::Mark)?;
        branch.condition = condition;
        Ok(())
    }

    fn door(&mut self, [door]: [u32; 1]) -> Result<(), Fault> {
        self.doors.push(door);
        Ok(())
    }

    /// The deck, if the last card was a door.
    fn finished(self) -> Result<Deck, Fault> {
        if self.stage != Stage::Doors {
            return Err(Fault::Order);
        }
        let network = Network {
            nodes: self.nodes,
            branches: self.branches,
        };
        Ok(Deck {
            head: self.head,
            network,
            doors: self.doors,
        })
    }
}

/// Exactly N numbers, one for each word.
fn numbers<'a, const N: usize>(
    mut words: impl Iterator<Item = &'a [u8]>,
) -> Result<[u32; N], Fault> {
    let mut found = [0; N];
    for place in &mut found {
        *place = words.next().and_then(number).ok_or(Fault::Numbers)?;
    }
    match words.next() {
        None => Ok(found),
        Some(_) => Err(Fault::Numbers),
    }
}

/// A number of 1 to 10 digits that fits into 32 bits.
fn number(word: &[u8]) -> Option<u32> {
    if word.is_empty() || word.len() > MOST_DIGITS || !word.iter().all(u8::is_ascii_digit) {
        return None;
    }
    let value = word
        .iter()
        .fold(0_u64, |value, digit| value * 10 + u64::from(digit - b'0'));
    u32::try_from(value).ok()
}

#[cfg(test)]
mod tests {
    use super::*;

    const BRANCH: &str = "BRANCH 0 1 5 9\n";

    /// The refusal of a deck as number, place and line.
    fn refusal(deck: &str) -> Option<(u32, usize, usize)> {
        let refused = read(deck.as_bytes()).err()?;
        Some((refused.fault.number(), refused.fault.place(), refused.line))
    }

    #[test]
    fn a_deck() {
        let deck = "NODES 3 2\nBRANCH 0 1 5 9\nBRANCH 01 0000000002 1000000000 18\n\
                    FAILED 1\nWORKING 1\nDOOR 0\nDOOR 4294967295\n";
        let deck = read(deck.as_bytes()).unwrap();
        assert_eq!((deck.network.nodes, deck.head), (3, 2));
        assert_eq!(deck.doors, [0, u32::MAX]);
        let [first, second] = deck.network.branches[..] else {
            panic!()
        };
        assert_eq!((first.ends, first.condition), ([0, 1], Condition::Able));
        assert_eq!(
            (second.ends, second.condition),
            ([1, 2], Condition::Working)
        );
        assert_eq!(second.rating, Rating::new(1_000_000_000, 18).unwrap());
    }

    #[test]
    fn size() {
        assert_eq!(refusal(""), Some((15, 0, 0)));
        assert_eq!(
            refusal("NODES 2 0\nBRANCH 0 1 5 9\nDOOR 1"),
            Some((15, 0, 0))
        );
        assert_eq!(refusal(&"\n".repeat(65_536)), Some((16, 0, 1)));
        assert_eq!(refusal(&"\n".repeat(65_537)), Some((15, 0, 0)));
    }

    #[test]
    fn words() {
        for first in ["", " NODES 2 0", "NODESX 2 0", "nodes 2 0", "NODES\t2 0"] {
            assert_eq!(refusal(&format!("{first}\n")), Some((16, 0, 1)), "{first}");
        }
    }

    #[test]
    fn order() {
        assert_eq!(refusal("BRANCH\n"), Some((17, 0, 1)));
        assert_eq!(refusal("NODES 2 0\nNODES 2 0\n"), Some((17, 0, 2)));
        assert_eq!(refusal("NODES 2 0\nDOOR 1\n"), Some((17, 0, 2)));
        assert_eq!(refusal("NODES 2 0\n"), Some((17, 0, 2)));
        assert_eq!(
            refusal(&format!("NODES 2 0\n{BRANCH}FAILED 0\n{BRANCH}")),
            Some((17, 0, 4))
        );
        assert_eq!(
            refusal(&format!("NODES 2 0\n{BRANCH}FAILED 0\n")),
            Some((17, 0, 4))
        );
        assert_eq!(
            refusal(&format!("NODES 2 0\n{BRANCH}DOOR 1\nFAILED 0\n")),
            Some((17, 0, 4))
        );
    }

    #[test]
    fn card_numbers() {
        for numbers in [
            "",
            " ",
            " 2",
            " 2 0 ",
            " 2 0 0",
            "  2 0",
            " 2 +0",
            " 2 4294967296",
        ] {
            assert_eq!(
                refusal(&format!("NODES{numbers}\n")),
                Some((18, 0, 1)),
                "{numbers}"
            );
        }
        assert_eq!(refusal("NODES 2 00000000000\n"), Some((18, 0, 1)));
        assert_eq!(refusal("NODES 2 0\r\n"), Some((18, 0, 1)));
    }

    #[test]
    fn limits() {
        assert_eq!(refusal("NODES 1 1\n"), Some((1, 0, 1)));
        assert_eq!(refusal("NODES 33 33\n"), Some((1, 0, 1)));
        assert_eq!(refusal("NODES 32 32\n"), Some((5, 0, 1)));
        assert_eq!(
            refusal(&format!("NODES 2 0\n{BRANCH}BRANCH 2 0 5 8\n")),
            Some((3, 1, 3))
        );
        assert_eq!(
            refusal(&format!("NODES 2 0\n{BRANCH}BRANCH 0 1 5 8\n")),
            Some((4, 1, 3))
        );
        let many = BRANCH.repeat(64);
        assert_eq!(refusal(&format!("NODES 2 0\n{many}DOOR 1\n")), None);
        assert_eq!(
            refusal(&format!("NODES 2 0\n{many}BRANCH 2 2 5 8\n")),
            Some((2, 0, 66))
        );
        assert_eq!(
            refusal(&format!("NODES 2 0\n{BRANCH}FAILED 1\n")),
            Some((19, 0, 3))
        );
    }

    #[test]
    fn how_a_refusal_prints() {
        let line = |fault| Refusal { fault, line: 7 }.to_string();
        assert_eq!(line(Fault::End(5)), "DECK REFUSED 3 LAYER N PLACE 5 LINE 7");
        assert_eq!(line(Fault::Head), "DECK REFUSED 5 LAYER S PLACE 0 LINE 7");
        assert_eq!(line(Fault::Mark), "DECK REFUSED 19 LAYER D PLACE 0 LINE 7");
    }
}
