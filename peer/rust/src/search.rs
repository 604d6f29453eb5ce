//! The search for the minimal cuts of a door.

use crate::network::{BranchSet, Links, NodeSet};

/// The most rows that a search writes.
pub const MOST_ROWS: usize = 512;

/// Why a door cannot be studied.
#[derive(Clone, Copy, Debug, PartialEq, Eq)]
pub enum DoorFault {
    /// There is no such node.
    NoNode,
    /// It is the head itself.
    IsHead,
    /// Nothing leads there.
    Unjoined,
    /// Working branches alone lead there, so nothing cuts it off.
    NeverCut,
}

impl DoorFault {
    /// The number that a sheet shows for it.
    pub fn number(self) -> u32 {
        match self {
            Self::NoNode => 6,
            Self::IsHead => 7,
            Self::Unjoined => 8,
            Self::NeverCut => 9,
        }
    }
}

/// How a search ended.
#[derive(Clone, Copy, Debug, PartialEq, Eq)]
pub enum Ending {
    /// No row has a candidate left: every minimal cut is listed.
    Finished,
    /// There is no room for the next row.
    Full,
}

/// One cut, by the nodes that stay with the head.
#[derive(Clone, Copy, Debug)]
struct Row {
    inside: NodeSet,
    barred: NodeSet,
    /// The candidates: nodes beside the inside that are not barred.
    open: NodeSet,
}

impl Row {
    fn new(links: &Links, inside: NodeSet, barred: NodeSet) -> Self {
        let open = links.beside(inside) & !barred;
        Self {
            inside,
            barred,
            open,
        }
    }

    fn bar(&mut self, node: NodeSet) {
        self.barred |= node;
        self.open &= !node;
    }
}

/// A search for the cuts of one door.
pub struct Search<'a> {
    links: &'a Links,
    door: NodeSet,
    rows: Vec<Row>,
    /// No row before this one has a candidate; barred sets only grow.
    current: usize,
    tries: u32,
}

impl<'a> Search<'a> {
    /// Starts a search with its first row.
    pub fn aim(links: &'a Links, head: u32, door: u32) -> Result<Self, DoorFault> {
        let door = door_set(links, head, door)?;
        let rows = Vec::with_capacity(MOST_ROWS);
        let mut search = Self {
            links,
            door,
            rows,
            current: 0,
            tries: 0,
        };
        let inside = search.closure(1 << head);
        search.rows.push(Row::new(links, inside, door));
        Ok(search)
    }

    /// Makes tries until there is nothing left to try or no room for a row.
    pub fn run(&mut self) -> Ending {
        while let Some(row) = self.rows.get(self.current).copied() {
            if row.open == 0 {
                self.current += 1;
                continue;
            }
            let node = row.open & row.open.wrapping_neg();
            let inside = self.closure(row.inside | node);
            if inside & row.barred == 0 {
                if self.rows.len() == MOST_ROWS {
                    return Ending::Full;
                }
                self.rows.push(Row::new(self.links, inside, row.barred));
            }
            self.rows[self.current].bar(node);
            self.tries += 1;
        }
        Ending::Finished
    }

    /// The tries made so far.
    pub fn tries(&self) -> u32 {
        self.tries
    }

    /// The branch set and the node vector of each row in listing order.
    pub fn cuts(&self) -> impl ExactSizeIterator<Item = (BranchSet, NodeSet)> + '_ {
        let shown = |row: &Row| {
            (
                self.links.boundary(row.inside),
                self.links.nodes() & !row.inside,
            )
        };
        self.rows.iter().map(shown)
    }

    /// All that is cut off from the door once `start`, and what is surely
    /// joined to it, is taken away; all nodes if the door itself is among that.
    fn closure(&self, start: NodeSet) -> NodeSet {
        let held = self.links.reached_for_sure(start);
        if held & self.door != 0 {
            return self.links.nodes();
        }
        self.links.nodes() & !self.links.reached(self.door, held)
    }
}

/// The door as a set, if it can be studied from this head.
fn door_set(links: &Links, head: u32, door: u32) -> Result<NodeSet, DoorFault> {
    let head = 1 << head;
    let door = 1_u32.checked_shl(door).unwrap_or(0) & links.nodes();
    if door == 0 {
        Err(DoorFault::NoNode)
    } else if door == head {
        Err(DoorFault::IsHead)
    } else if links.reached(head, 0) & door == 0 {
        Err(DoorFault::Unjoined)
    } else if links.reached_for_sure(head) & door != 0 {
        Err(DoorFault::NeverCut)
    } else {
        Ok(door)
    }
}

#[cfg(test)]
mod tests {
    use super::*;
    use crate::network::{Branch, Condition, Network, Rating};

    const BRIDGE: [[u32; 2]; 5] = [[0, 1], [0, 2], [1, 2], [1, 3], [2, 3]];

    fn links(nodes: u32, pairs: &[[u32; 2]], marks: &[(usize, Condition)]) -> Links {
        let rating = Rating::new(1, 9).unwrap();
        let able = |&ends| Branch {
            ends,
            condition: Condition::Able,
            rating,
        };
        let mut branches: Vec<_> = pairs.iter().map(able).collect();
        for &(k, condition) in marks {
            branches[k].condition = condition;
        }
        Links::new(&Network { nodes, branches })
    }

    /// Cuts as numbers, the tries and the ending of a search from node 0.
    fn found(links: &Links, door: u32) -> (Vec<BranchSet>, u32, Ending) {
        let mut search = Search::aim(links, 0, door).ok().unwrap();
        let ending = search.run();
        (
            search.cuts().map(|(set, _)| set).collect(),
            search.tries(),
            ending,
        )
    }

    fn fault(links: &Links, door: u32) -> Option<u32> {
        Search::aim(links, 0, door).err().map(DoorFault::number)
    }

    fn three_chains(length: u32) -> (u32, Vec<[u32; 2]>) {
        let last = 3 * length + 1;
        let mut pairs = Vec::new();
        for first in [1, length + 1, 2 * length + 1] {
            pairs.push([0, first]);
            pairs.extend((first..first + length - 1).map(|v| [v, v + 1]));
            pairs.push([first + length - 1, last]);
        }
        (last, pairs)
    }

    #[test]
    fn bridge() {
        let links = links(4, &BRIDGE, &[]);
        assert_eq!(
            found(&links, 3),
            (vec![0b11, 0b1110, 0b10101, 0b11000], 3, Ending::Finished)
        );
    }

    #[test]
    fn bridge_with_marks() {
        let sure = links(4, &BRIDGE, &[(2, Condition::Working)]);
        assert_eq!(found(&sure, 3), (vec![0b11, 0b11000], 2, Ending::Finished));
        let gone = links(4, &BRIDGE, &[(2, Condition::Failed)]);
        let cuts = vec![0b11, 0b1010, 0b10001, 0b11000];
        assert_eq!(found(&gone, 3), (cuts, 3, Ending::Finished));
    }

    #[test]
    fn a_try_may_write_no_row() {
        let links = links(4, &[[0, 1], [0, 2], [1, 2], [2, 3]], &[]);
        assert_eq!(
            found(&links, 3),
            (vec![0b11, 0b110, 0b1000], 3, Ending::Finished)
        );
    }

    #[test]
    fn ring_of_four() {
        let links = links(4, &[[0, 1], [1, 2], [2, 3], [3, 0]], &[]);
        let cuts = vec![0b1001, 0b1010, 0b101, 0b110];
        assert_eq!(found(&links, 2), (cuts, 3, Ending::Finished));
    }

    #[test]
    fn a_spur_is_in_no_cut() {
        let links = links(3, &[[0, 1], [0, 2]], &[]);
        assert_eq!(found(&links, 1), (vec![0b1], 0, Ending::Finished));
    }

    #[test]
    fn doors_that_are_refused() {
        use Condition::{Failed, Working};
        let plain = links(4, &BRIDGE, &[]);
        assert_eq!(fault(&plain, 4), Some(6));
        assert_eq!(fault(&plain, 32), Some(6));
        assert_eq!(fault(&plain, u32::MAX), Some(6));
        assert_eq!(fault(&plain, 0), Some(7));
        assert_eq!(
            fault(&links(4, &BRIDGE, &[(3, Failed), (4, Failed)]), 3),
            Some(8)
        );
        assert_eq!(
            fault(&links(4, &BRIDGE, &[(0, Working), (3, Working)]), 3),
            Some(9)
        );
    }

    #[test]
    fn chains_of_seven_just_fit() {
        let (door, pairs) = three_chains(7);
        let (cuts, _, ending) = found(&links(door + 1, &pairs, &[]), door);
        assert_eq!((cuts.len(), ending), (512, Ending::Finished));
    }

    #[test]
    fn chains_of_ten_do_not() {
        let (door, pairs) = three_chains(10);
        let (cuts, _, ending) = found(&links(door + 1, &pairs, &[]), door);
        assert_eq!((cuts.len(), ending), (512, Ending::Full));
    }
}
