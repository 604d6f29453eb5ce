//! Networks, and the masks that the search works with.

/// A set of nodes; bit v stands for node v.
pub type NodeSet = u32;

/// A set of branches; bit k stands for branch k.
pub type BranchSet = u64;

/// The most nodes a network has.
pub const MOST_NODES: usize = NodeSet::BITS as usize;

/// The most branches a network has.
pub const MOST_BRANCHES: usize = BranchSet::BITS as usize;

/// What may happen to a branch.
#[derive(Clone, Copy, Debug, PartialEq, Eq)]
pub enum Condition {
    /// It may fail.
    Able,
    /// It is gone.
    Failed,
    /// It is there and cannot fail.
    Working,
}

/// The chance `m / 10^e` that a branch fails.
#[derive(Clone, Copy, Debug, PartialEq, Eq)]
pub struct Rating {
    m: u32,
    e: u32,
}

impl Rating {
    /// The chance 0.
    pub const NEVER: Self = Self { m: 0, e: 9 };

    /// A rating, if `m` and `e` lie in their ranges.
    pub fn new(m: u32, e: u32) -> Option<Self> {
        (m <= 1_000_000_000 && (9..=18).contains(&e)).then_some(Self { m, e })
    }

    /// The figures over the power of ten.
    pub fn m(self) -> u64 {
        u64::from(self.m)
    }

    /// The exponent of the power of ten.
    pub fn e(self) -> u32 {
        self.e
    }
}

/// A branch between two nodes, which may be the same node.
#[derive(Clone, Copy, Debug, PartialEq, Eq)]
pub struct Branch {
    pub ends: [u32; 2],
    pub condition: Condition,
    pub rating: Rating,
}

/// Nodes, numbered from 0, and the branches between them.
///
/// Whoever makes one sees to the limits: at most 32 nodes, at most 64 branches,
/// and every end a node.
#[derive(Clone, Debug, PartialEq, Eq)]
pub struct Network {
    pub nodes: u32,
    pub branches: Vec<Branch>,
}

impl Network {
    /// The ratings of the branches in rising number.
    pub fn ratings(&self) -> Vec<Rating> {
        self.branches.iter().map(|branch| branch.rating).collect()
    }
}

/// The members of a set in rising number.
#[derive(Clone)]
pub struct Members(u64);

/// The members of a set of nodes or of branches in rising number.
pub fn members(set: impl Into<u64>) -> Members {
    Members(set.into())
}

impl Iterator for Members {
    type Item = usize;

    #[inline]
    fn next(&mut self) -> Option<usize> {
        if self.0 == 0 {
            return None;
        }
        let lowest = self.0.trailing_zeros() as usize;
        self.0 &= self.0 - 1;
        Some(lowest)
    }
}

/// For each node, a set of the nodes next to it.
type Neighbours = [NodeSet; MOST_NODES];

/// A network as masks, one per node.
pub struct Links {
    nodes: NodeSet,
    /// Neighbours over branches that have not failed.
    present: Neighbours,
    /// Neighbours over working branches.
    working: Neighbours,
    /// The able branches that lead away from the node.
    able: [BranchSet; MOST_NODES],
}

impl Links {
    /// The masks of a network.
    pub fn new(network: &Network) -> Self {
        let mut links = Self {
            nodes: first_nodes(network.nodes),
            present: [0; MOST_NODES],
            working: [0; MOST_NODES],
            able: [0; MOST_NODES],
        };
        for (k, branch) in network.branches.iter().enumerate() {
            links.add(k, branch);
        }
        links
    }

    fn add(&mut self, k: usize, branch: &Branch) {
        let [a, b] = branch.ends.map(|end| end as usize);
        match branch.condition {
            Condition::Failed => return,
            Condition::Working => connect(&mut self.working, a, b),
            // A branch from a node to itself is put in and taken out again.
            Condition::Able => {
                self.able[a] ^= 1 << k;
                self.able[b] ^= 1 << k;
            }
        }
        connect(&mut self.present, a, b);
    }

    /// The set of all nodes.
    pub fn nodes(&self) -> NodeSet {
        self.nodes
    }

    /// The nodes reached from `from`, itself included, over branches that have
    /// not failed, without entering a node of `avoided`.
    pub fn reached(&self, from: NodeSet, avoided: NodeSet) -> NodeSet {
        spread(&self.present, from, avoided)
    }

    /// The nodes reached from `from`, itself included, over working branches.
    pub fn reached_for_sure(&self, from: NodeSet) -> NodeSet {
        spread(&self.working, from, 0)
    }

    /// The nodes outside `inside` that a present branch joins to one inside.
    pub fn beside(&self, inside: NodeSet) -> NodeSet {
        around(&self.present, inside) & !inside
    }

    /// The able branches that lead out of `inside`.
    pub fn boundary(&self, inside: NodeSet) -> BranchSet {
        members(inside).fold(0, |set, v| set ^ self.able[v])
    }
}

/// The nodes 0 to `count` - 1, for a count of 1 to 32.
fn first_nodes(count: u32) -> NodeSet {
    NodeSet::MAX >> (NodeSet::BITS - count)
}

fn connect(neighbours: &mut Neighbours, a: usize, b: usize) {
    neighbours[a] |= 1 << b;
    neighbours[b] |= 1 << a;
}

/// All neighbours of the nodes in `set`.
fn around(neighbours: &Neighbours, set: NodeSet) -> NodeSet {
    members(set).fold(0, |found, v| found | neighbours[v])
}

/// Everything reached from `from` without entering `avoided`.
fn spread(neighbours: &Neighbours, from: NodeSet, avoided: NodeSet) -> NodeSet {
    let mut reached = from;
    let mut fresh = from;
    while fresh != 0 {
        fresh = around(neighbours, fresh) & !(reached | avoided);
        reached |= fresh;
    }
    reached
}

#[cfg(test)]
mod tests {
    use super::*;

    fn branch(a: u32, b: u32, condition: Condition) -> Branch {
        let rating = Rating::new(1, 9).unwrap();
        Branch {
            ends: [a, b],
            condition,
            rating,
        }
    }

    /// A line 0 - 1 = 2 - 3 with a failed branch to 4 and a loop at 1.
    fn links() -> Links {
        use Condition::{Able, Failed, Working};
        Links::new(&Network {
            nodes: 5,
            branches: vec![
                branch(0, 1, Able),
                branch(1, 2, Working),
                branch(3, 2, Able),
                branch(3, 4, Failed),
                branch(1, 1, Able),
                branch(0, 1, Able),
            ],
        })
    }

    #[test]
    fn ratings_keep_to_their_ranges() {
        assert!(Rating::new(0, 9).is_some());
        assert!(Rating::new(1_000_000_000, 18).is_some());
        assert!(Rating::new(1_000_000_001, 18).is_none());
        assert!(Rating::new(1, 8).is_none());
        assert!(Rating::new(1, 19).is_none());
    }

    #[test]
    fn members_rise() {
        assert_eq!(members(0u64).count(), 0);
        assert_eq!(
            members(0x8000_0000_0000_0005u64).collect::<Vec<_>>(),
            [0, 2, 63]
        );
    }

    #[test]
    fn thirty_two_nodes_fill_the_mask() {
        assert_eq!(first_nodes(2), 3);
        assert_eq!(first_nodes(32), u32::MAX);
    }

    #[test]
    fn nodes_are_reached_over_what_is_there() {
        let links = links();
        assert_eq!(links.reached(1, 0), 0b01111);
        assert_eq!(links.reached(1, 0b00100), 0b00011);
        assert_eq!(links.reached_for_sure(0b00010), 0b00110);
        assert_eq!(links.reached_for_sure(0b00001), 0b00001);
        assert_eq!(links.beside(0b00110), 0b01001);
        assert_eq!(links.beside(0b01000), 0b00100);
    }

    #[test]
    fn a_boundary_has_able_branches_that_leave() {
        let links = links();
        assert_eq!(links.boundary(0b00001), 0b100001);
        assert_eq!(links.boundary(0b00010), 0b100001);
        assert_eq!(links.boundary(0b00011), 0);
        assert_eq!(links.boundary(0b00100), 0b000100);
        assert_eq!(links.boundary(0b01000), 0b000100);
    }
}
