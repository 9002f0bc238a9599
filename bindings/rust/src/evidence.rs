//! Where an accepted signature differs from what its key makes.

use std::fmt;

use crate::ffi::RawEvidence;

/// Evidence that a key didn't make bytes that it accepts. It is written as `slh_cli` writes it.
#[derive(Clone, Copy, Debug, PartialEq, Eq, Hash)]
#[allow(missing_docs)] // the fields' names say all that there is
pub enum Evidence {
    /// A secret of a tree of the forest (height 0), or the two children of one of its nodes.
    ForsNode { tree: u32, height: u32 },
    /// The roots of all trees of the forest.
    ForsRoots,
    /// A value of a chain, before a step.
    ChainStep { layer: u32, chain: u32, step: u32 },
    /// The ends of all chains of a key pair.
    Leaf { layer: u32 },
    /// The two children of a node of a layer's tree.
    TreeNode { layer: u32, height: u32 },
    /// A chain's value at a digit that is smaller than the key's.
    Early { layer: u32, chain: u32 },
}

impl Evidence {
    /// As the library has it: what a kind doesn't have is 0.
    pub(crate) fn to_raw(self) -> RawEvidence {
        let (kind, layer, index, level) = match self {
            Evidence::ForsNode { tree, height } => (1, 0, tree, height),
            Evidence::ForsRoots => (2, 0, 0, 0),
            Evidence::ChainStep { layer, chain, step } => (3, layer, chain, step),
            Evidence::Leaf { layer } => (4, layer, 0, 0),
            Evidence::TreeNode { layer, height } => (5, layer, 0, height),
            Evidence::Early { layer, chain } => (6, layer, chain, 0),
        };
        RawEvidence { kind, layer, index, level }
    }

    /// What the library wrote, none where no evidence has the kind.
    pub(crate) fn of_raw(raw: RawEvidence) -> Option<Evidence> {
        let RawEvidence { kind, layer, index, level } = raw;
        match kind {
            1 => Some(Evidence::ForsNode { tree: index, height: level }),
            2 => Some(Evidence::ForsRoots),
            3 => Some(Evidence::ChainStep { layer, chain: index, step: level }),
            4 => Some(Evidence::Leaf { layer }),
            5 => Some(Evidence::TreeNode { layer, height: level }),
            6 => Some(Evidence::Early { layer, chain: index }),
            _ => None,
        }
    }
}

impl fmt::Display for Evidence {
    fn fmt(&self, formatter: &mut fmt::Formatter<'_>) -> fmt::Result {
        match self {
            Evidence::ForsNode { tree, height } => write!(formatter, "fors-node {tree} {height}"),
            Evidence::ForsRoots => formatter.write_str("fors-roots"),
            Evidence::ChainStep { layer, chain, step } => {
                write!(formatter, "chain-step {layer} {chain} {step}")
            }
            Evidence::Leaf { layer } => write!(formatter, "leaf {layer}"),
            Evidence::TreeNode { layer, height } => write!(formatter, "tree-node {layer} {height}"),
            Evidence::Early { layer, chain } => write!(formatter, "early {layer} {chain}"),
        }
    }
}

#[cfg(test)]
mod tests {
    use super::*;

    #[test]
    fn kinds_are_those_of_the_header() {
        let include = concat!(env!("CARGO_MANIFEST_DIR"), "/../../crates/slh_dsa_c/include/");
        let header = std::fs::read_to_string(format!("{include}slh_dsa.h")).expect("slh_dsa.h");
        for (name, evidence) in [
            ("FORS_NODE = 1,", Evidence::ForsNode { tree: 7, height: 8 }),
            ("FORS_ROOTS = 2,", Evidence::ForsRoots),
            ("CHAIN_STEP = 3,", Evidence::ChainStep { layer: 6, chain: 7, step: 8 }),
            ("LEAF = 4,", Evidence::Leaf { layer: 6 }),
            ("TREE_NODE = 5,", Evidence::TreeNode { layer: 6, height: 8 }),
            ("EARLY = 6 ", Evidence::Early { layer: 6, chain: 7 }),
        ] {
            assert!(header.contains(&format!("SLH_DSA_EVIDENCE_{name}")), "{name}");
            let raw = evidence.to_raw();
            assert!(name.contains(&format!(" = {}", raw.kind)), "{name}");
            assert!([(raw.layer, 6), (raw.index, 7), (raw.level, 8)]
                .iter()
                .all(|(field, own)| *field == 0 || field == own));
            assert_eq!(Evidence::of_raw(raw), Some(evidence));
        }
        for kind in [0, 7, u32::MAX] {
            assert_eq!(Evidence::of_raw(RawEvidence { kind, ..RawEvidence::default() }), None);
        }
    }
}
