//! A tree of nodes over the maps of Rust's standard library, to measure the indexed tree beside: it answers the command
//! `btree put|at|child|under|cut|shuffle COUNT` as `nucleus_bench ask index` does.

use std::collections::{BTreeMap, BTreeSet};
use std::process::ExitCode;

/// How many files a folder has.
const FILES: u64 = 50;

/// How far it is from one node to the next in an order that jumps.
const JUMP: u64 = 7_919;

struct Node {
    parent: u64,
    name: Vec<u8>,
    is_folder: bool,
    #[allow(dead_code)]
    version: u64,
}

#[derive(Default)]
struct Tree {
    nodes: BTreeMap<u64, Node>,
    places: BTreeMap<(u64, Vec<u8>), u64>,
    children: BTreeMap<u64, BTreeSet<u64>>,
}

impl Tree {
    fn is_folder(&self, id: u64) -> bool {
        id == 0 || self.nodes.get(&id).is_some_and(|node| node.is_folder)
    }

    fn at(&self, parent: u64, name: &[u8]) -> Option<u64> {
        self.places.get(&(parent, name.to_vec())).copied()
    }

    fn child(&self, id: u64, i: usize) -> Option<u64> {
        self.children.get(&id)?.iter().nth(i).copied()
    }

    fn under(&self, id: u64, above: u64) -> bool {
        let mut at = id;
        loop {
            if at == above {
                return true;
            }
            match self.nodes.get(&at) {
                Some(node) => at = node.parent,
                None => return false,
            }
        }
    }

    /// Whether the node may come to an identity that isn't there, and does.
    fn put(&mut self, id: u64, node: Node) -> bool {
        let place = (node.parent, node.name.clone());
        if self.nodes.contains_key(&id) || !self.is_folder(node.parent) {
            return false;
        }
        if self.places.contains_key(&place) || self.under(node.parent, id) {
            return false;
        }
        self.children.entry(node.parent).or_default().insert(id);
        self.places.insert(place, id);
        self.nodes.insert(id, node);
        true
    }

    /// Whether the node is there without children, and goes.
    fn cut(&mut self, id: u64) -> bool {
        if self.child(id, 0).is_some() {
            return false;
        }
        let Some(node) = self.nodes.remove(&id) else {
            return false;
        };
        if let Some(siblings) = self.children.get_mut(&node.parent) {
            siblings.remove(&id);
        }
        self.places.remove(&(node.parent, node.name));
        true
    }
}

/// Whether the node of this number is a folder; all else are files.
fn is_folder(number: u64) -> bool {
    number % (FILES + 1) == 0
}

fn filled(count: u64) -> Tree {
    let mut tree = Tree::default();
    let mut parent = 0;
    for number in 0..count {
        let id = number + 1;
        let is_folder = is_folder(number);
        let letter = if is_folder { 'd' } else { 'f' };
        let node = Node {
            parent: if is_folder { 0 } else { parent },
            name: format!("{letter}{number}").into_bytes(),
            is_folder,
            version: if is_folder { 0 } else { id },
        };
        assert!(tree.put(id, node));
        if is_folder {
            parent = id;
        }
    }
    tree
}

/// Whether something is answered of the i-th node.
fn answered(tree: &Tree, asked: &str, i: u64, id: u64) -> bool {
    let Some(node) = tree.nodes.get(&id) else {
        return false;
    };
    match asked {
        "at" => tree.at(node.parent, &node.name) == Some(id),
        "child" => tree.child(node.parent, (i % FILES) as usize).is_some(),
        _ => tree.under(id, 1),
    }
}

fn answers(asked: &str, count: u64) -> Option<u64> {
    let mut tree = filled(count);
    match asked {
        "put" => Some(tree.nodes.len() as u64),
        "cut" => Some((1..=count).rev().filter(|id| tree.cut(*id)).count() as u64),
        "shuffle" => {
            let numbers = (0..count).map(|i| i * JUMP % count);
            let files = numbers.filter(|number| !is_folder(*number));
            Some(files.filter(|number| tree.cut(number + 1)).count() as u64)
        }
        "at" | "child" | "under" => {
            let found = (0..count).filter(|i| answered(&tree, asked, *i, i + 1));
            Some(found.count() as u64)
        }
        _ => None,
    }
}

fn main() -> ExitCode {
    let words: Vec<String> = std::env::args().skip(1).collect();
    let said = match words.as_slice() {
        [asked, count] => count.parse().ok().and_then(|count| answers(asked, count)),
        _ => None,
    };
    match said {
        Some(said) => {
            println!("{} {said}", words[0]);
            ExitCode::SUCCESS
        }
        None => {
            eprintln!("usage: btree put|at|child|under|cut|shuffle COUNT");
            ExitCode::from(2)
        }
    }
}
