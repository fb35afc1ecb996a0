//! A collector: an arena of nodes that name one another by number, the identities met, and visitors that enter and leave.
use super::graph::{Graph, push_path};
use super::key::Key;
use std::cmp::Ordering;
use std::collections::BTreeSet;
use std::fmt::Write;

struct Node {
    key: Key,
    parent: usize,
    children: Vec<usize>,
    bytes: usize,
    is_unique: bool,
    below: usize,
}

pub struct Collector {
    nodes: Vec<Node>,
    current: usize,
    places: Vec<usize>,
    met: BTreeSet<(u64, u64)>,
}

/// A place in a collector. Its end is one step back.
pub struct Visitor<'a> {
    collector: &'a mut Collector,
}

impl Collector {
    pub fn new() -> Collector {
        let nodes = vec![new_node(Key::new(""), 0)];
        Collector {
            nodes,
            current: 0,
            places: Vec::new(),
            met: BTreeSet::new(),
        }
    }

    pub fn root_visitor(&mut self) -> Visitor<'_> {
        self.places.push(self.current);
        Visitor { collector: self }
    }

    fn enter(&mut self, key: Key, size: usize, is_unique: bool) {
        let node = self.add(key, size, is_unique);
        self.places.push(self.current);
        self.current = node;
    }

    fn point_to(&mut self, key: Key, size: usize, identity: (u64, u64)) -> bool {
        self.add(key, size, false);
        let is_first = self.met.insert(identity);
        if is_first {
            self.places.push(self.current);
            self.current = 0;
        }
        is_first
    }

    fn leave(&mut self) {
        if let Some(place) = self.places.pop() {
            self.current = place;
        }
    }

    fn add(&mut self, key: Key, size: usize, is_unique: bool) -> usize {
        let at = self.current;
        let node = self.child(at, key);
        let entered = &mut self.nodes[node];
        entered.bytes += size;
        entered.is_unique |= is_unique;
        let parent = entered.parent;
        self.nodes[parent].below += size;
        node
    }

    fn child(&mut self, at: usize, key: Key) -> usize {
        match self.find(at, &key) {
            Ok(place) => self.nodes[at].children[place],
            Err(place) => {
                let node = self.nodes.len();
                self.nodes.push(new_node(key, at));
                self.nodes[at].children.insert(place, node);
                node
            }
        }
    }

    fn find(&self, at: usize, key: &Key) -> Result<usize, usize> {
        let children = &self.nodes[at].children;
        let compare = |node: &usize| -> Ordering { self.nodes[*node].key.text().cmp(key.text()) };
        match children.last() {
            Some(last) if compare(last).is_lt() => Err(children.len()),
            _ => children.binary_search_by(compare),
        }
    }

    /// The graph, and the text of the warnings.
    pub fn finish(self) -> (Graph, String) {
        let mut warnings = String::new();
        let graph = self.make(0, &mut Vec::new(), &mut warnings);
        (graph, warnings)
    }

    fn make(&self, at: usize, keys: &mut Vec<&'static str>, text: &mut String) -> Graph {
        let node = &self.nodes[at];
        let mut graph = Graph::default();
        graph.add_self(if node.is_unique {
            node.bytes
        } else {
            node.bytes.saturating_sub(node.below)
        });
        if at != 0 && !node.is_unique && node.bytes < node.below {
            push_warning(keys, node, text);
        }
        for &child in &node.children {
            let key = self.nodes[child].key;
            keys.push(key.text());
            graph.add_child(key, self.make(child, keys, text));
            keys.pop();
        }
        graph
    }
}

fn new_node(key: Key, parent: usize) -> Node {
    Node {
        key,
        parent,
        children: Vec::new(),
        bytes: 0,
        is_unique: false,
        below: 0,
    }
}

fn push_warning(keys: &[&'static str], node: &Node, text: &mut String) {
    text.push_str("Incorrect size declaration for node `");
    push_path(keys, text);
    let (bytes, below) = (node.bytes, node.below);
    writeln!(
        text,
        "`, size of self: {bytes}, size of inline children: {below}"
    )
    .unwrap();
}

impl Visitor<'_> {
    pub fn enter(&mut self, key: Key, size: usize) -> Visitor<'_> {
        self.collector.enter(key, size, false);
        Visitor {
            collector: self.collector,
        }
    }

    pub fn enter_unique(&mut self, key: Key, size: usize) -> Visitor<'_> {
        self.collector.enter(key, size, true);
        Visitor {
            collector: self.collector,
        }
    }

    pub fn enter_shared(
        &mut self,
        key: Key,
        size: usize,
        identity: (u64, u64),
    ) -> Option<Visitor<'_>> {
        let is_first = self.collector.point_to(key, size, identity);
        is_first.then(|| Visitor {
            collector: self.collector,
        })
    }

    pub fn visit_simple(&mut self, key: Key, size: usize) {
        self.enter(key, size);
    }
}

impl Drop for Visitor<'_> {
    fn drop(&mut self) {
        self.collector.leave();
    }
}
