//! Pinned states. Each pin keeps the records that nodes had when they were first changed after it. So a view of a pin reads the
//! first record that its pin or a later one keeps, or else that of the tree.
use crate::texts::Fast;
use crate::tree::{Node, Part, Tree};
use std::collections::HashMap;

/// The view of a tree as it is.
pub const NOW: usize = usize::MAX;

/// The greatest number of pins at a time.
pub const MOST_PINS: usize = 16;

pub struct Image {
    node: Node,
    parts: Box<[Part]>,
}

/// The numbers of rows, classes, nodes and links.
#[derive(Clone, Copy)]
pub struct Counts {
    pub rows: usize,
    pub classes: usize,
    pub nodes: usize,
    pub links: usize,
}

pub struct Pin {
    name: String,
    pub counts: Counts,
    /// The records by node number. None for a node that was added later.
    images: HashMap<u32, Option<Box<Image>>, Fast>,
}

impl Tree {
    /// Keeps a node's record for the last pin.
    pub fn save(&mut self, node: u32) {
        let Some(pin) = self.pins.last_mut() else { return };
        let parts = &self.parts[node as usize * self.measures..][..self.measures];
        pin.images.entry(node).or_insert_with(|| {
            let node = self.nodes[node as usize].clone();
            Some(Box::new(Image { node, parts: parts.into() }))
        });
    }

    /// Marks a node as one that didn't exist at the last pin.
    pub fn save_new(&mut self, node: u32) {
        if let Some(pin) = self.pins.last_mut() {
            pin.images.entry(node).or_insert(None);
        }
    }

    fn image(&self, node: u32) -> Option<&Image> {
        self.pins[self.view..].iter().find_map(|pin| pin.images.get(&node))?.as_deref()
    }

    pub fn node_then(&self, node: u32) -> &Node {
        self.image(node).map_or_else(|| &self.nodes[node as usize], |image| &image.node)
    }

    pub fn parts_then(&self, node: u32) -> &[Part] {
        let own = || &self.parts[node as usize * self.measures..][..self.measures];
        self.image(node).map_or_else(own, |image| &image.parts)
    }

    pub fn pinned(&self, name: &str) -> Option<usize> {
        self.pins.iter().position(|pin| pin.name == name)
    }

    pub fn pin(&mut self, name: &str, counts: Counts) {
        self.pins.push(Pin { name: name.to_string(), counts, images: HashMap::default() });
    }

    /// Removes a pin. The pin before it takes over its records.
    pub fn unpin(&mut self, place: usize) {
        let pin = self.pins.remove(place);
        if let Some(before) = place.checked_sub(1) {
            for (node, image) in pin.images {
                self.pins[before].images.entry(node).or_insert(image);
            }
        }
    }
}
