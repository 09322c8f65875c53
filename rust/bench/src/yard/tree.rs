//! The cut tree: each record cuts the tree of those before it in two at its ends, drops
//! the middle and becomes the root. So the stock client resolves a list.

use crate::record::{four, RecordBytes, CHUNK, LIST_RECORDS, RECORD};
use crate::yard::check::checked;
use crate::yard::room::written;
use crate::yard::runs::{Runs, Zeros};
use crate::yard::view::write_run;
use crate::yard::Room;

/// A part of a record, and the parts to both sides: places in the tree, counted from 1, or 0.
#[derive(Clone, Copy)]
struct Node {
    pos: u32,
    end: u32,
    /// The record, counted from 1.
    top: u32,
    left: u32,
    right: u32,
}

/// All nodes stand in one row, which keeps its memory from call to call.
pub struct Tree {
    nodes: Vec<Node>,
    /// Nodes whose left side is being walked.
    path: Vec<u32>,
}

impl Tree {
    pub fn new() -> Tree {
        Tree { nodes: Vec::with_capacity(2 * LIST_RECORDS), path: Vec::with_capacity(LIST_RECORDS) }
    }

    fn add(&mut self, node: Node) -> u32 {
        self.nodes.push(node);
        self.nodes.len() as u32
    }

    fn node(&mut self, place: u32) -> &mut Node {
        &mut self.nodes[place as usize - 1]
    }

    /// What lies in front of the position, and what lies from it on.
    fn cut(&mut self, place: u32, p: u32) -> (u32, u32) {
        if place == 0 {
            return (0, 0);
        }
        let node = *self.node(place);
        if p <= node.pos {
            let (front, back) = self.cut(node.left, p);
            self.node(place).left = back;
            return (front, place);
        }
        if p >= node.end {
            let (front, back) = self.cut(node.right, p);
            self.node(place).right = front;
            return (place, back);
        }
        let back = self.add(Node { pos: p, left: 0, ..node });
        let front = self.node(place);
        (front.end, front.right) = (p, 0);
        (place, back)
    }

    /// The root of the tree of all records.
    fn build(&mut self, records: &[RecordBytes]) -> u32 {
        self.nodes.clear();
        let mut root = 0;
        for (bytes, top) in records.iter().zip(1..) {
            let pos = four(bytes, 0);
            let end = pos + four(bytes, 20);
            if pos < end {
                let (left, rest) = self.cut(root, pos);
                let (_, right) = self.cut(rest, end);
                root = self.add(Node { pos, end, top, left, right });
            }
        }
        root
    }

    /// Calls `visit` with the first position and the record on top of each segment, in order.
    #[inline(always)]
    fn segments(&mut self, root: u32, mut visit: impl FnMut(u32, u32)) {
        let (mut at, mut place) = (0, root);
        self.path.clear();
        loop {
            while place != 0 {
                self.path.push(place);
                place = self.node(place).left;
            }
            let Some(next) = self.path.pop() else {
                break;
            };
            let node = *self.node(next);
            if at < node.pos {
                visit(at, 0);
            }
            visit(node.pos, node.top);
            (at, place) = (node.end, node.right);
        }
        if at < CHUNK {
            visit(at, 0);
        }
    }
}

#[inline(never)]
pub fn view(list: &[u8], room: &mut Room, out: &mut [u8]) -> Option<usize> {
    let Room { tree, sizes, aside, .. } = room;
    let records = checked(list, sizes)?;
    let root = tree.build(records);
    let most = (2 * records.len() + 1) * RECORD;
    written(out, aside, most, |out| write(tree, root, records, out))
}

/// Writes the runs; there is room for all.
#[inline(always)]
fn write(tree: &mut Tree, root: u32, records: &[RecordBytes], out: &mut [u8]) -> usize {
    let (out, _) = out.as_chunks_mut::<RECORD>();
    let mut count = 0;
    let mut runs = Runs::new(records, Zeros::Written, 0, |pos, end, top| {
        write_run(records, pos, end, top, &mut out[count]);
        count += 1;
    });
    tree.segments(root, |at, top| runs.segment(at, top));
    runs.end(CHUNK);
    count * RECORD
}
