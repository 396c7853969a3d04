//! A payload as a tree of fields, so that a field can be taken out and the
//! lengths around it still fit. Only for shrinking: what does not parse stays
//! as it is, and nothing here decides what is right.

use crate::generate::{lengthened, FORMS};
use crate::model::shortest;

/// One field: its tag as it stood, and what follows it.
#[derive(Clone)]
struct Node {
    tag: Vec<u8>,
    content: Content,
    /// Whether its length was padded; it stays so.
    padded: bool,
}

#[derive(Clone)]
enum Content {
    /// A number, a group's start or end (whose contents follow as siblings).
    Plain(Vec<u8>),
    /// Bytes that are no field list, or none worth taking apart.
    Bytes(Vec<u8>),
    Message(Tree),
}

#[derive(Clone)]
pub struct Tree(Vec<Node>);

impl Tree {
    pub fn parse(mut bytes: &[u8]) -> Option<Tree> {
        let mut nodes = Vec::new();
        while !bytes.is_empty() {
            let (tag, wire) = varint(&mut bytes)?;
            let mut padded = false;
            let content = match wire & 7 {
                0 => Content::Plain(varint(&mut bytes)?.0),
                1 => Content::Plain(take(&mut bytes, 8)?),
                2 => {
                    let (raw, len) = varint(&mut bytes)?;
                    padded = raw != length(len, false);
                    let inner = take(&mut bytes, usize::try_from(len).ok()?)?;
                    let message = Tree::parse(&inner).filter(|tree| !tree.0.is_empty());
                    message.map_or(Content::Bytes(inner), Content::Message)
                }
                3 | 4 => Content::Plain(Vec::new()),
                5 => Content::Plain(take(&mut bytes, 4)?),
                _ => return None,
            };
            nodes.push(Node { tag, content, padded });
        }
        Some(Tree(nodes))
    }

    /// The payload, its lengths in their shortest form or a byte longer.
    pub fn bytes(&self) -> Vec<u8> {
        let mut out = Vec::new();
        for Node { tag, content, padded } in &self.0 {
            out.extend(tag);
            let (inner, delimited) = match content {
                Content::Plain(bytes) => (bytes.clone(), false),
                Content::Bytes(bytes) => (bytes.clone(), true),
                Content::Message(tree) => (tree.bytes(), true),
            };
            if delimited {
                out.extend(length(inner.len() as u64, *padded));
            }
            out.extend(inner);
        }
        out
    }

    /// How many fields the `index`th message has, counted outside in.
    pub fn fields(&mut self, index: usize) -> Option<usize> {
        self.message(&mut { index }).map(|tree| tree.0.len())
    }

    /// The tree without some fields of the `index`th message.
    pub fn without(&self, index: usize, from: usize, to: usize) -> Tree {
        let mut smaller = self.clone();
        if let Some(tree) = smaller.message(&mut { index }) {
            tree.0.drain(from..to.min(tree.0.len()));
        }
        smaller
    }

    fn message(&mut self, index: &mut usize) -> Option<&mut Tree> {
        if *index == 0 {
            return Some(self);
        }
        *index -= 1;
        self.0.iter_mut().find_map(|node| match &mut node.content {
            Content::Message(tree) => tree.message(index),
            _ => None,
        })
    }
}

fn length(len: u64, padded: bool) -> Vec<u8> {
    if padded {
        return lengthened(len, FORMS[0]);
    }
    let mut out = Vec::new();
    shortest(len, &mut out);
    out
}

fn take(bytes: &mut &[u8], len: usize) -> Option<Vec<u8>> {
    let (front, rest) = bytes.split_at_checked(len)?;
    *bytes = rest;
    Some(front.to_vec())
}

/// A varint as it stands, and its value.
fn varint(bytes: &mut &[u8]) -> Option<(Vec<u8>, u64)> {
    let len = bytes.iter().take(10).position(|byte| byte & 0x80 == 0)? + 1;
    let raw = take(bytes, len)?;
    let value = raw.iter().rev().fold(0u64, |value, byte| value << 7 | u64::from(byte & 0x7f));
    Some((raw, value))
}
