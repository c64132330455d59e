//! The tree of a score.

use crate::error::{status_of, Error};
use crate::kind::Kind;
use crate::library::{self, NodeRecord};
use crate::texts::filled;

/// How many records a buffer has at first, beside one for each byte of the score and a quarter.
const LEAST: usize = 64;

/// The tree of a score: a list of nodes, in the order of the score, each before those that lie in it. The first is the file, in which all others lie. Each
/// byte of the score belongs to the innermost node that holds it.
#[derive(Clone, Debug)]
pub struct Tree<'a> {
    score: &'a [u8],
    records: Vec<NodeRecord>,
}

/// A node of a tree: what it is, its bytes, and what its kind says of it in numbers. Those of its bytes that lie in no node inside it are its own.
#[derive(Clone, Copy, Debug)]
pub struct Node<'t> {
    tree: &'t Tree<'t>,
    number: usize,
}

/// Reads `score` under the default limits, and returns its tree.
///
/// # Errors
///
/// [`Error::NoMemory`].
///
/// # Examples
///
/// ```
/// use gregorio_chant::{tree, Kind};
///
/// let score = "%%\nKy(f.g) % sung twice";
/// let tree = tree(score)?;
/// let notes: Vec<&str> = tree.iter().filter(|it| it.kind() == Kind::Note).map(|it| &score[it.begin()..it.end()]).collect();
/// assert_eq!(notes, ["f.", "g"]);
/// # Ok::<(), gregorio_chant::Error>(())
/// ```
pub fn tree<'a>(score: &'a (impl AsRef<[u8]> + ?Sized)) -> Result<Tree<'a>, Error> {
    let score = score.as_ref();
    let mut records = filled::<NodeRecord>(score.len().saturating_add(score.len() / 4).saturating_add(LEAST))?;
    loop {
        let mut count = 0;
        status_of(library::tree(score, &mut records, &mut count))?;
        if count <= records.len() {
            records.truncate(count);
            return Tree::of(score, records);
        }
        records = filled(count)?;
    }
}

impl<'a> Tree<'a> {
    /// Returns the tree of these records, if all are of kinds that are known.
    fn of(score: &'a [u8], records: Vec<NodeRecord>) -> Result<Tree<'a>, Error> {
        match records.iter().find(|it| Kind::with_number(it.kind).is_none()) {
            Some(other) => Err(Error::Library(u32::from(other.kind))),
            None => Ok(Tree { score, records }),
        }
    }

    /// Returns the number of its nodes, which is at least 1.
    #[must_use]
    #[allow(clippy::len_without_is_empty)]
    pub fn len(&self) -> usize {
        self.records.len()
    }

    /// Returns the node with this number, from 0.
    #[must_use]
    pub fn get(&self, number: usize) -> Option<Node<'_>> {
        (number < self.records.len()).then_some(Node { tree: self, number })
    }

    /// Returns the file.
    #[must_use]
    pub fn root(&self) -> Node<'_> {
        Node { tree: self, number: 0 }
    }

    /// Returns an iterator over all nodes, in order.
    pub fn iter(&self) -> impl DoubleEndedIterator<Item = Node<'_>> + ExactSizeIterator {
        (0..self.len()).map(|number| Node { tree: self, number })
    }
}

impl<'t> Node<'t> {
    fn record(&self) -> NodeRecord {
        self.tree.records.get(self.number).copied().unwrap_or_default()
    }

    /// Returns its number in the tree, from 0.
    #[must_use]
    pub fn number(&self) -> usize {
        self.number
    }

    /// Returns what it is.
    #[must_use]
    pub fn kind(&self) -> Kind {
        Kind::with_number(self.record().kind).unwrap_or(Kind::Unread)
    }

    /// Returns its first byte, from 0.
    #[must_use]
    pub fn begin(&self) -> usize {
        self.record().begin as usize
    }

    /// Returns the byte after its last one.
    #[must_use]
    pub fn end(&self) -> usize {
        self.record().end as usize
    }

    /// Returns the three numbers that its kind says.
    #[must_use]
    pub fn values(&self) -> [u16; 3] {
        let record = self.record();
        [record.a, record.b, record.c]
    }

    /// Returns all of its bytes.
    #[must_use]
    pub fn source(&self) -> &'t [u8] {
        self.tree.score.get(self.begin()..self.end()).unwrap_or_default()
    }

    /// Returns an iterator over the nodes that lie in it, at any depth, in order.
    pub fn inside(&self) -> impl DoubleEndedIterator<Item = Node<'t>> + ExactSizeIterator {
        let tree = self.tree;
        (self.number + 1..self.past()).map(move |number| Node { tree, number })
    }

    /// Returns an iterator over the nodes that lie directly in it, in order.
    pub fn children(&self) -> impl Iterator<Item = Node<'t>> {
        let (tree, past) = (self.tree, self.past());
        let first = (self.number + 1 < past).then_some(Node {
            tree,
            number: self.number + 1,
        });
        std::iter::successors(first, move |it| {
            let number = it.past();
            (number < past).then_some(Node { tree, number })
        })
    }

    /// Returns an iterator over its own bytes, those that lie in no node inside it: what stands before, between and after its children.
    pub fn own(&self) -> impl Iterator<Item = &'t [u8]> {
        let score = self.tree.score;
        let begins = std::iter::once(self.begin()).chain(self.children().map(|it| it.end()));
        let ends = self.children().map(|it| it.begin()).chain(std::iter::once(self.end()));
        begins.zip(ends).map(move |(begin, end)| score.get(begin..end).unwrap_or_default())
    }

    /// Returns the number of the node after it and all that lie in it.
    fn past(&self) -> usize {
        let inner = self.record().inner as usize;
        self.tree.len().min(self.number.saturating_add(inner).saturating_add(1))
    }
}
