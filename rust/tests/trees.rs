//! Tries trees: their form, the kinds, long scores, threads.

mod inputs;

use gregorio_chant::{tree, Kind, Node, Tree};
use inputs::{inputs, of_project};
use std::fs;
use std::thread;

/// Returns whether each node lies within this one, after the one before it, and how many bytes are own ones.
fn own_bytes(node: Node<'_>) -> usize {
    let mut at = node.begin();
    for child in node.children() {
        assert!(at <= child.begin() && child.begin() <= child.end() && child.end() <= node.end());
        at = child.end();
    }
    node.own().map(<[u8]>::len).sum()
}

fn of_kind<'t>(tree: &'t Tree<'_>, kind: Kind) -> Vec<&'t [u8]> {
    tree.iter().filter(|it| it.kind() == kind).map(|it| it.source()).collect()
}

#[test]
fn each_byte_belongs_to_one_node() {
    for score in inputs() {
        let tree = tree(&score).unwrap();
        assert_eq!(tree.iter().map(own_bytes).sum::<usize>(), score.len());
        assert_eq!((tree.root().kind(), tree.root().source()), (Kind::File, &score[..]));
        assert_eq!(tree.root().inside().len() + 1, tree.len());
    }
}

#[test]
fn what_is_not_kept_is_a_node() {
    let tree = tree("name: a;\n%%\n(c4) Ky(h5g)ri(h) % end").unwrap();
    assert_eq!(of_kind(&tree, Kind::LeftOut), [b"5"]);
    assert_eq!(of_kind(&tree, Kind::Comment), [b"% end"]);
    assert_eq!(of_kind(&tree, Kind::Note), [b"h", b"g", b"h"]);
    assert_eq!(of_kind(&tree, Kind::HeaderValue), [b"a"]);
    assert!(tree.get(tree.len()).is_none() && Kind::Comment.is_not_kept() && !Kind::Note.is_not_kept());
}

#[test]
fn a_score_of_many_nodes_has_them_all() {
    let score = format!("%%\n{}", "(f)".repeat(100_000));
    let tree = tree(&score).unwrap();
    assert_eq!(tree.iter().filter(|it| it.kind() == Kind::Note).count(), 100_000);
}

#[test]
fn threads_make_trees_at_once() {
    let score = fs::read(of_project("examples/introit.gabc")).unwrap();
    let wanted = format!("{:?}", tree(&score).unwrap());
    thread::scope(|scope| {
        for _ in 0..4 {
            scope.spawn(|| {
                for _ in 0..20 {
                    assert_eq!(format!("{:?}", tree(&score).unwrap()), wanted);
                }
            });
        }
    });
}
