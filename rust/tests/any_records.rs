//! Records from anywhere can be gone through and walked over: nothing panics, and each record comes once.

use zhgarelli::{Pack, Record, Tree};

/// A small generator of numbers (xorshift).
struct Numbers(u64);

impl Numbers {
    fn next(&mut self) -> u16 {
        self.0 ^= self.0 << 13;
        self.0 ^= self.0 >> 7;
        self.0 ^= self.0 << 17;
        (self.0 >> 24) as u16
    }

    /// A word that a record may well have, or any.
    fn word(&mut self) -> u16 {
        let word = self.next();
        match self.next() % 4 {
            0 => word,
            1 => word % 130,
            2 => word % 20,
            _ => word % 4,
        }
    }
}

#[test]
fn any_words_are_walked_over() {
    let pack = Pack::read(std::fs::read("../packs/small.pack").unwrap()).unwrap();
    let mut numbers = Numbers(2026);
    for length in 0..600 {
        let words: Vec<u16> = (0..length).map(|_| numbers.word()).collect();
        let text: Vec<u8> = (0..length % 40).map(|_| numbers.word() as u8).collect();
        let tree = Tree::of_words(words);
        let records = tree.records(&text);
        assert_eq!(records.len(), length / 4);
        assert_eq!(records.iter().count(), length / 4);
        assert_eq!(records.get(length / 4), None);
        assert_eq!(records.get(usize::MAX), None);
        let forest = records.forest();
        let mut seen = vec![false; records.len()];
        for step in forest.walk() {
            let index = step.subtree.index();
            assert!(!seen[index]);
            seen[index] = true;
            let children = step.subtree.children().count();
            match step.subtree.record() {
                Record::Leaf(leaf) => {
                    assert_eq!(children, 0);
                    assert!(leaf.bytes.is_empty() || leaf.bytes.len() == leaf.length);
                }
                Record::Node(node) => assert!(children <= node.children),
            }
            let below: usize = step.subtree.children().map(|child| child.size()).sum();
            assert_eq!(step.subtree.size(), below + 1);
            assert!(step.subtree.leaves().count() <= step.subtree.size());
            let span = step.subtree.span();
            let _ = text.get(span);
        }
        assert!(seen.iter().all(|&seen| seen));
        pack.state_on_top(records);
    }
}

#[test]
fn a_tree_as_deep_as_can_be_is_walked_over() {
    let deep: Vec<u16> = (0..65_535).flat_map(|_| [64, 0, 1, 0]).collect();
    let tree = Tree::of_words(deep);
    let forest = tree.records("").forest();
    let depths = forest.walk().map(|step| step.depth);
    assert_eq!(depths.max(), Some(65_534));
}

#[test]
fn the_words_that_come_first_are_skipped_as_a_whole() {
    // A node of a node and a leaf.
    let words = [1, 0, 1, 0, 64, 0, 1, 0, 1, 1, 1, 0, 64, 1, 2, 0];
    let tree = Tree::of_words(words);
    let forest = tree.records("ab").forest();
    let mut walk = forest.walk();
    let mut seen = Vec::new();
    while let Some(step) = walk.next() {
        seen.push(step.subtree.index());
        if step.subtree.index() == 1 {
            walk.skip_children(&step);
        }
    }
    assert_eq!(seen, [3, 1, 2]);
}

#[test]
fn numbers_that_a_pack_does_not_have_are_answered() {
    let pack = Pack::read(std::fs::read("../packs/small.pack").unwrap()).unwrap();
    for number in [5, 64, 1_000, usize::MAX] {
        assert_eq!(pack.production(number), None);
        assert_eq!(pack.scan_sets(number), None);
        assert_eq!(pack.group(number), None);
        assert_eq!(pack.goto(number, number), None);
        assert_eq!(pack.moved(number, number), None);
        assert_eq!(pack.action(number, number), zhgarelli::Action::Error);
        assert!(pack.valid(number).is_empty());
        assert!(pack.outranks(number).is_empty());
        assert!(pack.edges_into(number).is_empty());
    }
}
