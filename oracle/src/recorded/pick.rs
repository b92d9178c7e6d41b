//! Picks from many cases a few that reach every edge that the many reach.
//! It belongs to no paragraph of document 01.

use crate::cases::Case;
use crate::edges::Watch;
use std::collections::{BTreeMap, BTreeSet};

/// How often each edge is to be reached.
const TIMES: usize = 3;
/// A case above this is picked for an edge only where nothing smaller reaches it, and once.
const LARGE: usize = 4_096;
/// The descriptions that come with a picked book stay below this.
const SHOWN: usize = 1_024;

/// A build and the questions about its book.
#[derive(Default)]
struct Book {
    cases: Vec<Case>,
    /// The edges that each case reaches.
    edges: Vec<Vec<String>>,
    /// The cases that are picked.
    picked: BTreeSet<usize>,
}

/// In their order, the picked cases, each after its build. Each edge takes the smallest cases that reach it.
pub(super) fn few(cases: impl Iterator<Item = Case>) -> Vec<Case> {
    let mut books = books(cases);
    let edges: BTreeSet<String> = books.iter().flat_map(|book| book.edges.iter().flatten().cloned()).collect();
    let mut counts: BTreeMap<String, usize> = BTreeMap::new();
    for edge in &edges {
        while counts.get(edge).is_none_or(|times| *times < TIMES) {
            let Some((cost, book, case)) = smallest(&books, edge) else {
                break;
            };
            if cost > LARGE && counts.contains_key(edge) {
                break;
            }
            for reached in books[book].pick(case) {
                *counts.entry(reached).or_default() += 1;
            }
        }
    }
    books.into_iter().flat_map(Book::taken).collect()
}

fn books(cases: impl Iterator<Item = Case>) -> Vec<Book> {
    let mut watch = Watch::default();
    let mut books: Vec<Book> = Vec::new();
    for case in cases {
        if case.kind() == 1 || books.is_empty() {
            books.push(Book::default());
        }
        let book = books.last_mut().expect("one was pushed");
        book.edges.push(watch.reached(&case));
        book.cases.push(case);
    }
    books
}

/// The smallest case that reaches an edge and is not picked yet, with what it adds: its book where that is new.
fn smallest(books: &[Book], edge: &String) -> Option<(usize, usize, usize)> {
    let costs = books.iter().enumerate().flat_map(|(i, book)| book.reaching(edge).map(move |j| (book.cost(j), i, j)));
    costs.min()
}

impl Book {
    fn reaching(&self, edge: &String) -> impl Iterator<Item = usize> {
        (0..self.cases.len()).filter(move |j| !self.picked.contains(j) && self.edges[*j].contains(edge))
    }

    fn cost(&self, case: usize) -> usize {
        self.added(case).iter().map(|j| self.cases[*j].length()).sum()
    }

    /// The case, and where its book is new the build and what shows its layouts: the answers of kind 2.
    fn added(&self, case: usize) -> BTreeSet<usize> {
        let mut added = BTreeSet::from([0, case]);
        if self.picked.is_empty() {
            let shows = |j: &usize| self.cases[*j].kind() == 2 && self.cases[*j].length() <= SHOWN;
            added.extend((0..self.cases.len()).filter(shows).filter(|j| !self.cases[*j].refused()));
        }
        added.difference(&self.picked).copied().collect()
    }

    /// Picks the case, and gives the edges that are reached by it and by what comes with it.
    fn pick(&mut self, case: usize) -> Vec<String> {
        let added = self.added(case);
        let reached = added.iter().flat_map(|j| self.edges[*j].iter().cloned()).collect();
        self.picked.extend(added);
        reached
    }

    fn taken(self) -> impl Iterator<Item = Case> {
        let picked = self.picked;
        self.cases.into_iter().enumerate().filter(move |(j, _)| picked.contains(j)).map(|(_, case)| case)
    }
}
