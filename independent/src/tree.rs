//! A formula is a tree of AND, OR and atoms; an atom says that the sign of a polynomial is in a set.
//! `P` stands for the polynomial: its number in a table as read, the polynomial itself in the levels.

use crate::signs::SignSet;

#[derive(Clone, Debug, PartialEq, Eq)]
pub struct Atom<P> {
    pub poly: P,
    pub set: SignSet,
    /// 02, #105: "the number, from 0, of the input atom in reading order"; none before the atoms are numbered.
    pub place: Option<usize>,
}

#[derive(Clone, Debug, PartialEq, Eq)]
pub enum Node<P> {
    Atom(Atom<P>),
    And(Vec<Node<P>>),
    Or(Vec<Node<P>>),
}

impl<P> Node<P> {
    pub fn atom(poly: P, set: SignSet) -> Node<P> {
        Node::Atom(Atom { poly, set, place: None })
    }

    /// "An AND with no children is true, an OR with none is false."
    pub fn always() -> Node<P> {
        Node::And(vec![])
    }

    pub fn never() -> Node<P> {
        Node::Or(vec![])
    }

    pub fn is_always(&self) -> bool {
        matches!(self, Node::And(parts) if parts.is_empty())
    }

    pub fn is_never(&self) -> bool {
        matches!(self, Node::Or(parts) if parts.is_empty())
    }

    /// "tree nodes, atoms counted"
    pub fn nodes(&self) -> usize {
        match self {
            Node::Atom(_) => 1,
            Node::And(parts) | Node::Or(parts) => 1 + parts.iter().map(Node::nodes).sum::<usize>(),
        }
    }

    pub fn atoms(&self) -> usize {
        match self {
            Node::Atom(_) => 1,
            Node::And(parts) | Node::Or(parts) => parts.iter().map(Node::atoms).sum(),
        }
    }

    /// "AND/OR nesting ..., the root counting 1"; an atom counts nothing.
    pub fn nesting(&self) -> usize {
        match self {
            Node::Atom(_) => 0,
            Node::And(parts) | Node::Or(parts) => 1 + parts.iter().map(Node::nesting).max().unwrap_or(0),
        }
    }

    /// The same tree, its atoms numbered in reading order, parent before children; ANDs and ORs are not counted.
    pub fn numbered(self, next: &mut usize) -> Node<P> {
        match self {
            Node::Atom(atom) => {
                let place = Some(*next);
                *next += 1;
                Node::Atom(Atom { place, ..atom })
            }
            Node::And(parts) => Node::And(parts.into_iter().map(|part| part.numbered(next)).collect()),
            Node::Or(parts) => Node::Or(parts.into_iter().map(|part| part.numbered(next)).collect()),
        }
    }

    /// The places of the atoms in reading order.
    pub fn places(&self) -> Vec<usize> {
        match self {
            Node::Atom(atom) => vec![atom.place.expect("the atoms are numbered")],
            Node::And(parts) | Node::Or(parts) => parts.iter().flat_map(Node::places).collect(),
        }
    }

    /// The same tree with another way to name the polynomials, atoms taken in order; no atom is numbered.
    pub fn map<Q>(&self, name: &mut dyn FnMut(&P) -> Q) -> Node<Q> {
        match self {
            Node::Atom(atom) => Node::atom(name(&atom.poly), atom.set),
            Node::And(parts) => Node::And(parts.iter().map(|part| part.map(name)).collect()),
            Node::Or(parts) => Node::Or(parts.iter().map(|part| part.map(name)).collect()),
        }
    }

    /// "complement all sets and exchange AND and OR below": the node that holds when this one does not.
    pub fn exchanged(self) -> Node<P> {
        match self {
            Node::Atom(atom) => Node::Atom(Atom { set: atom.set.complement(), ..atom }),
            Node::And(parts) => Node::Or(all_exchanged(parts)),
            Node::Or(parts) => Node::And(all_exchanged(parts)),
        }
    }
}

pub fn all_exchanged<P>(parts: Vec<Node<P>>) -> Vec<Node<P>> {
    parts.into_iter().map(Node::exchanged).collect()
}
