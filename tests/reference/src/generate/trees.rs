//! Formulas as trees: how they are typed, and in which order their operations are done.

use super::random::Random;
use crate::formula::{Operation, LETTERS};

/// What a formula means, with the parentheses that it does not need.
#[derive(Clone, PartialEq, Debug)]
pub enum Tree {
    /// A number, typed with at least so many digits.
    Number(u32, usize),
    /// The letter of an axis, from 1.
    Letter(usize),
    Power(Box<Tree>, u8),
    Times(Box<Tree>, Box<Tree>),
    Plus(Box<Tree>, Box<Tree>),
    Minus(Box<Tree>, Box<Tree>),
    Negate(Box<Tree>),
    Parentheses(Box<Tree>),
}

/// What may stand in a place of a formula without parentheses: from a sum, which takes all, to an
/// atom, which takes least.
#[derive(Clone, Copy, PartialEq, Eq, PartialOrd, Ord)]
enum Rank {
    Sum,
    Product,
    Power,
    Atom,
}

impl Tree {
    pub fn number(value: u32) -> Tree {
        Tree::Number(value, 1)
    }

    pub fn power(self, power: u8) -> Tree {
        Tree::Power(Box::new(self), power)
    }

    pub fn times(self, other: Tree) -> Tree {
        Tree::Times(Box::new(self), Box::new(other))
    }

    pub fn plus(self, other: Tree) -> Tree {
        Tree::Plus(Box::new(self), Box::new(other))
    }

    pub fn minus(self, other: Tree) -> Tree {
        Tree::Minus(Box::new(self), Box::new(other))
    }

    pub fn negate(self) -> Tree {
        Tree::Negate(Box::new(self))
    }

    pub fn in_parentheses(self) -> Tree {
        Tree::Parentheses(Box::new(self))
    }

    fn rank(&self) -> Rank {
        match self {
            Tree::Number(..) | Tree::Letter(_) | Tree::Parentheses(_) => Rank::Atom,
            Tree::Power(..) => Rank::Power,
            Tree::Times(..) => Rank::Product,
            Tree::Plus(..) | Tree::Minus(..) | Tree::Negate(_) => Rank::Sum,
        }
    }

    /// Types it where no lower rank may stand.
    fn type_as(&self, least: Rank, text: &mut Vec<u8>) {
        if self.rank() < least {
            text.push(b'(');
            self.type_as(Rank::Sum, text);
            text.push(b')');
            return;
        }
        // Operations of one rank go from left to right, so the left one may be of the same rank.
        let mut two = |one: &Tree, left: Rank, joint: u8, other: &Tree, right: Rank| {
            one.type_as(left, text);
            text.push(joint);
            other.type_as(right, text);
        };
        match self {
            Tree::Plus(one, other) => two(one, Rank::Sum, b'+', other, Rank::Product),
            Tree::Minus(one, other) => two(one, Rank::Sum, b'-', other, Rank::Product),
            Tree::Times(one, other) => two(one, Rank::Product, b'*', other, Rank::Power),
            Tree::Number(value, digits) => {
                text.extend(format!("{value:0width$}", width = *digits).bytes())
            }
            Tree::Letter(axis) => text.push(LETTERS[axis - 1]),
            Tree::Power(atom, power) => {
                atom.type_as(Rank::Atom, text);
                text.extend([b'^', b'0' + power]);
            }
            Tree::Negate(one) => {
                text.push(b'-');
                one.type_as(Rank::Product, text);
            }
            Tree::Parentheses(one) => {
                text.push(b'(');
                one.type_as(Rank::Sum, text);
                text.push(b')');
            }
        }
    }

    pub fn text(&self) -> Vec<u8> {
        let mut text = Vec::new();
        self.type_as(Rank::Sum, &mut text);
        text
    }

    /// The operations in the order in which they are done.
    pub fn operations(&self) -> Vec<Operation> {
        let two = |one: &Tree, other: &Tree, last: Operation| {
            [one.operations(), other.operations(), vec![last]].concat()
        };
        let behind = |one: &Tree, last: Operation| [one.operations(), vec![last]].concat();
        match self {
            Tree::Number(value, _) => vec![Operation::Number(*value)],
            Tree::Letter(axis) => vec![Operation::Letter(*axis)],
            Tree::Power(atom, power) => behind(atom, Operation::Power(*power)),
            Tree::Times(one, other) => two(one, other, Operation::Times),
            Tree::Plus(one, other) => two(one, other, Operation::Plus),
            Tree::Minus(one, other) => two(one, other, Operation::Minus),
            Tree::Negate(one) => behind(one, Operation::Negate),
            Tree::Parentheses(one) => one.operations(),
        }
    }

    /// Parentheses around each part, but for one of so many; around every part if that is 0.
    pub fn with_more_parentheses(&self, r: &mut Random, left_out: u64) -> Tree {
        let more = |r: &mut Random, one: &Tree| Box::new(one.with_more_parentheses(r, left_out));
        let tree = match self {
            Tree::Number(..) | Tree::Letter(_) => self.clone(),
            Tree::Power(atom, power) => Tree::Power(more(r, atom), *power),
            Tree::Times(one, other) => Tree::Times(more(r, one), more(r, other)),
            Tree::Plus(one, other) => Tree::Plus(more(r, one), more(r, other)),
            Tree::Minus(one, other) => Tree::Minus(more(r, one), more(r, other)),
            Tree::Negate(one) => Tree::Negate(more(r, one)),
            Tree::Parentheses(one) => return Tree::Parentheses(more(r, one)),
        };
        if left_out > 0 && r.once_in(left_out) {
            return tree;
        }
        tree.in_parentheses()
    }
}

#[cfg(test)]
mod tests {
    use super::*;

    fn typed(tree: Tree) -> String {
        String::from_utf8(tree.text()).expect("letters")
    }

    /// Parentheses stand where they are needed, and nowhere else.
    #[test]
    fn needed_parentheses() {
        let (x, y, z) = (Tree::Letter(1), Tree::Letter(2), Tree::Letter(3));
        let [x, y, z] = [&x, &y, &z].map(|tree| move || tree.clone());
        assert_eq!(typed(x().minus(y()).minus(z())), "x-y-z");
        assert_eq!(typed(x().minus(y().minus(z()))), "x-(y-z)");
        assert_eq!(typed(x().times(y()).plus(z())), "x*y+z");
        assert_eq!(typed(x().times(y().plus(z()))), "x*(y+z)");
        assert_eq!(typed(x().times(y().times(z()))), "x*(y*z)");
        assert_eq!(typed(x().negate().plus(y())), "-x+y");
        assert_eq!(typed(x().plus(y().negate())), "x+(-y)");
        assert_eq!(typed(x().plus(y()).negate()), "-(x+y)");
        assert_eq!(typed(x().negate().times(y())), "(-x)*y");
        assert_eq!(typed(x().times(y()).negate()), "-x*y");
        assert_eq!(typed(x().negate().negate()), "-(-x)");
        assert_eq!(typed(x().power(2).power(3)), "(x^2)^3");
        assert_eq!(typed(x().power(2).negate()), "-x^2");
        assert_eq!(typed(x().negate().power(2)), "(-x)^2");
        assert_eq!(typed(Tree::Number(12, 7).in_parentheses()), "(0000012)");
    }
}
