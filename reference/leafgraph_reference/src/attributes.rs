//! "Attribute results".

use crate::graph::{Graph, UNUSED};
use crate::matching::Images;
use crate::rule::{
    Node, Rule, ACCESS, ANY, CONSTANT, DIVIDE, INDEX, MAX_NODES, MINUS, PLUS, REMAINDER, SUM, TIMES,
};

/// The result of each node, if it has one.
type NodeResults = [Option<i32>; MAX_NODES];

/// The results at each index.
pub struct Results {
    /// At index 0, which is that of all vertices but copies.
    plain: NodeResults,
    /// From index 1 on, in a fixed rule of request 8/13 alone.
    of_copies: Vec<NodeResults>,
}

/// The results of all nodes under these images. Operands are earlier nodes,
/// so one pass from the first to the last computes each node once for each index. A
/// vertex without an image yet gives no result; the rule check shows that no
/// attribute looked at so early depends on one.
pub fn results(graph: Graph, rule: Rule, images: &Images) -> Results {
    let none = [None; MAX_NODES];
    let mut results = Results { plain: none, of_copies: vec![none; rule.width()] };
    for number in 0..rule.node_count() {
        let node = rule.node(number);
        for index in 0..=rule.width() {
            let result = match node.form {
                ANY => None,
                CONSTANT => Some(node.number),
                ACCESS => accessed(graph, rule, images, node, index),
                INDEX => Some(index as i32),
                SUM => sum(rule.indices().map(|term| results.at(term, node.a))),
                form => {
                    let (left, right) = (results.at(index, node.a), results.at(index, node.b));
                    left.zip(right).and_then(|(left, right)| combine(form, left, right))
                }
            };
            results.at_index(index)[number] = result;
        }
    }
    results
}

impl Results {
    pub fn at(&self, index: usize, node: u8) -> Option<i32> {
        let results = if index == 0 { &self.plain } else { &self.of_copies[index - 1] };
        results[usize::from(node)]
    }

    fn at_index(&mut self, index: usize) -> &mut NodeResults {
        if index == 0 {
            &mut self.plain
        } else {
            &mut self.of_copies[index - 1]
        }
    }
}

/// "its terms added from 1 up as by form 3": each partial sum must be in range.
fn sum(mut terms: impl Iterator<Item = Option<i32>>) -> Option<i32> {
    let first = terms.next()??;
    terms.try_fold(first, |sum, term| combine(PLUS, sum, term?))
}

/// "access (attribute place b, 1 to 6, of source vertex a, below S)"; "an
/// access past the matched vertex's m has no result".
fn accessed(graph: Graph, rule: Rule, images: &Images, node: Node, index: usize) -> Option<i32> {
    let image = images[rule.accessed(node.a, index)?];
    if image == UNUSED {
        return None;
    }
    let slot = graph.slot(usize::from(image));
    let place = usize::from(node.b) - 1;
    (place < slot.attribute_count()).then(|| slot.attribute(place))
}

/// "Add, subtract and multiply are exact. Division rounds down; the remainder
/// is dividend minus divisor times that quotient. A zero divisor, [...] or a
/// result outside -2147483648 to 2147483647 gives none." In 64 bits none of
/// these can overflow.
pub fn combine(form: u8, left: i32, right: i32) -> Option<i32> {
    let (left, right) = (i64::from(left), i64::from(right));
    let exact = match form {
        PLUS => left + right,
        MINUS => left - right,
        TIMES => left * right,
        DIVIDE => quotient(left, right)?,
        REMAINDER => left - right * quotient(left, right)?,
        _ => return None,
    };
    i32::try_from(exact).ok()
}

/// The exact quotient rounded down, also where it does not fit 32 bits.
fn quotient(dividend: i64, divisor: i64) -> Option<i64> {
    if divisor == 0 {
        return None;
    }
    let toward_zero = dividend / divisor;
    let inexact = dividend % divisor != 0;
    let negative = (dividend < 0) != (divisor < 0);
    Some(if inexact && negative { toward_zero - 1 } else { toward_zero })
}

/// "any agrees with every attribute. Another expression agrees with a number
/// exactly when it has that result."
pub fn agrees(rule: Rule, results: &Results, index: usize, node: u8, number: i32) -> bool {
    rule.node(node.into()).form == ANY || results.at(index, node) == Some(number)
}
