//! Nodes for an attribute whose number is known: those that have it as their
//! result, and those that a likely error of evaluation would give it to.

use crate::blocks::{constant_node, operation_node};
use crate::random::Random;
use crate::rule::{DIVIDE, MAX_NODES, MINUS, PLUS, REMAINDER, TIMES};

use super::expressions::Expressions;

/// No function here but `doubled` makes more nodes than this.
pub const MOST_NODES: usize = 7;

const LEAST: i32 = i32::MIN;
const MOST: i32 = i32::MAX;

/// Operations at the 32-bit limits with their exact values. Where the value
/// is past the limits there is no result.
const AT_LIMITS: [(u8, i32, i32, i64); 18] = [
    (PLUS, MOST - 1, 1, MOST as i64),
    (PLUS, MOST, 1, MOST as i64 + 1),
    (PLUS, LEAST, -1, LEAST as i64 - 1),
    (MINUS, LEAST + 1, 1, LEAST as i64),
    (MINUS, LEAST, 1, LEAST as i64 - 1),
    (MINUS, 0, LEAST, MOST as i64 + 1),
    (TIMES, 46340, 46340, 2_147_395_600),
    (TIMES, 46341, 46341, 2_147_488_281),
    (TIMES, -46341, 46341, -2_147_488_281),
    (TIMES, 65536, -32768, LEAST as i64),
    (TIMES, 65536, 32768, MOST as i64 + 1),
    (TIMES, LEAST, -1, MOST as i64 + 1),
    (DIVIDE, LEAST, -1, MOST as i64 + 1),
    (DIVIDE, LEAST, MOST, -2),
    (DIVIDE, MOST, LEAST, -1),
    (REMAINDER, LEAST, -1, 0),
    (REMAINDER, LEAST, MOST, MOST as i64 - 1),
    (REMAINDER, MOST, LEAST, -1),
];

fn operation(expressions: &mut Expressions, form: u8, left: i32, right: i32) -> u8 {
    let left = expressions.push(constant_node(left));
    let right = expressions.push(constant_node(right));
    expressions.push(operation_node(form, left, right))
}

/// This node plus a constant; the node itself for zero.
pub fn plus(expressions: &mut Expressions, node: u8, number: i32) -> u8 {
    if number == 0 {
        return node;
    }
    let number = expressions.push(constant_node(number));
    expressions.push(operation_node(PLUS, node, number))
}

/// A quotient or a remainder that is this number, both signs of divisors.
pub fn by_division(random: &mut Random, expressions: &mut Expressions, number: i32) -> u8 {
    let divisor = random.pick(&[2, 3, 7, -2, -3, -7, 1, -1]);
    let rest = if divisor > 0 {
        random.below(divisor as usize) as i32
    } else {
        -(random.below(-divisor as usize) as i32)
    };
    let dividend = number.checked_mul(divisor).and_then(|product| product.checked_add(rest));
    match dividend {
        Some(dividend) if random.chance(50) => operation(expressions, DIVIDE, dividend, divisor),
        _ => by_remainder(random, expressions, number),
    }
}

/// A remainder has the sign of its divisor, whatever the dividend's is.
fn by_remainder(random: &mut Random, expressions: &mut Expressions, number: i32) -> u8 {
    let quotient = random.pick(&[-2, -1, 0, 1]);
    match number {
        0..1000 => operation(expressions, REMAINDER, number + 1001 * quotient, 1001),
        -999..0 => operation(expressions, REMAINDER, number - 1001 * quotient, -1001),
        _ => operation(expressions, TIMES, number, 1),
    }
}

/// An operation at the limits, and from its value the way back to this
/// number. Half of the operations have no result, and so the whole has none;
/// where inner values may be larger, or wrap around, the whole is the number.
pub fn at_the_limits(random: &mut Random, expressions: &mut Expressions, number: i32) -> u8 {
    let (form, left, right, exact) = random.pick(&AT_LIMITS);
    // The way back takes two steps, since one may not fit 32 bits.
    let near = exact.clamp(LEAST.into(), MOST.into());
    let Ok(rest) = i32::try_from(i64::from(number) - (exact - near)) else {
        return expressions.push(constant_node(number));
    };
    let value = operation(expressions, form, left, right);
    let near = expressions.push(constant_node(near as i32));
    let difference = expressions.push(operation_node(MINUS, value, near));
    plus(expressions, difference, rest)
}

/// Zero added to itself again and again, and then this number: whoever
/// evaluates a node once for each use of it does not finish. As deep as there
/// is place, but for what other attributes may need.
pub fn doubled(random: &mut Random, expressions: &mut Expressions, number: i32) -> u8 {
    let mut node = expressions.push(constant_node(0));
    let depth = random.within(1, MAX_NODES);
    for _ in 0..depth {
        if expressions.nodes.len() + MOST_NODES + 2 > MAX_NODES {
            break;
        }
        node = expressions.push(operation_node(PLUS, node, node));
    }
    plus(expressions, node, number)
}

/// A node that does not agree with this number, but would where division
/// rounds toward zero, a remainder has the dividend's sign, a quotient by
/// zero is zero or a remainder by zero is the dividend.
pub fn near_miss(random: &mut Random, expressions: &mut Expressions, number: i32) -> u8 {
    let (form, left, right, mistaken) = random.pick(&[
        (DIVIDE, -1, 2, 0),
        (DIVIDE, 7, -2, -3),
        (REMAINDER, -7, 2, -1),
        (REMAINDER, 7, -2, 1),
        (DIVIDE, 5, 0, 0),
        (REMAINDER, 5, 0, 5),
    ]);
    match number.checked_sub(mistaken) {
        Some(rest) => {
            let value = operation(expressions, form, left, right);
            plus(expressions, value, rest)
        }
        None => expressions.push(constant_node(mistaken)),
    }
}

#[cfg(test)]
mod tests {
    use super::*;
    use crate::attributes::combine;
    use crate::rule::{ANY, CONSTANT};

    /// The result of the last node, with no vertex to access.
    fn result(expressions: &Expressions) -> Option<i32> {
        let mut results: Vec<Option<i32>> = vec![];
        for node in &expressions.nodes {
            let of = |index: u8| results[usize::from(index)];
            results.push(match node.form {
                ANY => None,
                CONSTANT => Some(node.number),
                form => of(node.a).zip(of(node.b)).and_then(|(a, b)| combine(form, a, b)),
            });
        }
        *results.last().expect("a node")
    }

    const NUMBERS: [i32; 9] = [0, 1, 3, -1, -20, 65536, -46341, LEAST, MOST];

    type Maker = fn(&mut Random, &mut Expressions, i32) -> u8;

    /// Of many nodes for each number: how many agree, and how many do not.
    fn agreement(make: Maker, most: usize) -> [usize; 2] {
        let mut random = Random::new(13);
        let mut counts = [0; 2];
        for number in NUMBERS.repeat(200) {
            let mut expressions = Expressions::new();
            let node = make(&mut random, &mut expressions, number);
            assert_eq!(usize::from(node) + 1, expressions.nodes.len());
            assert!(expressions.nodes.len() <= most);
            counts[usize::from(result(&expressions) != Some(number))] += 1;
        }
        counts
    }

    #[test]
    fn exact_values_are_exact() {
        for (form, left, right, exact) in AT_LIMITS {
            assert_eq!(combine(form, left, right), i32::try_from(exact).ok());
        }
    }

    #[test]
    fn quotients_and_remainders_agree() {
        assert_eq!(agreement(by_division, MOST_NODES)[1], 0);
    }

    #[test]
    fn doubled_zeros_agree() {
        assert_eq!(agreement(doubled, MAX_NODES - 2)[1], 0);
    }

    #[test]
    fn near_misses_do_not_agree() {
        assert_eq!(agreement(near_miss, MOST_NODES)[0], 0);
    }

    #[test]
    fn at_the_limits_some_agree() {
        let counts = agreement(at_the_limits, MOST_NODES);
        assert!(counts.iter().all(|&count| count > 500), "{counts:?}");
    }
}
