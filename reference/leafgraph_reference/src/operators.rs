//! The kinds of vertices and "a fixed table of operators" that "gives inputs
//! and attributes".

/// Kind 0: an Empty slot in a graph, the wildcard in a rule.
pub const EMPTY: u8 = 0;
/// Kind 0 where it stands in a rule.
pub const WILDCARD: u8 = 0;
pub const CONST: u8 = 1;
pub const VARIABLE: u8 = 2;
pub const CALL: u8 = 3;
pub const TUPLE: u8 = 4;
pub const PROJ: u8 = 5;

/// The most inputs, and the most attributes, that a record has places for.
pub const PLACES: usize = 6;

/// One operator: its name, its number of inputs and of attributes.
#[derive(Clone, Copy, Debug)]
pub struct Operator {
    pub name: &'static str,
    pub inputs: u8,
    pub attributes: u8,
}

const fn operator(name: &'static str, inputs: u8, attributes: u8) -> Operator {
    Operator { name, inputs, attributes }
}

/// Operator numbers count from 1, so operator k stands at k - 1.
pub const OPERATORS: [Operator; 14] = [
    operator("add", 2, 0),
    operator("mul", 2, 0),
    operator("sub", 2, 0),
    operator("conv2d", 2, 4),
    operator("bias_add", 2, 1),
    operator("batch_norm", 5, 2),
    operator("relu", 1, 0),
    operator("concat", 1, 1),
    operator("split", 1, 2),
    operator("gain", 1, 3),
    operator("vivid", 1, 1),
    operator("mean", 1, 1),
    operator("reshape", 1, 4),
    operator("cast", 1, 1),
];

pub const ADD: u8 = 1;
pub const MUL: u8 = 2;
pub const SUB: u8 = 3;
pub const CONV2D: u8 = 4;
pub const RELU: u8 = 7;
pub const GAIN: u8 = 10;
pub const MEAN: u8 = 12;
pub const RESHAPE: u8 = 13;
pub const CAST: u8 = 14;

/// The operator of this number, "1 to 14".
pub fn operator_of(number: u8) -> Option<Operator> {
    OPERATORS.get(usize::from(number).checked_sub(1)?).copied()
}

/// Whether operator, n and m are those the table of kinds gives. A rule's
/// wildcard has the same zeros as an Empty slot, so both checks use this.
pub fn counts_fit(kind: u8, operator: u8, inputs: u8, attributes: u8) -> bool {
    match kind {
        EMPTY => operator == 0 && inputs == 0 && attributes == 0,
        CONST => operator == 0 && inputs == 0 && attributes == 1,
        VARIABLE => operator == 0 && inputs == 0 && attributes == 5,
        CALL => operator_of(operator)
            .is_some_and(|entry| entry.inputs == inputs && entry.attributes == attributes),
        TUPLE => operator == 0 && (1..=6).contains(&inputs) && attributes == 0,
        PROJ => operator == 0 && inputs == 1 && attributes == 1,
        _ => false,
    }
}
