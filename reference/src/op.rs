//! "Ops": the table's operations by number.

#[derive(Clone, Copy, PartialEq, Eq, Debug)]
#[repr(u16)]
pub enum Op {
    // "1 int32, 2 int64, 3 real64 ..; 4 string, 5 name"
    Int32 = 1,
    Int64 = 2,
    Real64 = 3,
    Text = 4,
    Name = 5,
    // "6 `fold-case`, 7 `size`, 8 `~`"
    FoldCase = 6,
    Size = 7,
    Complement = 8,
    // "16..26: `<< >> >>> & ^ | * / % + -`"
    ShiftLeft = 16,
    ShiftRight = 17,
    ShiftZeros = 18,
    BitAnd = 19,
    BitXor = 20,
    BitOr = 21,
    Times = 22,
    Divide = 23,
    Rest = 24,
    Plus = 25,
    Minus = 26,
    // "32..37: `== != < <= > >=`"
    Equal = 32,
    Unequal = 33,
    Less = 34,
    LessEqual = 35,
    Greater = 36,
    GreaterEqual = 37,
    // "40 `!`, 41 `&&`, 42 `^^`, 43 `||`"
    Not = 40,
    And = 41,
    Xor = 42,
    Or = 43,
    // "44 skip if false, 45 skip if true"
    SkipFalse = 44,
    SkipTrue = 45,
    // "48..54: `int32 int64 real64 string opaque nan require`"
    IsInt32 = 48,
    IsInt64 = 49,
    IsReal64 = 50,
    IsText = 51,
    IsOpaque = 52,
    IsNan = 53,
    Require = 54,
    // "56..59: `begins-with contains ends-with equals`"
    Begins = 56,
    Contains = 57,
    Ends = 58,
    Equals = 59,
    // document 02, request 1: "It gets op 60."
    Wildcard = 60,
    // request 13: "op 61"
    Regex = 61,
}

use Op::*;

pub const OPS: [Op; 44] = [
    Int32,
    Int64,
    Real64,
    Text,
    Name,
    FoldCase,
    Size,
    Complement,
    ShiftLeft,
    ShiftRight,
    ShiftZeros,
    BitAnd,
    BitXor,
    BitOr,
    Times,
    Divide,
    Rest,
    Plus,
    Minus,
    Equal,
    Unequal,
    Less,
    LessEqual,
    Greater,
    GreaterEqual,
    Not,
    And,
    Xor,
    Or,
    SkipFalse,
    SkipTrue,
    IsInt32,
    IsInt64,
    IsReal64,
    IsText,
    IsOpaque,
    IsNan,
    Require,
    Begins,
    Contains,
    Ends,
    Equals,
    Wildcard,
    Regex,
];

impl Op {
    pub fn code(self) -> u16 {
        self as u16
    }

    pub fn of_code(code: u64) -> Option<Op> {
        OPS.into_iter().find(|op| u64::from(op.code()) == code)
    }
}
