// Generated from crates/trac_language/src/arith.rt by hosts/rust/generate, and never edited.
//! The operations of arithmetic.

/// An operation of arithmetic (Mooers 1966).
#[derive(Clone, Copy, Debug)]
pub enum Arith {
    /// `ad`: the sum.
    Add,
    /// `su`: the difference.
    Subtract,
    /// `ml`: the product.
    Multiply,
    /// `dv`: the quotient.
    Divide,
}

impl Arith {
    /// The sum, difference, product or quotient of two numbers in the range of arithmetic (Mooers 1966).
    /// None if it is outside that range, from -(2^127 - 1) up to 2^127 - 1, or if the divisor is 0. The
    /// range, and that a quotient is rounded towards 0, is this processor's own choice.
    pub fn apply(self, a: i128, b: i128) -> Option<i128>
    {
        let exact = match self {
            Arith::Add => a.checked_add(b),
            Arith::Subtract => a.checked_sub(b),
            Arith::Multiply => a.checked_mul(b),
            Arith::Divide => quotient(a, b),
        };
        match exact {
            Some(n) => if n == i128::MIN { None } else { Some(n) },
            None => None,
        }
    }
}

/// The quotient, rounded towards 0. None if the divisor is 0. Numbers that fit in 64 bits are divided as
/// numbers of 64 bits, which is faster.
fn quotient(a: i128, b: i128) -> Option<i128>
{
    if let (Ok(dividend), Ok(divisor)) = (i64::try_from(a), i64::try_from(b)) {
        if let Some(quotient) = dividend.checked_div(divisor) {
            return Some(i128::from(quotient));
        }
    }
    a.checked_div(b)
}
