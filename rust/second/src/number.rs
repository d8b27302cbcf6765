//! Numbers and the nine operators.

pub const INF: i32 = i32::MAX;
pub const FLOOR: i32 = -INF;
/// The mark for an absent number.
pub const ABSENT: i32 = i32::MIN;

#[derive(Clone, Copy, Debug, PartialEq, Eq)]
pub enum Operator {
    Add,
    Subtract,
    Multiply,
    Divide,
    Less,
    Greater,
    AtLeast,
    Equal,
    Unequal,
}

/// The operators in 01's order, which is their byte.
pub const OPERATORS: [Operator; 9] = [
    Operator::Add,
    Operator::Subtract,
    Operator::Multiply,
    Operator::Divide,
    Operator::Less,
    Operator::Greater,
    Operator::AtLeast,
    Operator::Equal,
    Operator::Unequal,
];

/// The divisor was 0.
#[derive(Clone, Copy, Debug, PartialEq, Eq)]
pub struct DividedByZero;

/// An exact result brought into floor..inf.
fn bring_in(exact: i64) -> i32 {
    exact.clamp(i64::from(FLOOR), i64::from(INF)) as i32
}

impl Operator {
    pub fn apply(self, left: i32, right: i32) -> Result<i32, DividedByZero> {
        let (l, r) = (i64::from(left), i64::from(right));
        Ok(match self {
            Operator::Add if left == INF || right == INF => INF,
            Operator::Add => bring_in(l + r),
            Operator::Subtract if left == INF => INF,
            Operator::Subtract if right == INF => FLOOR,
            Operator::Subtract => bring_in(l - r),
            Operator::Multiply => bring_in(l * r),
            Operator::Divide if right == 0 => return Err(DividedByZero),
            Operator::Divide if left == INF && right > 0 => INF,
            Operator::Divide if left == INF => FLOOR,
            Operator::Divide if right == INF => 0,
            Operator::Divide => bring_in(l / r),
            Operator::Less => i32::from(left < right),
            Operator::Greater => i32::from(left > right),
            Operator::AtLeast => i32::from(left >= right),
            Operator::Equal => i32::from(left == right),
            Operator::Unequal => i32::from(left != right),
        })
    }
}

#[cfg(test)]
mod tests {
    use super::*;

    fn op(operator: Operator, left: i32, right: i32) -> i32 {
        operator.apply(left, right).unwrap()
    }

    #[test]
    fn inf_comes_first() {
        for n in [FLOOR, -5, 0, 7, INF] {
            assert_eq!(op(Operator::Add, INF, n), INF);
            assert_eq!(op(Operator::Add, n, INF), INF);
            assert_eq!(op(Operator::Subtract, INF, n), INF);
        }
        for n in [FLOOR, -5, 0, 7, INF - 1] {
            assert_eq!(op(Operator::Subtract, n, INF), FLOOR);
            assert_eq!(op(Operator::Divide, n, INF), 0);
        }
        for n in [1, 2, INF] {
            assert_eq!(op(Operator::Divide, INF, n), INF);
        }
        for n in [-1, -2, FLOOR] {
            assert_eq!(op(Operator::Divide, INF, n), FLOOR);
        }
    }

    #[test]
    fn exact_then_brought_in() {
        assert_eq!(op(Operator::Add, INF - 1, 5), INF);
        assert_eq!(op(Operator::Add, FLOOR, -1), FLOOR);
        assert_eq!(op(Operator::Subtract, FLOOR, 1), FLOOR);
        assert_eq!(op(Operator::Multiply, 65_536, 32_768), INF);
        assert_eq!(op(Operator::Multiply, 65_536, -32_768), FLOOR);
        assert_eq!(op(Operator::Multiply, INF, 0), 0);
        assert_eq!(op(Operator::Multiply, INF, -1), FLOOR);
        assert_eq!(op(Operator::Divide, FLOOR, -1), INF);
        assert_eq!(op(Operator::Divide, FLOOR, INF), 0);
        assert_eq!(op(Operator::Divide, -7, 2), -3);
        assert_eq!(op(Operator::Divide, 7, -2), -3);
        assert_eq!(op(Operator::Divide, -7, -2), 3);
    }

    #[test]
    fn divisor_0_faults_always() {
        for n in [FLOOR, -1, 0, 1, INF] {
            assert_eq!(Operator::Divide.apply(n, 0), Err(DividedByZero));
        }
    }

    #[test]
    fn comparisons() {
        let rows = [(1, 2, [1, 0, 0, 0, 1]), (2, 2, [0, 0, 1, 1, 0]), (3, 2, [0, 1, 1, 0, 1])];
        for (left, right, results) in rows {
            for (operator, result) in OPERATORS[4..].iter().zip(results) {
                assert_eq!(op(*operator, left, right), result, "{left} {operator:?} {right}");
            }
        }
    }
}
