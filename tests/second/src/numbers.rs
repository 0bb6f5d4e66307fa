//! "Numbers of the variables".

use crate::table::{Hard, Side, Table};

/// "By position and by nothing else".
pub struct Numbers {
    /// number of value 1 of each box
    values: Vec<usize>,
    /// number of r_2 of each box, where it has one
    thresholds: Vec<usize>,
    /// number of c_1, where the side has one
    choosers: usize,
    /// how many variables there are
    pub count: usize,
}

impl Numbers {
    pub fn of(table: &Table, hard: Hard, side: Side) -> Numbers {
        let mut next = 1;
        let mut numbers = Numbers { values: Vec::new(), thresholds: Vec::new(), choosers: 0, count: 0 };
        // "box by box, values rising, from 1"
        for m in &table.domains {
            numbers.values.push(next);
            next += m;
        }
        // "Then, with the regular hard part, thresholds: for each box with m values, r_2..r_m"
        if hard == Hard::Regular {
            for m in &table.domains {
                numbers.thresholds.push(next);
                next += m - 1;
            }
        }
        // "Then, for the support side only, one c_k for each pair k, numbered even if no clause uses it."
        numbers.choosers = next;
        if side == Side::Support {
            next += table.pairs.len();
        }
        numbers.count = next - 1;
        numbers
    }

    /// The variable of a value of a box; both count from 1.
    pub fn value(&self, number: usize, value: usize) -> i32 {
        (self.values[number - 1] + value - 1) as i32
    }

    /// "r_j says 'at least j'; r_1 is always true and has no number": j is 2 or more.
    pub fn threshold(&self, number: usize, j: usize) -> i32 {
        assert!(j >= 2);
        (self.thresholds[number - 1] + j - 2) as i32
    }

    /// c_k; pairs count from 1.
    pub fn chooser(&self, k: usize) -> i32 {
        (self.choosers + k - 1) as i32
    }
}
