//! The binomials: a table of rows, and one row by Pascal's rule.

/// How many rows the table has: no left degree reaches it.
pub const ROWS: usize = 64;

/// Where row j begins in the table.
pub fn start(j: usize) -> usize {
    j * (j + 1) / 2
}

pub fn binomials() -> Vec<u64> {
    let mut table = vec![0u64; start(ROWS)];
    for j in 0..ROWS {
        let row = start(j);
        for i in 0..=j {
            table[row + i] = if i == 0 || i == j { 1 } else { table[row - j + i - 1] + table[row - j + i] };
        }
    }
    table
}

/// Row r as far as the root at r and s wants it, by Pascal's rule: in place, from the right.
pub fn row_for(r: usize, s: usize) -> [u64; ROWS] {
    let mut b = [0; ROWS];
    b[0] = 1;
    for _ in 0..r {
        for i in (1..=r.min(s + 1)).rev() {
            b[i] += b[i - 1];
        }
    }
    b
}
