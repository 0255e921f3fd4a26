//! Square matrices of whole numbers whose indices run from 1, as document 01's do.

#[derive(Clone, Debug, PartialEq, Eq)]
pub struct Matrix {
    n: usize,
    numbers: Vec<i128>,
}

impl Matrix {
    /// The n by n matrix whose entry i, j is rule(i, j).
    pub fn by_rule(n: usize, rule: impl Fn(usize, usize) -> i128) -> Matrix {
        let numbers = (1..=n)
            .flat_map(|i| (1..=n).map(move |j| (i, j)))
            .map(|(i, j)| rule(i, j))
            .collect();
        Matrix { n, numbers }
    }

    /// The matrix of n×n numbers given row after row.
    pub fn of_rows(n: usize, numbers: &[i128]) -> Matrix {
        assert_eq!(numbers.len(), n * n);
        Matrix {
            n,
            numbers: numbers.to_vec(),
        }
    }

    pub fn n(&self) -> usize {
        self.n
    }

    pub fn at(&self, i: usize, j: usize) -> i128 {
        self.numbers[self.place(i, j)]
    }

    pub fn set(&mut self, i: usize, j: usize, number: i128) {
        let place = self.place(i, j);
        self.numbers[place] = number;
    }

    pub fn row(&self, i: usize) -> &[i128] {
        &self.numbers[self.place(i, 1)..][..self.n]
    }

    /// All entries, row after row.
    pub fn numbers(&self) -> &[i128] {
        &self.numbers
    }

    pub fn is_symmetric(&self) -> bool {
        (1..=self.n).all(|i| (1..=self.n).all(|j| self.at(i, j) == self.at(j, i)))
    }

    fn place(&self, i: usize, j: usize) -> usize {
        assert!(1 <= i && i <= self.n && 1 <= j && j <= self.n);
        (i - 1) * self.n + (j - 1)
    }
}
