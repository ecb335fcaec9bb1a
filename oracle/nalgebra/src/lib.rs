//! The few matrix operations that the published smoother calls, each in document 01's order: products go from the left, an entry is the product at
//! index 0 and the rest added upwards; Cholesky by columns of the lower triangle; the inverse per unit column.
use std::ops::{Add, Index, IndexMut, Mul, Sub};

#[derive(Clone, Copy, Debug, PartialEq)]
pub struct SMatrix<T, const R: usize, const C: usize>(pub [[T; C]; R]);
pub type SVector<T, const R: usize> = SMatrix<T, R, 1>;

impl<const R: usize, const C: usize> SMatrix<f64, R, C> {
    pub fn zeros() -> Self {
        SMatrix([[0.0; C]; R])
    }

    pub fn from_row_slice(s: &[f64]) -> Self {
        let mut m = Self::zeros();
        for i in 0..R {
            for j in 0..C {
                m.0[i][j] = s[i * C + j];
            }
        }
        m
    }

    /// By columns.
    pub fn from_iterator<I: IntoIterator<Item = f64>>(it: I) -> Self {
        let mut m = Self::zeros();
        let mut it = it.into_iter();
        for j in 0..C {
            for i in 0..R {
                m.0[i][j] = it.next().expect("enough numbers");
            }
        }
        m
    }

    pub fn transpose(&self) -> SMatrix<f64, C, R> {
        let mut m = SMatrix::<f64, C, R>::zeros();
        for i in 0..R {
            for j in 0..C {
                m.0[j][i] = self.0[i][j];
            }
        }
        m
    }

    /// By columns.
    pub fn iter(&self) -> std::vec::IntoIter<&f64> {
        let mut v = Vec::with_capacity(R * C);
        for j in 0..C {
            for i in 0..R {
                v.push(&self.0[i][j]);
            }
        }
        v.into_iter()
    }

    pub fn fixed_rows<const N: usize>(&self, from: usize) -> SMatrix<f64, N, C> {
        let mut m = SMatrix::<f64, N, C>::zeros();
        for i in 0..N {
            m.0[i] = self.0[from + i];
        }
        m
    }
}

impl<const N: usize> SMatrix<f64, N, N> {
    pub fn identity() -> Self {
        let mut m = Self::zeros();
        for i in 0..N {
            m.0[i][i] = 1.0;
        }
        m
    }

    pub fn cholesky(&self) -> Option<Cholesky<N>> {
        let a = &self.0;
        let mut l = [[0.0; N]; N];
        for j in 0..N {
            let mut column = [0.0; N];
            for i in j..N {
                column[i] = a[i][j];
            }
            for k in 0..j {
                for i in j..N {
                    column[i] -= l[j][k] * l[i][k];
                }
            }
            if !(column[j] > 0.0) {
                return None;
            }
            let d = column[j].sqrt();
            l[j][j] = d;
            for i in j + 1..N {
                l[i][j] = column[i] / d;
            }
        }
        Some(Cholesky(l))
    }
}

pub struct Cholesky<const N: usize>([[f64; N]; N]);

impl<const N: usize> Cholesky<N> {
    pub fn inverse(&self) -> SMatrix<f64, N, N> {
        let l = &self.0;
        let mut m = SMatrix::<f64, N, N>::zeros();
        for c in 0..N {
            let mut y = [0.0; N];
            for i in 0..N {
                let mut v = if i == c { 1.0 } else { 0.0 };
                for k in 0..i {
                    v -= l[i][k] * y[k];
                }
                y[i] = v / l[i][i];
            }
            let mut x = [0.0; N];
            for i in (0..N).rev() {
                let mut v = y[i];
                for k in i + 1..N {
                    v -= l[k][i] * x[k];
                }
                x[i] = v / l[i][i];
            }
            for i in 0..N {
                m.0[i][c] = x[i];
            }
        }
        m
    }
}

impl<const R: usize, const K: usize, const C: usize> Mul<SMatrix<f64, K, C>> for SMatrix<f64, R, K> {
    type Output = SMatrix<f64, R, C>;
    fn mul(self, b: SMatrix<f64, K, C>) -> SMatrix<f64, R, C> {
        let mut m = SMatrix::<f64, R, C>::zeros();
        for i in 0..R {
            for j in 0..C {
                let mut v = self.0[i][0] * b.0[0][j];
                for k in 1..K {
                    v += self.0[i][k] * b.0[k][j];
                }
                m.0[i][j] = v;
            }
        }
        m
    }
}

impl<const R: usize, const C: usize> Add for SMatrix<f64, R, C> {
    type Output = Self;
    fn add(mut self, b: Self) -> Self {
        for i in 0..R {
            for j in 0..C {
                self.0[i][j] += b.0[i][j];
            }
        }
        self
    }
}

impl<const R: usize, const C: usize> Sub for SMatrix<f64, R, C> {
    type Output = Self;
    fn sub(mut self, b: Self) -> Self {
        for i in 0..R {
            for j in 0..C {
                self.0[i][j] -= b.0[i][j];
            }
        }
        self
    }
}

impl<const R: usize, const C: usize> Mul<SMatrix<f64, R, C>> for f64 {
    type Output = SMatrix<f64, R, C>;
    fn mul(self, mut m: SMatrix<f64, R, C>) -> SMatrix<f64, R, C> {
        for i in 0..R {
            for j in 0..C {
                m.0[i][j] = self * m.0[i][j];
            }
        }
        m
    }
}

impl<const R: usize, const C: usize> Index<(usize, usize)> for SMatrix<f64, R, C> {
    type Output = f64;
    fn index(&self, (i, j): (usize, usize)) -> &f64 {
        &self.0[i][j]
    }
}

impl<const R: usize, const C: usize> IndexMut<(usize, usize)> for SMatrix<f64, R, C> {
    fn index_mut(&mut self, (i, j): (usize, usize)) -> &mut f64 {
        &mut self.0[i][j]
    }
}
