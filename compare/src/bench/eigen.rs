//! Eigen's side of the bench, where compare/build found it: fixed-size matrices, eigen.cpp. Its numbers are not compared.

/// Whether Eigen is there.
pub const THERE: bool = cfg!(eigen);

#[cfg(eigen)]
mod peer {
    extern "C" {
        pub fn eigen_matmul_1(a: *const f64, b: *const f64, out: *mut f64);
        pub fn eigen_matmul_2(a: *const f64, b: *const f64, out: *mut f64);
        pub fn eigen_matmul_3(a: *const f64, b: *const f64, out: *mut f64);
        pub fn eigen_matmul_4(a: *const f64, b: *const f64, out: *mut f64);
        pub fn eigen_inv_1(a: *const f64, out: *mut f64);
        pub fn eigen_inv_2(a: *const f64, out: *mut f64);
        pub fn eigen_inv_3(a: *const f64, out: *mut f64);
        pub fn eigen_inv_4(a: *const f64, out: *mut f64);
        pub fn eigen_cholesky_1(a: *const f64, out: *mut f64);
        pub fn eigen_cholesky_2(a: *const f64, out: *mut f64);
        pub fn eigen_cholesky_3(a: *const f64, out: *mut f64);
        pub fn eigen_cholesky_4(a: *const f64, out: *mut f64);
        pub fn eigen_step_2_1(filter: *mut f64, u: *const f64, z: *const f64);
        pub fn eigen_step_4_2(filter: *mut f64, u: *const f64, z: *const f64);
    }
}

/// The function of a size; the bench asks for 1 to 4 only.
#[cfg(eigen)]
macro_rules! sized {
    ($n:expr, $one:ident, $two:ident, $three:ident, $four:ident) => {
        match $n {
            1 => peer::$one,
            2 => peer::$two,
            3 => peer::$three,
            _ => peer::$four,
        }
    };
}

#[cfg(eigen)]
pub fn matmul(n: usize, a: &[f64], b: &[f64], out: &mut [f64]) {
    let call: unsafe extern "C" fn(*const f64, *const f64, *mut f64) =
        sized!(n, eigen_matmul_1, eigen_matmul_2, eigen_matmul_3, eigen_matmul_4);
    unsafe { call(a.as_ptr(), b.as_ptr(), out.as_mut_ptr()) }
}

#[cfg(eigen)]
pub fn inv(n: usize, a: &[f64], out: &mut [f64]) {
    let call: unsafe extern "C" fn(*const f64, *mut f64) =
        sized!(n, eigen_inv_1, eigen_inv_2, eigen_inv_3, eigen_inv_4);
    unsafe { call(a.as_ptr(), out.as_mut_ptr()) }
}

#[cfg(eigen)]
pub fn cholesky(n: usize, a: &[f64], out: &mut [f64]) {
    let call: unsafe extern "C" fn(*const f64, *mut f64) =
        sized!(n, eigen_cholesky_1, eigen_cholesky_2, eigen_cholesky_3, eigen_cholesky_4);
    unsafe { call(a.as_ptr(), out.as_mut_ptr()) }
}

/// A prediction and an update at (2, 1, 1) or (4, 2, 2).
#[cfg(eigen)]
pub fn step(n: usize, filter: &mut [f64], u: &[f64], z: &[f64]) {
    let call: unsafe extern "C" fn(*mut f64, *const f64, *const f64) =
        if n == 2 { peer::eigen_step_2_1 } else { peer::eigen_step_4_2 };
    unsafe { call(filter.as_mut_ptr(), u.as_ptr(), z.as_ptr()) }
}

#[cfg(not(eigen))]
mod absent {
    pub fn matmul(_: usize, _: &[f64], _: &[f64], _: &mut [f64]) {}
    pub fn inv(_: usize, _: &[f64], _: &mut [f64]) {}
    pub fn cholesky(_: usize, _: &[f64], _: &mut [f64]) {}
    pub fn step(_: usize, _: &mut [f64], _: &[f64], _: &[f64]) {}
}
#[cfg(not(eigen))]
pub use absent::*;
