//! The library as differential/native links it, out/native/libscarfpylon.so, in this very process.
use std::ffi::c_void;
use std::mem::transmute;
use std::path::Path;

use super::library::Library;
use super::{Boundary, Function, Slice, FUNCTIONS};
use crate::program::root;

/// The functions that the library has, each at its place in `FUNCTIONS`.
pub struct Linked {
    functions: [*mut c_void; 9],
}

// A slice is pointer and count.
type P = *mut c_void;
type N = usize;
type Unary = unsafe extern "C" fn(u8, u64, u64, P, N) -> u64;
type Binary = unsafe extern "C" fn(u8, u64, u64, u64, u64, P, N) -> u64;
#[rustfmt::skip]
type Search = unsafe extern "C" fn(N, N, N, N, u8,
    P, N, P, N, P, N, P, N, P, N, P, N, P, N, P, N, P, N, P, N, P, N) -> u64;
#[rustfmt::skip]
type Check = unsafe extern "C" fn(N, N, P, N, P, N, P, N, P, N, P, N, P, N, P, N,
    u8, u16, u16, u8, P, N) -> u64;
#[rustfmt::skip]
type Print = unsafe extern "C" fn(P, N, P, N, P, N, P, N, P, N,
    u8, u16, u16, u8, P, N, P, N) -> u64;
type Read = unsafe extern "C" fn(P, N, P, N, P, N, P, N, P, N, P, N, P, N) -> u64;
type Parse = unsafe extern "C" fn(P, N, P, N, P, N, P, N, P, N, P, N, P, N) -> u64;
type Fresh = unsafe extern "C" fn(P, N) -> u64;
#[rustfmt::skip]
type Resume = unsafe extern "C" fn(N, N, N, N, u8,
    P, N, P, N, P, N, P, N, P, N, P, N, P, N, P, N, P, N, P, N, u64, P, N, P, N) -> u64;

impl Linked {
    pub fn load() -> Result<Self, String> {
        let file = root().join("out/native/libscarfpylon.so");
        if !file.is_file() {
            return Err("our library is not at hand: sh differential/native scarfpylon makes it".to_string());
        }
        Self::of(&file)
    }

    /// One that stands elsewhere, with the same boundary.
    pub fn of(file: &Path) -> Result<Self, String> {
        let library = Library::load(file)?;
        Ok(Linked {
            functions: FUNCTIONS.map(|(_, name)| library.symbol(name)),
        })
    }
}

impl Boundary for Linked {
    #[rustfmt::skip]
    fn call(&mut self, function: Function, x: &[u64], slices: &mut [Slice]) -> u64 {
        let at = FUNCTIONS.iter().position(|row| row.0 == function).unwrap();
        let address = self.functions[at];
        assert!(!address.is_null(), "our library has no {}", FUNCTIONS[at].1);
        let s: Vec<(P, N)> = slices.iter_mut().map(|slice| (slice.pointer(), slice.count())).collect();
        let n = |i: usize| x[i] as usize;
        // SAFETY: the types are the boundary's; each pointer is a live slice's, with its own count, and no two that are written overlap.
        unsafe {
            match function {
                Function::Search => transmute::<P, Search>(address)(
                    n(0), n(1), n(2), n(3), x[4] as u8,
                    s[0].0, s[0].1, s[1].0, s[1].1, s[2].0, s[2].1, s[3].0, s[3].1, s[4].0, s[4].1, s[5].0, s[5].1,
                    s[6].0, s[6].1, s[7].0, s[7].1, s[8].0, s[8].1, s[9].0, s[9].1, s[10].0, s[10].1,
                ),
                Function::Unary => transmute::<P, Unary>(address)(x[0] as u8, x[1], x[2], s[0].0, s[0].1),
                Function::Binary => transmute::<P, Binary>(address)(x[0] as u8, x[1], x[2], x[3], x[4], s[0].0, s[0].1),
                Function::Check => transmute::<P, Check>(address)(
                    n(0), n(1),
                    s[0].0, s[0].1, s[1].0, s[1].1, s[2].0, s[2].1, s[3].0, s[3].1, s[4].0, s[4].1, s[5].0, s[5].1,
                    s[6].0, s[6].1,
                    x[2] as u8, x[3] as u16, x[4] as u16, x[5] as u8, s[7].0, s[7].1,
                ),
                Function::Print => transmute::<P, Print>(address)(
                    s[0].0, s[0].1, s[1].0, s[1].1, s[2].0, s[2].1, s[3].0, s[3].1, s[4].0, s[4].1,
                    x[0] as u8, x[1] as u16, x[2] as u16, x[3] as u8, s[5].0, s[5].1, s[6].0, s[6].1,
                ),
                Function::Read => transmute::<P, Read>(address)(
                    s[0].0, s[0].1, s[1].0, s[1].1, s[2].0, s[2].1, s[3].0, s[3].1, s[4].0, s[4].1, s[5].0, s[5].1,
                    s[6].0, s[6].1,
                ),
                Function::Parse => transmute::<P, Parse>(address)(
                    s[0].0, s[0].1, s[1].0, s[1].1, s[2].0, s[2].1, s[3].0, s[3].1, s[4].0, s[4].1, s[5].0, s[5].1,
                    s[6].0, s[6].1,
                ),
                Function::Fresh => transmute::<P, Fresh>(address)(s[0].0, s[0].1),
                Function::Resume => transmute::<P, Resume>(address)(
                    n(0), n(1), n(2), n(3), x[4] as u8,
                    s[0].0, s[0].1, s[1].0, s[1].1, s[2].0, s[2].1, s[3].0, s[3].1, s[4].0, s[4].1, s[5].0, s[5].1,
                    s[6].0, s[6].1, s[7].0, s[7].1, s[8].0, s[8].1, s[9].0, s[9].1, x[5], s[10].0, s[10].1, s[11].0, s[11].1,
                ),
            }
        }
    }
}
