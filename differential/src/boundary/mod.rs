//! Our compiled library by its C boundary: linked for the machine at hand (`linked`), or the archive that ships, in a program of its own (`served`).
mod library;
mod linked;
mod served;

use std::ffi::c_void;

pub use library::Library;
pub use linked::Linked;
pub use served::Served;

/// The boundary's functions, by the numbers that serve.c knows them by.
#[derive(Clone, Copy, Debug, PartialEq, Eq)]
pub enum Function {
    Search = 1,
    Unary = 2,
    Binary = 3,
    Check = 4,
    Print = 5,
    Read = 6,
    Parse = 7,
    Fresh = 8,
    Resume = 9,
}

pub const FUNCTIONS: [(Function, &str); 9] = [
    (Function::Search, "scarfpylon_search"),
    (Function::Unary, "scarfpylon_unary"),
    (Function::Binary, "scarfpylon_binary"),
    (Function::Check, "scarfpylon_check"),
    (Function::Print, "scarfpylon_print"),
    (Function::Read, "scarfpylon_read"),
    (Function::Parse, "scarfpylon_parse"),
    (Function::Fresh, "scarfpylon_fresh"),
    (Function::Resume, "scarfpylon_resume"),
];

/// A lent slice: what may be written, and what may not.
pub enum Slice<'a> {
    Bytes(&'a [u8]),
    Halves(&'a [u16]),
    Words(&'a [u64]),
    BytesOut(&'a mut [u8]),
    HalvesOut(&'a mut [u16]),
    WordsOut(&'a mut [u64]),
}

impl Slice<'_> {
    /// How many numbers it has.
    pub fn count(&self) -> usize {
        match self {
            Slice::Bytes(slice) => slice.len(),
            Slice::Halves(slice) => slice.len(),
            Slice::Words(slice) => slice.len(),
            Slice::BytesOut(slice) => slice.len(),
            Slice::HalvesOut(slice) => slice.len(),
            Slice::WordsOut(slice) => slice.len(),
        }
    }

    pub fn pointer(&mut self) -> *mut c_void {
        match self {
            Slice::Bytes(slice) => slice.as_ptr() as *mut c_void,
            Slice::Halves(slice) => slice.as_ptr() as *mut c_void,
            Slice::Words(slice) => slice.as_ptr() as *mut c_void,
            Slice::BytesOut(slice) => slice.as_mut_ptr() as *mut c_void,
            Slice::HalvesOut(slice) => slice.as_mut_ptr() as *mut c_void,
            Slice::WordsOut(slice) => slice.as_mut_ptr() as *mut c_void,
        }
    }
}

/// One way to call the library.
pub trait Boundary {
    /// What the function answers: 0, or a refusal's number. The scalars are those of the boundary's line, in its order, and so are the slices.
    fn call(&mut self, function: Function, scalars: &[u64], slices: &mut [Slice]) -> u64;
}

/// Which way is asked for.
#[derive(Clone, Copy, PartialEq, Eq)]
pub enum Way {
    Linked,
    Served,
}

fn open(way: Way) -> Result<Box<dyn Boundary>, String> {
    Ok(match way {
        Way::Linked => Box::new(Linked::load()?),
        Way::Served => Box::new(Served::start()?),
    })
}

/// The library, or a line that says why what was to be compared is not.
pub fn opened(way: Way, what: &str) -> Option<Box<dyn Boundary>> {
    open(way).map_err(|error| println!("{what} not compared: {error}")).ok()
}
