//! The archive that ships, linked into the program of serve.c, which answers calls over its standard input and output.
use std::io::{BufReader, BufWriter, Read, Write};
use std::process::{Child, ChildStdin, ChildStdout, Command, Stdio};

use super::{Boundary, Function, Slice};
use crate::program::root;

/// As many numbers as serve.c reads first: the function, the scalars, the slices' counts.
const HEAD: usize = 1 + SCALARS + SLICES;
const SCALARS: usize = 8;
const SLICES: usize = 12;

pub struct Served {
    child: Child,
    to: Option<BufWriter<ChildStdin>>,
    from: BufReader<ChildStdout>,
}

impl Served {
    pub fn start() -> Result<Self, String> {
        let mut child = Command::new("sh")
            .arg("differential/serve")
            .arg("run")
            .current_dir(root())
            .stdin(Stdio::piped())
            .stdout(Stdio::piped())
            .spawn()
            .map_err(|error| format!("the archive's program can't be started: {error}"))?;
        let to = child.stdin.take().map(BufWriter::new);
        let from = BufReader::new(child.stdout.take().unwrap());
        Ok(Served { child, to, from })
    }

    fn number(&mut self) -> u64 {
        let mut bytes = [0; 8];
        self.from.read_exact(&mut bytes).expect("the archive's program ended");
        u64::from_ne_bytes(bytes)
    }

    fn same(&mut self, slice: &[u8]) {
        let mut bytes = vec![0; slice.len()];
        self.from.read_exact(&mut bytes).expect("the archive's program ended");
        assert!(bytes == slice, "a slice that is only read was written");
    }
}

impl Boundary for Served {
    fn call(&mut self, function: Function, scalars: &[u64], slices: &mut [Slice]) -> u64 {
        let mut head = [0u64; HEAD];
        head[0] = function as u64;
        head[1..1 + scalars.len()].copy_from_slice(scalars);
        for (count, slice) in head[1 + SCALARS..].iter_mut().zip(slices.iter()) {
            *count = slice.count() as u64;
        }
        let to = self.to.as_mut().unwrap();
        let sent = (|| {
            to.write_all(bytes(&head))?;
            for slice in slices.iter() {
                match slice {
                    Slice::Bytes(slice) => to.write_all(slice)?,
                    Slice::Halves(slice) => to.write_all(bytes(slice))?,
                    Slice::Words(slice) => to.write_all(bytes(slice))?,
                    Slice::BytesOut(slice) => to.write_all(slice)?,
                    Slice::HalvesOut(slice) => to.write_all(bytes(slice))?,
                    Slice::WordsOut(slice) => to.write_all(bytes(slice))?,
                }
            }
            to.flush()
        })();
        sent.expect("the archive's program ended");
        let answer = self.number();
        for slice in slices {
            match slice {
                Slice::Bytes(slice) => self.same(slice),
                Slice::Halves(slice) => self.same(bytes(slice)),
                Slice::Words(slice) => self.same(bytes(slice)),
                Slice::BytesOut(slice) => self.from.read_exact(slice).unwrap(),
                Slice::HalvesOut(slice) => self.from.read_exact(bytes_mut(slice)).unwrap(),
                Slice::WordsOut(slice) => self.from.read_exact(bytes_mut(slice)).unwrap(),
            }
        }
        answer
    }
}

impl Drop for Served {
    fn drop(&mut self) {
        // The end of its input ends it.
        self.to = None;
        let _ = self.child.wait();
    }
}

/// The bytes of numbers, in the order of this machine, which is that of the program.
fn bytes<T: Copy>(slice: &[T]) -> &[u8] {
    // SAFETY: T is u16 or u64 here, which have no padding.
    unsafe { std::slice::from_raw_parts(slice.as_ptr() as *const u8, std::mem::size_of_val(slice)) }
}

fn bytes_mut<T: Copy>(slice: &mut [T]) -> &mut [u8] {
    // SAFETY: as above, and any bytes are such numbers.
    unsafe { std::slice::from_raw_parts_mut(slice.as_mut_ptr() as *mut u8, std::mem::size_of_val(slice)) }
}
