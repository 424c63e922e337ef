//! What the archive exports, as `station.h` declares it.
//!
//! A function of the archive asks that each pointer is valid for its length while the call lasts, and that the output overlaps no input. A
//! slice and a `&mut` slice are just that, so a call that passes the parts of slices is sound.

use crate::Refusal;

/// What a call answers: 0 and how much it wrote, or a refusal's number and, for ROOM, how many places are needed.
#[repr(C)]
pub struct Told {
    refused: u64,
    count: u64,
}

impl Told {
    pub fn result(self) -> Result<usize, Refusal> {
        let count = self.count as usize;
        match self.refused {
            0 => Ok(count),
            number => Err(Refusal::numbered(number, count)),
        }
    }
}

/// Declares functions of the archive that share a signature, and a type for that signature.
macro_rules! archive {
    ($signature:ident $parameters:tt: $($name:ident),+) => {
        pub type $signature = unsafe extern "C" fn $parameters -> Told;
        extern "C" {
            $(pub fn $name $parameters -> Told;)+
        }
    };
}

archive!(Parse(data: *const u8, data_len: usize, coord: usize, comp: usize, flag: usize,
    decode: *const f64, decode_len: usize, n: usize, out: *mut f64, out_len: usize):
    mesh_parse_type4, mesh_parse_type6, mesh_parse_type7,
    mesh_published_type4, mesh_published_type6, mesh_published_type7);
archive!(ParseLattice(data: *const u8, data_len: usize, coord: usize, comp: usize,
    decode: *const f64, decode_len: usize, n: usize, row: usize, out: *mut f64, out_len: usize):
    mesh_parse_type5, mesh_published_type5);
archive!(Build(values: *const f64, values_len: usize, n: usize, out: *mut f64, out_len: usize):
    mesh_build_type4, mesh_build_type6, mesh_build_type7,
    mesh_build_published_type4, mesh_build_published_type6, mesh_build_published_type7,
    mesh_coons_to_tensor);
archive!(BuildLattice(values: *const f64, values_len: usize, n: usize, row: usize, out: *mut f64, out_len: usize):
    mesh_build_type5, mesh_build_published_type5);
archive!(RawRead(data: *const u8, data_len: usize, coord: usize, comp: usize, flag: usize, n: usize,
    out: *mut u32, out_len: usize):
    mesh_raw_read_type4, mesh_raw_read_type6, mesh_raw_read_type7);
archive!(RawWrite(numbers: *const u32, numbers_len: usize, coord: usize, comp: usize, flag: usize, n: usize,
    out: *mut u8, out_len: usize):
    mesh_raw_write_type4, mesh_raw_write_type6, mesh_raw_write_type7);

extern "C" {
    pub fn mesh_raw_read_type5(
        data: *const u8,
        data_len: usize,
        coord: usize,
        comp: usize,
        n: usize,
        out: *mut u32,
        out_len: usize,
    ) -> Told;
    pub fn mesh_raw_write_type5(
        numbers: *const u32,
        numbers_len: usize,
        coord: usize,
        comp: usize,
        n: usize,
        out: *mut u8,
        out_len: usize,
    ) -> Told;
    pub fn mesh_coons_to_tensor_raw(
        numbers: *const u32,
        numbers_len: usize,
        n: usize,
        out: *mut i64,
        out_len: usize,
    ) -> Told;
}
