// A caller in Rust: a handle that gives itself back, made, added to and asked.
use std::os::raw::c_void;
use std::ptr::{null, null_mut};

#[repr(C)]
struct Hash {
    words: [u64; 2],
}

#[repr(C)]
#[derive(Default)]
struct Fault {
    kind: u32,
    cause: u32,
    number: u64,
}

extern "C" {
    fn heavy_new_summary(heavy: *mut *mut c_void, k: u64, hash: *const Hash, fault: *mut Fault) -> u32;
    fn heavy_update_items(
        heavy: *mut c_void, keys: *const u8, keys_len: usize, ends: *const u64, count: usize, weights: *const u64,
        weights_len: usize, fault: *mut Fault,
    ) -> u32;
    fn heavy_update(heavy: *mut c_void, key: *const u8, key_len: usize, weight: u64, fault: *mut Fault) -> u32;
    fn heavy_list(heavy: *mut c_void, out: *mut u8, out_len: usize, needed: *mut usize, fault: *mut Fault) -> u32;
    fn heavy_strerror(fault: *const Fault, out: *mut u8, out_len: usize, needed: *mut usize) -> u32;
    fn heavy_free(heavy: *mut c_void);
}

struct Heavy(*mut c_void);

impl Drop for Heavy {
    fn drop(&mut self) {
        unsafe { heavy_free(self.0) }
    }
}

fn main() {
    let (hash, mut value, mut needed) = (Hash { words: [77, 5] }, Heavy(null_mut()), 0);
    let (ends, weights, mut room) = ([1u64, 2, 3], [5u64, 3, 1], [0u8; 128]);
    unsafe {
        assert_eq!(heavy_new_summary(&mut value.0, 2, &hash, null_mut()), 0);
        let status = heavy_update_items(value.0, b"aba".as_ptr(), 3, ends.as_ptr(), 3, weights.as_ptr(), 3, null_mut());
        assert_eq!(status, 0);
        assert_eq!(heavy_list(value.0, room.as_mut_ptr(), room.len(), &mut needed, null_mut()), 0);
        print!("{}", String::from_utf8_lossy(&room[..needed]));
        let mut fault = Fault::default();
        assert_eq!(heavy_update(value.0, null(), 0, 1, &mut fault), 3);
        assert_eq!(heavy_strerror(&fault, room.as_mut_ptr(), room.len(), &mut needed), 0);
        println!("{}", String::from_utf8_lossy(&room[..needed]));
    }
}
