//! Writing records into a batch (the paper's "train").

use crate::layout::{BLOCK, GROUP, HEADER};

pub const GROUP_WRITE: [u8; 2] = [0x47, 0x57];
pub const HOME_WRITE: [u8; 2] = [0x48, 0x57];
pub const HEADER_WRITE: [u8; 2] = [0x4b, 0x57];
pub const FENCE: [u8; 2] = [0x46, 0x4e];

pub const GROUP_WRITE_LEN: usize = 4 + GROUP;
pub const HOME_WRITE_LEN: usize = 4 + BLOCK;
pub const HEADER_WRITE_LEN: usize = 2 + HEADER;
pub const FENCE_LEN: usize = 2;

/// Question 10: is the batch as long as what the call writes?
pub fn check_batch(batch: &[u8], need: usize) -> Result<(), u32> {
    if need <= batch.len() {
        Ok(())
    } else {
        Err(crate::layout::refuse::BATCH)
    }
}

/// A lent batch and the bytes written so far. Room is checked beforehand.
pub struct Batch<'a> {
    bytes: &'a mut [u8],
    len: usize,
}

impl<'a> Batch<'a> {
    pub fn new(bytes: &'a mut [u8]) -> Batch<'a> {
        Batch { bytes, len: 0 }
    }

    pub fn len(&self) -> usize {
        self.len
    }

    pub fn is_empty(&self) -> bool {
        self.len == 0
    }

    fn put(&mut self, part: &[u8]) {
        self.bytes[self.len..self.len + part.len()].copy_from_slice(part);
        self.len += part.len();
    }

    pub fn group(&mut self, slot: usize, group: &[u8]) {
        self.put(&GROUP_WRITE);
        self.put(&(slot as u16).to_le_bytes());
        self.put(group);
    }

    pub fn home(&mut self, home: usize, block: &[u8]) {
        self.put(&HOME_WRITE);
        self.put(&(home as u16).to_le_bytes());
        self.put(block);
    }

    pub fn header(&mut self, header: &[u8; HEADER]) {
        self.put(&HEADER_WRITE);
        self.put(header);
    }

    pub fn fence(&mut self) {
        self.put(&FENCE);
    }
}
