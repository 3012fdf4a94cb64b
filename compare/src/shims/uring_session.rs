//! Stand-in for the queue of reads: it reads late and in a shuffled order, so that the Rust must
//! put its pages together whatever order they come in.

use super::error::StoreError;
use super::io_handle::IoHandle;
use crate::rng::Rng;

pub const DEFAULT_ENTRIES: u32 = 64;
pub const KIND_MPHF_G: u8 = 1;

pub fn pack_ud(kind: u8, epoch: u32, slot: u32) -> u64 {
    u64::from(kind) << 56 | u64::from(epoch & 0xff_ffff) << 32 | u64::from(slot)
}

pub fn unpack_ud(user_data: u64) -> (u8, u32, u32) {
    let epoch = (user_data >> 32) as u32 & 0xff_ffff;
    ((user_data >> 56) as u8, epoch, user_data as u32)
}

struct Read {
    handle: IoHandle,
    offset: u64,
    buffer: *mut [u8],
    user_data: u64,
}

pub struct UringSession {
    order: Rng,
    epoch: u32,
    waiting: Vec<Read>,
    done: Vec<(u64, i32)>,
    poisoned: bool,
}

impl UringSession {
    /// The seed decides the order in which the reads are done.
    pub fn new(seed: u64) -> Self {
        Self {
            order: Rng::new(seed),
            epoch: 0,
            waiting: Vec::new(),
            done: Vec::new(),
            poisoned: false,
        }
    }

    pub fn begin_batch(&mut self) -> Result<(), StoreError> {
        if self.poisoned {
            return Err(StoreError::Corrupt("queue of reads: poisoned"));
        }
        self.epoch = (self.epoch + 1) & 0xff_ffff;
        Ok(())
    }

    pub fn epoch(&self) -> u32 {
        self.epoch
    }

    pub fn free_sq(&self) -> usize {
        (DEFAULT_ENTRIES as usize).saturating_sub(self.waiting.len())
    }

    /// # Safety
    /// The buffer must live, and be used by no one else, until its read is reported or drained.
    pub unsafe fn push_pread(
        &mut self,
        handle: IoHandle,
        offset: u64,
        buffer: &mut [u8],
        user_data: u64,
    ) -> Result<(), StoreError> {
        self.waiting.push(Read {
            handle,
            offset,
            buffer,
            user_data,
        });
        Ok(())
    }

    pub fn sync_submission(&mut self) {}

    pub fn submit(&mut self) -> Result<usize, StoreError> {
        Ok(self.waiting.len())
    }

    /// Does some of the reads, perhaps none, and reports what is done.
    pub fn harvest_ready(&mut self) -> Result<Vec<(u64, i32)>, StoreError> {
        for _ in 0..self.order.below(self.waiting.len() as u64 + 1) {
            self.do_any();
        }
        Ok(std::mem::take(&mut self.done))
    }

    pub fn submit_and_wait_one(&mut self) -> Result<(), StoreError> {
        self.do_any();
        Ok(())
    }

    pub fn drain_all(&mut self) -> Result<(), StoreError> {
        while !self.waiting.is_empty() {
            self.do_any();
        }
        self.done.clear();
        Ok(())
    }

    pub fn poison(&mut self) {
        self.poisoned = true;
    }

    fn do_any(&mut self) {
        if self.waiting.is_empty() {
            return;
        }
        let which = self.order.below(self.waiting.len() as u64) as usize;
        let read = self.waiting.swap_remove(which);
        // SAFETY: whoever pushed the read promised that its buffer still lives.
        let buffer = unsafe { &mut *read.buffer };
        let result = read.handle.pread(read.offset, buffer);
        self.done.push((read.user_data, result));
    }
}
