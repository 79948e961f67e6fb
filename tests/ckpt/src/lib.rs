//! The proved engine's C calls, and the same calls over slices.

mod c {
    extern "C" {
        pub fn ckpt_fresh(table: *mut u8, table_len: usize, n: u32, e: u32) -> u32;
        pub fn ckpt_checkpoint(
            table: *mut u8,
            table_len: usize,
            area: *mut u8,
            area_len: usize,
            p: u32,
        ) -> u32;
        pub fn ckpt_send(
            table: *mut u8,
            table_len: usize,
            area: *mut u8,
            area_len: usize,
            p: u32,
            q: u32,
        ) -> u32;
        pub fn ckpt_receipt(
            table: *mut u8,
            table_len: usize,
            area: *mut u8,
            area_len: usize,
            p: u32,
            q: u32,
            k: u32,
        ) -> u32;
        pub fn ckpt_line(
            table: *const u8,
            table_len: usize,
            area: *mut u8,
            area_len: usize,
            number: u32,
        ) -> u32;
        pub fn ckpt_failed(
            table: *const u8,
            table_len: usize,
            area: *mut u8,
            area_len: usize,
            mask: u32,
        ) -> u32;
        pub fn ckpt_grounds(
            table: *const u8,
            table_len: usize,
            area: *mut u8,
            area_len: usize,
            mask: u32,
        ) -> u32;
        pub fn ckpt_resend(
            table: *const u8,
            table_len: usize,
            positions: *const u8,
            positions_len: usize,
            area: *mut u8,
            area_len: usize,
        ) -> u32;
        pub fn ckpt_audit(
            table: *const u8,
            table_len: usize,
            area: *mut u8,
            area_len: usize,
            scratch: *mut u8,
            scratch_len: usize,
        ) -> u32;
    }
}

// Each call takes any bytes and any numbers, and stays inside the lent slices: so the engine's contracts say, and
// the tests look after it with guard bytes.

pub fn fresh(table: &mut [u8], n: u32, e: u32) -> u32 {
    unsafe { c::ckpt_fresh(table.as_mut_ptr(), table.len(), n, e) }
}

pub fn checkpoint(table: &mut [u8], area: &mut [u8], p: u32) -> u32 {
    unsafe { c::ckpt_checkpoint(table.as_mut_ptr(), table.len(), area.as_mut_ptr(), area.len(), p) }
}

pub fn send(table: &mut [u8], area: &mut [u8], p: u32, q: u32) -> u32 {
    unsafe { c::ckpt_send(table.as_mut_ptr(), table.len(), area.as_mut_ptr(), area.len(), p, q) }
}

pub fn receipt(table: &mut [u8], area: &mut [u8], p: u32, q: u32, k: u32) -> u32 {
    unsafe { c::ckpt_receipt(table.as_mut_ptr(), table.len(), area.as_mut_ptr(), area.len(), p, q, k) }
}

pub fn line(table: &[u8], area: &mut [u8], number: u32) -> u32 {
    unsafe { c::ckpt_line(table.as_ptr(), table.len(), area.as_mut_ptr(), area.len(), number) }
}

pub fn failed(table: &[u8], area: &mut [u8], mask: u32) -> u32 {
    unsafe { c::ckpt_failed(table.as_ptr(), table.len(), area.as_mut_ptr(), area.len(), mask) }
}

pub fn grounds(table: &[u8], area: &mut [u8], mask: u32) -> u32 {
    unsafe { c::ckpt_grounds(table.as_ptr(), table.len(), area.as_mut_ptr(), area.len(), mask) }
}

pub fn resend(table: &[u8], positions: &[u8], area: &mut [u8]) -> u32 {
    let (own, cut) = (table.as_ptr(), positions.as_ptr());
    unsafe { c::ckpt_resend(own, table.len(), cut, positions.len(), area.as_mut_ptr(), area.len()) }
}

pub fn audit(table: &[u8], area: &mut [u8], scratch: &mut [u8]) -> u32 {
    let (own, room) = (table.as_ptr(), scratch.as_mut_ptr());
    unsafe { c::ckpt_audit(own, table.len(), area.as_mut_ptr(), area.len(), room, scratch.len()) }
}
