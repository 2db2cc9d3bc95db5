//! The port, linked: document 01's replay as a safe function.

mod linked {
    extern "C" {
        /// `replay` of crates/replay, whose slices come as a pointer and a length each.
        pub fn replay(trace: *const u8, trace_len: usize, out: *mut u8, out_len: usize) -> usize;
    }
}

/// Plays the trace: the lines that fit whole into `out`, zeros behind them, and how many bytes the lines are.
pub fn replay(trace: &[u8], out: &mut [u8]) -> usize {
    // SAFETY: both pointers are to live slices of the lengths given, and since one is lent for writing the two don't overlap.
    unsafe { linked::replay(trace.as_ptr(), trace.len(), out.as_mut_ptr(), out.len()) }
}

/// All lines of a trace.
pub fn lines(trace: &[u8]) -> Vec<u8> {
    let mut out = vec![0; records::room_for(trace)];
    let length = replay(trace, &mut out);
    out.truncate(length);
    out
}
