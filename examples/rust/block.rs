//! A block found again from the projections at positions 1 and 2 of layout 0, by the library for C.
extern "C" {
    fn mj_c_bins(layout: u32, position: u32) -> usize;
    fn mj_c_project(layout: u32, position: u32, block: *const u64, words: usize, out: *mut u64, bins: usize) -> u32;
    fn mj_c_solve(layout: u32, positions: *const u32, count: usize, bins: *const u64, all: usize, out: *mut u64, words: usize) -> u32;
}

fn main() {
    let block: Vec<u64> = (0..512).collect();
    let mut back = vec![0u64; 512];
    // SAFETY: each pointer is to as many words as the number behind it says.
    unsafe {
        let n = [mj_c_bins(0, 1), mj_c_bins(0, 2)];
        let mut bins = vec![0u64; n[0] + n[1]];
        assert_eq!(mj_c_project(0, 1, block.as_ptr(), 512, bins.as_mut_ptr(), n[0]), 0);
        assert_eq!(mj_c_project(0, 2, block.as_ptr(), 512, bins[n[0]..].as_mut_ptr(), n[1]), 0);
        assert_eq!(mj_c_solve(0, [1u32, 2].as_ptr(), 2, bins.as_ptr(), bins.len(), back.as_mut_ptr(), 512), 0);
    }
    assert_eq!(back, block);
    println!("the block is back");
}
