//! Shim of the crate `bytemuck`: the two casts that GlyphPosition and GlyphInfo use. Except in the build for timing each cast burns fuel, so that a walk along a
//! looping chain (`cross_offset`), which never returns, ends in an unwind.
pub use bytemuck_derive::{Pod, Zeroable};
use std::cell::Cell;

pub struct OutOfFuel;
thread_local!(pub static FUEL: Cell<u64> = const { Cell::new(u64::MAX) });

#[inline(always)]
fn burn() {
    #[cfg(not(bench))]
    FUEL.with(|f| {
        let left = f.get();
        if left == 0 {
            f.set(u64::MAX);
            std::panic::resume_unwind(Box::new(OutOfFuel));
        }
        f.set(left - 1);
    });
}
#[inline(always)]
pub fn cast_ref<A: Copy, B: Copy>(a: &A) -> &B {
    burn();
    assert!(size_of::<A>() == size_of::<B>() && align_of::<A>() >= align_of::<B>());
    unsafe { &*(a as *const A).cast() }
}
#[inline(always)]
pub fn cast_mut<A: Copy, B: Copy>(a: &mut A) -> &mut B {
    burn();
    assert!(size_of::<A>() == size_of::<B>() && align_of::<A>() >= align_of::<B>());
    unsafe { &mut *(a as *mut A).cast() }
}
