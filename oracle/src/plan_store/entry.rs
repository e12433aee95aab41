//! The program under test: the four calls of crate store_calls, where its library was linked.

/// The words of a store (TELUDDRU_STORE_WORDS).
pub const STORE_WORDS: usize = 7697;

/// Store, pack, plan, entries, answer.
pub type Keep = fn(&mut [u32], u32, &[u32], u32, &mut [u32]) -> u32;

/// The calls, each with the ranges that it is lent.
#[derive(Clone, Copy)]
pub struct Calls {
    pub set_up: fn(&mut [u32], &[u32]) -> u32,
    pub keep: Keep,
    /// Store, pack, place, entry.
    pub read: fn(&[u32], u32, u32, &mut [u32]) -> u32,
    pub empty: fn(&mut [u32]) -> u32,
}

#[cfg(store_linked)]
mod linked {
    #[rustfmt::skip]
    extern "C" {
        fn teluddru_store_set_up(store: *mut u32, _: usize, shares: *const u32, _: usize) -> u32;
        fn teluddru_store_keep(
            store: *mut u32, _: usize, pack: u32,
            plan: *const u32, _: usize, entries: u32,
            answer: *mut u32, _: usize,
        ) -> u32;
        fn teluddru_store_read(
            store: *const u32, _: usize, pack: u32, place: u32,
            entry: *mut u32, _: usize,
        ) -> u32;
        fn teluddru_store_empty(store: *mut u32, _: usize) -> u32;
    }

    // SAFETY, of all four: the ranges are lent for the call, those that it writes alone to be written.

    pub fn set_up(store: &mut [u32], shares: &[u32]) -> u32 {
        unsafe {
            teluddru_store_set_up(store.as_mut_ptr(), store.len(), shares.as_ptr(), shares.len())
        }
    }

    #[rustfmt::skip]
    pub fn keep(store: &mut [u32], pack: u32, plan: &[u32], entries: u32, answer: &mut [u32]) -> u32 {
        unsafe {
            teluddru_store_keep(
                store.as_mut_ptr(), store.len(), pack,
                plan.as_ptr(), plan.len(), entries,
                answer.as_mut_ptr(), answer.len(),
            )
        }
    }

    #[rustfmt::skip]
    pub fn read(store: &[u32], pack: u32, place: u32, entry: &mut [u32]) -> u32 {
        unsafe {
            teluddru_store_read(
                store.as_ptr(), store.len(), pack, place,
                entry.as_mut_ptr(), entry.len(),
            )
        }
    }

    pub fn empty(store: &mut [u32]) -> u32 {
        unsafe { teluddru_store_empty(store.as_mut_ptr(), store.len()) }
    }
}

#[cfg(store_linked)]
pub const LINKED: Option<Calls> = Some(Calls {
    set_up: linked::set_up,
    keep: linked::keep,
    read: linked::read,
    empty: linked::empty,
});
#[cfg(not(store_linked))]
pub const LINKED: Option<Calls> = None;
