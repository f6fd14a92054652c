// The one name that the Rust takes from std, for a build without std: a cell that is filled once, on one thread.
#![no_std]
pub mod sync {
    use core::cell::UnsafeCell;
    pub struct OnceLock<T>(UnsafeCell<Option<T>>);
    unsafe impl<T> Sync for OnceLock<T> {}
    impl<T> OnceLock<T> {
        pub const fn new() -> Self {
            OnceLock(UnsafeCell::new(None))
        }
        #[inline]
        pub fn get_or_init<F: FnOnce() -> T>(&self, f: F) -> &T {
            unsafe { (*self.0.get()).get_or_insert_with(f) }
        }
    }
}
