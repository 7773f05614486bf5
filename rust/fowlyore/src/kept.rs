//! Bytes that are made once, on first use.

use std::ptr;
use std::sync::atomic::{AtomicPtr, Ordering};

/// A cell for bytes that are made once and then stay. It has no lock, so the child of a `fork` can't find it
/// locked by a thread that the child doesn't have.
#[derive(Default)]
pub(crate) struct Kept(AtomicPtr<Box<[u8]>>);

impl Kept {
    fn get(&self) -> Option<&[u8]> {
        // SAFETY: it is null, or what `Box::into_raw` returned, which doesn't change until `self` is dropped.
        unsafe { self.0.load(Ordering::Acquire).as_ref() }.map(|it| &**it)
    }

    /// The bytes, which are made on the first call that makes them. If several threads make them at once, the
    /// first to finish are kept.
    pub fn get_or_try_make<E>(
        &self,
        make: impl FnOnce() -> Result<Vec<u8>, E>,
    ) -> Result<&[u8], E> {
        match self.get() {
            Some(bytes) => Ok(bytes),
            None => Ok(self.keep(make()?)),
        }
    }

    /// These bytes, or those that are kept already.
    fn keep(&self, bytes: Vec<u8>) -> &[u8] {
        let made = Box::into_raw(Box::new(bytes.into_boxed_slice()));
        let put =
            self.0
                .compare_exchange(ptr::null_mut(), made, Ordering::AcqRel, Ordering::Acquire);
        if put.is_err() {
            // SAFETY: it was made above, and nobody else has it.
            drop(unsafe { Box::from_raw(made) });
        }
        self.get().expect("bytes that are kept stay")
    }
}

impl Clone for Kept {
    fn clone(&self) -> Kept {
        let copy = Kept::default();
        if let Some(bytes) = self.get() {
            copy.keep(bytes.to_vec());
        }
        copy
    }
}

impl Drop for Kept {
    fn drop(&mut self) {
        let bytes = *self.0.get_mut();
        if !bytes.is_null() {
            // SAFETY: `Box::into_raw` returned it, and nothing borrows from `self` any more.
            drop(unsafe { Box::from_raw(bytes) });
        }
    }
}

#[cfg(test)]
mod tests {
    use super::*;
    use std::sync::Barrier;
    use std::thread;

    #[test]
    fn bytes_are_made_once() {
        let kept = Kept::default();
        assert_eq!(kept.get_or_try_make(|| Err(3)), Err(3));
        assert_eq!(
            kept.get_or_try_make(|| Ok::<_, ()>(vec![1, 2])),
            Ok(&[1, 2][..])
        );
        assert_eq!(kept.get_or_try_make(|| Err(3)), Ok(&[1, 2][..]));
        let copy = kept.clone();
        drop(kept);
        assert_eq!(copy.get(), Some(&[1, 2][..]));
        assert_eq!(Kept::default().clone().get(), None);
    }

    #[test]
    fn threads_see_the_same_bytes() {
        for _ in 0..100 {
            let (kept, start) = (Kept::default(), Barrier::new(4));
            let places = thread::scope(|scope| {
                let threads: Vec<_> = (0..4_u8)
                    .map(|it| {
                        let (kept, start) = (&kept, &start);
                        scope.spawn(move || {
                            start.wait();
                            kept.keep(vec![it; 9]).as_ptr() as usize
                        })
                    })
                    .collect();
                threads
                    .into_iter()
                    .map(|it| it.join().unwrap())
                    .collect::<Vec<_>>()
            });
            assert!(places
                .iter()
                .all(|it| *it == kept.get().unwrap().as_ptr() as usize));
        }
    }
}
