//! Patterns that threads share, and the handles that they have of them.
use crate::sys::{Handle, Options};
use crate::Error;
use std::fmt;
use std::ops::{Deref, DerefMut};
use std::sync::atomic::{AtomicUsize, Ordering};
use std::sync::{Arc, Mutex, PoisonError};

/// How many stacks of handles there are, so that threads seldom wait for one another.
const STACKS: usize = 8;

static NEXT: AtomicUsize = AtomicUsize::new(0);

thread_local! {
    /// The stack that this thread looks at first.
    static OWN: usize = NEXT.fetch_add(1, Ordering::Relaxed) % STACKS;
}

/// Handles that no call uses now. Each stack is in cache lines of its own.
#[repr(align(128))]
struct Stack<H>(Mutex<Vec<H>>);

impl<H> Stack<H> {
    #[inline]
    fn pop(&self) -> Option<H> {
        self.0.lock().unwrap_or_else(PoisonError::into_inner).pop()
    }

    #[inline]
    fn push(&self, handle: H) {
        self.0.lock().unwrap_or_else(PoisonError::into_inner).push(handle);
    }
}

/// Some patterns, and handles of the type `H` that were made of them.
pub struct Shared<H> {
    pub patterns: Vec<String>,
    pub options: Options,
    free: [Stack<H>; STACKS],
}

impl<H> fmt::Debug for Shared<H> {
    fn fmt(&self, f: &mut fmt::Formatter<'_>) -> fmt::Result {
        f.debug_list().entries(&self.patterns).finish()
    }
}

impl<H: Handle> Shared<H> {
    pub fn new(patterns: Vec<String>, options: &Options) -> Result<Arc<Shared<H>>, Error> {
        let handle = H::new(&patterns, options)?;
        let free = std::array::from_fn(|_| Stack(Mutex::new(Vec::new())));
        let made = Shared { patterns, options: *options, free };
        made.own().push(handle);
        Ok(Arc::new(made))
    }

    /// The stack of this thread.
    #[inline]
    fn own(&self) -> &Stack<H> {
        // At the end of a thread there is no number.
        &self.free[OWN.try_with(|own| *own).unwrap_or(0)]
    }

    /// Takes a free handle, or makes one.
    ///
    /// # Panics
    ///
    /// If it cannot be made, as memory is refused: the patterns have been compiled before.
    #[inline]
    pub fn held(&self) -> Held<'_, H> {
        let own = self.own();
        let handle = own.pop().unwrap_or_else(|| self.another());
        Held { own, handle: Some(handle) }
    }

    #[cold]
    fn another(&self) -> H {
        let free = self.free.iter().find_map(Stack::pop);
        let new = || H::new(&self.patterns, &self.options).expect("memory for patterns that were compiled before");
        free.unwrap_or_else(new)
    }
}

/// A handle that a call or an iterator uses, and that is free again when this is dropped.
pub struct Held<'r, H> {
    own: &'r Stack<H>,
    // None only while it is dropped.
    handle: Option<H>,
}

impl<H> fmt::Debug for Held<'_, H> {
    fn fmt(&self, f: &mut fmt::Formatter<'_>) -> fmt::Result {
        f.write_str("Held")
    }
}

impl<H> Deref for Held<'_, H> {
    type Target = H;

    #[inline]
    fn deref(&self) -> &H {
        self.handle.as_ref().expect("a handle until it is dropped")
    }
}

impl<H> DerefMut for Held<'_, H> {
    #[inline]
    fn deref_mut(&mut self) -> &mut H {
        self.handle.as_mut().expect("a handle until it is dropped")
    }
}

impl<H> Drop for Held<'_, H> {
    #[inline]
    fn drop(&mut self) {
        if let Some(handle) = self.handle.take() {
            self.own.push(handle);
        }
    }
}
