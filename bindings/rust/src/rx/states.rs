//! Functions on items that remember: scan, skip, pairwise and their like. Each subscription remembers its own. They are called in the
//! thread that emits, before the engine has the item, under a lock of the subscription: what one of these emits into its own source is a
//! panic.
use super::form::{Lock, Ref};
use super::items::Step;
use super::{Fits, Moves, Observable};
use crate::rx::{atomic::AtomicU64, by};
use std::collections::HashSet;
use std::hash::Hash;
use std::sync::atomic::Ordering::Relaxed;

/// What a subscription remembers, and which thread has it: one that wants it again from within would wait for itself.
struct Memory<S> {
    state: Lock<S>,
    holder: AtomicU64,
}

/// As long as a thread has it.
struct Holds<'m>(&'m AtomicU64);

impl Drop for Holds<'_> {
    fn drop(&mut self) {
        self.0.store(0, Relaxed)
    }
}

impl<S> Memory<S> {
    fn with<R>(&self, f: impl FnOnce(&mut S) -> R) -> R {
        let me = by();
        assert!(self.holder.load(Relaxed) != me, "a function that remembers emits into its own source");
        self.state.with(|state| {
            self.holder.store(me, Relaxed);
            let _holds = Holds(&self.holder);
            f(state)
        })
    }
}

impl<'a, T: 'a, E: 'a> Observable<'a, T, E> {
    fn remembering<S: Moves + 'a, U: 'a>(
        &self, first: impl Fn() -> S + Fits + 'a, f: impl Fn(&mut S, T) -> Result<Option<U>, E> + Fits + 'a,
    ) -> Observable<'a, U, E> {
        let f = Ref::new(f);
        self.through(move |way| {
            let (f, memory) = (f.clone(), Memory { state: Lock::new(first()), holder: AtomicU64::new(0) });
            Ref::new(Step { way, f: move |it| memory.with(|state| f(state, it)) })
        })
    }

    /// What comes of all items so far, from `first` on.
    ///
    /// # Panics
    /// If `f`, which is called under a lock of this subscription, emits into its own source.
    pub fn scan<A: Clone + Moves + Fits + 'a>(&self, first: A, f: impl Fn(&A, T) -> A + Fits + 'a) -> Observable<'a, A, E> {
        self.try_scan(first, move |sum, it| Ok(f(sum, it)))
    }

    /// As [`scan`](Self::scan), or fails.
    pub fn try_scan<A: Clone + Moves + Fits + 'a>(
        &self, first: A, f: impl Fn(&A, T) -> Result<A, E> + Fits + 'a,
    ) -> Observable<'a, A, E> {
        self.remembering(move || first.clone(), move |sum, it| {
            *sum = f(sum, it)?;
            Ok(Some(sum.clone()))
        })
    }

    /// All but the first items.
    pub fn skip(&self, many: usize) -> Self {
        self.remembering(move || many, |left, it| match *left {
            0 => Ok(Some(it)),
            _ => {
                *left -= 1;
                Ok(None)
            }
        })
    }

    /// The items from the first on for which it is false.
    ///
    /// # Panics
    /// If `f`, which is called under a lock of this subscription, emits into its own source.
    pub fn skip_while(&self, f: impl Fn(&T) -> bool + Fits + 'a) -> Self {
        self.try_skip_while(move |it| Ok(f(it)))
    }

    /// As [`skip_while`](Self::skip_while), or fails.
    pub fn try_skip_while(&self, f: impl Fn(&T) -> Result<bool, E> + Fits + 'a) -> Self {
        self.remembering(|| true, move |skips, it| {
            *skips = *skips && f(&it)?;
            Ok((!*skips).then_some(it))
        })
    }

    /// Each item with its number, from 0.
    pub fn enumerate(&self) -> Observable<'a, (usize, T), E> {
        self.remembering(|| 0, |next, it| {
            *next += 1;
            Ok(Some((*next - 1, it)))
        })
    }
}

impl<'a, T: Moves + 'a, E: 'a> Observable<'a, T, E> {
    /// Each item with the one before it.
    pub fn pairwise(&self) -> Observable<'a, (T, T), E>
    where
        T: Clone,
    {
        self.remembering(|| None, |before: &mut Option<T>, it| Ok(before.replace(it.clone()).map(|before| (before, it))))
    }

    /// The items that differ from the one before.
    pub fn distinct_until_changed(&self) -> Self
    where
        T: Clone + PartialEq,
    {
        self.distinct_until_changed_by(T::clone)
    }

    /// The items whose key differs from that of the one before.
    pub fn distinct_until_changed_by<K: PartialEq + Moves + 'a>(&self, key: impl Fn(&T) -> K + Fits + 'a) -> Self {
        self.remembering(|| None, move |before, it| {
            let key = Some(key(&it));
            Ok((*before != key).then(|| {
                *before = key;
                it
            }))
        })
    }

    /// The items that were not told before. It remembers them all.
    pub fn distinct(&self) -> Self
    where
        T: Clone + Eq + Hash,
    {
        self.distinct_by(T::clone)
    }

    /// The items whose key was not told before. It remembers all keys.
    pub fn distinct_by<K: Eq + Hash + Moves + 'a>(&self, key: impl Fn(&T) -> K + Fits + 'a) -> Self {
        self.remembering(HashSet::new, move |before, it| Ok(before.insert(key(&it)).then_some(it)))
    }
}
