//! Subject: whatever it is told it tells to each that subscribed.
use super::form::{Lock, Ref};
use super::leaf::Emitter;
use super::root::{call, Rooted};
use super::scope::Thing;
use super::{Fits, Moves, Observable};
use crate::engine::helgrind::{acquired, released};
use crate::rx::panics::Panics;

type Emitters<'a, T, E> = Vec<(u64, Emitter<'a, T, E>)>;

struct List<'a, T, E> {
    emitters: Ref<Emitters<'a, T, E>>, // who tells them has a hold of the list, which is changed in place only where nobody has
    made: u64,
    end: Option<Result<(), E>>,
}

/// An observable that a program tells what to tell. Clones are one subject.
pub struct Subject<'a, T, E = std::convert::Infallible> {
    list: Ref<Lock<List<'a, T, E>>>,
}

impl<T, E> Clone for Subject<'_, T, E> {
    fn clone(&self) -> Self {
        Subject { list: self.list.clone() }
    }
}

struct Leaves<'a, T, E> {
    list: Ref<Lock<List<'a, T, E>>>,
    number: u64,
}

impl<T, E> Thing for Leaves<'_, T, E> {
    fn closed(&self) {
        let gone = self.list.with(|list| {
            let at = list.emitters.binary_search_by_key(&self.number, |it| it.0).ok()?;
            match Ref::get_mut(&mut list.emitters) {
                Some(all) => {
                    acquired(all);
                    Some((Some(all.remove(at)), None))
                }
                None => {
                    let mut all = (*list.emitters).clone();
                    all.remove(at);
                    Some((None, Some(std::mem::replace(&mut list.emitters, Ref::new(all)))))
                }
            }
        });
        drop(gone); // outside the lock
    }
}

impl<'a, T: Moves + 'a, E: Clone + Moves + 'a> Default for Subject<'a, T, E> {
    fn default() -> Self {
        Self::new()
    }
}

impl<'a, T, E> Subject<'a, T, E> {
    fn with_all<R>(&self, f: impl FnOnce(&Emitters<'a, T, E>) -> R) -> R {
        let all = self.list.with(|list| list.emitters.clone());
        let done = f(&all);
        released(&*all);
        done
    }
}

/// A copy for one of many. Who cannot have one hears nothing more: its subscription is closed.
fn copy<V: Clone, T, E>(value: &V, to: &Emitter<T, E>) -> V {
    call(|| to.leaf.root(), || value.clone())
}

impl<'a, T: Moves + 'a, E: Clone + Moves + 'a> Subject<'a, T, E> {
    /// Nobody listens yet.
    pub fn new() -> Self {
        Subject { list: Ref::new(Lock::new(List { emitters: Ref::new(Vec::new()), made: 0, end: None })) }
    }

    /// What it is told. Who subscribes after its end hears that.
    pub fn observable(&self) -> Observable<'a, T, E> {
        let list = self.list.clone();
        Observable::new(move |place| {
            let emitter = Emitter::open_source(place)?;
            let number = list.with(|it| {
                if let Some(end) = &it.end {
                    return Err(end.clone());
                }
                it.made += 1;
                let entry = (it.made, emitter.clone());
                match Ref::get_mut(&mut it.emitters) {
                    Some(all) => {
                        acquired(all);
                        all.push(entry)
                    }
                    None => {
                        let mut all = (*it.emitters).clone();
                        all.push(entry);
                        it.emitters = Ref::new(all);
                    }
                }
                Ok(it.made)
            });
            match number {
                Ok(number) => emitter.leaf.when_closed(Ref::new(Leaves { list: list.clone(), number })),
                Err(Ok(())) => emitter.completed(),
                Err(Err(error)) => emitter.error(error),
            }
            Ok(())
        })
    }

    /// Tells an item to all that listen, in the order in which they subscribed. One that panics keeps it from none.
    pub fn next(&self, item: T)
    where
        T: Clone,
    {
        let mut panics = Panics::default();
        self.with_all(|all| {
            if let Some((last, others)) = all.split_last() {
                for (_, it) in others {
                    panics.run(|| it.next(copy(&item, it)));
                }
                panics.run(|| last.1.next(item));
            }
        });
        panics.go_on();
    }

    fn ends(&self, end: Result<(), E>) {
        let mut kept = Some(end.clone()); // dropped outside the lock, if it is not the first
        let all = self.list.with(|list| {
            if list.end.is_some() {
                return Ref::new(Vec::new());
            }
            list.end = kept.take();
            std::mem::replace(&mut list.emitters, Ref::new(Vec::new()))
        });
        let mut panics = Panics::default();
        for (_, it) in all.iter() {
            panics.run(|| match &end {
                Ok(()) => it.completed(),
                Err(error) => it.error(copy(error, it)),
            });
        }
        drop(all);
        panics.go_on();
    }

    /// Fails for all that listen.
    pub fn error(&self, error: E) {
        self.ends(Err(error))
    }

    /// Completes for all that listen.
    pub fn completed(&self) {
        self.ends(Ok(()))
    }

    /// How many listen.
    pub fn observers(&self) -> usize {
        self.with_all(Vec::len)
    }
}

const _: fn() = || {
    fn fits<T: Fits>() {}
    let _ = fits::<Subject<'static, i32>>;
};
