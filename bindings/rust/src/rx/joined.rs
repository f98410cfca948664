//! Zip, CombineLatest, WithLatestFrom and SkipUntil: items of several observables in one. Each is heard by a root of its own, all in the
//! lane of one leaf: so one note of theirs is heard at a time.
use super::form::{Lock, Ref};
use super::leaf::{unless_gone, Emitter};
use super::merging::cloned;
use super::stage::Out;
use super::{Fits, Moves, Observable};
use crate::Note;
use std::borrow::Borrow;
use std::collections::VecDeque;

/// An item, and how it ends then, if it does.
struct Told<U, E>(Option<U>, Option<Option<E>>);

/// What several observables come to, for one subscription.
trait Joins<T, U, E> {
    /// One of them, by its number, told this.
    fn hear(&mut self, which: usize, note: Note<T, E>) -> Told<U, E>;
}

struct Latest<T> {
    items: Vec<Option<T>>,
    is_done: Vec<bool>,
}

impl<T: Clone, E> Joins<T, Vec<T>, E> for Latest<T> {
    fn hear(&mut self, which: usize, note: Note<T, E>) -> Told<Vec<T>, E> {
        match note {
            Note::Error(error) => return Told(None, Some(Some(error))),
            Note::Completed => {
                self.is_done[which] = true;
                return Told(None, self.is_done.iter().all(|it| *it).then_some(None));
            }
            Note::Next(item) => self.items[which] = Some(item),
        }
        if self.items.iter().all(Option::is_some) {
            return Told(Some(self.items.iter().flatten().cloned().collect()), None);
        }
        // one that has ended without an item has none ever
        let is_alone = self.is_done.iter().enumerate().all(|(at, is_done)| at == which || *is_done);
        Told(None, is_alone.then_some(None))
    }
}

struct Zip<T> {
    waiting: Vec<VecDeque<T>>,
    is_done: Vec<bool>,
}

impl<T, E> Joins<T, Vec<T>, E> for Zip<T> {
    fn hear(&mut self, which: usize, note: Note<T, E>) -> Told<Vec<T>, E> {
        match note {
            Note::Error(error) => return Told(None, Some(Some(error))),
            Note::Completed => self.is_done[which] = true,
            Note::Next(item) => self.waiting[which].push_back(item),
        }
        let is_whole = self.waiting.iter().all(|it| !it.is_empty());
        let item = is_whole.then(|| self.waiting.iter_mut().filter_map(VecDeque::pop_front).collect());
        let is_over = self.waiting.iter().zip(&self.is_done).any(|(waiting, is_done)| *is_done && waiting.is_empty());
        Told(item, is_over.then_some(None))
    }
}

/// Of two types.
#[derive(Clone)]
enum Either<T, U> {
    This(T),
    That(U),
}

struct WithLatest<U>(Option<U>);

impl<T, U: Clone, E> Joins<Either<T, U>, (T, U), E> for WithLatest<U> {
    fn hear(&mut self, which: usize, note: Note<Either<T, U>, E>) -> Told<(T, U), E> {
        match note {
            Note::Error(error) => Told(None, Some(Some(error))),
            Note::Completed => Told(None, (which == 0).then_some(None)),
            Note::Next(Either::This(it)) => Told(self.0.clone().map(|other| (it, other)), None),
            Note::Next(Either::That(it)) => {
                self.0 = Some(it);
                Told(None, None)
            }
        }
    }
}

struct SkipUntil(bool);

impl<T, U, E> Joins<Either<T, U>, T, E> for SkipUntil {
    fn hear(&mut self, which: usize, note: Note<Either<T, U>, E>) -> Told<T, E> {
        match note {
            Note::Error(error) => Told(None, Some(Some(error))),
            Note::Completed => Told(None, (which == 1).then_some(None)),
            Note::Next(Either::This(it)) => Told(self.0.then_some(it), None),
            Note::Next(Either::That(_)) => {
                self.0 = true;
                Told(None, None)
            }
        }
    }
}

fn join<'a, T: Moves + 'a, U: Moves + 'a, E: Moves + 'a, J: Joins<T, U, E> + Moves + 'a>(
    all: Vec<Observable<'a, T, E>>, begin: impl Fn() -> J + Fits + 'a,
) -> Observable<'a, U, E> {
    Observable::new(move |at| {
        let to = Emitter::open(at)?;
        if all.is_empty() {
            to.completed();
            return Ok(());
        }
        let leaf = to.leaf.clone();
        let joined = Ref::new(Lock::new((begin(), Out::new(to))));
        for (which, source) in all.iter().enumerate() {
            if joined.with(|it| it.1.is_over()) {
                break;
            }
            let joined = joined.clone();
            unless_gone(source.open_to(&leaf, move |note| {
                joined.with(|(joins, out)| {
                    out.hear(|out| {
                        let Told(item, end) = joins.hear(which, note);
                        item.into_iter().for_each(|it| out.next(it));
                        end.into_iter().for_each(|it| out.end(it));
                    })
                })
            }))?;
        }
        Ok(())
    })
}

fn pair<'a, T: 'a, U: 'a, E: 'a>(one: &Observable<'a, T, E>, other: &Observable<'a, U, E>) -> Vec<Observable<'a, Either<T, U>, E>> {
    vec![one.map(Either::This), other.map(Either::That)]
}

impl<'a, T: Moves + 'a, E: Moves + 'a> Observable<'a, T, E> {
    /// The first item of each, then the second of each, until one has no more.
    pub fn zip(all: impl IntoIterator<Item = impl Borrow<Observable<'a, T, E>>>) -> Observable<'a, Vec<T>, E> {
        let all = cloned(all);
        let many = all.len();
        join(all, move || Zip { waiting: (0..many).map(|_| VecDeque::new()).collect(), is_done: vec![false; many] })
    }

    /// The last item of each, with each item once all have one.
    pub fn combine_latest(all: impl IntoIterator<Item = impl Borrow<Observable<'a, T, E>>>) -> Observable<'a, Vec<T>, E>
    where
        T: Clone,
    {
        let all = cloned(all);
        let many = all.len();
        join(all, move || Latest { items: vec![None; many], is_done: vec![false; many] })
    }

    /// Each item with the last one of another, once that has one. The end of the other ends nothing.
    pub fn with_latest_from<U: Clone + Moves + 'a>(&self, other: impl Borrow<Observable<'a, U, E>>) -> Observable<'a, (T, U), E> {
        join(pair(self, other.borrow()), || WithLatest(None))
    }

    /// The items from when another has told one. It is subscribed to first, and left as it has; its end ends nothing.
    pub fn skip_until<U: Moves + 'a>(&self, other: impl Borrow<Observable<'a, U, E>>) -> Self {
        join(vec![other.borrow().take(1).map(Either::That), self.map(Either::This)], || SkipUntil(false))
    }

    /// Each item with the one of another that has the same number, until one of both has no more.
    pub fn zip_with<U: Moves + 'a>(&self, other: impl Borrow<Observable<'a, U, E>>) -> Observable<'a, (T, U), E> {
        let zip = || Zip { waiting: vec![VecDeque::new(), VecDeque::new()], is_done: vec![false; 2] };
        join::<_, Vec<Either<T, U>>, _, _>(pair(self, other.borrow()), zip).filter_map(both)
    }

    /// The last item of this one and of another, with each item once both have one.
    pub fn combine_latest_with<U: Clone + Moves + 'a>(&self, other: impl Borrow<Observable<'a, U, E>>) -> Observable<'a, (T, U), E>
    where
        T: Clone,
    {
        let latest = || Latest { items: vec![None, None], is_done: vec![false; 2] };
        join::<_, Vec<Either<T, U>>, _, _>(pair(self, other.borrow()), latest).filter_map(both)
    }
}

fn both<T, U>(all: Vec<Either<T, U>>) -> Option<(T, U)> {
    let mut all = all.into_iter();
    match (all.next(), all.next()) {
        (Some(Either::This(one)), Some(Either::That(other))) => Some((one, other)),
        _ => None,
    }
}
