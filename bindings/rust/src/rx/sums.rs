//! What is told as a source completes: fold, count, last and their like.
use super::stage::Out;
use super::{Fits, Moves, Observable};
use std::cmp::Ordering;
use std::collections::VecDeque;

impl<'a, T: Moves + 'a, E: Moves + 'a> Observable<'a, T, E> {
    /// What comes of all items, from `first` on.
    pub fn fold<A: Clone + Moves + Fits + 'a>(&self, first: A, f: impl Fn(A, T) -> A + Fits + 'a) -> Observable<'a, A, E> {
        self.try_fold(first, move |sum, it| Ok(f(sum, it)))
    }

    /// As [`fold`](Self::fold), or fails.
    pub fn try_fold<A: Clone + Moves + Fits + 'a>(
        &self, first: A, f: impl Fn(A, T) -> Result<A, E> + Fits + 'a,
    ) -> Observable<'a, A, E> {
        let hear = move |sum: &mut Option<A>, it, _: &_| {
            *sum = sum.take().map(|sum| f(sum, it)).transpose()?;
            Ok(())
        };
        self.summing(move || Some(first.clone()), hear, Ok)
    }

    /// What comes of all items, from the first on; nothing if there is none.
    pub fn reduce(&self, f: impl Fn(T, T) -> T + Fits + 'a) -> Self {
        self.try_reduce(move |sum, it| Ok(f(sum, it)))
    }

    /// As [`reduce`](Self::reduce), or fails.
    pub fn try_reduce(&self, f: impl Fn(T, T) -> Result<T, E> + Fits + 'a) -> Self {
        let hear = move |sum: &mut Option<T>, it, _: &_| {
            *sum = Some(match sum.take() {
                Some(sum) => f(sum, it)?,
                None => it,
            });
            Ok(())
        };
        self.summing(|| None, hear, Ok)
    }

    /// The greatest item, of equal ones the first; nothing if there is none.
    pub fn max(&self) -> Self
    where
        T: Ord,
    {
        self.reduce(|sum, it| if it.cmp(&sum) == Ordering::Greater { it } else { sum })
    }

    /// The least item, of equal ones the first; nothing if there is none.
    pub fn min(&self) -> Self
    where
        T: Ord,
    {
        self.reduce(|sum, it| if it.cmp(&sum) == Ordering::Less { it } else { sum })
    }

    /// How many items there were.
    pub fn count(&self) -> Observable<'a, usize, E> {
        self.fold(0, |many, _| many + 1)
    }

    /// All items in one.
    pub fn to_vec(&self) -> Observable<'a, Vec<T>, E> {
        let hear = |all: &mut Vec<T>, it, _: &_| {
            all.push(it);
            Ok(())
        };
        self.summing(Vec::new, hear, |all| Ok([all]))
    }

    /// Lists of so many items (at least one), of which one begins with every so many; as it completes, what has begun.
    pub fn buffer_count(&self, many: usize, every: usize) -> Observable<'a, Vec<T>, E>
    where
        T: Clone,
    {
        let (many, every) = (many.max(1), every.max(1));
        let hear = move |(begun, next): &mut (VecDeque<Vec<T>>, usize), it: T, to: &Out<'a, Vec<T>, E>| {
            if *next % every == 0 {
                begun.push_back(Vec::new())
            }
            *next = (*next + 1) % every;
            begun.iter_mut().for_each(|all| all.push(it.clone()));
            if begun.front().is_some_and(|it| it.len() == many) {
                begun.pop_front().into_iter().for_each(|it| to.next(it))
            }
            Ok(())
        };
        self.summing(|| (VecDeque::new(), 0), hear, |(begun, _)| Ok(begun))
    }

    /// The last item; nothing if there is none.
    pub fn last(&self) -> Self {
        self.take_last(1)
    }

    /// The last items.
    pub fn take_last(&self, many: usize) -> Self {
        let hear = move |all: &mut VecDeque<T>, it, _: &_| {
            all.push_back(it);
            if all.len() > many {
                drop(all.pop_front());
            }
            Ok(())
        };
        self.summing(VecDeque::new, hear, Ok)
    }

    /// All but the last items: each is told once so many have come behind it.
    pub fn skip_last(&self, many: usize) -> Self {
        let hear = move |waiting: &mut VecDeque<T>, it, to: &Out<'a, T, E>| {
            waiting.push_back(it);
            if waiting.len() > many {
                waiting.pop_front().into_iter().for_each(|it| to.next(it))
            }
            Ok(())
        };
        self.summing(VecDeque::new, hear, |_| Ok(None))
    }

    /// This item, if there is none.
    pub fn default_if_empty(&self, item: T) -> Self
    where
        T: Clone + Fits,
    {
        self.if_empty(move || Ok(item.clone()))
    }

    /// Fails as it completes, if there is no item.
    pub fn fail_if_empty(&self, error: impl Fn() -> E + Fits + 'a) -> Self {
        self.if_empty(move || Err(error()))
    }

    fn if_empty(&self, make: impl Fn() -> Result<T, E> + Fits + 'a) -> Self {
        let hear = |is_empty: &mut bool, it, to: &Out<'a, T, E>| {
            *is_empty = false;
            to.next(it);
            Ok(())
        };
        self.summing(|| true, hear, move |is_empty| is_empty.then(&make).transpose())
    }

    /// Whether it is true for all items; told at the first for which it is not.
    pub fn all(&self, f: impl Fn(&T) -> bool + Fits + 'a) -> Observable<'a, bool, E> {
        self.filter_map(move |it| (!f(&it)).then_some(false)).take(1).default_if_empty(true)
    }

    /// Whether it is true for any item; told at the first for which it is.
    pub fn any(&self, f: impl Fn(&T) -> bool + Fits + 'a) -> Observable<'a, bool, E> {
        self.filter_map(move |it| f(&it).then_some(true)).take(1).default_if_empty(false)
    }
}
