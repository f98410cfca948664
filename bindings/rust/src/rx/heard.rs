//! A subscription's root and its observer, which the engine tells; or whoever emits, as long as it is a root alone (`lone`).
use super::form::{AHeld, ARoot, Lock, Ref};
use super::lone::Lone;
use super::place::{Place, Spot};
use super::root::{Root, Rooted};
use super::scope::{Inbox, Thing};
use super::way::{End, Tip, Way};
use super::words::Word;
use super::Moves;
use crate::engine::{effect, what, Command, Key};
use crate::{Note, Refusal};
use std::collections::VecDeque;

/// What waits in the engine for an observer that is being told.
struct Waiting<T, E> {
    items: VecDeque<T>,
    error: Option<E>,
}

pub(crate) struct Heard<'a, T, E, O> {
    pub root: Root<'a>,
    /// Who tells it has it.
    pub observer: Lock<Option<O>>,
    pub lone: Lone<'a, T, E>,
    waiting: Lock<Waiting<T, E>>,
}

/// A root, perhaps in the lane of another node, and the place of an observable that tells this observer.
pub(crate) fn rooted<'a, T: Moves + 'a, E: Moves + 'a, O: FnMut(Note<T, E>) + Moves + 'a>(
    root: Root<'a>, lane: Option<Key>, observer: O,
) -> (Ref<ARoot<'a>>, Place<'a, T, E>) {
    let waiting = Lock::new(Waiting { items: VecDeque::new(), error: None });
    let heard = Ref::new(Heard { root, observer: Lock::new(Some(observer)), lone: Lone::new(), waiting });
    (heard.clone(), Place { spot: Spot::root(heard.clone(), lane), way: heard })
}

impl<T, E, O: FnMut(Note<T, E>)> Heard<'_, T, E, O> {
    /// Only who serves the root's lane calls this, so nobody tells the observer; and what it is told within itself stands behind.
    fn hear(&self, note: Note<T, E>) {
        if !self.root.is_stopped() {
            let over = self.observer.with(|it| self.tells(it, note));
            drop(over);
        }
    }

    /// Tells the observer, which the caller has; answers it, if it hears nothing more.
    #[inline(always)]
    pub fn tells(&self, observer: &mut Option<O>, note: Note<T, E>) -> Option<O> {
        if !self.root.is_stopped() {
            if !matches!(note, Note::Next(_)) {
                self.root.stop();
            }
            if let Some(observer) = observer {
                observer(note)
            }
        }
        if self.root.is_stopped() { observer.take() } else { None }
    }

    pub fn leave(&self) {
        drop(self.observer.try_with(Option::take)) // who tells it drops it, behind that
    }
}

impl<'a, T, E, O> Rooted<'a> for Heard<'a, T, E, O> {
    fn root(&self) -> &Root<'a> {
        &self.root
    }
}

impl<T, E, O: FnMut(Note<T, E>)> Inbox<T> for Heard<'_, T, E, O> {
    fn keep(&self, item: T) {
        self.waiting.with(|it| it.items.push_back(item))
    }

    #[inline]
    fn hear(&self, item: T) {
        self.hear(Note::Next(item))
    }

    fn panicked(&self) {
        self.root.panicked();
        self.leave();
    }
}

impl<'a, T, E, O: FnMut(Note<T, E>)> Way<'a, T, E> for Heard<'a, T, E, O> {
    #[inline]
    fn next(&self, from: Tip, item: T) -> Result<(), Refusal> {
        match from.end {
            End::Alone => self.tell_alone(Note::Next(item)),
            End::Direct => Ok(self.hear(Note::Next(item))),
            End::Leaf | End::Merging => self.root.engine.emit(from.node, item, self),
        }
    }

    fn error(&self, from: Tip, error: E) -> Result<(), Refusal> {
        let what = match from.end {
            End::Alone => return self.end_alone(Note::Error(error)),
            End::Direct => return Ok(self.hear(Note::Error(error))),
            End::Leaf => what::ERROR,
            End::Merging => what::FAIL,
        };
        let mut error = Some(error);
        let keep = |copies| {
            if copies > 0 {
                self.waiting.with(|it| it.error = error.take()) // a root fails once
            }
        };
        self.root.engine.make(Command { what, node: from.node, ..Command::default() }, Word::default(), None, keep).map(drop)
    }

    fn completed(&self, from: Tip) -> Result<(), Refusal> {
        match from.end {
            End::Alone => self.end_alone(Note::Completed),
            End::Direct => Ok(self.hear(Note::Completed)),
            End::Leaf | End::Merging => self.root.engine.send(what::COMPLETE, from.node),
        }
    }

    fn hold(&self, from: Tip, resource: Box<AHeld<'a>>) -> Result<(), Refusal> {
        if from.end == End::Alone { self.hold_alone(resource) } else { self.root.engine.hold(from.node, resource) }
    }
}

impl<T, E, O: FnMut(Note<T, E>)> Thing for Heard<'_, T, E, O> {
    fn tell(&self, kind: u32, _: u64) {
        match kind {
            effect::NEXT => {
                if let Some(item) = self.waiting.with(|it| it.items.pop_front()) {
                    self.hear(Note::Next(item))
                }
            }
            effect::FAILED => {
                if let Some(error) = self.waiting.with(|it| it.error.take()) {
                    self.hear(Note::Error(error))
                }
            }
            effect::COMPLETED => self.hear(Note::Completed),
            _ => {
                self.root.stop();
                if self.root.was_alone() { self.left_alone() } else { self.leave() }
            }
        }
    }

    fn panicked(&self) {
        Inbox::panicked(self)
    }
}
