//! Notes as such: tap, materialize and dematerialize.
use super::form::Ref;
use super::stage::Out;
use super::{Fits, Moves, Observable};
use crate::Note;

fn pass<'a, T: Moves + 'a, E: Moves + 'a>(note: Note<T, E>, to: &mut Out<'a, T, E>) {
    match note {
        Note::Next(item) => to.next(item),
        Note::Error(error) => to.end(Some(error)),
        Note::Completed => to.end(None),
    }
}

impl<'a, T: Moves + 'a, E: Moves + 'a> Observable<'a, T, E> {
    /// Calls `f` with each note before it is told: with items, as [`inspect`](Self::inspect) does, and with the end.
    pub fn tap(&self, f: impl Fn(Note<&T, &E>) + Fits + 'a) -> Self {
        let f = Ref::new(f);
        self.stage(move || {
            let f = f.clone();
            move |note, to| {
                f(note.as_ref());
                pass(note, to)
            }
        })
    }

    /// Each note as an item; it never fails.
    pub fn materialize<G: Moves + 'a>(&self) -> Observable<'a, Note<T, E>, G> {
        self.stage(|| {
            |note, to: &mut Out<'a, Note<T, E>, G>| {
                let is_end = !matches!(note, Note::Next(_));
                to.next(note);
                if is_end {
                    to.end(None)
                }
            }
        })
    }
}

impl<'a, T: Moves + 'a, E: Moves + 'a> Observable<'a, Note<T, E>, E> {
    /// What [`materialize`](Observable::materialize) made items of.
    pub fn dematerialize(&self) -> Observable<'a, T, E> {
        self.stage(|| {
            |note, to: &mut Out<'a, T, E>| match note {
                Note::Next(note) => pass(note, to),
                Note::Error(error) => to.end(Some(error)),
                Note::Completed => to.end(None),
            }
        })
    }
}
