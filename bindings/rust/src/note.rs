//! What an observer hears.

/// What an observer hears: items, then at most one end.
#[derive(Clone, Copy, Debug, PartialEq, Eq)]
pub enum Note<T, E = std::convert::Infallible> {
    /// An item.
    Next(T),
    /// It failed.
    Error(E),
    /// It completed.
    Completed,
}

impl<T, E> Note<T, E> {
    /// The same note of what this one has.
    pub fn as_ref(&self) -> Note<&T, &E> {
        match self {
            Note::Next(item) => Note::Next(item),
            Note::Error(error) => Note::Error(error),
            Note::Completed => Note::Completed,
        }
    }
}
