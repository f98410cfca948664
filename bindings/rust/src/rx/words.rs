//! The words of what is open in an engine: who hears of it.
use super::form::{AThing, Ref};
use crate::engine::{effect, Effect};

/// The word of one opening. Each role is told one last effect, and the word is free after all.
#[derive(Default)]
pub(crate) struct Word<'a> {
    pub hears: Option<Ref<AThing<'a>>>,
    pub merges: Option<Ref<AThing<'a>>>,
    pub closes: Option<Ref<AThing<'a>>>,
}

impl<'a> Word<'a> {
    pub fn hears(thing: Ref<AThing<'a>>) -> Self {
        Word { hears: Some(thing), ..Word::default() }
    }

    #[inline]
    pub fn is_empty(&self) -> bool {
        self.hears.is_none() && self.merges.is_none() && self.closes.is_none()
    }
}

/// Words by their numbers. One that is empty is free.
pub(crate) struct Words<'a> {
    all: Vec<Word<'a>>,
    free: Vec<u64>,
}

impl<'a> Words<'a> {
    pub fn new() -> Self {
        Words { all: Vec::new(), free: Vec::new() }
    }

    pub fn many(&self) -> usize {
        self.all.len() - self.free.len()
    }

    #[inline]
    pub fn put(&mut self, word: Word<'a>) -> u64 {
        match self.free.pop() {
            Some(at) => {
                self.all[at as usize] = word;
                at
            }
            None => self.grow(word),
        }
    }

    /// There is room for each of them among the free: giving one back never asks for memory.
    #[cold]
    fn grow(&mut self, word: Word<'a>) -> u64 {
        self.all.push(word);
        self.free.reserve(self.all.capacity());
        self.all.len() as u64 - 1
    }

    #[cold]
    pub fn take(&mut self, at: u64) -> Word<'a> {
        self.free.push(at);
        std::mem::take(&mut self.all[at as usize])
    }

    /// Who is told; a last effect takes it out.
    #[inline]
    pub fn told(&mut self, it: &Effect) -> Option<Ref<AThing<'a>>> {
        let word = self.all.get_mut(it.user as usize)?;
        let thing = match it.kind {
            effect::NEXT => return word.hears.clone(),
            effect::PROJECT => return word.merges.clone(),
            effect::MERGED => word.merges.take(),
            _ => word.hears.take(),
        };
        if thing.is_some() && word.is_empty() {
            self.free.push(it.user);
        }
        thing
    }

    /// Who hears that this closed.
    #[inline]
    pub fn closed(&mut self, at: u64) -> Option<Ref<AThing<'a>>> {
        let word = self.all.get_mut(at as usize)?;
        let thing = word.closes.take();
        if thing.is_some() && word.is_empty() {
            self.free.push(at);
        }
        thing
    }
}
