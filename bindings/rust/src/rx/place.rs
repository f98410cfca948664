//! Where an observable is opened: below which node, and the way of its items.
use super::form::{AHeld, AThing, AWay, Ref};
use super::root::Root;
use super::scope::{Engine, Made};
use super::words::Word;
use crate::engine::{flag, place, what, Command, Key, NOTHING};
use crate::Refusal;

/// Of a node that is to be opened: where, and who hears of it.
pub(crate) struct Spot<'a> {
    pub at: u8,
    pub above: Key,
    pub hears: Option<Ref<AThing<'a>>>,
    pub closes: Option<Ref<AThing<'a>>>,
    /// Of a root that takes another node's lane.
    pub lane: Option<Key>,
}

impl<'a> Spot<'a> {
    pub fn root(hears: Ref<AThing<'a>>, lane: Option<Key>) -> Self {
        Spot { at: place::ROOT, above: NOTHING, hears: Some(hears), closes: None, lane }
    }

    /// Who hears of a root that nothing stands above or beside.
    pub fn hears_alone(&mut self) -> Option<Ref<AThing<'a>>> {
        let is_alone = self.at == place::ROOT && self.lane.is_none() && self.closes.is_none() && !cfg!(cellarcliff_all_in_engine);
        if is_alone { self.hears.take() } else { None }
    }

    pub fn below(at: u8, above: Key) -> Self {
        Spot { at, above, hears: None, closes: None, lane: None }
    }

    /// Opens a node here, of a FlatMap or Switch with who projects, of a Using with the tag.
    pub fn open(
        &mut self, root: &Root<'a>, kind: u8, merges: Option<Ref<AThing<'a>>>, tag: Option<Box<AHeld<'a>>>,
    ) -> Result<Made, Refusal> {
        let word = Word { hears: self.hears.take(), merges, closes: self.closes.take() };
        let command = Command {
            what: if tag.is_some() { what::USING } else { what::OPEN },
            place: self.at,
            kind,
            flags: word.closes.is_some() as u8 * flag::WISHES + self.lane.is_some() as u8 * flag::LANE_OF_NODE,
            node: if self.at == place::ROOT { self.lane.unwrap_or(NOTHING) } else { self.above },
            ..Command::default()
        };
        let made = root.engine.make(command, word, tag, |_| ())?;
        if self.at == place::ROOT {
            root.set(made.node); // nothing is open below it yet, so nobody closes it
        }
        Ok(made)
    }
}

pub(crate) struct Place<'a, T, E> {
    pub spot: Spot<'a>,
    pub way: Ref<AWay<'a, T, E>>,
}

impl<'a, T, E> Place<'a, T, E> {
    pub fn engine(&self) -> &Ref<Engine<'a>> {
        &self.way.root().engine
    }

    pub fn open(&mut self, kind: u8, merges: Option<Ref<AThing<'a>>>, tag: Option<Box<AHeld<'a>>>) -> Result<Made, Refusal> {
        self.spot.open(self.way.root(), kind, merges, tag)
    }

    /// The place below a node that was opened in this one, by the same way.
    pub fn down(self, at: u8, above: Key) -> Self {
        Place { spot: Spot::below(at, above), way: self.way }
    }

    /// The same place with another way into it.
    pub fn by<U, F>(self, way: impl FnOnce(Ref<AWay<'a, T, E>>) -> Ref<AWay<'a, U, F>>) -> Place<'a, U, F> {
        Place { spot: self.spot, way: way(self.way) }
    }
}
