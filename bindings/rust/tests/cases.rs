//! The cases that all languages share, bindings/cases: each whose operators are here tells, makes and releases what stands there.
//! `cargo test --test cases -- --nocapture` counts those that are left out, by name.
mod common;

use cellarcliff::local::{Connectable, Connection, Emitter, Observable, Subject, Subscription};
use cellarcliff::Note;
use common::json::Json;
use std::cell::RefCell;
use std::collections::{BTreeMap, HashMap};
use std::panic::{catch_unwind, AssertUnwindSafe};
use std::rc::Rc;

const FOLDER: &str = concat!(env!("CARGO_MANIFEST_DIR"), "/../cases/");
const FAMILIES: [&str; 13] = [
    "again", "faults", "items", "joined", "sharing", "sources", "subjects", "sums", "times", "trees", "twice", "windows", "within",
];

/// Whose cases all run. Those of the last three lines have another name in Rust, or are put together of two or three.
const HERE: [&str; 67] = [
    "combine_latest", "concat", "create", "defer", "empty", "merge", "never", "of", "range", "throw", "using", "zip",
    "all", "concat_map", "count", "default_if_empty", "dematerialize", "distinct", "distinct_until_changed", "end_with", "exhaust_map",
    "filter", "flat_map", "last", "map", "materialize", "max", "merge_all", "min", "pairwise", "publish", "reduce", "ref_count", "repeat",
    "retry", "scan", "share", "skip", "skip_last", "skip_until", "skip_while", "start_with", "take", "take_last", "take_until",
    "take_while", "with_latest_from",
    "buffer_with_count", "catch", "do_action", "element_at", "element_at_or_default", "finally_action", "find", "find_index", "first",
    "first_or_default", "flat_map_latest", "ignore_elements", "is_empty", "last_or_default", "map_indexed", "project", "starmap",
    "switch_latest", "throw_if_empty", "to_list",
];
/// Rows of the page bindings/cases/README.md in which this crate has the manner of RxJS: the cases of such a row have what that tells
/// beside their `log`. Here is no scheduler that puts anything off.
const AS_RXJS: [&str; 1] = ["put-off"];

#[derive(Clone)]
enum Item {
    Plain(Json),
    Inner(Obs),
}
type Obs = Observable<'static, Item, String>;

impl Item {
    fn plain(&self) -> &Json {
        match self {
            Item::Plain(it) => it,
            Item::Inner(_) => panic!("an observable is an item where none is wanted"),
        }
    }
}

#[derive(Clone)]
enum Built {
    Plain(Obs),
    Connectable(Connectable<'static, Item, String>),
}

impl Built {
    fn observable(&self) -> Obs {
        match self {
            Built::Plain(it) => it.clone(),
            Built::Connectable(it) => it.observable(),
        }
    }
}

/// The name of an operator that is not here.
struct Lacks(String);
type Or<T> = Result<T, Lacks>;

#[derive(Default)]
struct Whole {
    is_disposed: bool,
    subscription: Option<Subscription<'static>>,
    connection: Option<Connection<'static, Item, String>>,
}

type Work = Box<dyn FnOnce()>;

/// What a run keeps holds the run. Dropping this frees all of it.
struct Ends(Rc<Run>);

impl Drop for Ends {
    fn drop(&mut self) {
        self.0.when.take();
        drop((self.0.wholes.take(), self.0.timers.take(), self.0.lets.take(), self.0.subjects.take()));
    }
}

struct Run {
    case: Json,
    told: RefCell<Vec<String>>,
    when: RefCell<Vec<(String, Json)>>,
    now: RefCell<u64>,
    timers: RefCell<BTreeMap<(u64, usize), Work>>,
    subjects: RefCell<HashMap<String, Subject<'static, Item, String>>>,
    counts: RefCell<HashMap<String, usize>>,
    wholes: RefCell<HashMap<String, Whole>>,
    lets: RefCell<HashMap<String, Built>>,
    kinds: Rc<Json>,
}

fn number(it: &Json) -> i128 {
    match it {
        Json::Number(it) => *it,
        Json::Bool(it) => *it as i128,
        _ => panic!("no number: {it:?}"),
    }
}

/// A function on items by its name, which may fail at an item.
fn function(text: &str) -> impl Fn(&[&Json]) -> Result<Json, String> + Clone {
    let (name, fails_at) = text.split_once(" or fail at ").map_or((text, None), |(name, at)| (name, Some(at.parse::<i128>().unwrap())));
    let (word, n) = match name.rsplit_once(' ') {
        Some((word, n)) if n.parse::<i128>().is_ok() => (word.to_string(), n.parse().unwrap()),
        _ => (name.to_string(), 0),
    };
    move |values| {
        if word == "fail" || fails_at.is_some_and(|at| values.iter().take(2).any(|it| **it == Json::Number(at))) {
            return Err("failed".into());
        }
        Ok(match word.as_str() {
            "identity" => values[0].clone(),
            "add" => Json::Number(number(values[0]) + n),
            "times" => Json::Number(number(values[0]) * n),
            "mod" => Json::Number(number(values[0]) % n),
            "is" => Json::Bool(number(values[0]) == n),
            "below" => Json::Bool(number(values[0]) < n),
            "is even" => Json::Bool(number(values[0]) % 2 == 0),
            "sum" => Json::Number(values.iter().map(|it| number(it)).sum()),
            other => panic!("no function: {other}"),
        })
    }
}

/// A note as it is written.
fn read(text: &str) -> Note<Item, String> {
    match text.split_once(' ').unwrap_or((text, "")) {
        ("next", value) => Note::Next(Item::Plain(Json::parse(value))),
        ("error", why) => Note::Error(why.into()),
        _ => Note::Completed,
    }
}

fn tell(to: &Emitter<'static, Item, String>, what: &str) {
    match read(what) {
        Note::Next(it) => to.next(it),
        Note::Error(why) => to.error(why),
        Note::Completed => to.completed(),
    }
}

struct Resource(Rc<Run>, String, usize);

impl Drop for Resource {
    fn drop(&mut self) {
        self.0.note(&format!("{} released {}", self.1, self.2));
    }
}

impl Run {
    fn note(self: &Rc<Self>, text: &str) {
        self.told.borrow_mut().push(format!("{} {text}", self.now.borrow()));
        let commands = {
            let mut when = self.when.borrow_mut();
            when.iter().position(|it| it.0 == text).map(|at| when.remove(at).1)
        };
        for it in commands.iter().flat_map(|it| it.list()) {
            assert!(self.act(it.text()).is_ok(), "what is done from within was built before");
        }
    }

    fn at(&self, time: u64, work: impl FnOnce() + 'static) {
        let mut timers = self.timers.borrow_mut();
        let number = timers.keys().filter(|it| it.0 == time).map(|it| it.1 + 1).max().unwrap_or(0);
        timers.insert((time, number), Box::new(work));
    }

    fn act(self: &Rc<Self>, command: &str) -> Or<()> {
        let words: Vec<&str> = command.splitn(3, ' ').collect();
        let who = words[0];
        match words[1] {
            "subscribe" => self.subscribe(who, words.get(2).map_or(Json::Text(" pipe".into()), |it| Json::parse(it)))?,
            "connect" => self.connect(who)?,
            "dispose" | "disconnect" => self.leave(who),
            what => {
                let subject = self.subjects.borrow()[who].clone();
                match what {
                    "next" => subject.next(Item::Plain(Json::parse(words[2]))),
                    "error" => subject.error(words[2].into()),
                    _ => subject.completed(),
                }
            }
        }
        Ok(())
    }

    fn subscribe(self: &Rc<Self>, who: &str, what: Json) -> Or<()> {
        let observable = self.build(&what)?;
        self.wholes.borrow_mut().insert(who.into(), Whole::default());
        let (run, name) = (self.clone(), who.to_string());
        let it = observable.observable().observe(move |note| run.note(&format!("{name} {}", written(note.as_ref()))));
        let mut wholes = self.wholes.borrow_mut();
        let whole = wholes.get_mut(who).unwrap();
        let late = if whole.is_disposed { Some(it) } else { whole.subscription.replace(it) };
        drop(wholes);
        drop(late);
        Ok(())
    }

    fn connect(self: &Rc<Self>, who: &str) -> Or<()> {
        let Built::Connectable(it) = self.build(&Json::Text(who.into()))? else { panic!("it is not to be connected") };
        self.wholes.borrow_mut().insert(who.into(), Whole::default());
        let it = it.connect();
        let mut wholes = self.wholes.borrow_mut();
        let whole = wholes.get_mut(who).unwrap();
        if whole.is_disposed {
            drop(wholes);
            it.disconnect();
        } else {
            whole.connection = Some(it);
        }
        Ok(())
    }

    fn leave(&self, who: &str) {
        let mut wholes = self.wholes.borrow_mut();
        let whole = wholes.get_mut(who).unwrap();
        whole.is_disposed = true;
        let (subscription, connection) = (whole.subscription.take(), whole.connection.take());
        drop(wholes);
        drop(subscription);
        if let Some(it) = connection {
            it.disconnect()
        }
    }

    fn counted(&self, name: &str) -> usize {
        let mut counts = self.counts.borrow_mut();
        let it = counts.entry(name.into()).or_default();
        *it += 1;
        *it
    }

    fn resource(self: &Rc<Self>, name: &str) -> Resource {
        let number = self.counted(name);
        self.note(&format!("{name} made {number}"));
        Resource(self.clone(), name.into(), number)
    }

    fn using(self: &Rc<Self>, name: &str, source: impl Fn() -> Result<Obs, String> + 'static) -> Obs {
        let (run, name) = (self.clone(), name.to_string());
        Observable::try_using(move || Ok(run.resource(&name)), move |_| source())
    }

    /// A subject, or an observable that tells all that is listed so many ticks after each subscription.
    fn fed(self: &Rc<Self>, name: &str, made: &Json) -> Or<Obs> {
        if let Json::Text(kind) = made {
            if kind != "hot" {
                return Err(Lacks(kind.split(' ').next().unwrap().into()));
            }
            let subject = Subject::new();
            self.subjects.borrow_mut().insert(name.into(), subject.clone());
            return Ok(subject.observable());
        }
        let (run, made) = (self.clone(), made.clone());
        Ok(Observable::create(move |to| {
            let now = *run.now.borrow();
            for it in made.list() {
                let (time, what) = it.text().split_once(' ').unwrap();
                let (to, what) = (to.clone(), what.to_string());
                run.at(now + time.parse::<u64>().unwrap(), move || tell(&to, &what));
            }
        }))
    }

    fn build(self: &Rc<Self>, it: &Json) -> Or<Built> {
        if let Json::Text(name) = it {
            let known = self.lets.borrow().get(name).cloned();
            if let Some(known) = known {
                return Ok(known);
            }
            let built = self.build(self.case.get("let").and_then(|it| it.get(name)).expect("it has a name"))?;
            self.lets.borrow_mut().insert(name.clone(), built.clone());
            return Ok(built);
        }
        let all = it.list();
        if let Json::Text(word) = &all[0] {
            if self.kinds.get("sources").unwrap().get(word).is_some() {
                return self.source(word, &all[1..]).map(Built::Plain);
            }
        }
        all[1..].iter().try_fold(self.build(&all[0])?, |source, it| {
            let words = it.list();
            self.operator(source, words[0].text(), &words[1..])
        })
    }

    fn observables(self: &Rc<Self>, words: &[Json]) -> Or<Vec<Obs>> {
        words.iter().map(|it| Ok(self.build(it)?.observable())).collect()
    }

    fn source(self: &Rc<Self>, name: &str, words: &[Json]) -> Or<Obs> {
        Ok(match name {
            "of" => Observable::of(items(words)),
            "range" => {
                let (from, many) = (number(&words[0]), number(&words[1]));
                Observable::of((from..from + many).map(|it| Item::Plain(Json::Number(it))).collect::<Vec<_>>())
            }
            "empty" => Observable::empty(),
            "never" => Observable::never(),
            "throw" => Observable::fail(words[0].text().into()),
            "merge" => Observable::merge(self.observables(words)?),
            "concat" => Observable::concat(self.observables(words)?),
            "zip" => Observable::zip(self.observables(words)?).map(listed),
            "combine_latest" => Observable::combine_latest(self.observables(words)?).map(listed),
            "create" => {
                let (run, words) = (self.clone(), words.to_vec());
                Observable::create(move |to| {
                    let resource = run.resource(words[0].text());
                    words[1..].iter().for_each(|it| tell(&to, it.text()));
                    resource
                })
            }
            "using" => self.using(words[0].text(), self.made(&words[1])?),
            "defer" => Observable::try_defer(self.made(&words[0])?),
            other => return Err(Lacks(other.into())),
        })
    }

    /// A function that makes an observable, or fails.
    fn made(self: &Rc<Self>, word: &Json) -> Or<impl Fn() -> Result<Obs, String>> {
        let fails = *word == Json::Text("fail".into());
        if !fails {
            self.build(word)?; // lacks what it lacks
        }
        let (run, word) = (self.clone(), word.clone());
        Ok(move || match fails {
            true => Err("failed".to_string()),
            false => Ok(run.build(&word).unwrap_or_else(|_| panic!("it was built before")).observable()),
        })
    }

    /// A function from an item to an observable: always the same, or by the item; `self` is the item itself.
    fn inner(self: &Rc<Self>, word: &Json) -> Or<impl Fn(Item) -> Result<Obs, String> + Clone> {
        let all = match word {
            Json::Map(all) => all.iter().map(|it| it.1.clone()).collect(),
            it => vec![it.clone()],
        };
        for it in all.iter().filter(|it| **it != Json::Text("fail".into()) && **it != Json::Text("self".into())) {
            if !format!("{it:?}").contains("\"self\"") {
                self.build(it)?;
            }
        }
        let (run, word) = (self.clone(), word.clone());
        Ok(move |item: Item| {
            let one = match &word {
                Json::Map(_) => {
                    let key = match &item {
                        Item::Plain(Json::Text(it)) => it.clone(),
                        it => it.plain().written(),
                    };
                    word.get(&key).or(word.get("else")).unwrap().clone()
                }
                it => it.clone(),
            };
            let own = match &item {
                Item::Inner(it) => it.clone(),
                it => Observable::of([it.clone()]),
            };
            run.lets.borrow_mut().insert("self".into(), Built::Plain(own));
            if one == Json::Text("fail".into()) {
                return Err("failed".into());
            }
            Ok(run.build(&one).unwrap_or_else(|it| panic!("lacks {}", it.0)).observable())
        })
    }

    /// An observable for each item.
    fn inners(self: &Rc<Self>, source: &Obs, name: &str, words: &[Json]) -> Or<Option<Obs>> {
        let same = |it: Item| match it {
            Item::Inner(it) => Ok(it),
            Item::Plain(_) => panic!("no observable"),
        };
        Ok(Some(match name {
            "project" => {
                let f = self.inner(&words[0])?;
                source.try_map(move |it| f(it).map(Item::Inner))
            }
            "flat_map" => match words.get(1) {
                Some(most) => source.try_flat_map_at_most(number(most) as usize, self.inner(&words[0])?),
                None => source.try_flat_map(self.inner(&words[0])?),
            },
            "concat_map" => source.try_concat_map(self.inner(&words[0])?),
            "exhaust_map" => source.try_exhaust_map(self.inner(&words[0])?),
            "flat_map_latest" => source.try_switch_map(self.inner(&words[0])?),
            "merge_all" => match words.first() {
                Some(most) => source.try_flat_map_at_most(number(most) as usize, same),
                None => source.try_flat_map(same),
            },
            "switch_latest" => source.try_switch_map(same),
            _ => return Ok(None),
        }))
    }

    /// Of several observables, and what calls a function of this run.
    fn on_observables(self: &Rc<Self>, source: Obs, name: &str, words: &[Json]) -> Or<Obs> {
        let and_others = |source: Obs| Ok([vec![source], self.observables(words)?].concat());
        Ok(match name {
            "merge" => Observable::merge(and_others(source)?),
            "concat" => Observable::concat(and_others(source)?),
            "zip" => Observable::zip(and_others(source)?).map(listed),
            "combine_latest" => Observable::combine_latest(and_others(source)?).map(listed),
            "with_latest_from" => {
                let first = source.map(|it| vec![it]);
                let join = |all: Observable<'static, Vec<Item>, String>, it: Obs| {
                    all.with_latest_from(&it).map(|(all, it)| [all, vec![it]].concat())
                };
                self.observables(words)?.into_iter().fold(first, join).map(listed)
            }
            "take_until" => source.take_until(self.build(&words[0])?.observable()),
            "skip_until" => source.skip_until(&self.build(&words[0])?.observable()),
            "catch" => {
                let other = self.build(&words[0])?.observable();
                source.or_else(move |_| other.clone())
            }
            "do_action" => {
                let (run, name) = (self.clone(), words[0].text().to_string());
                source.tap(move |note| run.note(&format!("{name} called {}", written(note))))
            }
            "finally_action" => {
                let (run, name) = (self.clone(), words[0].text().to_string());
                source.finalize(move || run.note(&format!("{name} released {}", run.counted(&name))))
            }
            "share" => source.share(),
            other => return Err(Lacks(other.into())),
        })
    }

    fn operator(self: &Rc<Self>, from: Built, name: &str, words: &[Json]) -> Or<Built> {
        let source = from.observable();
        Ok(match (name, from) {
            ("publish", _) => Built::Connectable(source.publish()),
            ("ref_count", Built::Connectable(it)) => Built::Plain(it.ref_count()),
            _ => match on_items(&source, name, words).or_else(|| sum(&source, name, words)) {
                Some(it) => Built::Plain(it),
                None => Built::Plain(match self.inners(&source, name, words)? {
                    Some(it) => it,
                    None => self.on_observables(source, name, words)?,
                }),
            },
        })
    }
}

fn written(note: Note<&Item, &String>) -> String {
    match note {
        Note::Next(it) => format!("next {}", it.plain().written()),
        Note::Error(why) => format!("error {why}"),
        Note::Completed => "completed".into(),
    }
}

fn listed(all: Vec<Item>) -> Item {
    Item::Plain(Json::List(all.iter().map(|it| it.plain().clone()).collect()))
}

fn items(words: &[Json]) -> Vec<Item> {
    words.iter().cloned().map(Item::Plain).collect()
}

/// A condition by its name; without one all items are meant.
fn condition(word: Option<&Json>) -> impl Fn(&Item) -> Result<bool, String> + Clone {
    let f = word.map(|it| function(it.text()));
    move |it| f.as_ref().map_or(Ok(true), |f| Ok(f(&[it.plain()])? == Json::Bool(true)))
}

fn where_it_holds(source: &Obs, word: Option<&Json>) -> Obs {
    let holds = condition(word);
    source.try_filter_map(move |it| Ok(holds(&it)?.then_some(it)))
}

/// Each item with a key, which is the item without a function.
fn keyed(source: &Obs, word: Option<&Json>) -> Observable<'static, (String, Item), String> {
    let f = word.map(|it| function(it.text()));
    source.try_map(move |it| Ok((f.as_ref().map_or(Ok(it.plain().clone()), |f| f(&[it.plain()]))?.written(), it)))
}

fn mapped(source: &Obs, words: &[Json], parts: impl Fn(Json) -> Vec<Json> + 'static) -> Obs {
    let f = function(words[0].text());
    source.try_map(move |it| f(&parts(it.plain().clone()).iter().collect::<Vec<_>>()).map(Item::Plain))
}

/// Functions on items, before the engine has them.
fn on_items(source: &Obs, name: &str, words: &[Json]) -> Option<Obs> {
    let many = || number(&words[0]) as usize;
    let f = || function(words[0].text());
    Some(match name {
        "map" => mapped(source, words, |it| vec![it]),
        "starmap" => mapped(source, words, |it| it.list().to_vec()),
        "map_indexed" => {
            let f = f();
            source.enumerate().try_map(move |(at, it)| f(&[it.plain(), &Json::Number(at as i128)]).map(Item::Plain))
        }
        "filter" => where_it_holds(source, words.first()),
        "ignore_elements" => source.filter(|_| false),
        "scan" => {
            let (f, first) = (f(), words.get(1).cloned());
            let sum = source.try_scan(first, move |sum, it| match sum {
                None => Ok(Some(it.plain().clone())),
                Some(sum) => f(&[sum, it.plain()]).map(Some),
            });
            sum.map(|it| Item::Plain(it.unwrap()))
        }
        "take" => source.take(many()),
        "skip" => source.skip(many()),
        "skip_last" => source.skip_last(many()),
        "skip_while" => source.try_skip_while(condition(words.first())),
        "take_while" if words.len() > 1 => {
            let holds = condition(words.first());
            source.try_take_through(move |it| holds(it).map(|it| !it))
        }
        "take_while" => source.try_take_while(condition(words.first())),
        "pairwise" => source.pairwise().map(|(before, it)| listed(vec![before, it])),
        "distinct" => keyed(source, words.first()).distinct_by(|it| it.0.clone()).map(|it| it.1),
        "distinct_until_changed" => keyed(source, words.first()).distinct_until_changed_by(|it| it.0.clone()).map(|it| it.1),
        _ => return None,
    })
}

/// What is told at the end, or again from the beginning.
fn sum(source: &Obs, name: &str, words: &[Json]) -> Option<Obs> {
    let many = || number(&words[0]) as usize;
    let value = || Item::Plain(words[1].clone());
    let is_there = || where_it_holds(source, words.first());
    let fails = |it: Obs, why: &'static str| it.fail_if_empty(move || why.into());
    Some(match name {
        "count" => is_there().count().map(|it| Item::Plain(Json::Number(it as i128))),
        "reduce" => reduced(source, words),
        "max" => fails(source.map(|it| number(it.plain())).max().map(|it| Item::Plain(Json::Number(it))), "no elements"),
        "min" => fails(source.map(|it| number(it.plain())).min().map(|it| Item::Plain(Json::Number(it))), "no elements"),
        "all" => held(source, words).all(|it| *it).map(|it| Item::Plain(Json::Bool(it))),
        "is_empty" => source.any(|_| true).map(|it| Item::Plain(Json::Bool(!it))),
        "buffer_with_count" => source.buffer_count(many(), words.get(1).map_or(many(), |it| number(it) as usize)).map(listed),
        "to_list" => source.to_vec().map(listed),
        "default_if_empty" => source.default_if_empty(Item::Plain(words[0].clone())),
        "throw_if_empty" => fails(source.clone(), "no elements"),
        "first" => fails(is_there().first(), "no elements"),
        "first_or_default" => is_there().first().default_if_empty(value()),
        "find" => is_there().first().default_if_empty(Item::Plain(Json::Null)),
        "find_index" => {
            let holds = condition(words.first());
            let found = source.enumerate().try_filter_map(move |(at, it)| Ok(holds(&it)?.then_some(at as i128)));
            found.take(1).default_if_empty(-1).map(|it| Item::Plain(Json::Number(it)))
        }
        "element_at" => fails(source.skip(many()).take(1), "out of range"),
        "element_at_or_default" => source.skip(many()).take(1).default_if_empty(value()),
        "last" => fails(is_there().last(), "no elements"),
        "last_or_default" => is_there().last().default_if_empty(value()),
        "take_last" => source.take_last(many()),
        "start_with" => source.start_with(items(words)),
        "end_with" => source.end_with(items(words)),
        "materialize" => source.materialize().map(|it| Item::Plain(Json::Text(written(it.as_ref())))),
        "dematerialize" => source.map(|it| read(it.plain().text())).dematerialize(),
        "retry" => source.retry(words.first().map(|_| many())),
        "repeat" => source.repeat(words.first().map(|_| many())),
        _ => return None,
    })
}

/// Whether a condition holds, of each item.
fn held(source: &Obs, words: &[Json]) -> Observable<'static, bool, String> {
    let holds = condition(words.first());
    source.try_map(move |it| holds(&it))
}

fn reduced(source: &Obs, words: &[Json]) -> Obs {
    let f = function(words[0].text());
    let both = move |sum: Item, it: Item| f(&[sum.plain(), it.plain()]).map(Item::Plain);
    match words.get(1) {
        Some(first) => source.try_fold(Item::Plain(first.clone()), both),
        None => source.try_reduce(both).fail_if_empty(|| "no elements".into()),
    }
}

/// At one time, what is released before the next `made` is a set, and stands behind what is told. So are the ends that stand together
/// where a source is shared: in which order its observers end the engine does not say.
fn in_order(told: &[String], is_shared: bool) -> Vec<String> {
    let (mut ordered, mut released, mut time) = (vec![], vec![], "");
    for it in told {
        let words: Vec<&str> = it.split(' ').collect();
        if words[0] != time || words[2] == "made" {
            released.sort();
            ordered.append(&mut released);
        }
        time = words[0];
        if words[2] == "released" { &mut released } else { &mut ordered }.push(it.clone());
    }
    released.sort();
    let is_end = |it: &String| ["completed", "error"].contains(&it.split(' ').nth(2).unwrap());
    let end_together = |one: &String, other: &String| is_end(one) && is_end(other) && one.split(' ').next() == other.split(' ').next();
    let mut at = 0;
    while is_shared && at < ordered.len() {
        let many = ordered[at..].iter().take_while(|it| end_together(&ordered[at], it)).count().max(1);
        ordered[at..at + many].sort();
        at += many;
    }
    [ordered, released].concat()
}

fn outcome(case: &Json, kinds: &Rc<Json>) -> Or<Vec<String>> {
    let when = case.get("when").map_or(vec![], |it| it.members().to_vec());
    let run = Rc::new(Run {
        case: case.clone(), kinds: kinds.clone(), told: Default::default(), when: RefCell::new(when), now: Default::default(),
        timers: Default::default(), subjects: Default::default(), counts: Default::default(), wholes: Default::default(), lets: Default::default(),
    });
    let _ends = Ends(run.clone());
    for (name, made) in case.get("sources").unwrap().members() {
        let fed = run.fed(name, made)?;
        let whole = run.using(name, move || Ok(fed.clone()));
        run.lets.borrow_mut().insert(name.clone(), Built::Plain(whole));
    }
    let pipe = run.build(case.get("pipe").unwrap())?;
    run.lets.borrow_mut().insert(" pipe".into(), pipe);
    let within = case.get("when").map_or(vec![], |it| it.members().iter().flat_map(|it| it.1.list().to_vec()).collect());
    for it in case.get("do").unwrap().list().iter().map(|it| it.text().split_once(' ').unwrap().1).chain(within.iter().map(Json::text)) {
        if let [_, "subscribe", it] = it.splitn(3, ' ').collect::<Vec<_>>()[..] {
            run.build(&Json::parse(it))?;
        }
    }
    for it in case.get("do").unwrap().list() {
        let (time, command) = it.text().split_once(' ').unwrap();
        let (same, command) = (run.clone(), command.to_string());
        run.at(time.parse().unwrap(), move || assert!(same.act(&command).is_ok()));
    }
    loop {
        let next = run.timers.borrow_mut().pop_first();
        let Some(((time, _), work)) = next.filter(|it| it.0 .0 <= 1000) else { break };
        *run.now.borrow_mut() = time;
        work();
    }
    Ok(run.told.take())
}

#[test]
fn each_case_whose_operators_are_here_tells_what_stands_there() {
    let read = |name: &str| Json::parse(&std::fs::read_to_string(format!("{FOLDER}{name}.json")).unwrap());
    let kinds = Rc::new(read("words"));
    let (mut passed, mut lacking, mut as_rxjs, mut wrong) = (0, BTreeMap::new(), BTreeMap::<_, Vec<_>>::new(), vec![]);
    let families = std::env::var("CASES").ok();
    let is_wanted = |it: &&&str| families.as_ref().map_or(true, |all| all.contains(**it));
    for case in FAMILIES.iter().filter(is_wanted).flat_map(|it| read(it).list().to_vec()) {
        let name = case.get("name").unwrap().text().to_string();
        let lines = |key: &str| case.get(key).map(|it| it.list().iter().map(|it| it.text().to_string()).collect::<Vec<_>>());
        let row = case.get("differs").map(Json::text).filter(|it| AS_RXJS.contains(it));
        let is_shared = ["share", "publish", "ref_count"].iter().any(|it| format!("{case:?}").contains(&format!("{it:?}")));
        let wanted = in_order(&lines(if row.is_some() { "RxJS" } else { "log" }).unwrap(), is_shared);
        match catch_unwind(AssertUnwindSafe(|| outcome(&case, &kinds))) {
            Err(why) => wrong.push(format!("{name}: panics {:?}", why.downcast_ref::<String>())),
            Ok(Err(Lacks(it))) => *lacking.entry(it).or_insert(0) += 1,
            Ok(Ok(told)) if in_order(&told, is_shared) == wanted => {
                passed += 1;
                row.into_iter().for_each(|it| as_rxjs.entry(it.to_string()).or_insert_with(Vec::new).push(name.clone()));
            }
            Ok(Ok(told)) => wrong.push(format!("{name}\n  tells {}\n  wants {}", told.join(", "), wanted.join(", "))),
        }
    }
    println!("{passed} passed; {} left out: {lacking:?}", lacking.values().sum::<usize>());
    as_rxjs.iter().for_each(|(row, all)| println!("of those as RxJS has it, {row}: {}", all.join("; ")));
    assert!(lacking.keys().all(|it| !HERE.contains(&it.as_str())));
    assert!(wrong.is_empty(), "{} differ:\n{}", wrong.len(), wrong.join("\n"));
}
