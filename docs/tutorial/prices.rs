//! Keeps the subscriptions of a price view: the program of the tutorial, in Rust. It prints what stands in prices.out.
use cellarcliff::local::{Observable, Scope, Subject};
use cellarcliff::{Note, Refusal};
use std::rc::Rc;

/// A stand-in for an open file: a real one is closed by its drop, where this one prints.
struct File(u64);
impl Drop for File {
    fn drop(&mut self) {
        println!("release file {}", self.0)
    }
}

/// An observer.
fn tell(name: &'static str) -> impl FnMut(Note<u64, ()>) {
    move |note| match note {
        Note::Next(item) => println!("{name} receives {item}"),
        Note::Completed => println!("{name} receives the end"),
        Note::Error(()) => println!("{name} receives an error"),
    }
}

/// An observable with a file for each subscription.
fn with_file<'a>(number: u64, source: Observable<'a, u64, ()>) -> Observable<'a, u64, ()> {
    Observable::using(move || File(number), move |_| source.clone())
}

/// One observer with a file, and the source that it mirrors.
fn watch() {
    let ticks = Subject::new();
    let prices = with_file(7, ticks.observable());
    let _subscription = prices.observe(tell("prices"));
    ticks.next(101);
    ticks.completed();
}

/// Two observers of one source: its file is opened with the first, and comes back with the last.
fn share() {
    let ticks = Subject::new();
    let feed = with_file(9, ticks.observable()).share();
    let first = feed.observe(tell("first"));
    let second = feed.observe(tell("second"));
    ticks.next(102);
    first.dispose();
    second.dispose();
}

/// A file for the first item that comes, none for the second (FlatMap).
fn merge() {
    let (names, lines) = (Subject::new(), Subject::new());
    let source = lines.observable();
    let file_of = move |name| if name == 11 { Observable::empty() } else { with_file(name, source.clone()) };
    let _subscription = names.observable().flat_map(file_of).observe(tell("merged"));
    names.next(10);
    names.next(11);
    lines.next(103);
    lines.completed();
    names.completed();
}

/// A file for each item; the new one takes the place of the old one (Switch).
fn latest() {
    let (names, lines) = (Subject::new(), Subject::new());
    let source = lines.observable();
    let files = names.observable().switch_map(move |name| with_file(name, source.clone()));
    let latest = files.observe(tell("latest"));
    names.next(12);
    names.next(13);
    lines.next(104);
    latest.dispose();
}

/// A request borrows the file of a subscription, and outlives it.
fn lend() {
    let file = Rc::new(File(15));
    let request = file.clone();
    let opened = Observable::<u64, ()>::using(move || file.clone(), |_| Observable::never());
    let page = opened.each(drop);
    drop(opened);
    page.dispose();
    println!("the page is gone, the request goes on");
    drop(request);
}

/// A subscription that nobody ends.
fn forget(scope: &Scope) -> Result<(), Refusal> {
    with_file(8, Observable::never()).observe_in(scope, tell("forgotten"))?.detach();
    Ok(())
}

fn main() -> Result<(), Refusal> {
    let parts: [(&str, fn()); 5] = [("watch", watch), ("share", share), ("merge", merge), ("latest", latest), ("lend", lend)];
    for (name, part) in parts {
        println!("-- {name}");
        part();
    }
    let scope = Scope::new()?;
    println!("-- forget");
    forget(&scope)?;
    println!("-- close");
    drop(scope);
    Ok(())
}
