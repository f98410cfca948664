//! The crossing answers each step of the stored courses, bindings/courses, as the library's definitions do.
mod common;

use cellarcliff::engine::{what, Command, Crossing, Key, Stack, Stepped, NOTHING};
use common::json::Json;
use std::collections::HashMap;

struct Course {
    engine: Crossing,
    step: Stepped,
    tickets: Vec<u64>, // by the place of their effects among those of the course, from 1 on
    keys: HashMap<(u64, u64), Key>,
}

fn number(it: u64) -> Json {
    Json::Number(it.into())
}

/// Texts of digits are numbers.
fn plain(it: &Json) -> Json {
    match it {
        Json::Text(_) => number(it.number()),
        Json::List(all) => Json::List(all.iter().map(plain).collect()),
        Json::Map(all) => Json::Map(all.iter().map(|(key, it)| (key.clone(), plain(it))).collect()),
        other => other.clone(),
    }
}

impl Course {
    fn stack(&self, it: &Json) -> Stack {
        let [by, depth, begun] = it.list().iter().map(Json::number).collect::<Vec<_>>()[..] else { panic!("three words") };
        Stack { by, depth, begun: self.tickets[begun as usize] }
    }

    fn node(&self, it: &Json) -> Key {
        match it {
            Json::Null => NOTHING,
            Json::List(all) if all.len() == 3 => Key { slot: all[0].number(), number: all[1].number() },
            _ => self.keys[&(it.list()[0].number(), it.list()[1].number())],
        }
    }

    fn command(&self, words: &[Json]) -> Command {
        let at = |place: usize| words[place].number();
        Command {
            what: at(0) as u8, place: at(1) as u8, kind: at(2) as u8, flags: at(3) as u8, level: at(4) as u32, hub: at(5),
            node: self.node(&words[6]), user: at(7), value: at(8), by: at(9), spare: at(10),
        }
    }

    /// What the command of this step has made.
    fn made(&mut self, number_of_step: u64, command: &Command) -> Vec<(&'static str, Json)> {
        let it = self.step;
        let is_opening = command.what <= what::USING;
        let has_other = [what::USING, what::HOLD, what::CONNECT, what::LEASE].contains(&command.what) || it.is_connected == 1;
        let is_shared = command.what == what::CONNECT || command.what == what::OPEN && command.kind >= 5;
        if is_opening {
            self.keys.insert((number_of_step, 0), it.node);
        }
        if has_other {
            self.keys.insert((number_of_step, 1), it.other);
        }
        let closings = self.engine.closings(&it).into_iter().map(number).collect();
        vec![
            ("node", number(is_opening.into())), ("other", number(has_other.into())), ("connected", number(it.is_connected)),
            ("hub", number(if is_shared { it.hub } else { 0 })), ("copies", number(it.copies)), ("closings", Json::List(closings)),
        ]
    }

    /// An answer, with what is handed out.
    fn said(&mut self, mut said: Vec<(&'static str, Json)>) -> Json {
        let Stepped { handed, own, ticket, effect: it, .. } = self.step;
        if handed == 1 {
            let place = self.tickets.iter().position(|it| *it == ticket).unwrap_or_else(|| {
                self.tickets.push(ticket);
                self.tickets.len() - 1
            });
            let words = [place as u64, it.kind.into(), it.user, it.value, it.by, it.carries.into()];
            said.extend([("handed", Json::List(words.map(number).to_vec())), ("own", number(own))]);
        }
        said.retain(|it| it.1 != number(0) && it.1 != Json::List(vec![]));
        Json::Map(said.into_iter().map(|(key, it)| (key.to_string(), it)).collect())
    }

    /// Does a step; answers how many of its words it was given, and what is told.
    fn does(&mut self, step: u64, words: &[Json]) -> (usize, Vec<Json>) {
        match words[0].text() {
            "step" => {
                let command = self.command(words[2].list());
                let status = self.engine.step(&self.stack(&words[1]), &command, &mut self.step);
                let made = if status == 0 { self.made(step, &command) } else { vec![("status", number(status.into()))] };
                (3, vec![self.said(made)])
            }
            "next" => {
                self.engine.next(&self.stack(&words[1]), &mut self.step);
                (2, vec![self.said(vec![])])
            }
            "pass" => {
                self.engine.pass(&self.stack(&words[1]), words[2].number(), words[3].number() == 1);
                (4, vec![])
            }
            "stop" => {
                self.engine.stop(&self.stack(&words[1]));
                (2, vec![])
            }
            "totals" => {
                let it = self.engine.totals();
                let all = [it.nodes, it.held, it.waiting, it.leases, it.accepted, it.taken, it.events, it.effects];
                (1, vec![Json::List(all.map(number).to_vec())])
            }
            "finish" => (1, vec![number(self.engine.finish().into())]),
            other => panic!("no step: {other}"),
        }
    }
}

#[test]
fn every_step_of_a_thousand_courses_is_answered_as_it_stands_there() {
    let file = std::fs::read_to_string(concat!(env!("CARGO_MANIFEST_DIR"), "/../courses/courses.jsonl")).unwrap();
    let mut steps = 0;
    for (place, line) in file.lines().enumerate() {
        let it = Json::parse(line);
        let engine = Crossing::new(it.get("events").unwrap().number() as u32).unwrap();
        let mut course = Course { engine, step: Stepped::default(), tickets: vec![0], keys: HashMap::new() };
        for (step, words) in it.get("steps").unwrap().list().iter().enumerate() {
            let words = words.list();
            let (given, told) = course.does(step as u64, words);
            let wanted: Vec<Json> = words[given..].iter().map(plain).collect();
            assert_eq!(told, wanted, "course {place}, step {step}: {words:?}");
            steps += 1;
        }
    }
    assert_eq!((file.lines().count(), steps), (1000, 32_951));
}
