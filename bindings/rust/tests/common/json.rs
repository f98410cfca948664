//! JSON, as far as the shared cases and courses have it.
#![allow(dead_code)]

#[derive(Clone, Debug, PartialEq)]
pub enum Json {
    Null,
    Bool(bool),
    Number(i128),
    Text(String),
    List(Vec<Json>),
    Map(Vec<(String, Json)>),
}

impl Json {
    pub fn parse(text: &str) -> Json {
        let mut at = Reader { rest: text.as_bytes() };
        let value = at.value();
        at.space();
        assert!(at.rest.is_empty(), "something stands behind the value");
        value
    }

    pub fn list(&self) -> &[Json] {
        match self {
            Json::List(all) => all,
            _ => panic!("no list: {self:?}"),
        }
    }

    pub fn text(&self) -> &str {
        match self {
            Json::Text(it) => it,
            _ => panic!("no text: {self:?}"),
        }
    }

    /// A number, which may stand as a text of its digits.
    pub fn number(&self) -> u64 {
        match self {
            Json::Number(it) => *it as u64,
            Json::Text(it) => it.parse().unwrap(),
            _ => panic!("no number: {self:?}"),
        }
    }

    pub fn get(&self, key: &str) -> Option<&Json> {
        match self {
            Json::Map(all) => all.iter().find(|it| it.0 == key).map(|it| &it.1),
            _ => None,
        }
    }

    pub fn members(&self) -> &[(String, Json)] {
        match self {
            Json::Map(all) => all,
            _ => panic!("no object: {self:?}"),
        }
    }

    /// As the cases write it.
    pub fn written(&self) -> String {
        match self {
            Json::Null => "null".into(),
            Json::Bool(it) => it.to_string(),
            Json::Number(it) => it.to_string(),
            Json::Text(it) => format!("{it:?}"),
            Json::List(all) => format!("[{}]", all.iter().map(Json::written).collect::<Vec<_>>().join(", ")),
            Json::Map(_) => panic!("no item is an object"),
        }
    }
}

struct Reader<'a> {
    rest: &'a [u8],
}

impl Reader<'_> {
    fn space(&mut self) {
        while self.rest.first().is_some_and(|it| it.is_ascii_whitespace()) {
            self.rest = &self.rest[1..];
        }
    }

    fn is(&mut self, text: &str) -> bool {
        self.space();
        let found = self.rest.starts_with(text.as_bytes());
        if found {
            self.rest = &self.rest[text.len()..];
        }
        found
    }

    fn value(&mut self) -> Json {
        if self.is("null") {
            Json::Null
        } else if self.is("true") {
            Json::Bool(true)
        } else if self.is("false") {
            Json::Bool(false)
        } else if self.is("[") {
            let mut all = vec![];
            while !self.is("]") {
                all.push(self.value());
                self.is(",");
            }
            Json::List(all)
        } else if self.is("{") {
            let mut all = vec![];
            while !self.is("}") {
                let Json::Text(key) = self.value() else { panic!("a key is a text") };
                assert!(self.is(":"));
                all.push((key, self.value()));
                self.is(",");
            }
            Json::Map(all)
        } else if self.is("\"") {
            self.text()
        } else {
            let many = self.rest.iter().position(|it| !b"+-.0123456789eE".contains(it)).unwrap_or(self.rest.len());
            let text = std::str::from_utf8(&self.rest[..many]).unwrap();
            self.rest = &self.rest[many..];
            Json::Number(text.parse().unwrap_or_else(|why| panic!("{why}: {text:?}")))
        }
    }

    fn text(&mut self) -> Json {
        let mut all = vec![];
        loop {
            let (at, rest) = self.rest.split_first().expect("a text ends");
            self.rest = rest;
            match at {
                b'"' => return Json::Text(String::from_utf8(all).unwrap()),
                b'\\' => {
                    all.push(match rest[0] {
                        b'n' => b'\n',
                        b't' => b'\t',
                        b'u' => panic!("no text here has such an escape"),
                        other => other,
                    });
                    self.rest = &rest[1..];
                }
                other => all.push(*other),
            }
        }
    }
}
