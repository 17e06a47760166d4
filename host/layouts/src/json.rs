// A reader of JSON, as far as the captures use it.
#[derive(Clone, Debug, PartialEq)]
pub enum Json {
    Null,
    Bool(bool),
    Number(i64),
    Text(String),
    List(Vec<Json>),
    Object(Vec<(String, Json)>),
}

impl Json {
    pub fn get(&self, key: &str) -> &Json {
        match self {
            Json::Object(fields) => fields.iter().find(|(k, _)| k == key).map(|(_, v)| v).unwrap_or(&Json::Null),
            _ => &Json::Null,
        }
    }
    pub fn text(&self) -> Option<&str> {
        match self {
            Json::Text(s) => Some(s),
            _ => None,
        }
    }
    pub fn number(&self) -> i64 {
        match self {
            Json::Number(n) => *n,
            _ => panic!("no number: {self:?}"),
        }
    }
    pub fn is_true(&self) -> bool {
        *self == Json::Bool(true)
    }
    pub fn list(&self) -> &[Json] {
        match self {
            Json::List(l) => l,
            _ => &[],
        }
    }
}

pub fn read(s: &str) -> Json {
    let chars: Vec<char> = s.chars().collect();
    let mut at = 0;
    let v = value(&chars, &mut at);
    blank(&chars, &mut at);
    assert!(at == chars.len(), "text after the value");
    v
}

fn blank(s: &[char], at: &mut usize) {
    while *at < s.len() && s[*at].is_whitespace() {
        *at += 1;
    }
}

fn word(s: &[char], at: &mut usize, w: &str) -> bool {
    let w: Vec<char> = w.chars().collect();
    let is = s[*at..].starts_with(&w);
    if is {
        *at += w.len();
    }
    is
}

fn value(s: &[char], at: &mut usize) -> Json {
    blank(s, at);
    if word(s, at, "null") {
        return Json::Null;
    }
    if word(s, at, "true") {
        return Json::Bool(true);
    }
    if word(s, at, "false") {
        return Json::Bool(false);
    }
    match s[*at] {
        '"' => Json::Text(string(s, at)),
        '[' => Json::List(items(s, at, ']').into_iter().map(|(_, v)| v).collect()),
        '{' => Json::Object(items(s, at, '}')),
        _ => {
            let from = *at;
            while *at < s.len() && (s[*at] == '-' || s[*at].is_ascii_digit()) {
                *at += 1;
            }
            Json::Number(s[from..*at].iter().collect::<String>().parse().expect("a number"))
        }
    }
}

fn items(s: &[char], at: &mut usize, end: char) -> Vec<(String, Json)> {
    let mut l = Vec::new();
    *at += 1;
    blank(s, at);
    if s[*at] == end {
        *at += 1;
        return l;
    }
    loop {
        blank(s, at);
        let mut key = String::new();
        if end == '}' {
            key = string(s, at);
            blank(s, at);
            assert!(s[*at] == ':');
            *at += 1;
        }
        l.push((key, value(s, at)));
        blank(s, at);
        *at += 1;
        if s[*at - 1] == end {
            return l;
        }
        assert!(s[*at - 1] == ',');
    }
}

fn string(s: &[char], at: &mut usize) -> String {
    assert!(s[*at] == '"');
    *at += 1;
    let mut o = String::new();
    while s[*at] != '"' {
        if s[*at] == '\\' {
            *at += 1;
            match s[*at] {
                'n' => o.push('\n'),
                't' => o.push('\t'),
                'u' => {
                    let mut u = vec![unit(s, *at + 1)];
                    *at += 4;
                    while s[*at + 1] == '\\' && s[*at + 2] == 'u' {
                        u.push(unit(s, *at + 3));
                        *at += 6;
                    }
                    o.push_str(&String::from_utf16_lossy(&u));
                }
                c => o.push(c),
            }
        } else {
            o.push(s[*at]);
        }
        *at += 1;
    }
    *at += 1;
    o
}

fn unit(s: &[char], at: usize) -> u16 {
    u16::from_str_radix(&s[at..at + 4].iter().collect::<String>(), 16).unwrap()
}
