//! JSON, and nothing that is none.

#[derive(Clone, Debug, PartialEq)]
pub enum Json {
    Null,
    Bool(bool),
    Number(f64),
    Text(String),
    List(Vec<Json>),
    Object(Vec<(String, Json)>),
}

impl Json {
    #[track_caller]
    pub fn of(line: &str) -> Json {
        let mut rest = Rest(line);
        let value = rest.value();
        match value {
            Some(value) if rest.0.is_empty() => value,
            _ => panic!("no JSON: {line}, at {}", rest.0),
        }
    }

    pub fn find(&self, key: &str) -> Option<&Json> {
        let Json::Object(members) = self else {
            panic!("no object: {self:?}");
        };
        let found = members.iter().find(|(name, _)| name == key);
        found.map(|(_, value)| value)
    }

    pub fn has(&self, key: &str) -> bool {
        self.find(key).is_some()
    }

    #[track_caller]
    pub fn get(&self, key: &str) -> &Json {
        let found = self.find(key);
        found.unwrap_or_else(|| panic!("no {key}: {self:?}"))
    }

    #[track_caller]
    pub fn text(&self, key: &str) -> &str {
        match self.get(key) {
            Json::Text(text) => text,
            other => panic!("{key} is no text: {other:?}"),
        }
    }

    #[track_caller]
    pub fn number(&self, key: &str) -> f64 {
        match self.get(key) {
            Json::Number(number) => *number,
            other => panic!("{key} is no number: {other:?}"),
        }
    }
}

/// What is still to be read.
struct Rest<'a>(&'a str);

impl Rest<'_> {
    fn take(&mut self, word: &str) -> bool {
        let behind = self.0.strip_prefix(word);
        self.0 = behind.unwrap_or(self.0);
        behind.is_some()
    }

    fn value(&mut self) -> Option<Json> {
        if self.take("null") {
            Some(Json::Null)
        } else if self.take("true") {
            Some(Json::Bool(true))
        } else if self.take("false") {
            Some(Json::Bool(false))
        } else if self.take("\"") {
            self.text().map(Json::Text)
        } else if self.take("[") {
            self.several("]", Rest::value).map(Json::List)
        } else if self.take("{") {
            let members = self.several("}", Rest::member)?;
            let mut keys: Vec<&String> = members.iter().map(|(key, _)| key).collect();
            keys.sort();
            let twice = keys.windows(2).any(|two| two[0] == two[1]);
            (!twice).then_some(Json::Object(members))
        } else {
            self.number().map(Json::Number)
        }
    }

    fn member(&mut self) -> Option<(String, Json)> {
        let key = self.take("\"").then(|| self.text())??;
        self.take(":")
            .then(|| self.value())?
            .map(|value| (key, value))
    }

    fn several<T>(&mut self, end: &str, one: fn(&mut Self) -> Option<T>) -> Option<Vec<T>> {
        let mut values = Vec::new();
        if self.take(end) {
            return Some(values);
        }
        loop {
            values.push(one(self)?);
            if self.take(end) {
                return Some(values);
            }
            self.take(",").then_some(())?;
        }
    }

    /// Behind the first quote.
    fn text(&mut self) -> Option<String> {
        let mut text = String::new();
        loop {
            let mut chars = self.0.chars();
            let next = chars.next()?;
            self.0 = chars.as_str();
            match next {
                '"' => return Some(text),
                '\\' => text.push(self.escaped()?),
                '\0'..='\x1F' => return None,
                _ => text.push(next),
            }
        }
    }

    fn escaped(&mut self) -> Option<char> {
        const SHORT: [(&str, char); 8] = [
            ("\"", '"'),
            ("\\", '\\'),
            ("/", '/'),
            ("b", '\x08'),
            ("f", '\x0C'),
            ("n", '\n'),
            ("r", '\r'),
            ("t", '\t'),
        ];
        let short = SHORT.into_iter().find(|(word, _)| self.take(word));
        if let Some((_, meant)) = short {
            return Some(meant);
        }
        let high = self.unit()?;
        let units = match high {
            0xD800..=0xDBFF => self
                .take("\\")
                .then(|| self.unit())?
                .map(|low| [high, low].to_vec())?,
            _ => [high].to_vec(),
        };
        String::from_utf16(&units).ok()?.chars().next()
    }

    fn unit(&mut self) -> Option<u16> {
        self.take("u").then_some(())?;
        let digits = self.0.get(..4)?;
        self.0 = &self.0[4..];
        let hex = digits.bytes().all(|byte| byte.is_ascii_hexdigit());
        hex.then(|| u16::from_str_radix(digits, 16).ok())?
    }

    fn digits(&mut self) -> usize {
        let behind = self
            .0
            .trim_start_matches(|digit: char| digit.is_ascii_digit());
        let count = self.0.len() - behind.len();
        self.0 = behind;
        count
    }

    fn number(&mut self) -> Option<f64> {
        let whole = self.0;
        self.take("-");
        let zero = self.0.starts_with('0');
        let good = match self.digits() {
            0 => false,
            count => !zero || count == 1,
        };
        let point = !self.take(".") || self.digits() > 0;
        let power = !(self.take("e") || self.take("E")) || {
            let _ = self.take("+") || self.take("-");
            self.digits() > 0
        };
        let spelled = &whole[..whole.len() - self.0.len()];
        (good && point && power).then(|| spelled.parse().ok())?
    }
}
