//! A strict check that a text is one JSON value, by the grammar of RFC 8259.

/// Fails where the text is not one JSON value.
#[track_caller]
pub fn check(text: &str) {
    let mut checker = Checker(text);
    let value = checker.value();
    assert!(value.is_some(), "no JSON from here: {}", checker.0);
    assert_eq!(checker.0, "", "this is left over");
}

struct Checker<'a>(&'a str);

impl Checker<'_> {
    fn take(&mut self, token: &str) -> Option<()> {
        self.0 = self.0.strip_prefix(token)?;
        Some(())
    }

    fn value(&mut self) -> Option<()> {
        match self.0.chars().next()? {
            '{' => self.items("{", "}", Checker::member),
            '[' => self.items("[", "]", Checker::value),
            '"' => self.string(),
            '0'..='9' => self.number(),
            _ => ["null", "true", "false"]
                .iter()
                .find_map(|word| self.take(word)),
        }
    }

    fn items(
        &mut self,
        open: &str,
        close: &str,
        item: impl Fn(&mut Self) -> Option<()>,
    ) -> Option<()> {
        self.take(open)?;
        if self.take(close).is_some() {
            return Some(());
        }
        loop {
            item(self)?;
            if self.take(",").is_none() {
                return self.take(close);
            }
        }
    }

    fn member(&mut self) -> Option<()> {
        self.string()?;
        self.take(":")?;
        self.value()
    }

    fn number(&mut self) -> Option<()> {
        let rest = self.0.trim_start_matches(|c: char| c.is_ascii_digit());
        let digits = &self.0[..self.0.len() - rest.len()];
        self.0 = rest;
        (digits == "0" || !digits.starts_with('0')).then_some(())
    }

    fn string(&mut self) -> Option<()> {
        self.take("\"")?;
        loop {
            let c = self.0.chars().next()?;
            self.0 = &self.0[c.len_utf8()..];
            match c {
                '"' => return Some(()),
                '\\' => self.escape()?,
                '\0'..='\x1F' => return None,
                _ => {}
            }
        }
    }

    fn escape(&mut self) -> Option<()> {
        let c = self.0.chars().next()?;
        self.0 = &self.0[c.len_utf8()..];
        if c != 'u' {
            return "\"\\/bfnrt".contains(c).then_some(());
        }
        let digits = self.0.get(..4)?;
        self.0 = &self.0[4..];
        digits
            .chars()
            .all(|digit| digit.is_ascii_hexdigit())
            .then_some(())
    }
}
