//! The text of a stored script, grown line by line.

pub struct Script {
    text: Vec<u8>,
}

impl Script {
    /// A script begins with a comment that says what it tries.
    pub fn trying(what: &str) -> Self {
        let mut script = Script { text: Vec::new() };
        script.comment(what);
        script
    }

    pub fn comment(&mut self, text: &str) {
        self.line(format!("# {text}"));
    }

    pub fn line(&mut self, line: impl AsRef<[u8]>) {
        self.text.extend_from_slice(line.as_ref());
        self.text.push(b'\n');
    }

    /// A last line that lacks its end.
    pub fn line_without_end(&mut self, line: impl AsRef<[u8]>) {
        self.text.extend_from_slice(line.as_ref());
    }
}

impl AsRef<[u8]> for Script {
    fn as_ref(&self) -> &[u8] {
        &self.text
    }
}
