//! Reading a record from its JSON text.

use std::collections::BTreeSet;

use crate::cursor::Cursor;
use crate::names::{is_name_byte, Name};
use crate::paths::{Path, PATH_LIMIT};
use crate::values::Value;

/// What a record text in the grammar holds.
pub struct RecordText {
    pub fields: Vec<(Path, Value)>,
    /// Whether some object has a key twice.
    pub repeats_a_key: bool,
}

/// `None` where the text is not in the grammar.
pub fn parse_record(text: &[u8]) -> Option<RecordText> {
    let mut reader = Reader {
        cursor: Cursor::new(text),
        path: Vec::with_capacity(PATH_LIMIT),
        found: RecordText { fields: Vec::new(), repeats_a_key: false },
    };
    reader.skip_blanks();
    reader.object()?;
    reader.skip_blanks();
    reader.cursor.at_end().then_some(reader.found)
}

struct Reader<'a> {
    cursor: Cursor<'a>,
    /// The keys of the objects around the present place.
    path: Path,
    found: RecordText,
}

impl Reader<'_> {
    fn skip_blanks(&mut self) {
        self.cursor.take_while(|byte| matches!(byte, b' ' | b'\t' | b'\n' | b'\r'));
    }

    fn object(&mut self) -> Option<()> {
        self.cursor.expect(b"{")?;
        self.skip_blanks();
        if self.path.is_empty() && self.cursor.eat(b"}") {
            return Some(());
        }
        let mut keys = BTreeSet::new();
        loop {
            let key = self.key()?;
            if !keys.insert(key) {
                self.found.repeats_a_key = true;
            }
            self.member(key)?;
            self.skip_blanks();
            if !self.cursor.eat(b",") {
                return self.cursor.expect(b"}");
            }
            self.skip_blanks();
        }
    }

    /// A key, its colon and the blanks behind it.
    fn key(&mut self) -> Option<Name> {
        self.cursor.expect(b"\"")?;
        let key = Name::parse(self.cursor.take_while(is_name_byte))?;
        self.cursor.expect(b"\"")?;
        self.skip_blanks();
        self.cursor.expect(b":")?;
        self.skip_blanks();
        Some(key)
    }

    /// What stands under a key: an object or a value.
    fn member(&mut self, key: Name) -> Option<()> {
        if self.path.len() == PATH_LIMIT {
            return None;
        }
        self.path.push(key);
        if self.cursor.peek()? == b'{' {
            self.object()?;
        } else {
            let value = Value::read(&mut self.cursor)?;
            self.found.fields.push((self.path.clone(), value));
        }
        self.path.pop();
        Some(())
    }
}
