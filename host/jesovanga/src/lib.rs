//! The proved record server, for Rust: no caller needs `unsafe`.

/// Bytes of the users, environment lines and policy lines.
pub const TABLES: usize = 47_200;
/// Numbers of the login states.
pub const LOGINS: usize = 96;
/// Bytes of the fields.
pub const RECORD: usize = 36_352;
/// Bytes that no copy and no saved text of a run exceeds.
pub const COPY: usize = 51_069;
/// Numbers that a list has to have room for.
pub const LIST: usize = 32;

mod exports {
    extern "C" {
        pub fn jesovanga_tables() -> usize;
        pub fn jesovanga_logins() -> usize;
        pub fn jesovanga_record() -> usize;
        pub fn jesovanga_copy() -> usize;
        pub fn jesovanga_list() -> usize;

        pub fn jesovanga_open(
            tables: *mut u8,
            logins: *mut u16,
            fields: *mut u8,
            users: *const u8,
            users_length: usize,
            environments: *const u8,
            environments_length: usize,
            policy: *const u8,
            policy_length: usize,
            record: *const u8,
            record_length: usize,
            refused_text: *mut usize,
            refused_line: *mut usize,
        ) -> usize;

        pub fn jesovanga_request(
            tables: *const u8,
            logins: *mut u16,
            fields: *mut u8,
            line: *const u8,
            line_length: usize,
            buffer: *mut u8,
            buffer_length: usize,
            list: *mut u32,
            list_length: usize,
            kind: *mut u32,
        ) -> usize;

        pub fn jesovanga_save(
            fields: *const u8,
            buffer: *mut u8,
            buffer_length: usize,
            kind: *mut u32,
        ) -> usize;
    }
}

/// A size by its name, as it stands above and as the library says it.
pub struct Size {
    pub name: &'static str,
    pub wrapper: usize,
    pub library: usize,
}

/// Every size. The arrays' types need constants, so that the library's own numbers can only be compared.
pub fn sizes() -> [Size; 5] {
    use exports::*;
    let size = |name, wrapper, library| Size { name, wrapper, library };
    // These functions take nothing and touch no memory.
    unsafe {
        [
            size("TABLES", TABLES, jesovanga_tables()),
            size("LOGINS", LOGINS, jesovanga_logins()),
            size("RECORD", RECORD, jesovanga_record()),
            size("COPY", COPY, jesovanga_copy()),
            size("LIST", LIST, jesovanga_list()),
        ]
    }
}

/// The refusal of an opening.
#[derive(Clone, Copy, Debug, PartialEq, Eq)]
pub struct Fault {
    pub number: usize,
    pub text: usize,
    pub line: usize,
}

/// What a request or a save answers.
#[derive(Clone, Copy, Debug, PartialEq, Eq)]
pub enum Reply {
    Refused(usize),
    Session(u32),
    Length(usize),
    /// How many numbers the list received, none by a LOGOUT: for the caller, not for the sender.
    Accepted(usize),
}

/// The arrays that the operations work on. Any content means some state; all zeros mean no users and no fields. The three belong
/// together: the fields carry masks made from these tables, and who reads is taken from them.
#[derive(Clone, PartialEq, Eq)]
#[repr(C)]
pub struct Memory {
    pub tables: [u8; TABLES],
    pub logins: [u16; LOGINS],
    pub fields: [u8; RECORD],
}

impl Memory {
    pub fn new() -> Self {
        Memory { tables: [0; TABLES], logins: [0; LOGINS], fields: [0; RECORD] }
    }

    /// Opens the four texts; a refusal keeps every byte.
    pub fn open(
        &mut self,
        users: &[u8],
        environments: &[u8],
        policy: &[u8],
        record: &[u8],
    ) -> Result<(), Fault> {
        let (mut text, mut line) = (0, 0);
        // Each pointer is that of a borrow, with its length, and the library touches nothing else.
        let number = unsafe {
            exports::jesovanga_open(
                self.tables.as_mut_ptr(),
                self.logins.as_mut_ptr(),
                self.fields.as_mut_ptr(),
                users.as_ptr(),
                users.len(),
                environments.as_ptr(),
                environments.len(),
                policy.as_ptr(),
                policy.len(),
                record.as_ptr(),
                record.len(),
                &mut text,
                &mut line,
            )
        };
        match number {
            0 => Ok(()),
            _ => Err(Fault { number, text, line }),
        }
    }

    /// Answers one line, with any buffer and any list; a refusal changes nothing.
    pub fn request(&mut self, line: &[u8], buffer: &mut [u8], list: &mut [u32]) -> Reply {
        let mut kind = 0;
        let number = unsafe {
            exports::jesovanga_request(
                self.tables.as_ptr(),
                self.logins.as_mut_ptr(),
                self.fields.as_mut_ptr(),
                line.as_ptr(),
                line.len(),
                buffer.as_mut_ptr(),
                buffer.len(),
                list.as_mut_ptr(),
                list.len(),
                &mut kind,
            )
        };
        reply(kind, number)
    }

    /// Writes the saved text.
    pub fn save(&self, buffer: &mut [u8]) -> Reply {
        let mut kind = 0;
        let number = unsafe {
            exports::jesovanga_save(
                self.fields.as_ptr(),
                buffer.as_mut_ptr(),
                buffer.len(),
                &mut kind,
            )
        };
        reply(kind, number)
    }
}

impl Default for Memory {
    fn default() -> Self {
        Self::new()
    }
}

fn reply(kind: u32, number: usize) -> Reply {
    match kind {
        0 => Reply::Refused(number),
        1 => Reply::Session(number as u32),
        2 => Reply::Length(number),
        3 => Reply::Accepted(number),
        _ => unreachable!("the library promises one of four kinds"),
    }
}

/// A server with its memory on the heap.
#[derive(Clone, Default)]
pub struct Server {
    memory: Box<Memory>,
}

impl Server {
    /// No users and no fields.
    pub fn new() -> Self {
        Self::default()
    }

    pub fn open(
        &mut self,
        users: &[u8],
        environments: &[u8],
        policy: &[u8],
        record: &[u8],
    ) -> Result<(), Fault> {
        self.memory.open(users, environments, policy, record)
    }

    pub fn request(&mut self, line: &[u8], buffer: &mut [u8], list: &mut [u32]) -> Reply {
        self.memory.request(line, buffer, list)
    }

    pub fn save(&self, buffer: &mut [u8]) -> Reply {
        self.memory.save(buffer)
    }
}
