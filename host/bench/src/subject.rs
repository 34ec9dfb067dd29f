//! The two servers, seen alike.

use crate::halls::Texts;

/// What the proved server is measured against: an earlier build of it, or the
/// second implementation.
#[cfg(feature = "former")]
pub use former as other;
#[cfg(not(feature = "former"))]
pub use second as other;

/// What the tables call it.
pub const OTHER: &str = if cfg!(feature = "former") { "former" } else { "second" };

/// An earlier build is lent arrays of the present sizes: they must be its own.
pub fn check_sizes() {
    #[cfg(feature = "former")]
    for size in former::sizes() {
        assert_eq!(size.wrapper, size.library, "{} of the earlier build", size.name);
    }
}

pub trait Subject: Clone + 'static {
    /// A server that has opened the texts, which are to be accepted.
    fn opened(texts: &Texts) -> Self;

    /// Opens the texts again; says whether they are accepted.
    fn open(&mut self, texts: &Texts) -> bool;

    /// The number that a line is answered with: a refusal's below 0.
    fn ask(&mut self, line: &[u8], buffer: &mut [u8], list: &mut [u32]) -> i64;

    fn save(&self, buffer: &mut [u8]) -> i64;
}

/// A reply as a number.
trait Numbered {
    fn number(self) -> i64;
}

/// Each library has a server and a reply of its own, with the same functions and
/// cases.
macro_rules! subject {
    ($library:ident) => {
        impl Subject for $library::Server {
            fn opened(texts: &Texts) -> Self {
                let mut server = Self::new();
                assert!(Subject::open(&mut server, texts), "the hall is refused");
                server
            }

            fn open(&mut self, [users, environments, policy, record]: &Texts) -> bool {
                self.open(users, environments, policy, record).is_ok()
            }

            fn ask(&mut self, line: &[u8], buffer: &mut [u8], list: &mut [u32]) -> i64 {
                self.request(line, buffer, list).number()
            }

            fn save(&self, buffer: &mut [u8]) -> i64 {
                self.save(buffer).number()
            }
        }

        impl Numbered for $library::Reply {
            fn number(self) -> i64 {
                match self {
                    Self::Refused(number) => -(number as i64),
                    Self::Session(number) => i64::from(number),
                    Self::Length(number) | Self::Accepted(number) => number as i64,
                }
            }
        }
    };
}

subject!(jesovanga);
subject!(other);
