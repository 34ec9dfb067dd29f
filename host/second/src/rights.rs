//! What the policy lets a user read and write.

use crate::names::Name;
use crate::paths::PolicyPath;

#[derive(Clone, Copy, Debug, PartialEq, Eq)]
pub enum Access {
    Read,
    Write,
}

impl Access {
    pub fn parse(text: &[u8]) -> Option<Access> {
        [Access::Read, Access::Write].into_iter().find(|access| access.word() == text)
    }

    pub fn word(self) -> &'static [u8] {
        match self {
            Access::Read => b"READ",
            Access::Write => b"WRITE",
        }
    }
}

/// A line of the policy.
#[derive(Clone, Debug)]
pub struct Rule {
    pub role: Name,
    pub access: Access,
    pub path: PolicyPath,
}

impl Rule {
    pub fn is_for(&self, role: Name) -> bool {
        self.role == role || self.role.is_star()
    }

    pub fn is_write(&self) -> bool {
        self.access == Access::Write
    }
}

/// A line of a user's environment.
#[derive(Clone, Copy, Debug, PartialEq, Eq)]
pub struct Setting {
    pub name: Name,
    pub value: Name,
}

/// The policy lines and the environment lines of one user.
#[derive(Clone, Debug, Default)]
pub struct Rights {
    pub rules: Vec<Rule>,
    pub environment: Vec<Setting>,
}

impl Rights {
    /// A right to write is a right to read as well.
    pub fn may_read(&self, path: &[Name]) -> bool {
        self.rules.iter().any(|rule| rule.path.matches(path, &self.environment))
    }

    pub fn may_write(&self, path: &[Name]) -> bool {
        let mut writes = self.rules.iter().filter(|rule| rule.is_write());
        writes.any(|rule| rule.path.matches(path, &self.environment))
    }
}
