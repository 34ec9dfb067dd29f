//! The two programs, each run on a day through pipes.

use std::io::{self, Read, Write};
use std::path::{Path, PathBuf};
use std::process::{self, Child, ChildStdout, Command, Stdio};
use std::rc::Rc;
use std::thread::{self, Scope};
use std::{env, fs};

use crate::halls::Hall;
use crate::timing::{Contest, Round};

/// Where the proved program is built, seen from the top of the repository, and
/// what the second one is called, which lies beside this program.
const SERVE: &str = "crates/serve/out/serve";
const SECOND: &str = "second-serve";

/// The files that a program opens, in the order of a hall's texts.
const FILES: [&str; 4] = ["users.txt", "environments.txt", "policy.txt", "record.json"];

/// What is read at once.
const PIECE: usize = 65_536;

pub struct Programs {
    serve: PathBuf,
    second: PathBuf,
}

impl Programs {
    /// The programs, or which one is not there.
    pub fn find(serve: Option<&str>) -> Result<Programs, String> {
        let beside = env::current_exe().map_err(|error| error.to_string())?;
        Ok(Programs {
            serve: found(Path::new(serve.unwrap_or(SERVE)))?,
            second: found(&beside.with_file_name(SECOND))?,
        })
    }

    /// The day, after both have printed the same for it.
    pub fn contest(self, hall: &Hall) -> io::Result<Contest> {
        let day = Rc::new(Day::new(hall)?);
        day.check([&self.serve, &self.second])?;
        let rounds = |program: PathBuf| {
            let day = Rc::clone(&day);
            move || day.timed(&program)
        };
        Ok(Contest::new(rounds(self.serve), rounds(self.second)))
    }
}

/// The whole path of a file: the program is started in another folder.
fn found(path: &Path) -> Result<PathBuf, String> {
    path.canonicalize().map_err(|error| format!("{}: {error}", path.display()))
}

/// A hall's texts in a folder, and its day as a program reads it.
struct Day {
    folder: PathBuf,
    input: Vec<u8>,
    requests: usize,
}

impl Day {
    fn new(hall: &Hall) -> io::Result<Day> {
        let lines = hall.day();
        let mut input = lines.join(&b'\n');
        input.push(b'\n');
        let folder = env::temp_dir().join(format!("jesovanga-bench-{}", process::id()));
        fs::create_dir(&folder)?;
        let day = Day { folder, input, requests: lines.len() };
        for (file, text) in FILES.iter().zip(&hall.texts) {
            fs::write(day.folder.join(file), text)?;
        }
        Ok(day)
    }

    /// Both print the same bytes, or there is nothing to measure.
    fn check(&self, programs: [&Path; 2]) -> io::Result<()> {
        thread::scope(|scope| {
            let mut ours = self.start(programs[0], scope)?;
            let mut theirs = self.start(programs[1], scope)?;
            loop {
                let piece = ours.piece()?;
                assert!(piece == theirs.piece()?, "the programs print different answers");
                if piece.is_empty() {
                    break;
                }
            }
            ours.end()?;
            theirs.end()
        })
    }

    /// Times a run, from the start of the program to its end.
    fn timed(&self, program: &Path) -> Round {
        Round::timed(self.requests, || self.run(program).expect("the program has run before"))
    }

    /// What the program prints is read and dropped.
    fn run(&self, program: &Path) -> io::Result<()> {
        thread::scope(|scope| {
            let mut running = self.start(program, scope)?;
            let mut piece = vec![0; PIECE];
            while running.output.read(&mut piece)? > 0 {}
            running.end()
        })
    }

    /// Starts a program; a thread writes the day to it, so that its output can
    /// be read meanwhile.
    fn start<'scope>(
        &'scope self,
        program: &Path,
        scope: &'scope Scope<'scope, '_>,
    ) -> io::Result<Running> {
        let mut child = Command::new(program)
            .current_dir(&self.folder)
            .stdin(Stdio::piped())
            .stdout(Stdio::piped())
            .spawn()?;
        let mut input = child.stdin.take().expect("the input is a pipe");
        let output = child.stdout.take().expect("the output is a pipe");
        scope.spawn(move || input.write_all(&self.input).expect("the program reads all lines"));
        Ok(Running { child, output })
    }
}

impl Drop for Day {
    fn drop(&mut self) {
        // A folder that stays behind does no harm.
        let _ = fs::remove_dir_all(&self.folder);
    }
}

struct Running {
    child: Child,
    output: ChildStdout,
}

impl Running {
    /// The next bytes of the output, none at its end.
    fn piece(&mut self) -> io::Result<Vec<u8>> {
        let mut piece = Vec::with_capacity(PIECE);
        self.output.by_ref().take(PIECE as u64).read_to_end(&mut piece)?;
        Ok(piece)
    }

    /// Waits for the program's end, which has to be a good one.
    fn end(mut self) -> io::Result<()> {
        let status = self.child.wait()?;
        if status.success() {
            return Ok(());
        }
        Err(io::Error::other(format!("a program ended with {status}")))
    }
}
