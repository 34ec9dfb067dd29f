//! The sizes that callers are told, held to those of the proved library.

use jesovanga::Size;

const HEADER: &str = include_str!("../../jesovanga.h");

/// The sizes in the Rust wrapper and in the C header are the library's; or
/// what is wrong with the first that is not.
pub fn compare() -> Result<(), String> {
    jesovanga::sizes().iter().try_for_each(compare_one)
}

fn compare_one(size: &Size) -> Result<(), String> {
    let Size { name, wrapper, library } = *size;
    same(name, "the Rust wrapper", wrapper, library)?;
    let header = defined(HEADER, name)
        .ok_or_else(|| format!("size {name}: jesovanga.h does not define JESOVANGA_{name}"))?;
    same(name, "jesovanga.h", header, library)
}

fn same(name: &str, told_by: &str, told: usize, library: usize) -> Result<(), String> {
    if told == library {
        return Ok(());
    }
    Err(format!("size {name}: {told_by} has {told}, the library {library}"))
}

/// The number of `#define JESOVANGA_NAME NUMBER`.
fn defined(header: &str, name: &str) -> Option<usize> {
    header.lines().find_map(|line| {
        let rest = line.strip_prefix("#define JESOVANGA_")?.strip_prefix(name)?;
        let number = rest.strip_prefix(' ')?.split_whitespace().next()?;
        number.parse().ok()
    })
}

#[cfg(test)]
mod tests {
    use super::*;

    #[test]
    fn sizes_agree() {
        assert_eq!(compare(), Ok(()));
    }

    #[test]
    fn a_number_is_found_by_its_whole_name() {
        let header = "#define JESOVANGA_LISTED 4 /* .. */\n#define JESOVANGA_LIST   32 /* .. */\n";
        assert_eq!(defined(header, "LIST"), Some(32));
        assert_eq!(defined(header, "COPY"), None);
    }

    #[test]
    fn another_number_is_told() {
        let told = same("LIST", "jesovanga.h", 33, 32);
        assert_eq!(told, Err("size LIST: jesovanga.h has 33, the library 32".to_owned()));
    }
}
