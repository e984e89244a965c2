//! A program's stored sample, as it lies in the program's crate: the files that it reads, their
//! names, which are its arguments, and what it has to print of them.

use std::path::Path;
use std::{fs, io};

/// A file with its name.
pub type File = (String, Vec<u8>);

pub struct Sample {
    pub files: Vec<File>,
    pub text: String,
}

impl Sample {
    /// All files by their paths in the crate.
    fn paths(self) -> Vec<File> {
        let names = self.files.iter().map(|(name, _)| format!("{name}\n"));
        let arguments: String = names.collect();
        let data = self
            .files
            .into_iter()
            .map(|(name, file)| (format!("data/{name}"), file));
        let others = [("args", arguments), ("stdout", self.text)];
        let others = others.map(|(name, text)| (name.to_string(), text.into_bytes()));
        data.chain(others).collect()
    }

    /// Writes the sample. True if nothing else lies among its files.
    pub fn write(self, folder: &str) -> io::Result<bool> {
        fs::create_dir_all(Path::new(folder).join("data"))?;
        let paths = self.paths();
        for (name, bytes) in &paths {
            fs::write(Path::new(folder).join(name), bytes)?;
        }
        check(&paths, folder)
    }

    /// True if the folder has all that `write` would make, and no other file among the sample's.
    pub fn check(self, folder: &str) -> io::Result<bool> {
        check(&self.paths(), folder)
    }
}

fn check(paths: &[File], folder: &str) -> io::Result<bool> {
    let mut same = true;
    for (name, bytes) in paths {
        let path = Path::new(folder).join(name);
        if fs::read(&path).ok().as_ref() != Some(bytes) {
            println!("{} is not what would be stored", path.display());
            same = false;
        }
    }
    for other in fs::read_dir(Path::new(folder).join("data"))? {
        let name = other?.file_name();
        let is_stored = |(stored, _): &File| Path::new(stored) == Path::new("data").join(&name);
        if !paths.iter().any(is_stored) {
            println!("{folder}/data/{} is not of the sample", name.display());
            same = false;
        }
    }
    Ok(same)
}

#[cfg(test)]
mod tests {
    use super::*;
    use std::{env, process};

    fn sample() -> Sample {
        let file = |name: &str, bytes: &[u8]| (name.to_string(), bytes.to_vec());
        Sample {
            files: vec![file("none.file", &[0; 4]), file("two.file", &[2; 4])],
            text: "two\n".to_string(),
        }
    }

    /// Whether the check fails after a change, which is undone.
    fn is_found(folder: &str, name: &str, bytes: Option<&[u8]>) -> bool {
        let path = Path::new(folder).join(name);
        let before = fs::read(&path).ok();
        match bytes {
            Some(bytes) => fs::write(&path, bytes).unwrap(),
            None => fs::remove_file(&path).unwrap(),
        }
        let is_found = !sample().check(folder).unwrap();
        match before {
            Some(bytes) => fs::write(&path, bytes).unwrap(),
            None => fs::remove_file(&path).unwrap(),
        }
        is_found
    }

    #[test]
    fn a_check_finds_what_is_not_as_written() {
        let folder = env::temp_dir().join(format!("sample-{}", process::id()));
        let folder = folder.to_str().unwrap();
        assert!(sample().write(folder).unwrap());
        assert_eq!(
            fs::read_to_string(format!("{folder}/args")).unwrap(),
            "none.file\ntwo.file\n"
        );
        assert!(is_found(folder, "data/stray.file", Some(&[0; 4])));
        assert!(is_found(folder, "data/none.file", Some(&[1; 4])));
        assert!(is_found(folder, "data/none.file", None));
        assert!(is_found(folder, "args", Some(b"none.file\n")));
        assert!(is_found(folder, "stdout", Some(b"")));
        assert!(sample().check(folder).unwrap());
        fs::remove_dir_all(folder).unwrap();
    }
}
