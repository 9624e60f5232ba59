//! A repository, and whether a reference leads somewhere in it.
use std::collections::{HashMap, HashSet};
use std::fs;
use std::path::{Path, PathBuf};

use crate::document::split_name;
use crate::inventory;
use crate::source;

/// Words of the tools, which no file declares.
const OF_THE_TOOLS: [&str; 6] = ["libc", "requires", "ensures", "refl", "rt", "specs"];

const HEADER: &str = "include/okrozumba.h";

pub struct Repository {
    root: PathBuf,
    /// the names that each file declares, by its path from the root
    declared: HashMap<String, HashSet<String>>,
    /// calls, codes and exports as documents write them
    listed: HashSet<String>,
}

impl Repository {
    pub fn at(root: &Path) -> Repository {
        let mut files = Vec::new();
        for folder in [
            "crates",
            "include",
            "tests/src",
            "examples",
            "bindings/rust",
        ] {
            collect(root, Path::new(folder), &mut files);
        }
        let mut repository = Repository {
            root: root.to_path_buf(),
            declared: HashMap::new(),
            listed: HashSet::new(),
        };
        for file in files {
            let names = names_in(&repository.read(&file).unwrap_or_default(), &file);
            repository.declared.insert(file, names);
        }
        repository.listed = inventory::listed(&repository)
            .into_iter()
            .map(|t| t.name)
            .collect();
        repository
    }

    pub fn read(&self, file: &str) -> Option<String> {
        fs::read_to_string(self.root.join(file)).ok()
    }

    pub fn header(&self) -> (String, String) {
        (HEADER.to_string(), self.read(HEADER).unwrap_or_default())
    }

    /// The files of a folder of a crate, sorted.
    pub fn files(&self, folder: &str, ending: &str) -> Vec<String> {
        let mut found: Vec<String> = self
            .declared
            .keys()
            .filter(|f| f.starts_with(folder) && f.ends_with(ending))
            .cloned()
            .collect();
        found.sort();
        found
    }

    /// A reference that is looked up is there (true); text that is no reference is passed over (false).
    pub fn find(&self, text: &str) -> Result<bool, String> {
        if let Some((path, name)) = split_name(text) {
            return self.find_name(&self.path_of(path), name);
        }
        if text.starts_with("okrozumba_") || begins_with_number(text) {
            return self.find_listed(text);
        }
        if text.contains([' ', '(', '$', '<', '*', '=']) {
            return Ok(false);
        }
        if let Some((module, name)) = text.rsplit_once("::") {
            return self.find_function(module, name);
        }
        if text.contains('/') {
            return self.find_path(text);
        }
        self.find_word(text)
    }

    /// From the root, for a path that begins with a crate.
    fn path_of(&self, path: &str) -> String {
        let first = path.split('/').next().unwrap_or_default();
        if self.is_crate(first) && !self.declared.contains_key(path) {
            format!("crates/{path}")
        } else {
            path.to_string()
        }
    }

    fn is_crate(&self, name: &str) -> bool {
        self.root.join("crates").join(name).join("src").is_dir()
    }

    fn find_name(&self, path: &str, name: &str) -> Result<bool, String> {
        match self.declared.get(path) {
            Some(names) if names.contains(name) => Ok(true),
            Some(_) => Err(format!(
                "{path} declares no {name}{}",
                self.elsewhere(path, name)
            )),
            None => Err(format!(
                "there is no file {path}{}",
                self.elsewhere(path, name)
            )),
        }
    }

    /// Where else the name is declared, in a file of the same name if there is one: what was moved is found so.
    fn elsewhere(&self, path: &str, name: &str) -> String {
        let last = path.rsplit('/').next();
        let mut places: Vec<&String> = self
            .declared
            .iter()
            .filter(|(_, names)| names.contains(name))
            .map(|(f, _)| f)
            .collect();
        places.sort_by_key(|f| (f.rsplit('/').next() != last, f.as_str()));
        places
            .first()
            .map(|f| format!("; it is in {f}"))
            .unwrap_or_default()
    }

    fn find_listed(&self, text: &str) -> Result<bool, String> {
        if self.listed.contains(text) {
            Ok(true)
        } else if text.contains(' ') && !is_call_or_code(text) {
            Ok(false)
        } else {
            Err(format!("{HEADER} has no such function, call or code"))
        }
    }

    /// `crate::function`, `crate::module::function`.
    fn find_function(&self, module: &str, name: &str) -> Result<bool, String> {
        let (of, file) = match module.split_once("::") {
            Some((of, inner)) => (of, format!("{inner}.rt")),
            None => (module, "lib.rt".to_string()),
        };
        self.find_name(&format!("crates/{of}/src/{file}"), name)
    }

    /// A must-fail edit as `crate/edit`, a file, or a folder.
    fn find_path(&self, text: &str) -> Result<bool, String> {
        let path = self.path_of(text);
        if self.root.join(&path).exists() {
            return Ok(true);
        }
        match text.split_once('/') {
            Some((of, edit)) if self.is_crate(of) && !edit.contains(['/', '.']) => {
                self.find_edit(of, edit)
            }
            _ => Err(format!("there is no file {path}")),
        }
    }

    fn find_edit(&self, of: &str, edit: &str) -> Result<bool, String> {
        let file = format!("crates/{of}/must-fail/{edit}.edit");
        if self.declared.contains_key(&file) {
            return Ok(true);
        }
        let same = format!("/must-fail/{edit}.edit");
        let mut moved = self.declared.keys().filter(|f| f.ends_with(&same));
        let place = moved
            .next()
            .map(|f| format!("; there is {f}"))
            .unwrap_or_default();
        Err(format!("there is no edit {file}{place}"))
    }

    /// A crate, or a name that some file declares.
    fn find_word(&self, text: &str) -> Result<bool, String> {
        if OF_THE_TOOLS.contains(&text) || !text.starts_with(char::is_alphabetic) {
            return Ok(false);
        }
        let known = self.is_crate(text)
            || self.root.join(text).exists()
            || self.declared.values().any(|names| names.contains(text));
        known
            .then_some(true)
            .ok_or("no crate, and no file declares it".to_string())
    }
}

fn begins_with_number(text: &str) -> bool {
    text.trim_start_matches('-')
        .starts_with(|c: char| c.is_ascii_digit())
}

/// A number and a name with an underscore.
fn is_call_or_code(text: &str) -> bool {
    text.split_once(' ').is_some_and(|(n, name)| {
        n.parse::<i32>().is_ok() && name.contains('_') && !name.contains(' ')
    })
}

fn collect(root: &Path, folder: &Path, files: &mut Vec<String>) {
    let Ok(entries) = fs::read_dir(root.join(folder)) else {
        return;
    };
    for entry in entries.flatten() {
        let path = folder.join(entry.file_name());
        if path.ends_with("out") {
            continue; // what rt makes of a crate
        }
        if entry.path().is_dir() {
            collect(root, &path, files);
        } else if let Some(name) = path.to_str() {
            files.push(name.to_string());
        }
    }
}

fn names_in(text: &str, file: &str) -> HashSet<String> {
    let ending = file.rsplit('.').next().unwrap_or_default();
    let names = text.lines().flat_map(|line| source::declared(ending, line));
    names.map(str::to_string).collect()
}
