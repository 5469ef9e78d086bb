//! Lays the Rust's files out for inclusion. Their text is not in this repository: it is read from
//! ../shared/docs/src beside the repository, or from the folder that ORACLE_RUST names. Nothing is
//! changed but that the inner doc lines (`//!`) go, which may not stand in an included file.
//!
//! For ladders and for set-ups with midpoint, which the Rust does not have, the functions of de.rs are laid out twice more: once as
//! they are, over src/ladder.rs in the place of common.rs, and once over it with a call of src/midpoint.rs where crossover
//! takes the mutant's entry. Calls under clamp that no ladder has a part in never run either.
//!
//! ORACLE_MUTANT=NAME applies the edit of that name in mutants.txt, for oracle/run mutants alone, and not to these two.

use std::path::{Path, PathBuf};
use std::{env, fs, process};

/// The files that are compiled whole.
const WHOLE: [&str; 5] = [
    "distribution.rs",
    "param.rs",
    "rng_util.rs",
    "sampler/common.rs",
    "sampler/de.rs",
];

/// Where the functions of de.rs begin; the types that they share stand above.
const FUNCTIONS: &str = "// Helpers\n";

/// The one place of them that midpoint changes: the mutant's entry, where crossover takes it. The draws before it and
/// the clamping after it stay the Rust's.
const TAKEN: &str = "\
                    let val = if use_mutant {
                        mutant[j]
                    } else {
";

const DRAWN_IN: &str = "\
                    let val = if use_mutant {
                        let dim_bounds = continuous_dim_bounds(&state.dimensions, j);
                        crate::midpoint::drawn_in(mutant[j], state.population[i][j], dim_bounds)
                    } else {
";

fn main() {
    let home = PathBuf::from(env::var("CARGO_MANIFEST_DIR").unwrap());
    let out = PathBuf::from(env::var("OUT_DIR").unwrap());
    println!("cargo::rerun-if-env-changed=ORACLE_RUST");
    println!("cargo::rerun-if-env-changed=ORACLE_MUTANT");
    println!("cargo::rerun-if-changed=build.rs");
    println!("cargo::rerun-if-changed=mutants.txt");
    let rust = match env::var_os("ORACLE_RUST") {
        Some(folder) => PathBuf::from(folder),
        None => home.join("../../shared/docs/src/src"),
    };
    let mutant = env::var("ORACLE_MUTANT")
        .ok()
        .filter(|name| !name.is_empty())
        .map(|name| edit_named(&home, &name));
    for file in WHOLE {
        let mut text = without_inner_docs(&read(&rust, file));
        if let Some(edit) = mutant.as_ref().filter(|edit| edit.file == file) {
            text = edit.applied(&text);
        }
        write(&out, file, &text);
    }
    let functions = functions(&read(&rust, "sampler/de.rs"));
    write(&out, "sampler/ladder.rs", &functions);
    write(&out, "sampler/midpoint.rs", &replaced(&functions, TAKEN, DRAWN_IN));
    let sampler = read(&rust, "sampler/mod.rs");
    write(&out, "sampler/trait.rs", &item(&sampler, "pub trait Sampler"));
    // The stand-in of src/lib.rs has the two fields that de.rs reads: see that they are still so.
    let trial = item(&sampler, "pub struct CompletedTrial<V = f64>");
    for field in ["    pub id: u64,", "    pub value: V,"] {
        if !trial.lines().any(|line| line == field) {
            stop(&format!("CompletedTrial of sampler/mod.rs has no line `{field}`"));
        }
    }
}

fn stop(why: &str) -> ! {
    println!("cargo::error={why}");
    process::exit(1);
}

fn read(rust: &Path, file: &str) -> String {
    let path = rust.join(file);
    println!("cargo::rerun-if-changed={}", path.display());
    fs::read_to_string(&path).unwrap_or_else(|e| {
        stop(&format!(
            "the Rust is not there, so no oracle can be built: {}: {e}. It is read from ../shared/docs/src/src beside \
             the repository, or from the folder that ORACLE_RUST names; its text is not copied into the repository",
            path.display()
        ))
    })
}

fn write(out: &Path, file: &str, text: &str) {
    let path = out.join(file);
    fs::create_dir_all(path.parent().unwrap()).unwrap();
    fs::write(path, text).unwrap();
}

/// The functions of de.rs for a further copy, over the types of the first.
fn functions(text: &str) -> String {
    let (_, functions) = text.split_at(only_place(text, FUNCTIONS));
    replaced(
        functions,
        "impl Sampler for DESampler {",
        "impl Sampler for Called<'_> {",
    )
}

fn replaced(text: &str, old: &str, new: &str) -> String {
    let (head, tail) = text.split_at(only_place(text, old));
    format!("{head}{new}{}", &tail[old.len()..])
}

/// Where a text stands that must stand once.
fn only_place(text: &str, old: &str) -> usize {
    let places: Vec<usize> = text.match_indices(old).map(|(at, _)| at).collect();
    match places[..] {
        [at] => at,
        _ => stop(&format!("in sampler/de.rs `{old}` stands {} times", places.len())),
    }
}

fn without_inner_docs(text: &str) -> String {
    let kept = text.lines().filter(|line| !line.starts_with("//!"));
    kept.flat_map(|line| [line, "\n"]).collect()
}

/// The item whose first line begins so, up to the line that closes it.
fn item(text: &str, head: &str) -> String {
    let mut lines = text.lines().skip_while(|line| !line.starts_with(head));
    let mut kept = String::new();
    for line in lines.by_ref() {
        kept += line;
        kept += "\n";
        if line == "}" {
            return kept;
        }
    }
    stop(&format!("sampler/mod.rs has no item `{head}`"))
}

/// One line of mutants.txt: NAME | FILE | WHICH | OLD | NEW, WHICH counting OLD's places from 1.
struct Edit {
    file: String,
    which: usize,
    old: String,
    new: String,
}

fn edit_named(home: &Path, name: &str) -> Edit {
    let all = fs::read_to_string(home.join("mutants.txt")).unwrap();
    for line in all.lines().filter(|line| !line.starts_with('#')) {
        let parts: Vec<&str> = line.split(" | ").collect();
        if let [label, file, which, old, new] = parts[..]
            && label == name
        {
            return Edit {
                file: file.to_owned(),
                which: which.parse().unwrap(),
                old: old.replace("\\n", "\n"),
                new: new.replace("\\n", "\n"),
            };
        }
    }
    stop(&format!("mutants.txt has no edit `{name}`"))
}

impl Edit {
    fn applied(&self, text: &str) -> String {
        let places: Vec<usize> = text.match_indices(&self.old).map(|(at, _)| at).collect();
        let Some(&at) = places.get(self.which - 1) else {
            stop(&format!("`{}` stands {} times", self.old, places.len()));
        };
        let (head, tail) = text.split_at(at);
        format!("{head}{}{}", self.new, &tail[self.old.len()..])
    }
}
