//! Links a verified archive from a wrapper's build script: from the folder that a variable names, or from where the repository
//! builds it for the target. Where the archive is missing, or is for another machine, the build ends with a message that
//! says so.

mod machine;

use std::path::PathBuf;
use std::{env, fs, process};

/// An archive that a wrapper links.
pub struct Archive {
    /// Its name, as in `tools/staticlib NAME`: the file is `libNAME.a`.
    pub name: &'static str,
    /// The variable that may name its folder.
    pub variable: &'static str,
    /// The folders under `target/` that it is built to, each behind the beginning of the targets' names that it is for.
    pub folders: &'static [(&'static str, &'static str)],
}

impl Archive {
    /// Has cargo link the archive, or ends the build with a message.
    pub fn link(&self) {
        println!("cargo:rerun-if-env-changed={}", self.variable);
        let target = env::var("TARGET").unwrap();
        let arch = env::var("CARGO_CFG_TARGET_ARCH").unwrap();
        let folder = self.folder(&target);
        match folder.and_then(|folder| self.checked(folder, &target, &arch)) {
            Ok(folder) => {
                println!("cargo:rustc-link-search=native={}", folder.display());
                println!("cargo:rustc-link-lib=static={}", self.name);
            }
            Err(why) => {
                eprintln!("{}: {why}", self.name);
                process::exit(1);
            }
        }
    }

    /// The folder of the archive: what the variable says, and else by the target. The path is absolute.
    fn folder(&self, target: &str) -> Result<PathBuf, String> {
        let Archive { name, variable, .. } = self;
        let named = env::var_os(variable).filter(|folder| !folder.is_empty());
        if let Some(folder) = named.map(PathBuf::from) {
            if folder.is_relative() {
                let said = folder.display();
                return Err(format!("{variable} is {said}: give an absolute path"));
            }
            return Ok(folder);
        }
        let built = self
            .folders
            .iter()
            .find(|known| target.starts_with(known.0));
        let (_, built) = built.ok_or(format!(
            "no lib{name}.a is built here for {target}: set {variable} to a folder that has one"
        ))?;
        let wrapper = PathBuf::from(env::var_os("CARGO_MANIFEST_DIR").unwrap());
        let root = wrapper.ancestors().nth(2).unwrap();
        Ok(root.join("target").join(built))
    }

    /// The folder, where it has an archive for this machine.
    fn checked(&self, folder: PathBuf, target: &str, arch: &str) -> Result<PathBuf, String> {
        let Archive { name, variable, .. } = self;
        let path = folder.join(format!("lib{name}.a"));
        // a file that appears later is looked for again
        println!("cargo:rerun-if-changed={}", path.display());
        let shown = path.display();
        let bytes = fs::read(&path).map_err(|error| {
            format!(
                "cannot read {shown} ({error}): build it first, for x86-64 by `tools/staticlib {name}` at the root of the \
                 repository; or set {variable} to the folder that has it"
            )
        })?;
        let found = machine::of(&bytes).ok_or(format!("{shown} is no archive of ELF objects"))?;
        match machine::wanted(arch) {
            Some(wanted) if wanted != found => Err(format!(
                "{shown} is for {}, and {target} wants {}: set {variable} to the folder of the right one",
                machine::name(found),
                machine::name(wanted)
            )),
            _ => Ok(folder),
        }
    }
}
