//! Queries of targets.
use super::Config;
use crate::cfg::{self, Cfg};
use crate::error::{Error, Result};
use crate::flags::Flags;
use crate::lines::{items, Lines};
use crate::path_and_args::PathAndArgs;
use crate::tables::TargetConfig;
use crate::target::{TargetTriple, TargetTripleRef};
use std::collections::BTreeSet;
use std::path::PathBuf;

impl Config {
    /// The targets to build for, to pass to Cargo: those that are given, else those of `build.target`, else none.
    ///
    /// # Errors
    /// None; the original answers a `Result`.
    pub fn build_target_for_cli<I: IntoIterator<Item = S>, S: AsRef<str>>(&self, targets: I) -> Result<Vec<String>> {
        let given: Vec<_> = targets.into_iter().map(|target| target.as_ref().to_owned()).collect();
        if !given.is_empty() {
            return Ok(given);
        }
        let configured = self.build.target.iter().flatten();
        Ok(configured.map(|target| target.text().to_owned()).collect())
    }

    /// The targets to ask settings for: those that are given, else those of `build.target`, else the host.
    ///
    /// # Errors
    /// Those of `host_triple`, where it is called.
    pub fn build_target_for_config<'a, I: IntoIterator<Item = T>, T: Into<TargetTripleRef<'a>>>(
        &self,
        targets: I,
    ) -> Result<Vec<TargetTriple>> {
        let given: Vec<_> = targets.into_iter().map(|target| target.into().into_owned()).collect();
        if !given.is_empty() {
            return Ok(given);
        }
        match &self.build.target {
            Some(configured) if !configured.is_empty() => Ok(configured.clone()),
            _ => Ok(vec![TargetTriple::from(self.host_triple()?.to_owned())]),
        }
    }

    /// The settings of a target. One program is run at most: `rustc --print cfg`, where a key `cfg(..)` has to be judged,
    /// or a file has a text like one.
    ///
    /// # Errors
    /// Where the library refuses the query: a variable, a key `cfg(..)`, what rustc answers. Where it can't be asked.
    pub fn target<'a, T: Into<TargetTripleRef<'a>>>(&self, target: T) -> Result<TargetConfig> {
        self.of_target(&target.into(), TargetConfig::clone)
    }

    // What is taken from the settings of a target, which are cached.
    fn of_target<T>(&self, target: &TargetTripleRef<'_>, take: impl FnOnce(&TargetConfig) -> T) -> Result<T> {
        let target = target.text();
        if let Some(kept) = self.targets.borrow().get(target) {
            return Ok(take(kept));
        }
        self.find_cfg_if_wanted(target);
        let found = TargetConfig::of_lines(&self.item(&["target", target])?)?;
        let taken = take(&found);
        self.targets.borrow_mut().insert(target.to_owned(), found);
        Ok(taken)
    }

    /// The settings of each of these targets, in their order. Those that aren't kept yet are asked for in two questions, the
    /// first alone, and kept: `linker`, `rustflags` and the others then need no call of the library. The original has no such call.
    ///
    /// # Errors
    /// Those of `target`, for the first target that is refused. Then none but the first of those that were asked for is kept.
    pub fn targets<'a, I: IntoIterator<Item = T>, T: Into<TargetTripleRef<'a>>>(
        &self,
        targets: I,
    ) -> Result<Vec<TargetConfig>> {
        let targets: Vec<TargetTripleRef<'a>> = targets.into_iter().map(Into::into).collect();
        self.find_targets(&targets)?;
        targets.iter().map(|target| self.target(target)).collect()
    }

    // Queries the settings of those of these targets that aren't cached, each once, and caches them.
    fn find_targets(&self, targets: &[TargetTripleRef<'_>]) -> Result<()> {
        let mut seen: BTreeSet<_> = self.targets.borrow().keys().cloned().collect();
        let new = targets.iter().map(TargetTripleRef::text).filter(|text| seen.insert((*text).to_owned()));
        let texts: Vec<&str> = new.collect();
        // By the first it is known whether rustc is needed, which then is so for all.
        let Some((first, texts)) = texts.split_first() else {
            return Ok(());
        };
        self.of_target(&TargetTripleRef::from(*first), |_| ())?;
        if texts.is_empty() {
            return Ok(());
        }
        texts.iter().for_each(|text| self.find_cfg_if_wanted(text));
        let asked: Vec<_> = texts.iter().flat_map(|text| ["target", text]).collect();
        let lines = self.items(&asked)?;
        let items = items(&lines)?;
        if items.len() != texts.len() {
            return Err(Error::unread());
        }
        let found: Result<Vec<_>> = items.into_iter().map(TargetConfig::of_lines).collect();
        self.targets.borrow_mut().extend(texts.iter().map(|text| (*text).to_owned()).zip(found?));
        Ok(())
    }

    /// The linker for a target.
    ///
    /// # Errors
    /// Those of `target`.
    pub fn linker<'a, T: Into<TargetTripleRef<'a>>>(&self, target: T) -> Result<Option<PathBuf>> {
        self.of_target(&target.into(), |found| found.linker.clone())
    }

    /// What runs the programs that are built for a target.
    ///
    /// # Errors
    /// Those of `target`.
    pub fn runner<'a, T: Into<TargetTripleRef<'a>>>(&self, target: T) -> Result<Option<PathAndArgs>> {
        self.of_target(&target.into(), |found| found.runner.clone())
    }

    /// The flags for rustc for a target.
    ///
    /// # Errors
    /// Those of `target`.
    pub fn rustflags<'a, T: Into<TargetTripleRef<'a>>>(&self, target: T) -> Result<Option<Flags>> {
        self.of_target(&target.into(), |found| found.rustflags.clone())
    }

    /// The flags for rustdoc for a target.
    ///
    /// # Errors
    /// Those of `target`.
    pub fn rustdocflags<'a, T: Into<TargetTripleRef<'a>>>(&self, target: T) -> Result<Option<Flags>> {
        self.of_target(&target.into(), |found| found.rustdocflags.clone())
    }

    /// What rustc prints of a cfg name for a target, as the type `C` reads it. The values are kept.
    ///
    /// # Errors
    /// Where rustc can't be run or fails, and where the library can't be asked. Where rustc prints no value and `C` has no
    /// default, where it prints more values than `C` takes, and where `C` can't read them.
    pub fn cfg<'a, C: Cfg, T: Into<TargetTripleRef<'a>>>(&self, target: T) -> Result<C::Output> {
        cfg::read::<C>(&self.cfg_values(target.into().text(), C::KEY)?)
    }

    // The values of a cfg name for the target of a text, in byte order.
    fn cfg_values(&self, target: &str, name: &'static str) -> Result<Vec<String>> {
        if let Some(kept) = self.cfgs.borrow().get(target).and_then(|names| names.get(name)) {
            return Ok(kept.clone());
        }
        self.find_cfg(target);
        let values = values_of_lines(&self.item(&["cfg", target, name])?)?;
        self.cfgs.borrow_mut().entry(target.to_owned()).or_default().insert(name, values.clone());
        Ok(values)
    }

    // Finds out rustc's cfg for the target of a text, where the settings of the target need it.
    fn find_cfg_if_wanted(&self, target: &str) {
        if self.known.borrow().wants_cfg(target) {
            self.find_cfg(target);
        }
    }

    // Finds out rustc's cfg for the target of a text.
    fn find_cfg(&self, target: &str) {
        let rustc = self.rustc_of_build();
        self.known.borrow_mut().find_cfg(&rustc, target);
    }
}

// The values that the lines of an item `cfg` have.
fn values_of_lines(text: &str) -> Result<Vec<String>> {
    let mut lines = Lines::new(text);
    let values = lines.texts("cfg")?;
    lines.end()?;
    values.ok_or_else(Error::unread)
}
