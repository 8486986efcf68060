//! The packages of a graph, with the targets on which they are in the build.

use crate::call::{check_code, made_in, text_of};
use crate::error::{Error, ErrorKind};
use crate::json::{read, Value};
use crate::raw;
use crate::run::run;

/// How long the lines of a graph are expected to be, times the length of its document. Known documents need less.
const LINES_OF_DOCUMENT: usize = 4;

/// A dependency kind.
#[derive(Clone, Copy, Debug, PartialEq, Eq, PartialOrd, Ord, Hash)]
pub enum Kind {
    /// Of `[dependencies]`.
    Normal,
    /// Of `[build-dependencies]`.
    Build,
    /// Of `[dev-dependencies]`.
    Dev,
}

/// On which known targets a package is in the build.
#[derive(Clone, Debug, PartialEq, Eq, Hash)]
pub enum Targets {
    /// On all known targets.
    All,
    /// On those of these names, which are sorted.
    Named(Vec<String>),
}

/// The sides for which a package is built.
#[derive(Clone, Copy, Debug, PartialEq, Eq, Hash)]
pub enum Sides {
    /// For the target.
    Target,
    /// For the host, on which the build runs.
    Host,
    /// For the target and for the host.
    Both,
}

/// A package of a graph.
#[derive(Clone, Debug, PartialEq, Eq, Hash)]
#[non_exhaustive]
pub struct Package {
    /// The name and version, with a space between them.
    pub package: String,
    /// Cargo's id of the package.
    pub id: String,
    /// The expression of its licence.
    pub license: Option<String>,
    /// On how many known targets it is in the build.
    pub targets: usize,
    /// On which known targets it is in the build.
    pub at: Targets,
    /// The sides for which it is built. `None` if it is in no build.
    pub side: Option<Sides>,
    /// The dependency kinds that reach it. A root needs none.
    pub kinds: Vec<Kind>,
    /// Whether it is a procedural macro.
    pub proc_macro: bool,
}

impl Package {
    /// Returns the package of a line of JSON.
    fn of_line(line: &str) -> Option<Package> {
        let value = read(line)?;
        Some(Package {
            package: value.field("package")?.text()?.to_string(),
            id: value.field("id")?.text()?.to_string(),
            license: match value.field("license")? {
                Value::Null => None,
                other => Some(other.text()?.to_string()),
            },
            targets: value.field("targets")?.number()?.try_into().ok()?,
            at: Targets::of_value(value.field("at")?)?,
            side: match value.field("side")? {
                Value::Null => None,
                other => Some(Sides::of_value(other)?),
            },
            kinds: value.field("kinds")?.list()?.iter().map(Kind::of_value).collect::<Option<_>>()?,
            proc_macro: value.field("proc_macro")?.bool()?,
        })
    }
}

impl Targets {
    fn of_value(value: &Value) -> Option<Targets> {
        if value.text() == Some("all") {
            return Some(Targets::All);
        }
        let names = value.list()?.iter().map(|it| Some(it.text()?.to_string()));
        Some(Targets::Named(names.collect::<Option<_>>()?))
    }
}

impl Sides {
    fn of_value(value: &Value) -> Option<Sides> {
        match value.text()? {
            "target" => Some(Sides::Target),
            "host" => Some(Sides::Host),
            "both" => Some(Sides::Both),
            _ => None,
        }
    }
}

impl Kind {
    fn of_value(value: &Value) -> Option<Kind> {
        match value.text()? {
            "normal" => Some(Kind::Normal),
            "build" => Some(Kind::Build),
            "dev" => Some(Kind::Dev),
            _ => None,
        }
    }
}

/// Returns on which known targets each package is in the build, as `manifest_check graph` does.
///
/// The document is what `cargo metadata --format-version 1` printed. Builds run on the host, which is a known target,
/// or without one on the target itself.
///
/// ```
/// use nevgrasi::{graph, Kind, Sides, Targets};
///
/// let document = r#"{"version": 1, "workspace_members": ["app"],
///     "packages": [{"id": "app", "name": "app", "version": "1.0.0", "targets": []},
///                  {"id": "chip", "name": "chip", "version": "0.1.0", "targets": []}],
///     "resolve": {"nodes": [{"id": "chip", "deps": []}, {"id": "app", "deps": [
///         {"pkg": "chip", "dep_kinds": [{"kind": null, "target": "cfg(target_arch = \"avr\")"}]}]}]}}"#;
/// let packages = graph(document, None)?;
/// assert_eq!(packages[0].at, Targets::All);
/// assert_eq!(packages[1].package, "chip 0.1.0");
/// assert_eq!(packages[1].at, Targets::Named(vec!["avr-none".to_string()]));
/// assert_eq!(packages[1].side, Some(Sides::Target));
/// assert_eq!(packages[1].kinds, [Kind::Normal]);
/// # Ok::<(), nevgrasi::Error>(())
/// ```
///
/// # Errors
///
/// [`ErrorKind::InvalidDocument`], with the reason. [`ErrorKind::UnknownTarget`] for the host, [`ErrorKind::TooDeep`],
/// [`ErrorKind::OutOfMemory`] and [`ErrorKind::OtherInterface`].
pub fn graph(document: &str, host: Option<&str>) -> Result<Vec<Package>, Error> {
    let host = host.unwrap_or("");
    // SAFETY: as in `Key::new`.
    let (outcome, out) = made_in(LINES_OF_DOCUMENT.saturating_mul(document.len()), |out, room, outcome| unsafe {
        raw::nevgrasi_graph(document.as_ptr(), document.len(), host.as_ptr(), host.len(), out, room, outcome)
    })?;
    let text = text_of(out)?;
    if outcome.code == raw::REFUSED {
        return Err(Error::new(ErrorKind::InvalidDocument, text));
    }
    check_code(outcome.code)?;
    packages_of(&text)
}

/// Returns the packages of lines of JSON.
fn packages_of(text: &str) -> Result<Vec<Package>, Error> {
    let package = |line| Package::of_line(line).ok_or_else(|| Error::unexpected("a line that is no package"));
    text.lines().map(package).collect()
}

/// The options of a graph, which `manifest_check graph` has too. By default, none is given.
#[derive(Clone, Debug, Default, PartialEq, Eq, Hash)]
pub struct GraphOptions<'a> {
    /// The target on which builds run, instead of the target itself.
    pub host: Option<&'a str>,
    /// Select only these targets, unless there is none. [`Targets::All`] then stands for all of them.
    pub targets: &'a [&'a str],
    /// Follow only these dependency kinds, unless there is none: `normal`, `build` and `dev`.
    pub edges: &'a [&'a str],
    /// Select only what is built for this side: `target` or `host`.
    pub side: Option<&'a str>,
    /// Start from the members of these names, unless there is none.
    pub packages: &'a [&'a str],
    /// Resolve features as this resolver of Cargo does: `1`, `2`, `3` or `edition`.
    pub resolver: Option<&'a str>,
    /// Turn on these features of the roots.
    pub features: &'a [&'a str],
    /// Do not turn on the feature `default` of the roots.
    pub no_default_features: bool,
    /// Turn on all features of the roots.
    pub all_features: bool,
}

impl GraphOptions<'_> {
    /// Returns the arguments of the program.
    fn arguments(&self) -> Vec<String> {
        let option = |name: &str, value: &str| format!("--{name}={value}");
        let mut words = vec!["graph".to_string(), "--json".to_string()];
        words.extend(self.host.map(|it| option("host", it)));
        words.extend(self.targets.iter().map(|it| option("target", it)));
        words.extend(self.packages.iter().map(|it| option("package", it)));
        words.extend(self.side.map(|it| option("side", it)));
        words.extend(self.resolver.map(|it| option("resolver", it)));
        for (name, values) in [("edges", self.edges), ("features", self.features)] {
            if !values.is_empty() {
                words.push(option(name, &values.join(",")));
            }
        }
        for (flag, is_on) in
            [("--no-default-features", self.no_default_features), ("--all-features", self.all_features)]
        {
            if is_on {
                words.push(flag.to_string());
            }
        }
        words
    }
}

/// Returns on which targets each package is in the build, as `manifest_check graph` does with these options.
///
/// The document is what `cargo metadata --format-version 1` printed.
///
/// ```
/// use nevgrasi::{graph_with, GraphOptions};
///
/// let document = r#"{"version": 1, "workspace_members": ["app"],
///     "packages": [{"id": "app", "name": "app", "version": "1.0.0", "targets": []}],
///     "resolve": {"nodes": [{"id": "app", "deps": []}]}}"#;
/// let options = GraphOptions { targets: &["avr-none"], ..GraphOptions::default() };
/// assert_eq!(graph_with(document, &options)?[0].targets, 1);
/// # Ok::<(), nevgrasi::Error>(())
/// ```
///
/// # Errors
///
/// [`ErrorKind::InvalidDocument`], with the reason, if the document or an option can't be used.
/// [`ErrorKind::InvalidArgument`], [`ErrorKind::OutOfMemory`] and [`ErrorKind::OtherInterface`].
pub fn graph_with(document: &str, options: &GraphOptions<'_>) -> Result<Vec<Package>, Error> {
    let words = options.arguments();
    let words: Vec<&str> = words.iter().map(String::as_str).collect();
    let found = run(&words, &[("-", document.as_bytes())])?;
    if found.status == 2 {
        return Err(Error::new(ErrorKind::InvalidDocument, found.errors.trim_end()));
    }
    packages_of(&found.output)
}
