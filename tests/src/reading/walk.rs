//! From promises through the definitions that they use.

use super::sources::{names, Definition, Place, Sources};
use std::collections::{BTreeMap, BTreeSet};

/// Where the walk goes no further.
#[derive(Debug, PartialEq, Eq, PartialOrd, Ord)]
pub enum Stop {
    /// No definition of a file of this name is asked for.
    Files(&'static str),
    /// Of this definition of this file, what it is does not matter; its type does.
    Body(&'static str, &'static str),
}

impl Stop {
    fn hides(&self, place: &Place) -> bool {
        matches!(self, Stop::Files(name) if place.file.rsplit('/').next() == Some(*name))
    }

    fn hides_body(&self, place: &Place) -> bool {
        matches!(self, Stop::Body(file, name) if place.file == *file && place.name == *name)
    }
}

/// What was reached, each with the place that it was first reached from, and the stops that were met.
pub struct Walked<'a> {
    pub reached: BTreeMap<Place, Place>,
    pub met: BTreeSet<&'a Stop>,
}

/// What a walk starts with: the contracts of functions and the statements of theorems.
fn starts(
    sources: &Sources,
    functions: &[Place],
    theorems: &[Place],
) -> Result<Vec<(Place, String)>, String> {
    let mut starts = Vec::new();
    for place in functions {
        let Definition { statement, body } = &sources.files[&place.file].functions[&place.name];
        if body.is_empty() {
            return Err(format!("{place} promises nothing"));
        }
        starts.push((place.clone(), format!("{statement} {body}")));
    }
    for place in theorems {
        if !sources.has(place) {
            return Err(format!("{place}: there is no such theorem"));
        }
        let theorem = &sources.files[&place.file].definitions[&place.name];
        starts.push((place.clone(), theorem.statement.clone()));
    }
    Ok(starts)
}

/// Walks from functions and theorems. Whatever these use is followed by its type and by what it is.
pub fn walk<'a>(
    sources: &Sources,
    functions: &[Place],
    theorems: &[Place],
    stops: &'a [Stop],
) -> Result<Walked<'a>, String> {
    let mut walked = Walked { reached: BTreeMap::new(), met: BTreeSet::new() };
    let mut open = starts(sources, functions, theorems)?;
    while let Some((from, text)) = open.pop() {
        for name in names(&text) {
            let Some(place) = sources.resolve(&from.file, name)? else { continue };
            if let Some(stop) = stops.iter().find(|stop| stop.hides(&place)) {
                walked.met.insert(stop);
            } else if !walked.reached.contains_key(&place) {
                let found = &sources.files[&place.file].definitions[&place.name];
                let stop = stops.iter().find(|stop| stop.hides_body(&place));
                walked.met.extend(stop);
                let body = if stop.is_some() { "" } else { &found.body };
                open.push((place.clone(), format!("{} {body}", found.statement)));
                walked.reached.insert(place, from.clone());
            }
        }
    }
    Ok(walked)
}
