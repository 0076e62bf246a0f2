//! What docs/CLAIMS.md cites for a sentence, by its sort.

use crate::sentences::Citation;
use crate::sources::Sources;
use reach::Place;

/// Each in the order of the citations, once.
#[derive(Debug, Default)]
pub struct Cited {
    /// Definitions; with an empty name, a whole module of them.
    pub defined: Vec<Place>,
    /// Claims, named themselves or by their theorem.
    pub claimed: Vec<Place>,
    /// Functions and types of the code.
    pub code: Vec<Place>,
}

impl Cited {
    pub fn new(citations: &[Citation], sources: &Sources) -> Cited {
        let mut cited = Cited::default();
        for citation in citations {
            let place = (citation.path.replace("/specs/", "/"), citation.name.clone());
            if citation.path.contains("/src/") {
                put(&mut cited.code, place);
            } else if sources.theorems.contains_key(&place) {
                put(&mut cited.claimed, place);
            } else if citation.path.contains("/specs/") {
                put(&mut cited.defined, place);
            } else if !citation.is_law {
                let held = sources.theorems.iter().filter(|(_, theorem)| **theorem == place);
                held.for_each(|(claim, _)| put(&mut cited.claimed, claim.clone()));
            }
        }
        cited
    }
}

fn put(places: &mut Vec<Place>, place: Place) {
    if !places.contains(&place) {
        places.push(place);
    }
}
