//! Stand-in for the patch: a document without parameters.

use crate::dsl::SoundDoc;
use std::collections::BTreeMap;

#[derive(Clone, Debug)]
pub struct ParamSpec {
    pub name: String,
    pub min: f32,
    pub max: f32,
}

#[derive(Clone, Debug)]
pub struct Patch {
    pub doc: SoundDoc,
    pub params: Vec<ParamSpec>,
}

impl Patch {
    pub fn plain() -> Self {
        Patch { doc: SoundDoc::plain(), params: Vec::new() }
    }

    pub fn instantiate(&self, _: &BTreeMap<String, f32>) -> Result<SoundDoc, String> {
        Ok(self.doc.clone())
    }

    pub fn defaults(&self) -> BTreeMap<String, f32> {
        BTreeMap::new()
    }
}
