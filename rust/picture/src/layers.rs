//! The layers of `crates.txt`: a comment begins a layer, and each line after it names a crate, with its kind where it is
//! no plain one, and those that it uses directly.

use std::collections::{BTreeMap, BTreeSet};

/// A layer: what its comment says, and the crates' names in their order.
pub struct Layer {
    pub about: String,
    pub crates: Vec<String>,
}

/// The layers, bottom up, and what each crate uses directly: crates of the file, and libraries of the kit.
pub struct Layers {
    pub layers: Vec<Layer>,
    uses: BTreeMap<String, Vec<String>>,
}

impl Layers {
    /// Reads the file. Its first comment is about the file itself, and every crate comes after those that it uses.
    pub fn read(text: &str) -> Result<Layers, String> {
        let mut layers: Vec<Layer> = Vec::new();
        let mut uses = BTreeMap::new();
        for line in text.lines().skip(1) {
            if let Some(about) = line.strip_prefix("# ") {
                layers.push(Layer {
                    about: about.to_string(),
                    crates: Vec::new(),
                });
            } else if let Some((named, used)) = line.split_once(':') {
                let name = named.split_whitespace().next().unwrap_or(named);
                let layer = layers
                    .last_mut()
                    .ok_or(format!("{name} stands in no layer"))?;
                layer.crates.push(name.to_string());
                let used: Vec<String> = used.split_whitespace().map(str::to_string).collect();
                uses.insert(name.to_string(), used);
            } else if !line.trim().is_empty() {
                return Err(format!(
                    "crates.txt has neither a layer nor a crate in: {line}"
                ));
            }
        }
        layers.retain(|layer| !layer.crates.is_empty());
        Ok(Layers { layers, uses })
    }

    /// The crates of the file that a crate uses directly.
    pub fn direct(&self, name: &str) -> Vec<&str> {
        let used = self.uses.get(name).into_iter().flatten();
        used.map(String::as_str)
            .filter(|used| self.uses.contains_key(*used))
            .collect()
    }

    /// The kit's libraries that a crate uses directly.
    pub fn of_the_kit(&self, name: &str) -> Vec<&str> {
        let used = self.uses.get(name).into_iter().flatten();
        used.map(String::as_str)
            .filter(|used| !self.uses.contains_key(*used))
            .collect()
    }

    /// All crates below a crate.
    fn below(&self, name: &str) -> BTreeSet<&str> {
        let mut below = BTreeSet::new();
        let mut waiting = self.direct(name);
        while let Some(next) = waiting.pop() {
            if below.insert(next) {
                waiting.extend(self.direct(next));
            }
        }
        below
    }

    /// The crates that a crate uses and that no other crate which it uses stands on.
    pub fn nearest(&self, name: &str) -> Vec<&str> {
        let direct = self.direct(name);
        let implied: BTreeSet<&str> = direct.iter().flat_map(|used| self.below(used)).collect();
        let nearest = direct.into_iter().filter(|used| !implied.contains(used));
        nearest.collect()
    }

    /// The number of the layer in which a crate stands.
    pub fn layer_of(&self, name: &str) -> usize {
        let has = |layer: &Layer| layer.crates.iter().any(|known| known == name);
        self.layers
            .iter()
            .position(has)
            .expect("a crate of the file")
    }
}

#[cfg(test)]
mod tests {
    use super::*;

    #[test]
    fn what_others_imply_is_left_out() {
        let text = "# the file\n\n# low\na:\nb: a\n\n# high\nc: a b io\n";
        let layers = Layers::read(text).unwrap();
        assert_eq!(layers.layers.len(), 2);
        assert_eq!(layers.layers[1].about, "high");
        assert_eq!(layers.direct("c"), ["a", "b"]);
        assert_eq!(layers.nearest("c"), ["b"]);
        assert_eq!(layers.of_the_kit("c"), ["io"]);
        assert_eq!(layers.layer_of("b"), 0);
        assert!(Layers::read("# the file\na:\n").is_err());
    }

    #[test]
    fn a_kind_is_no_part_of_the_name() {
        let text = "# the file\n\n# low\na:\nb staticlib: a\n";
        let layers = Layers::read(text).unwrap();
        assert_eq!(layers.direct("b"), ["a"]);
        assert_eq!(layers.layer_of("b"), 0);
    }
}
