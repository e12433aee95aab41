//! The names of a body that is being drawn, and which of them a line may read.

use crate::generate::Random;
use crate::matching::case::is_unbound;
use crate::sheets::Tree;

const NAMES: [&str; 14] =
    ["x", "y", "z", "w", "input", "data", "xs", "_x", "__", "é", "名前", "k", "v", "left_panel"];
const KNOWN_MARKS: [u32; 5] = [1, 3, 16, 17, 19];
const UNBOUND_MARKS: [u32; 8] = [0, 0, 0, 0, 0, 2, 4, 5];

pub struct Names {
    /// Names with their marks, `_` among them at times.
    pub scope: Vec<(String, u32)>,
    pub scheduler: bool,
    ready: Vec<String>,
    /// Bound by the pair or the line that is being drawn.
    soon: Vec<String>,
    /// How many of a hundred names are taken as they come.
    stray: usize,
}

impl Names {
    pub fn new(random: &mut Random) -> Self {
        let mut names = NAMES;
        random.shuffle(&mut names);
        let count = 4 + random.below(10);
        let scope: Vec<_> =
            names[..count].iter().map(|name| (name.to_string(), marks(random))).collect();
        let stray = [0, 2, 5, 15][random.weighted(&[40, 25, 15, 20])];
        let scheduler = random.chance(50);
        let (ready, soon) = (Vec::new(), Vec::new());
        let mut drawn = Self { scope: Vec::new(), scheduler, ready, soon, stray };
        drawn.bring(&scope);
        if random.chance(20) {
            drawn.scope.push(("_".into(), random.below(32) as u32));
        }
        drawn
    }

    /// Adds those names that are not there yet.
    pub fn bring(&mut self, scope: &[(String, u32)]) {
        for (name, marks) in scope {
            if self.scope.iter().all(|(other, _)| other != name) {
                self.scope.push((name.clone(), *marks));
                if !is_unbound(*marks, self.scheduler, false) {
                    self.ready.push(name.clone());
                }
            }
        }
    }

    /// A name that is ready, or a number if there is none.
    pub fn read(&self, random: &mut Random) -> Tree {
        if random.chance(self.stray) {
            return self.any(random);
        }
        match self.ready.len() {
            0 => Tree::Number(7),
            _ => Tree::Name(random.pick(&self.ready).clone()),
        }
    }

    /// A name that is not ready; it is ready soon. Else `_`.
    pub fn bind(&mut self, random: &mut Random) -> Tree {
        let taken = |name: &String| self.ready.contains(name) || self.soon.contains(name);
        let names = self.scope.iter().map(|(name, _)| name);
        let free: Vec<&String> = names.filter(|name| !taken(name) && *name != "_").collect();
        if random.chance(self.stray) {
            return self.any(random);
        }
        if free.is_empty() {
            return Tree::name("_");
        }
        let name = (*random.pick(&free)).clone();
        self.soon.push(name.clone());
        Tree::Name(name)
    }

    pub fn any(&self, random: &mut Random) -> Tree {
        Tree::name(&random.pick(&self.scope).0)
    }

    /// What a pair or a line binds is ready for the next.
    pub fn settle(&mut self) {
        self.ready.append(&mut self.soon);
    }
}

fn marks(random: &mut Random) -> u32 {
    match random.weighted(&[65, 25, 10]) {
        0 => *random.pick(&UNBOUND_MARKS),
        1 => *random.pick(&KNOWN_MARKS),
        _ => random.below(32) as u32,
    }
}
