//! Where the parts of the layout stand in a tree of pieces.

use super::paths::{self, Path};
use super::prng::Rng;
use crate::piece::Piece;

/// The way to the basic response.
pub const BASIC: [usize; 4] = [1, 0, 1, 0];

/// The ways to the parts of a response of the basic type, as far as it has them.
pub struct Spots {
    pub basic: Path,
    pub signed: Path,
    /// The list of entries, and each of them.
    pub list: Option<Path>,
    pub entries: Vec<Path>,
    /// The list of certificates.
    pub certificates: Option<Path>,
    /// The lists of extensions: the response's and each entry's.
    pub extensions: Vec<Path>,
    pub algorithms: Vec<Path>,
    /// Names, certificates and parameters.
    pub free: Vec<Path>,
    /// All that is there but what free elements hold.
    pub own: Vec<Path>,
}

impl Spots {
    /// Nothing where there is no basic response with a signed part.
    pub fn of(root: &Piece) -> Option<Spots> {
        let all = paths::all(root);
        let basic = BASIC.to_vec();
        if !all.contains(&basic) {
            return None;
        }
        let look = Look { root };
        let signed = look.child(&basic, 0, 0x30)?;
        let list = look.first(&signed, 0x30, 0);
        let entries: Vec<Path> = list.iter().flat_map(|list| look.held(list, 0x30)).collect();
        let outer = look.first(&basic, 0xA0, 2);
        let certificates = outer.and_then(|outer| look.child(&outer, 0, 0x30));

        let mut extensions: Vec<Path> = list.iter().flat_map(|list| look.after(list)).collect();
        let mut algorithms: Vec<Path> = look.child(&basic, 1, 0x30).into_iter().collect();
        for entry in &entries {
            let time = look.first(entry, 0x18, 0);
            extensions.extend(time.and_then(|time| look.after(&time)));
            let id = look.child(entry, 0, 0x30);
            algorithms.extend(id.and_then(|id| look.child(&id, 0, 0x30)));
        }
        // An A1 before the entries is the responder's, one after them is not.
        let outer = look.first(&signed, 0xA1, 0).filter(|outer| Some(outer) < list.as_ref());
        let name = outer.and_then(|outer| look.child(&outer, 0, 0x30));
        let mut free: Vec<Path> = name.into_iter().collect();
        free.extend(certificates.iter().flat_map(|list| look.held(list, 0x30)));
        let second = |path: &Path| [path.as_slice(), &[1]].concat();
        free.extend(algorithms.iter().map(second).filter(|path| all.contains(path)));
        let inside = |path: &Path, free: &Path| path.len() > free.len() && path.starts_with(free);
        let own = all.iter().filter(|path| !free.iter().any(|free| inside(path, free)));
        let own = own.cloned().collect();
        Some(Spots {
            basic,
            signed,
            list,
            entries,
            certificates,
            extensions,
            algorithms,
            free,
            own,
        })
    }

    /// A part of the basic response at any depth, each depth as often as another.
    pub fn any(&self, rng: &mut Rng) -> Path {
        let outermost = self.basic.len();
        let deepest = self.own.iter().map(Vec::len).max().unwrap_or(outermost);
        let depth = rng.between(outermost, deepest);
        let there: Vec<&Path> = self.own.iter().filter(|path| path.len() == depth).collect();
        (*rng.pick(&there)).clone()
    }
}

/// The ways to the parts of the envelope, as far as it has them.
pub fn envelope(root: &Piece) -> Vec<Path> {
    let inside = |path: &Path| path.len() >= BASIC.len();
    paths::all(root).into_iter().filter(|path| !inside(path)).collect()
}

/// Looks for parts by their tags.
struct Look<'p> {
    root: &'p Piece,
}

impl Look<'_> {
    /// The child of this index, where it has this tag.
    fn child(&self, path: &Path, index: usize, tag: u8) -> Option<Path> {
        let held = paths::children(paths::at(self.root, path));
        let found = held.get(index).and_then(paths::tag) == Some(tag);
        found.then(|| [path.as_slice(), &[index]].concat())
    }

    /// All children with this tag.
    fn held(&self, path: &Path, tag: u8) -> Vec<Path> {
        let count = paths::children(paths::at(self.root, path)).len();
        (0..count).filter_map(|index| self.child(path, index, tag)).collect()
    }

    /// The first child with this tag, from this index on.
    fn first(&self, path: &Path, tag: u8, from: usize) -> Option<Path> {
        self.held(path, tag).into_iter().find(|child| child[child.len() - 1] >= from)
    }

    /// The list in the A1 that stands somewhere after a brother.
    fn after(&self, brother: &Path) -> Option<Path> {
        let (index, holder) = brother.split_last()?;
        let outer = self.first(&holder.to_vec(), 0xA1, index + 1)?;
        self.child(&outer, 0, 0x30)
    }
}
