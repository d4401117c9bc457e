//! Lent memory with guards around it.

/// Elements of each guard.
const GUARD: usize = 8;

/// Memory to lend, with a guard on each side and a copy of all as it was.
pub struct Guarded<T> {
    all: Vec<T>,
    before: Vec<T>,
}

impl<T: Copy + PartialEq> Guarded<T> {
    /// So many elements to lend: the content, cut or filled up.
    pub fn new(content: &[T], lent: usize, filler: T) -> Guarded<T> {
        let mut all = vec![filler; GUARD];
        all.extend(&content[..content.len().min(lent)]);
        all.resize(GUARD + lent + GUARD, filler);
        Guarded {
            before: all.clone(),
            all,
        }
    }

    /// What is lent.
    pub fn lend(&mut self) -> &mut [T] {
        let end = self.all.len() - GUARD;
        &mut self.all[GUARD..end]
    }

    /// What was lent, as it is now.
    pub fn now(&self) -> &[T] {
        &self.all[GUARD..self.all.len() - GUARD]
    }

    /// Whether guards and lent elements from this one on are as they were.
    pub fn is_kept_from(&self, used: usize) -> bool {
        let end = self.all.len().min(GUARD + used);
        self.all[..GUARD] == self.before[..GUARD] && self.all[end..] == self.before[end..]
    }

    /// Whether everything is as it was.
    pub fn is_kept(&self) -> bool {
        self.is_kept_from(0)
    }
}

#[cfg(test)]
mod tests {
    use super::*;

    #[test]
    fn each_element_is_seen() {
        for at in 0..GUARD + 3 + GUARD {
            let mut memory = Guarded::new(&[1, 2], 3, 9);
            assert_eq!(memory.lend(), [1, 2, 9]);
            memory.all[at] = 7;
            assert!(!memory.is_kept());
            let used = (GUARD..GUARD + 2).contains(&at);
            assert_eq!(memory.is_kept_from(2), used);
        }
    }
}
