//! A pattern as steps, and its search in a text. All ways in which the pattern may fit are followed side by side, a character at a time,
//! and at each step at most one is kept, the first. So a search takes at most the text's length times the number of steps.
use super::{Node, Set};
use std::ops::Range;
use std::rc::Rc;

enum Step {
    /// One character that fits.
    One(Rc<Set>),
    Begin,
    End,
    /// The first group begins, and ends.
    Open,
    Close,
    /// Goes on at the first, and, where that does not fit, at the second.
    Split(usize, usize),
    Jump(usize),
    Found,
}

/// The most steps of a pattern.
const STEPS: usize = 250;

pub struct TooLarge(pub usize);

pub struct Machine {
    steps: Vec<Step>,
}

/// Where the first group begins and ends, once that is known.
#[derive(Clone, Copy, Default)]
struct Group {
    open: Option<usize>,
    close: Option<usize>,
}

/// The ways followed at one place of the text, the first first: each a step that looks at a character or is the last, and the group so far.
struct Ways {
    list: Vec<(usize, Group)>,
    /// For each step the place, from 1, for which it was last reached.
    reached: Vec<usize>,
    /// Steps still to be followed at this place.
    left: Vec<(usize, Group)>,
}

impl Machine {
    pub fn of(node: &Node) -> Result<Machine, TooLarge> {
        let mut machine = Machine { steps: vec![] };
        machine.put(node)?;
        machine.add(Step::Found)?;
        Ok(machine)
    }

    fn add(&mut self, step: Step) -> Result<usize, TooLarge> {
        if self.steps.len() >= STEPS {
            return Err(TooLarge(STEPS));
        }
        self.steps.push(step);
        Ok(self.steps.len() - 1)
    }

    /// Every node adds at least one step, so that a repetition of nothing is also counted.
    fn put(&mut self, node: &Node) -> Result<(), TooLarge> {
        match node {
            Node::One(set) => self.add(Step::One(set.clone())).map(|_| ()),
            Node::Begin => self.add(Step::Begin).map(|_| ()),
            Node::End => self.add(Step::End).map(|_| ()),
            Node::Taken(of) => {
                self.add(Step::Open)?;
                self.put(of)?;
                self.add(Step::Close).map(|_| ())
            }
            Node::Row(parts) if parts.is_empty() => self.pass(),
            Node::Row(parts) => parts.iter().try_for_each(|part| self.put(part)),
            Node::Either(ways) => self.put_either(ways),
            Node::Repeat { of, least, most, greedy } => self.put_repeated(of, *least, *most, *greedy),
        }
    }

    /// A step that does nothing.
    fn pass(&mut self) -> Result<(), TooLarge> {
        self.add(Step::Jump(self.steps.len() + 1)).map(|_| ())
    }

    fn put_either(&mut self, ways: &[Node]) -> Result<(), TooLarge> {
        let mut ends = vec![];
        for (i, way) in ways.iter().enumerate() {
            if i + 1 == ways.len() {
                self.put(way)?;
                break;
            }
            let split = self.add(Step::Split(0, 0))?;
            self.put(way)?;
            ends.push(self.add(Step::Jump(0))?);
            self.steps[split] = Step::Split(split + 1, self.steps.len());
        }
        let end = self.steps.len();
        ends.into_iter().for_each(|jump| self.steps[jump] = Step::Jump(end));
        Ok(())
    }

    fn put_repeated(&mut self, of: &Node, least: usize, most: Option<usize>, greedy: bool) -> Result<(), TooLarge> {
        self.pass()?;
        for _ in 0..least {
            self.put(of)?;
        }
        let mut splits = vec![];
        for _ in least..most.unwrap_or(least + 1) {
            splits.push(self.add(Step::Split(0, 0))?);
            self.put(of)?;
        }
        if let (None, Some(first)) = (most, splits.first()) {
            self.add(Step::Jump(*first))?;
        }
        let end = self.steps.len();
        for at in splits {
            self.steps[at] = if greedy { Step::Split(at + 1, end) } else { Step::Split(end, at + 1) };
        }
        Ok(())
    }

    /// Where the pattern fits the text, where its first group does, if that took part.
    pub fn find(&self, text: &str) -> Option<Option<Range<usize>>> {
        let new = || Ways { list: vec![], reached: vec![0; self.steps.len()], left: vec![] };
        let (mut now, mut then, mut found) = (new(), new(), None);
        let ends = text.chars().map(Some).chain([None]);
        let mut at = 0;
        for c in ends {
            if found.is_none() {
                self.follow(&mut now, 0, Group::default(), (at, text.len()));
            }
            then.list.clear();
            let next = at + c.map_or(0, char::len_utf8);
            for &(step, group) in &now.list {
                match (&self.steps[step], c) {
                    (Step::Found, _) => {
                        found = Some(group);
                        break;
                    }
                    (Step::One(set), Some(c)) if set.has(c) => self.follow(&mut then, step + 1, group, (next, text.len())),
                    _ => {}
                }
            }
            if found.is_some() && then.list.is_empty() {
                break;
            }
            std::mem::swap(&mut now, &mut then);
            at = next;
        }
        found.map(|group| group.open.zip(group.close).map(|(open, close)| open..close))
    }

    /// Adds the ways that go on from a step, at a place of a text of the length.
    fn follow(&self, ways: &mut Ways, from: usize, group: Group, (at, length): (usize, usize)) {
        let left = &mut ways.left;
        left.push((from, group));
        while let Some((step, mut group)) = left.pop() {
            if std::mem::replace(&mut ways.reached[step], at + 1) == at + 1 {
                continue;
            }
            match &self.steps[step] {
                Step::One(_) | Step::Found => ways.list.push((step, group)),
                Step::Begin if at > 0 => {}
                Step::End if at < length => {}
                Step::Begin | Step::End => left.push((step + 1, group)),
                Step::Open => {
                    group.open = Some(at);
                    left.push((step + 1, group));
                }
                Step::Close => {
                    group.close = Some(at);
                    left.push((step + 1, group));
                }
                Step::Jump(to) => left.push((*to, group)),
                Step::Split(first, second) => left.extend([(*second, group), (*first, group)]),
            }
        }
    }
}
