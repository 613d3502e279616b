//! What an unmarked if, switch or loop may not do: change or give what is needed after it, or be left otherwise than at its end.
use super::function::{Function, Statement};
use super::need::Pieces;
use super::needs::{name, Key, Needs};
use super::path::Path;

pub struct Inside<'a> {
    pub function: &'a Function,
    pub pieces: &'a Pieces,
    /// The needs after the statement.
    pub after: &'a Needs,
}

impl Inside<'_> {
    /// Why needs may not pass this statement, if they may not.
    pub fn fault(&self, s: usize) -> Option<String> {
        self.compound(s, false, false)
    }

    /// Of a statement with blocks; the flags say whether a break or continue out of it stays inside the unmarked one.
    fn compound(&self, s: usize, breaks: bool, continues: bool) -> Option<String> {
        match self.function.statements[s] {
            Statement::Block(block) => self.block(block, breaks, continues),
            Statement::If { accept, reject, .. } => self.block(accept, breaks, continues).or_else(|| self.block(reject, breaks, continues)),
            Statement::Switch { ref cases, .. } => cases.iter().find_map(|c| self.block(c.1, true, continues)),
            Statement::Loop { body, continuing, .. } => self.block(body, true, true).or_else(|| self.block(continuing, true, true)),
            _ => None,
        }
    }

    fn block(&self, block: usize, breaks: bool, continues: bool) -> Option<String> {
        self.function.blocks[block].iter().find_map(|s| self.statement(*s, breaks, continues))
    }

    fn statement(&self, s: usize, breaks: bool, continues: bool) -> Option<String> {
        match self.function.statements[s] {
            Statement::Emit { first, last } => {
                let needed = (first..=last).find(|e| self.after.contains_key(&Key::Expression(*e)))?;
                Some(format!("stmt {s} in it gives expr {needed}, which is needed after it"))
            }
            Statement::Store { pointer, .. } => {
                let path = Path::of(self.function, pointer);
                let need = *self.after.get(&path.variable)?;
                self.pieces.overlap(need, &path.prefix())?;
                Some(format!("stmt {s} in it stores to {}, which is needed after it", name(path.variable)))
            }
            Statement::Return(_) => Some(format!("stmt {s} leaves it: a return")),
            Statement::Break => (!breaks).then(|| format!("stmt {s} leaves it: a break")),
            Statement::Continue => (!continues).then(|| format!("stmt {s} leaves it: a continue")),
            _ => self.compound(s, breaks, continues),
        }
    }
}
