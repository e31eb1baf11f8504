//! The analysis: bytes and a working area become a pass, an inconclusive node or a refusal.

use crate::model::{Model, Node, Refusal, MOST_PAIRS};
use crate::read::read;
use crate::rules::{bound, give, Given, List};

#[derive(Debug, PartialEq, Eq)]
pub enum Verdict {
    Pass { bound: u64, nodes: Vec<Node>, lists: Vec<List> },
    Inconclusive { node: usize },
    Refused(Refusal),
}

/// Analyses a file in a working area, which then is as the rules on the working area say.
pub fn analyse(bytes: &[u8], area: &mut [u32]) -> Verdict {
    let model = match read(bytes) {
        Ok(model) => model,
        Err(refusal) => return Verdict::Refused(refusal),
    };
    let Some(sections) = area.get_mut(..MOST_PAIRS * model.nodes.len()) else {
        return Verdict::Refused(Refusal { number: 13, place: 0 });
    };
    let verdict = judge(model);
    sections.fill(0);
    if let Verdict::Pass { lists, .. } = &verdict {
        store(lists, sections);
    }
    verdict
}

/// Takes the nodes in order and stops at the first that gives anything but a list that fits.
fn judge(model: Model) -> Verdict {
    let mut lists: Vec<List> = vec![];
    for (number, node) in model.nodes.iter().enumerate() {
        let refuse = |refusal| Verdict::Refused(Refusal { number: refusal, place: number });
        let mut operands = node.operands().into_iter();
        if operands.any(|operand| lists[usize::from(operand)].iter().any(|(f, _)| *f == 0)) {
            return refuse(12);
        }
        match give(&model, node, &lists) {
            Given::Flag => return Verdict::Inconclusive { node: number },
            Given::List(list) if list.len() > MOST_PAIRS => return refuse(11),
            Given::List(list) => lists.push(list),
        }
    }
    Verdict::Pass { bound: bound(&model), nodes: model.nodes, lists }
}

/// Stores each list at the front of its node's section; a set of pairs ascends as F, then C.
fn store(lists: &[List], sections: &mut [u32]) {
    for (section, list) in sections.chunks_mut(MOST_PAIRS).zip(lists) {
        for (entry, &(f, c)) in section.iter_mut().zip(list) {
            *entry = u32::from(f) * 65536 + u32::from(c);
        }
    }
}
