//! What was asked of the surroundings during one operation, in order, and whether each answered request is accepted.
//! Every stub that stands for something outside the transport writes here.

use std::sync::Mutex;

/// The thirteen kinds of request, with document 01's numbers.
#[derive(Clone, Copy)]
pub enum Kind {
    Register = 1,
    Unregister,
    EnableInterrupts,
    Activate,
    ResetDevice,
    ResetInterrupts,
    Mode,
    Update,
    Mask,
    Unmask,
    AckedFeatures,
    ReadConfig,
    WriteConfig,
}

/// The highest number of a kind.
pub const KINDS: usize = Kind::WriteConfig as usize;

/// A request: its kind and four operands, unused ones 0.
pub type Action = [u64; 5];

#[derive(Default)]
struct Page {
    left: u32,
    refused: Option<usize>,
    actions: Vec<Action>,
}

/// The requests of one operation, and how many answered ones are still to be accepted.
#[derive(Default)]
pub struct Ledger {
    page: Mutex<Page>,
}

impl Ledger {
    /// Starts an operation whose first `k` answered requests are accepted.
    pub fn begin(&self, k: u32) {
        let mut page = self.page.lock().unwrap();
        page.left = k;
        page.refused = None;
        page.actions.clear();
    }

    /// Records a request that has no answer.
    pub fn tell(&self, kind: Kind, operands: [u64; 4]) {
        self.page.lock().unwrap().record(kind, operands);
    }

    /// Records a request and says whether it is accepted.
    pub fn ask(&self, kind: Kind, operands: [u64; 4]) -> bool {
        let mut page = self.page.lock().unwrap();
        // Document 01 leaves no room for a second answer after a refusal: a subject that asks on is not its subject.
        assert!(page.refused.is_none(), "an answered request follows a refused one");
        page.record(kind, operands);
        let accepted = page.left > 0;
        if accepted {
            page.left -= 1;
        } else {
            page.refused = Some(page.actions.len() - 1);
        }
        accepted
    }

    /// Shows the operation's requests, and the place of the refused one if there is one.
    pub fn show<T>(&self, look: impl FnOnce(&[Action], Option<usize>) -> T) -> T {
        let page = self.page.lock().unwrap();
        look(&page.actions, page.refused)
    }
}

impl Page {
    fn record(&mut self, kind: Kind, [a, b, c, d]: [u64; 4]) {
        self.actions.push([kind as u64, a, b, c, d]);
    }
}
