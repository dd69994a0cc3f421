//! Document 01's bench checks, its whole case and its printed example, each as a trace.

use super::driver::{climb, configuration, lay_queue, lay_queues, start};
use crate::draft::{Draft, ALL_ACCEPTED};
use crate::registers::{COMMAND, DESCRIPTORS, MODE, QUEUE, READY, REGION, SIZE, STATUS};

/// All of them, in the paper's order.
pub fn all() -> Vec<Draft> {
    let mut drafts = vec![printed_example(), whole_case()];
    drafts.extend(ladder_checks());
    drafts.extend(queue_checks());
    drafts.extend(message_checks());
    drafts.push(region_check());
    drafts.extend([0xf000, 0xf010].map(memory_check));
    drafts.push(most_actions());
    drafts
}

fn two_queues(doorbell: bool) -> Draft {
    Draft::new(configuration(2, doorbell))
}

fn printed_example() -> Draft {
    let mut draft = two_queues(false);
    draft.set(STATUS, 1).read(STATUS, 4).set(STATUS, 1).read(0x058, 4);
    draft
}

fn whole_case() -> Draft {
    let mut draft = two_queues(true);
    start(&mut draft, 3);
    draft
}

/// 01 write 1; 00 write 0; 03 write 0; 81 write 3; active 8f write 0.
fn ladder_checks() -> Vec<Draft> {
    let steps: [&[u32]; 4] = [&[1, 1], &[0], &[1, 3, 0], &[1, 1, 3]];
    let mut drafts = Vec::from(steps.map(|values| {
        let mut draft = two_queues(false);
        values.iter().for_each(|value| {
            draft.set(STATUS, *value);
        });
        draft
    }));
    let mut active = two_queues(true);
    start(&mut active, ALL_ACCEPTED);
    active.set(STATUS, 0x8f).set(STATUS, 0).set(STATUS, 0);
    drafts.push(active);
    drafts
}

/// Maximum 512: sizes 0x10100 and 300; ready 0x101; descriptor low 0x1008 and 0x1010.
fn queue_checks() -> Vec<Draft> {
    let writes: [&[(u64, u32)]; 4] = [
        &[(SIZE, 0x10100)],
        &[(SIZE, 300)],
        &[(READY, 1), (READY, 0x101)],
        &[(DESCRIPTORS, 0x1008), (DESCRIPTORS, 0x1010)],
    ];
    Vec::from(writes.map(|list| {
        let mut draft = two_queues(false);
        draft.configuration.sizes = [512; 16];
        climb(&mut draft, 0, 3, ALL_ACCEPTED);
        for (offset, value) in list {
            draft.set(*offset, *value).read(READY, 4);
        }
        draft
    }))
}

/// Two data queues: 0x1002 is taken and 0x1003 ignored, seen by action 8 once enabled. Command 0x0001 sets FAILED.
fn message_checks() -> Vec<Draft> {
    let mut update = two_queues(false);
    update.configuration.vectors = 8;
    update.set_short(MODE, 0x8000);
    start(&mut update, ALL_ACCEPTED);
    update.set_short(COMMAND, 0x1002).set_short(COMMAND, 0x1003);
    let mut unknown = two_queues(false);
    unknown.set_short(COMMAND, 0x0001);
    vec![update, unknown]
}

fn region_check() -> Draft {
    let mut draft = two_queues(false);
    draft.configuration.regions = 1;
    draft.configuration.list = 0x1_0000_0001;
    draft.configuration.table[0] = (0xffff_ffff_0000_0000, 0x1234_5678_9abc);
    draft.set(REGION, 0);
    [0x0b0, 0x0b4, 0x0b8, 0x0bc].iter().for_each(|offset| {
        draft.read(*offset, 4);
    });
    draft
}

/// Memory 0x10000 and N = 256: whether descriptors at this address fit, seen at the start.
fn memory_check(descriptors: u32) -> Draft {
    let mut draft = Draft::new(configuration(1, false));
    draft.configuration.memory = 0x10000;
    climb(&mut draft, 0, 3, ALL_ACCEPTED);
    lay_queue(&mut draft, 0, 256);
    draft.set(DESCRIPTORS, descriptors).set(QUEUE, 0);
    climb(&mut draft, 3, 4, ALL_ACCEPTED);
    draft
}

/// As many queues as there can be, so that one operation asks for the most.
fn most_actions() -> Draft {
    let mut draft = Draft::new(configuration(16, true));
    climb(&mut draft, 0, 3, ALL_ACCEPTED);
    lay_queues(&mut draft);
    climb(&mut draft, 3, 4, 31);
    draft
}
