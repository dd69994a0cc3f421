//! The device through the archive: what a VMM leans on.

use dewbracket::{Action, Actions, Configuration, Device, Field, Kind, Refusal, ALL};

fn configuration() -> Configuration {
    let mut sizes = [0; 16];
    sizes[..2].fill(256);
    Configuration {
        base: 0xd000_0000,
        size: 0x2000,
        memory: 0x1000_0000,
        kind: 2,
        page0: 0x20,
        page1: 1,
        dataqueues: 2,
        sizes,
        ..Configuration::default()
    }
}

/// Laid out, and one write of the status away from a start.
fn laid() -> Device {
    let mut device = Device::new(configuration()).unwrap();
    let mut actions = Actions::default();
    let mut word = |offset: u64, value: u32| {
        device.write(ALL, offset, &value.to_le_bytes(), &mut actions);
    };
    [0x1, 0x3, 0xb].map(|status| word(0x070, status));
    for queue in 0..2 {
        let area = 0x10000 * (queue + 1);
        word(0x030, queue);
        word(0x038, 256);
        word(0x080, area);
        word(0x090, area + 0x4000);
        word(0x0a0, area + 0x8000);
        word(0x044, 1);
    }
    device
}

fn read(device: &Device, offset: u64) -> u32 {
    let mut reply = [0; 4];
    let told = device.read(ALL, offset, &mut reply, &mut Actions::default());
    assert_eq!((told.refusal, told.reply), (0, 4));
    u32::from_le_bytes(reply)
}

#[test]
fn a_fresh_device_answers_its_identity() {
    let device = Device::new(configuration()).unwrap();
    assert_eq!([0x000, 0x004, 0x008].map(|offset| read(&device, offset)), [0x7472_6976, 2, 2]);
    assert_eq!(device.driver_status(), 0);
}

#[test]
fn a_window_of_another_size_is_refused() {
    let refused = Device::new(Configuration { size: 0x1000, ..configuration() });
    assert_eq!(refused.err(), Some(Refusal(1)));
}

#[test]
fn a_start_registers_each_queue_and_activates() {
    let mut device = laid();
    let mut kinds = vec![];
    device.write_with(0x070, &0xf_u32.to_le_bytes(), |action| {
        kinds.push(action.kind);
        true
    });
    assert_eq!(device.driver_status(), 0xf);
    assert_eq!(kinds.last(), Some(&4));
    for queue in 0..2 {
        assert_eq!(device.field(queue, Field::Ready), Ok(1));
        assert!(device.held_entry(queue, Kind::Notify).unwrap().0);
    }
}

/// The way of a VMM with the outcome number: whichever request is refused, the second step repeats what was performed, and
/// what `write_with` leaves is the device of one step with that outcome number.
#[test]
fn each_refusal_is_one_step_with_its_outcome_number() {
    let all: Vec<Action> = {
        let mut actions = Actions::default();
        laid().write(ALL, 0x070, &0xf_u32.to_le_bytes(), &mut actions);
        actions.iter().collect()
    };
    let answered = all.iter().filter(|action| action.answered()).count() as u32;
    assert!(answered >= 4);
    for j in 0..answered {
        let mut device = laid();
        let mut performed = vec![];
        let mut request = 0;
        device.write_with(0x070, &0xf_u32.to_le_bytes(), |action| {
            performed.push(action);
            let accepts = !action.answered() || request != j;
            request += u32::from(action.answered());
            accepts
        });
        let mut once = laid();
        let mut actions = Actions::default();
        once.write(j, 0x070, &0xf_u32.to_le_bytes(), &mut actions);
        assert!(device == once, "refused {j}");
        assert_eq!(performed, actions.iter().collect::<Vec<_>>(), "refused {j}");
        assert_eq!(device.driver_status() & 0x80, 0x80);
    }
}

#[test]
fn interrupts_are_raised_read_and_acknowledged() {
    let mut device = laid();
    device.raise(3, &mut Actions::default());
    assert_eq!(read(&device, 0x060), 3);
    device.write(ALL, 0x064, &1_u32.to_le_bytes(), &mut Actions::default());
    assert_eq!(read(&device, 0x060), 2);
}

#[test]
fn a_queue_that_is_not_there_is_refused() {
    let device = laid();
    assert_eq!(device.field(2, Field::Size), Err(Refusal(13)));
    assert_eq!(device.held_entry(16, Kind::Doorbell), Err(Refusal(13)));
}

#[test]
fn a_read_of_no_register_leaves_the_reply() {
    let mut reply = [0xaa; 8];
    let told = laid().read(ALL, 0x060, &mut reply, &mut Actions::default());
    assert_eq!((told.reply, reply), (0, [0xaa; 8]));
}
