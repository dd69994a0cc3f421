//! Brings a device up as a driver would, with one request refused on the way, as ../c/bring_up.c does in C.

use dewbracket::{Action, Actions, Configuration, Device, Field, Kind, ALL};

fn write(device: &mut Device, offset: u64, value: u32, refuse: Option<u32>) {
    println!("write {offset:03x} {value:x}");
    let mut request = 0;
    device.write_with(offset, &value.to_le_bytes(), |Action { kind, operands }| {
        let answered = Action { kind, operands }.answered();
        let refused = answered && Some(request) == refuse;
        request += u32::from(answered);
        let [a, b, c, d] = operands;
        println!("    {kind} {a:x} {b:x} {c:x} {d:x}{}", if refused { ": refused" } else { "" });
        !refused
    });
}

fn climb(device: &mut Device) {
    for (offset, value) in [(0x070, 0x1), (0x070, 0x3), (0x020, 0x20), (0x070, 0xb)] {
        write(device, offset, value, None);
    }
    for queue in 0..2 {
        let area = 0x10000 * (queue + 1);
        let laid = [(0x030, queue), (0x038, 256), (0x080, area), (0x090, area + 0x4000), (0x0a0, area + 0x8000), (0x044, 1)];
        for (offset, value) in laid {
            write(device, offset, value, None);
        }
    }
}

fn main() {
    let mut sizes = [0; 16];
    sizes[..2].fill(256);
    let configuration = Configuration {
        base: 0xd000_0000,
        size: 0x2000,
        memory: 0x1000_0000,
        kind: 2,
        page0: 0x20,
        page1: 1,
        dataqueues: 2,
        sizes,
        ..Configuration::default()
    };
    let mut device = Device::new(configuration).expect("this configuration is accepted");

    climb(&mut device);
    write(&mut device, 0x070, 0xf, Some(1));
    println!("status {:x}", device.driver_status());

    // A failed device stays failed, so the VMM makes a fresh one; now the host accepts everything.
    device = Device::new(configuration).expect("it is accepted again");
    climb(&mut device);
    write(&mut device, 0x070, 0xf, None);
    println!("status {:x}, queue 1 ready {:?}", device.driver_status(), device.field(1, Field::Ready));
    println!("notify of queue 1: {:x?}", device.held_entry(1, Kind::Notify));

    let mut actions = Actions::default();
    device.raise(1, &mut actions);
    let mut reply = [0; 4];
    device.read(ALL, 0x060, &mut reply, &mut actions);
    println!("interrupts {}", u32::from_le_bytes(reply));
}
