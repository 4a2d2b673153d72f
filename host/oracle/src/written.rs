//! Records around each question that a writing call asks, written by the original.

use std::fmt::Write;

use tetra_pdus::mm::enums::energy_saving_mode::EnergySavingMode;
use tetra_pdus::mm::fields::energy_saving_information::EnergySavingInformation;
use tetra_pdus::mm::fields::group_identity_downlink::GroupIdentityDownlink;
use tetra_pdus::mm::fields::group_identity_uplink::GroupIdentityUplink;
use tetra_pdus::mm::pdus::d_attach_detach_group_identity::DAttachDetachGroupIdentity;
use tetra_pdus::mm::pdus::d_location_update_accept::DLocationUpdateAccept;
use tetra_pdus::mm::pdus::u_location_update_demand::ULocationUpdateDemand;

use crate::records::*;
use crate::{Fault, MAX_OCTETS, Record, Refusal};

pub struct Trial {
    pub name: String,
    pub record: Record,
    /// The window's bits; the octets are all 0.
    pub room: usize,
    /// The bits written, or the number of the refusal, worked from document 01.
    pub answer: Result<usize, Refusal>,
}

const ENOUGH: usize = 8 * MAX_OCTETS;

/// A table: the name, document 01's answer, and what the original does.
pub fn lines() -> String {
    let mut lines = String::new();
    for Trial { name, record, room, answer } in trials() {
        let answer = match answer {
            Ok(bits) => format!("{bits} bits"),
            Err(number) => number.to_string(),
        };
        let original = match crate::write(&record, &vec![0; room.div_ceil(8)], 0, room) {
            Ok(written) => {
                let octets = written.octets[..written.bits.div_ceil(8)].iter();
                let octets: Vec<String> = octets.map(|octet| format!("{octet:02X}")).collect();
                format!("{} bits: {}", written.bits, octets.join(" "))
            }
            Err(Fault::OutsideLimits) => unreachable!("a window of at most 4,096 octets"),
            Err(Fault::Error(error)) => format!("error: {error:?}"),
            Err(Fault::Panic(panic)) => format!("panic in {}: {}", panic.file, panic.message),
        };
        writeln!(lines, "{name} | {answer} | {original}").expect("a string takes all");
    }
    lines
}

pub fn trials() -> Vec<Trial> {
    let mut trials = Trials(vec![]);
    trials.messages();
    trials.widths();
    trials.ciphering();
    trials.groups();
    trials.saving();
    trials.type4();
    trials.lengths();
    trials.room();
    trials.two_faults();
    trials.0
}

struct Trials(Vec<Trial>);

fn changed<T>(mut of: T, change: impl Fn(&mut T)) -> T {
    change(&mut of);
    of
}

impl Trials {
    fn put(&mut self, name: impl Into<String>, record: Record, answer: Result<usize, Refusal>) {
        self.0.push(Trial { name: name.into(), record, room: ENOUGH, answer });
    }

    fn demand(
        &mut self,
        name: &str,
        change: impl Fn(&mut ULocationUpdateDemand),
        answer: Result<usize, Refusal>,
    ) {
        let record = Record::Demand(changed(demand(), change));
        self.put(format!("demand, {name}"), record, answer);
    }

    fn accept(
        &mut self,
        name: &str,
        change: impl Fn(&mut DLocationUpdateAccept),
        answer: Result<usize, Refusal>,
    ) {
        let record = Record::Accept(changed(accept(), change));
        self.put(format!("accept, {name}"), record, answer);
    }

    fn attach_detach(
        &mut self,
        name: &str,
        change: impl Fn(&mut DAttachDetachGroupIdentity),
        answer: Result<usize, Refusal>,
    ) {
        let record = Record::AttachDetach(changed(attach_detach(), change));
        self.put(format!("attach/detach, {name}"), record, answer);
    }

    /// One group in a location demand.
    fn uplink(
        &mut self,
        name: &str,
        change: impl Fn(&mut GroupIdentityUplink),
        answer: Result<usize, Refusal>,
    ) {
        let group = changed(uplink(1, None), change);
        self.put(format!("uplink, {name}"), demand_with_groups(Some(vec![group])), answer);
    }

    /// One group in an attach/detach, and in a location accept of 25 bits more.
    fn downlink(
        &mut self,
        name: &str,
        change: impl Fn(&mut GroupIdentityDownlink),
        answer: Result<usize, Refusal>,
    ) {
        let group = changed(downlink(1, None, None), change);
        let groups = || Some(vec![group.clone()]);
        self.put(format!("downlink, {name}"), attach_detach_with_groups(groups()), answer);
        let nested = answer.map(|bits| bits + 25);
        self.put(format!("downlink, {name}, nested"), accept_with_groups(groups()), nested);
    }

    fn messages(&mut self) {
        self.demand("nothing optional", |_| (), Ok(10));
        let read = crate::read(2, &[0x26, 0x40], 0, 16).expect("a demand with an O-bit of 1");
        self.put("demand, as 26 40 is read", read.record, Ok(10));
        self.demand("SSI 1", |r| r.ssi = Some(1), Ok(40));
        self.demand("class word 0000E0", |r| r.class_of_ms = Some(class_of_ms(7)), Ok(40));
        self.demand("LA 1", |r| r.la_information = Some(1), Ok(31));
        self.demand("LA 16383", |r| r.la_information = Some(16383), Ok(31));
        self.demand(
            "saving mode 7",
            |r| r.energy_saving_mode = Some(EnergySavingMode::Eg7),
            Ok(19),
        );
        for (length, data) in [(0, 0), (1, 1), (64, 0x8123_4567_89ab_cdef)] {
            self.put(
                format!("demand, 9 of length {length}, data {data:X}"),
                demand_with_generic(length, data),
                Ok(32 + length),
            );
        }
        self.accept("nothing optional", |_| (), Ok(8));
        self.attach_detach("nothing optional", |_| (), Ok(8));

        self.put("demand, no list", demand_with_groups(None), Ok(35));
        self.put("demand, empty list", demand_with_groups(Some(vec![])), Ok(58));
        self.put("accept, no list", accept_with_groups(None), Ok(33));
        self.put("accept, empty list", accept_with_groups(Some(vec![])), Ok(56));
        self.put("attach/detach, empty list", attach_detach_with_groups(Some(vec![])), Ok(31));

        // Element 9 of length 65: what a reading keeps of it can't be written.
        let octets = [&[0x26, 0x41, 0x90, 0x83][..], &[0xff; 8], &[0x00]].concat();
        let read = crate::read(2, &octets, 0, 97).expect("a demand with element 9");
        self.put("demand, 9 of length 65, as it is read", read.record, Err(8));
        // The reserved bit of the location accept is 1 here, and is written as 0.
        let octets = [0x57, 0x05, 0x40, 0x1e, 0x00];
        let read = crate::read(5, &octets, 0, 33).expect("an accept with a location accept");
        self.put("accept, as 57 05 40 1E 00 is read", read.record, Ok(33));
        // Energy saving with mode 0, frame 31 and multiframe 63, which are dropped.
        let octets = [0x57, 0x11, 0xff, 0xc0];
        let read = crate::read(5, &octets, 0, 28).expect("an accept with energy saving");
        self.put("accept, as 57 11 FF C0 is read", read.record, Ok(28));
    }

    /// Each number one over its width.
    fn widths(&mut self) {
        let over = |width: usize| Some(1u64 << width);
        self.demand(
            "ciphering 1024",
            |r| (r.cipher_control, r.ciphering_parameters) = (true, over(10)),
            Err(8),
        );
        self.demand("version 8", |r| r.class_of_ms = Some(class_of_ms(8)), Err(8));
        self.demand("LA 16384", |r| r.la_information = over(14), Err(8));
        self.demand("LA 2^63", |r| r.la_information = over(63), Err(8));
        self.demand("SSI 2^24", |r| r.ssi = over(24), Err(8));
        self.demand("extension 2^24", |r| r.address_extension = over(24), Err(8));
        self.demand(
            "mode 2",
            |r| {
                let mut location = location_demand(None);
                location.group_identity_attach_detach_mode = 2;
                r.group_identity_location_demand = Some(location);
            },
            Err(8),
        );
        for (length, data) in [(0, 1), (1, 2), (63, 1 << 63), (65, 0), (2047, 0), (2048, 0)] {
            self.put(
                format!("demand, 9 of length {length}, data {data:X}"),
                demand_with_generic(length, data),
                Err(8),
            );
        }
        let groups = vec![uplink(1, None); 64];
        self.put("demand, 64 uplinks", demand_with_groups(Some(groups)), Err(8));
        self.uplink("class of usage 8", |g| g.class_of_usage = Some(8), Err(8));
        self.uplink("detachment 4", detached_uplink(4), Err(8));
        self.uplink("GSSI 2^24", |g| g.gssi = Some(1 << 24), Err(8));
        self.uplink("extension 2^24", |g| g.address_extension = Some(1 << 24), Err(8));
        self.uplink("VGSSI 2^24", |g| (g.gssi, g.vgssi) = (None, Some(1 << 24)), Err(8));

        self.accept("SSI 2^24", |r| r.ssi = over(24), Err(8));
        self.accept("extension 2^24", |r| r.address_extension = over(24), Err(8));
        self.accept("subscriber class 65536", |r| r.subscriber_class = over(16), Err(8));
        self.accept(
            "frame 32",
            |r| r.energy_saving_information = saving(1, Some(32), Some(63)),
            Err(8),
        );
        self.accept(
            "multiframe 64",
            |r| r.energy_saving_information = saving(1, Some(31), Some(64)),
            Err(8),
        );
        self.accept(
            "SCCH 64",
            |r| r.scch_information_and_distribution_on_18th_frame = over(6),
            Err(8),
        );
        self.accept(
            "accept/reject 2",
            |r| {
                let mut location = location_accept(None);
                location.group_identity_accept_reject = 2;
                r.group_identity_location_accept = Some(location);
            },
            Err(8),
        );
        let attached = |lifetime, class| {
            move |g: &mut GroupIdentityDownlink| {
                g.group_identity_attachment = Some(attachment(lifetime, class));
            }
        };
        self.downlink("lifetime 4", attached(4, 0), Err(8));
        self.downlink("class of usage 8", attached(0, 8), Err(8));
        self.downlink("detachment 4", detached_downlink(4), Err(8));
        self.downlink("GSSI 2^24", |g| g.gssi = Some(1 << 24), Err(8));
        self.put(
            "attach/detach, 64 downlinks",
            attach_detach_with_groups(Some(vec![downlink(1, None, None); 64])),
            Err(8),
        );
    }

    fn ciphering(&mut self) {
        let ciphered = |control, parameters| {
            move |r: &mut ULocationUpdateDemand| {
                (r.cipher_control, r.ciphering_parameters) = (control, parameters);
            }
        };
        self.demand("ciphering 1023", ciphered(true, Some(1023)), Ok(20));
        self.demand("cipher control without ciphering", ciphered(true, None), Err(9));
        self.demand("ciphering without cipher control", ciphered(false, Some(0)), Err(9));
    }

    fn groups(&mut self) {
        self.uplink("detached", detached_uplink(3), Ok(87));
        self.uplink("neither attached nor detached", |g| g.class_of_usage = None, Err(10));
        let both = |g: &mut GroupIdentityUplink| g.group_identity_detachment_uplink = Some(0);
        self.uplink("attached and detached", both, Err(10));

        self.downlink("detached", detached_downlink(3), Ok(60));
        self.downlink(
            "neither attached nor detached",
            |g| g.group_identity_attachment = None,
            Err(10),
        );
        let both = |g: &mut GroupIdentityDownlink| g.group_identity_detachment_uplink = Some(0);
        self.downlink("attached and detached", both, Err(10));

        for address in 0..8 {
            let part = |bit: u32| (address >> bit & 1 == 1).then_some(bit + 1);
            let [gssi, extension, vgssi] = [0, 1, 2].map(part);
            let parts = [(gssi, "GSSI"), (extension, "extension"), (vgssi, "VGSSI")];
            let present = parts.iter().filter_map(|(part, name)| part.map(|_| *name));
            let present: Vec<&str> = present.collect();
            let name = match present.len() {
                0 => "no address".to_owned(),
                _ => present.join(" and "),
            };
            let addresses = 24 * present.len();
            let uplink = matches!(address, 0b001 | 0b011 | 0b100);
            self.uplink(
                &name,
                |g| (g.gssi, g.address_extension, g.vgssi) = (gssi, extension, vgssi),
                if uplink { Ok(64 + addresses) } else { Err(11) },
            );
            self.downlink(
                &name,
                |g| (g.gssi, g.address_extension, g.vgssi) = (gssi, extension, vgssi),
                if uplink || address == 0b111 { Ok(39 + addresses) } else { Err(11) },
            );
        }
    }

    fn saving(&mut self) {
        for (name, mode, frame, multiframe, answer) in [
            ("StayAlive", 0, None, None, Ok(28)),
            ("StayAlive with frame", 0, Some(0), None, Err(12)),
            ("StayAlive with multiframe", 0, None, Some(0), Err(12)),
            ("StayAlive with both", 0, Some(0), Some(0), Err(12)),
            ("Eg1 with frame 31, multiframe 63", 1, Some(31), Some(63), Ok(28)),
            ("Eg1 without frame", 1, None, Some(0), Err(13)),
            ("Eg1 without multiframe", 1, Some(0), None, Err(13)),
            ("Eg1 without both", 1, None, None, Err(13)),
        ] {
            let change = |r: &mut DLocationUpdateAccept| {
                r.energy_saving_information = saving(mode, frame, multiframe);
            };
            self.accept(name, change, answer);
        }
    }

    fn type4(&mut self) {
        for (len, elems, data, answer) in
            [(0, 0, 0, Err(14)), (65, 0, 0, Err(8)), (64, 64, 0, Err(8)), (1, 0, 2, Err(8))]
        {
            let name = format!("accept, 2 of length {len}, count {elems}, data {data}");
            self.put(name, accept_with_generic(len, elems, data), answer);
        }
        self.accept(
            "12",
            |r| r.group_identity_security_related_information = Some(type4(12, 0, 0, 0)),
            Err(14),
        );
        self.attach_detach(
            "12",
            |r| r.group_identity_security_related_information = Some(type4(12, 0, 0, 0)),
            Err(14),
        );
    }

    fn lengths(&mut self) {
        let short = |count| (0..count).map(|at| uplink(0x80_0001 + at, None));
        let long = |count| (0..count).map(|at| uplink(0x80_0001 + at, Some(0x0c_c001)));
        // 3 + 16 + 6 + 1 bits of the location demand besides the groups, 32 before and behind it.
        for (name, groups, answer) in [
            ("63 uplinks of 30 bits", short(63).collect::<Vec<_>>(), Ok(1916 + 32)),
            ("37 uplinks of 54 bits", long(37).collect(), Ok(2024 + 32)),
            // The list has 2,034 bits, which fit; the location demand has 2,054.
            ("37 uplinks of 54 bits and one of 30", long(37).chain(short(1)).collect(), Err(15)),
            ("38 uplinks of 54 bits", long(38).collect(), Err(15)),
        ] {
            self.put(name, demand_with_groups(Some(groups)), answer);
        }
        // A list of 25 has 2,006 bits, one of 26 has 2,086.
        self.put("accept, 25 downlinks of 80 bits", accept_with_groups(all(25)), Ok(2026 + 30));
        self.put("accept, 26 downlinks of 80 bits", accept_with_groups(all(26)), Err(15));
        let outer = attach_detach_with_groups;
        self.put("attach/detach, 25 downlinks of 80 bits", outer(all(25)), Ok(2006 + 25));
        self.put("attach/detach, 26 downlinks of 80 bits", outer(all(26)), Err(15));
        let most = (0..63).map(|at| downlink(0x12_3456 + at, None, None)).collect();
        self.put("attach/detach, 63 downlinks of 32 bits", outer(Some(most)), Ok(2022 + 25));
    }

    /// Windows that end before the message does, and that just hold it.
    fn room(&mut self) {
        let mut short = |name: &str, record: fn() -> Record, bits| {
            for room in [0, bits - 1, bits] {
                let answer = if room < bits { Err(16) } else { Ok(bits) };
                let name = format!("{name} in {room} bits");
                self.0.push(Trial { name, record: record(), room, answer });
            }
        };
        short("demand", || Record::Demand(demand()), 10);
        short("accept", || Record::Accept(accept()), 8);
        short("attach/detach", || Record::AttachDetach(attach_detach()), 8);
        short("uplink", || demand_with_groups(Some(vec![uplink(1, None)])), 88);
    }

    /// The lower number is the answer, wherever the faults stand.
    fn two_faults(&mut self) {
        self.demand(
            "8 and 9: cipher control without ciphering, SSI 2^24",
            |r| (r.cipher_control, r.ssi) = (true, Some(1 << 24)),
            Err(8),
        );
        self.uplink(
            "8 and 11: no address, class of usage 8",
            |g| (g.gssi, g.class_of_usage) = (None, Some(8)),
            Err(8),
        );
        self.uplink(
            "10 and 11: neither attached nor detached, no address",
            |g| (g.gssi, g.class_of_usage) = (None, None),
            Err(10),
        );
        let group =
            |usage, gssi| GroupIdentityUplink { class_of_usage: usage, gssi, ..uplink(1, None) };
        let no_address = || group(Some(4), None);
        for (name, groups, number) in [
            ("10 and 11: no address, then neither", [no_address(), group(None, Some(1))], 10),
            (
                "8 and 10: neither, then GSSI 2^24",
                [group(None, Some(1)), group(Some(4), Some(1 << 24))],
                8,
            ),
        ] {
            let name = format!("two uplinks, {name}");
            self.put(name, demand_with_groups(Some(groups.to_vec())), Err(number));
        }
        self.demand(
            "9 and 11: cipher control without ciphering, a group without an address",
            |r| {
                r.cipher_control = true;
                r.group_identity_location_demand = Some(location_demand(Some(vec![no_address()])));
            },
            Err(9),
        );
        self.demand(
            "9 and 10: ciphering without cipher control, a group of neither",
            |r| {
                r.ciphering_parameters = Some(0);
                let groups = vec![group(None, Some(1))];
                r.group_identity_location_demand = Some(location_demand(Some(groups)));
            },
            Err(9),
        );
        self.demand(
            "8 and 11: a group without an address, 15 of length 65",
            |r| {
                r.group_identity_location_demand = Some(location_demand(Some(vec![no_address()])));
                r.proprietary = Some(type3(15, 65, 0));
            },
            Err(8),
        );

        let nested = |attachment, gssi| {
            let group = GroupIdentityDownlink {
                group_identity_attachment: attachment,
                gssi,
                ..downlink(1, None, None)
            };
            Some(location_accept(Some(vec![group])))
        };
        let neither = || nested(None, Some(1));
        let unlisted = || nested(Some(attachment(3, 4)), None);
        self.accept(
            "10 and 13: Eg1 without both, a group of neither",
            |r| {
                r.energy_saving_information = saving(1, None, None);
                r.group_identity_location_accept = neither();
            },
            Err(10),
        );
        self.accept(
            "11 and 12: StayAlive with frame, a group without an address",
            |r| {
                r.energy_saving_information = saving(0, Some(0), None);
                r.group_identity_location_accept = unlisted();
            },
            Err(11),
        );
        self.accept(
            "11 and 14: element 2, a group without an address",
            |r| {
                r.new_registered_area = Some(type4(2, 0, 0, 0));
                r.group_identity_location_accept = unlisted();
            },
            Err(11),
        );
        self.accept(
            "8 and 14: element 2, element 15 of length 65",
            |r| {
                r.new_registered_area = Some(type4(2, 0, 0, 0));
                r.proprietary = Some(type3(15, 65, 0));
            },
            Err(8),
        );
        self.accept(
            "12 and 14: StayAlive with frame, element 2",
            |r| {
                r.energy_saving_information = saving(0, Some(0), None);
                r.new_registered_area = Some(type4(2, 0, 0, 0));
            },
            Err(12),
        );
        self.accept(
            "13 and 14: Eg1 without both, element 12",
            |r| {
                r.energy_saving_information = saving(1, None, None);
                r.group_identity_security_related_information = Some(type4(12, 0, 0, 0));
            },
            Err(13),
        );
        self.accept(
            "13 and 15: Eg1 without both, 26 downlinks of 80 bits",
            |r| {
                r.energy_saving_information = saving(1, None, None);
                r.group_identity_location_accept = Some(location_accept(all(26)));
            },
            Err(13),
        );
        self.attach_detach(
            "14 and 15: 26 downlinks of 80 bits, element 12",
            |r| {
                r.group_identity_downlink = all(26);
                r.group_identity_security_related_information = Some(type4(12, 0, 0, 0));
            },
            Err(14),
        );
        for (name, room, record, number) in [
            ("15 and 16: 26 downlinks of 80 bits", 100, attach_detach_with_groups(all(26)), 15),
            ("14 and 16: element 2", 7, accept_with_generic(0, 0, 0), 14),
        ] {
            let name = format!("{name}, in {room} bits");
            self.0.push(Trial { name, record, room, answer: Err(number) });
        }
    }
}

/// Downlinks of 80 bits, with all three addresses.
fn all(count: usize) -> Option<Vec<GroupIdentityDownlink>> {
    Some(vec![downlink(1, Some(2), Some(3)); count])
}

fn saving(
    mode: u64,
    frame_number: Option<u8>,
    multiframe_number: Option<u8>,
) -> Option<EnergySavingInformation> {
    let energy_saving_mode = EnergySavingMode::try_from(mode).expect("a mode of 3 bits");
    Some(EnergySavingInformation { energy_saving_mode, frame_number, multiframe_number })
}

fn detached_uplink(detachment: u8) -> impl Fn(&mut GroupIdentityUplink) {
    move |g| (g.class_of_usage, g.group_identity_detachment_uplink) = (None, Some(detachment))
}

fn detached_downlink(detachment: u8) -> impl Fn(&mut GroupIdentityDownlink) {
    move |g| {
        g.group_identity_attachment = None;
        g.group_identity_detachment_uplink = Some(detachment);
    }
}
