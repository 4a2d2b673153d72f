//! Document 01's questions about a record to be written, asked of the original's records.

use tetra_core::typed_pdu_fields::{Type3FieldGeneric, Type4FieldGeneric};
use tetra_pdus::mm::enums::energy_saving_mode::EnergySavingMode;
use tetra_pdus::mm::fields::group_identity_downlink::GroupIdentityDownlink;
use tetra_pdus::mm::fields::group_identity_uplink::GroupIdentityUplink;
use tetra_pdus::mm::pdus::d_attach_detach_group_identity::DAttachDetachGroupIdentity;
use tetra_pdus::mm::pdus::d_location_update_accept::DLocationUpdateAccept;
use tetra_pdus::mm::pdus::u_location_update_demand::ULocationUpdateDemand;

use crate::{Record, Refusal};

impl Record {
    /// The first of the questions 8 to 15 that the record fails: each is asked over the whole record
    /// before the next.
    pub fn write_refusal(&self) -> Option<Refusal> {
        let asked = match self {
            Self::Demand(record) => Asked::demand(record),
            Self::Accept(record) => Asked::accept(record),
            Self::AttachDetach(record) => Asked::attach_detach(record),
        };
        asked.refusal()
    }
}

/// What the questions look at: what is present in a record.
#[derive(Default)]
struct Asked {
    /// Numbers and their widths, below 64.
    numbers: Vec<(u64, usize)>,
    /// Lengths and data.
    generics: Vec<(usize, u64)>,
    counts: Vec<usize>,
    /// Cipher control, and whether there are parameters.
    ciphering: (bool, bool),
    groups: Vec<Group>,
    /// Whether the mode is StayAlive, and whether there are frame and multiframe.
    saving: Option<(bool, bool, bool)>,
    has_type4: bool,
    /// Of structures and of lists, in bits.
    lengths: Vec<usize>,
}

struct Group {
    uplink: bool,
    attached: bool,
    detached: bool,
    /// GSSI, extension, VGSSI.
    address: [bool; 3],
}

const IDENTIFIER_AND_LENGTH: usize = 1 + 4 + 11;
const COUNT: usize = 6;

impl Asked {
    fn refusal(&self) -> Option<Refusal> {
        let in_width = |value: u64, width: usize| width >= 64 || value >> width == 0;
        let answers = [
            self.numbers.iter().all(|&(value, width)| in_width(value, width))
                && self.generics.iter().all(|&(len, data)| len <= 64 && in_width(data, len))
                && self.counts.iter().all(|&count| count <= 63),
            self.ciphering.0 == self.ciphering.1,
            self.groups.iter().all(|group| group.attached != group.detached),
            self.groups.iter().all(Group::has_listed_address),
            self.saving.is_none_or(|(alive, frame, multiframe)| !alive || !frame && !multiframe),
            self.saving.is_none_or(|(alive, frame, multiframe)| alive || frame && multiframe),
            !self.has_type4,
            self.lengths.iter().all(|&length| length < 1 << 11),
        ];
        (8..).zip(answers).find_map(|(number, passes)| (!passes).then_some(number))
    }

    fn demand(record: &ULocationUpdateDemand) -> Self {
        let mut asked = Self {
            ciphering: (record.cipher_control, record.ciphering_parameters.is_some()),
            ..Self::default()
        };
        asked.number(record.ciphering_parameters, 10);
        asked.number(record.class_of_ms.as_ref().map(|class| class.air_interface_version), 3);
        asked.number(record.la_information, 14);
        asked.number(record.ssi, 24);
        asked.number(record.address_extension, 24);
        if let Some(location) = &record.group_identity_location_demand {
            asked.number(Some(location.group_identity_attach_detach_mode), 1);
            asked.location(location.group_identity_uplink.as_deref(), Self::uplink);
        }
        asked.type3(&record.group_report_response);
        asked.type3(&record.authentication_uplink);
        asked.type3(&record.extended_capabilities);
        asked.type3(&record.proprietary);
        asked
    }

    fn accept(record: &DLocationUpdateAccept) -> Self {
        let mut asked = Self::default();
        asked.number(record.ssi, 24);
        asked.number(record.address_extension, 24);
        asked.number(record.subscriber_class, 16);
        if let Some(saving) = &record.energy_saving_information {
            asked.number(saving.frame_number, 5);
            asked.number(saving.multiframe_number, 6);
            asked.saving = Some((
                saving.energy_saving_mode == EnergySavingMode::StayAlive,
                saving.frame_number.is_some(),
                saving.multiframe_number.is_some(),
            ));
        }
        asked.number(record.scch_information_and_distribution_on_18th_frame, 6);
        asked.type4(&record.new_registered_area);
        asked.type3(&record.security_downlink);
        if let Some(location) = &record.group_identity_location_accept {
            asked.number(Some(location.group_identity_accept_reject), 1);
            asked.location(location.group_identity_downlink.as_deref(), Self::downlink);
        }
        asked.type3(&record.default_group_attachment_lifetime);
        asked.type3(&record.authentication_downlink);
        asked.type4(&record.group_identity_security_related_information);
        asked.type3(&record.cell_type_control);
        asked.type3(&record.proprietary);
        asked
    }

    fn attach_detach(record: &DAttachDetachGroupIdentity) -> Self {
        let mut asked = Self::default();
        asked.type3(&record.proprietary);
        asked.type3(&record.group_report_response);
        if let Some(groups) = &record.group_identity_downlink {
            asked.list(groups, Self::downlink);
        }
        asked.type4(&record.group_identity_security_related_information);
        asked
    }

    fn number(&mut self, value: Option<impl Into<u64>>, width: usize) {
        self.numbers.extend(value.map(|value| (value.into(), width)));
    }

    fn type3(&mut self, element: &Option<Type3FieldGeneric>) {
        self.generics.extend(element.as_ref().map(|element| (element.len, element.data)));
    }

    fn type4(&mut self, element: &Option<Type4FieldGeneric>) {
        if let Some(element) = element {
            self.generics.push((element.len, element.data));
            self.counts.push(element.elems);
            self.has_type4 = true;
        }
    }

    /// A structure of two bits, an O-bit, and a list with an M-bit behind it if there is one.
    fn location<G>(&mut self, groups: Option<&[G]>, group: impl Fn(&mut Self, &G) -> Group) {
        let optional = groups.map(|groups| IDENTIFIER_AND_LENGTH + self.list(groups, group) + 1);
        self.lengths.push(3 + optional.unwrap_or(0));
    }

    /// Gives the list's length.
    fn list<G>(&mut self, groups: &[G], group: impl Fn(&mut Self, &G) -> Group) -> usize {
        let mut length = COUNT;
        for entry in groups {
            let group = group(self, entry);
            length += group.bits();
            self.groups.push(group);
        }
        self.counts.push(groups.len());
        self.lengths.push(length);
        length
    }

    fn uplink(&mut self, group: &GroupIdentityUplink) -> Group {
        self.number(group.class_of_usage, 3);
        Group {
            uplink: true,
            attached: group.class_of_usage.is_some(),
            detached: self.detachment(group.group_identity_detachment_uplink),
            address: self.address([group.gssi, group.address_extension, group.vgssi]),
        }
    }

    fn downlink(&mut self, group: &GroupIdentityDownlink) -> Group {
        if let Some(attachment) = &group.group_identity_attachment {
            self.number(Some(attachment.group_identity_attachment_lifetime), 2);
            self.number(Some(attachment.class_of_usage), 3);
        }
        Group {
            uplink: false,
            attached: group.group_identity_attachment.is_some(),
            detached: self.detachment(group.group_identity_detachment_uplink),
            address: self.address([group.gssi, group.address_extension, group.vgssi]),
        }
    }

    fn detachment(&mut self, detachment: Option<u8>) -> bool {
        self.number(detachment, 2);
        detachment.is_some()
    }

    fn address(&mut self, address: [Option<u32>; 3]) -> [bool; 3] {
        address.map(|part| {
            self.number(part, 24);
            part.is_some()
        })
    }
}

impl Group {
    fn has_listed_address(&self) -> bool {
        match self.address {
            [true, _, false] | [false, false, true] => true,
            [true, true, true] => !self.uplink,
            _ => false,
        }
    }

    /// Its length, if it is attached or detached.
    fn bits(&self) -> usize {
        let usage = match (self.attached, self.uplink) {
            (true, true) => 3,
            (true, false) => 5,
            (false, _) => 2,
        };
        1 + usage + 2 + 24 * self.address.iter().filter(|&&part| part).count()
    }
}
