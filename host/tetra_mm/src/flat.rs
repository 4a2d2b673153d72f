//! The flat form, taken apart from its front; a struct's fields are read in the order written.

use crate::*;

pub fn decode(message: Message, flat: &[u8]) -> (usize, Record) {
    let mut flat = Flat(flat);
    let skipped = flat.always();
    let record = match message {
        Message::Demand => Record::Demand(flat.demand()),
        Message::Accept => Record::Accept(flat.accept()),
        Message::AttachDetach => Record::AttachDetach(flat.attach_detach()),
    };
    (skipped, record)
}

struct Flat<'a>(&'a [u8]);

impl Flat<'_> {
    fn presence(&mut self) -> bool {
        let (&octet, rest) = self.0.split_first().expect("a flat form has its presence octets");
        self.0 = rest;
        octet != 0
    }

    fn field<T: TryFrom<u64>>(&mut self) -> Option<T> {
        let present = self.presence();
        let (octets, rest) = self.0.split_first_chunk().expect("a field has 8 octets");
        self.0 = rest;
        let value = T::try_from(u64::from_be_bytes(*octets));
        present.then(|| value.ok().expect("a field is in its width"))
    }

    /// A field that is always there, or 0 in an absent structure.
    fn always<T: TryFrom<u64> + Default>(&mut self) -> T {
        self.field().unwrap_or_default()
    }

    fn flag(&mut self) -> bool {
        self.always::<u8>() != 0
    }

    fn structure<T>(&mut self, fields: impl FnOnce(&mut Self) -> T) -> Option<T> {
        let present = self.presence();
        let value = fields(self);
        present.then_some(value)
    }

    fn type3(&mut self) -> Option<Type3FieldGeneric> {
        let (len, data) = (self.field(), self.field());
        Some(Type3FieldGeneric { len: len?, data: data? })
    }

    fn type4(&mut self) -> Option<Type4FieldGeneric> {
        let (len, elems, data) = (self.field(), self.field(), self.field());
        Some(Type4FieldGeneric { len: len?, elems: elems?, data: data? })
    }

    fn list<G>(&mut self, group: impl Fn(&mut Self) -> G) -> Option<Vec<G>> {
        let count = self.field::<usize>()?;
        let group = |_| self.structure(&group).expect("a group in a list is present");
        Some((0..count).map(group).collect())
    }

    fn demand(&mut self) -> ULocationUpdateDemand {
        ULocationUpdateDemand {
            location_update_type: self.always(),
            request_to_append_la: self.flag(),
            cipher_control: self.flag(),
            ciphering_parameters: self.field(),
            class_of_ms: self.structure(Self::class_of_ms),
            energy_saving_mode: self.field(),
            la_information: self.field(),
            ssi: self.field(),
            address_extension: self.field(),
            group_identity_location_demand: self.structure(|flat| GroupIdentityLocationDemand {
                group_identity_attach_detach_mode: flat.always(),
                group_identity_uplink: flat.list(Self::uplink),
            }),
            group_report_response: self.type3(),
            authentication_uplink: self.type3(),
            extended_capabilities: self.type3(),
            proprietary: self.type3(),
        }
    }

    fn accept(&mut self) -> DLocationUpdateAccept {
        DLocationUpdateAccept {
            location_update_accept_type: self.always(),
            ssi: self.field(),
            address_extension: self.field(),
            subscriber_class: self.field(),
            energy_saving_information: self.structure(|flat| EnergySavingInformation {
                energy_saving_mode: flat.always(),
                frame_number: flat.field(),
                multiframe_number: flat.field(),
            }),
            scch_information_and_distribution_on_18th_frame: self.field(),
            new_registered_area: self.type4(),
            security_downlink: self.type3(),
            group_identity_location_accept: self.structure(|flat| GroupIdentityLocationAccept {
                group_identity_accept_reject: flat.always(),
                group_identity_downlink: flat.list(Self::downlink),
            }),
            default_group_attachment_lifetime: self.type3(),
            authentication_downlink: self.type3(),
            group_identity_security_related_information: self.type4(),
            cell_type_control: self.type3(),
            proprietary: self.type3(),
        }
    }

    fn attach_detach(&mut self) -> DAttachDetachGroupIdentity {
        DAttachDetachGroupIdentity {
            group_identity_report: self.flag(),
            group_identity_acknowledgement_request: self.flag(),
            group_identity_attach_detach_mode: self.flag(),
            proprietary: self.type3(),
            group_report_response: self.type3(),
            group_identity_downlink: self.list(Self::downlink),
            group_identity_security_related_information: self.type4(),
        }
    }

    fn class_of_ms(&mut self) -> ClassOfMs {
        ClassOfMs {
            freq_simplex_duplex: self.flag(),
            multislot_phase_mod: self.flag(),
            concurrent_multicarrier: self.flag(),
            voice: self.flag(),
            e2e_encryption_not_supported: self.flag(),
            circuit_mode_data: self.flag(),
            tetra_packet_data: self.flag(),
            fast_switching: self.flag(),
            dck_encryption: self.flag(),
            clch_needed: self.flag(),
            concurrent_circuit_mode: self.flag(),
            original_advanced_link: self.flag(),
            minimum_mode: self.flag(),
            carrier_specific_signalling: self.flag(),
            authentication: self.flag(),
            sck_encryption: self.flag(),
            air_interface_version: self.always(),
            common_scch: self.flag(),
            reserved_21: self.flag(),
            mac_d_blck: self.flag(),
            extended_advanced_link: self.flag(),
            d8psk: self.flag(),
        }
    }

    fn uplink(&mut self) -> GroupIdentityUplink {
        GroupIdentityUplink {
            class_of_usage: self.field(),
            group_identity_detachment_uplink: self.field(),
            gssi: self.field(),
            address_extension: self.field(),
            vgssi: self.field(),
        }
    }

    fn downlink(&mut self) -> GroupIdentityDownlink {
        GroupIdentityDownlink {
            group_identity_attachment: self.structure(|flat| GroupIdentityAttachment {
                group_identity_attachment_lifetime: flat.always(),
                class_of_usage: flat.always(),
            }),
            group_identity_detachment_uplink: self.field(),
            gssi: self.field(),
            address_extension: self.field(),
            vgssi: self.field(),
        }
    }
}
