//! The original's record as the wrapper's, and a record's flat form, octet by octet.

use tetra_core::typed_pdu_fields as original;
use tetra_mm::*;
use tetra_pdus::mm::fields;

/// The original's record. Panics if a generic element's `field_id` is not its slot's.
pub fn record(record: &oracle::Record) -> Record {
    match record {
        oracle::Record::Demand(r) => Record::Demand(ULocationUpdateDemand {
            location_update_type: r.location_update_type as u8,
            request_to_append_la: r.request_to_append_la,
            cipher_control: r.cipher_control,
            ciphering_parameters: r.ciphering_parameters,
            class_of_ms: r.class_of_ms.as_ref().map(class_of_ms),
            energy_saving_mode: r.energy_saving_mode.map(|mode| mode as u8),
            la_information: r.la_information,
            ssi: r.ssi,
            address_extension: r.address_extension,
            group_identity_location_demand: r.group_identity_location_demand.as_ref().map(|l| {
                GroupIdentityLocationDemand {
                    group_identity_attach_detach_mode: l.group_identity_attach_detach_mode,
                    group_identity_uplink: l.group_identity_uplink.as_deref().map(uplinks),
                }
            }),
            group_report_response: type3(&r.group_report_response, 4),
            authentication_uplink: type3(&r.authentication_uplink, 9),
            extended_capabilities: type3(&r.extended_capabilities, 11),
            proprietary: type3(&r.proprietary, 15),
        }),
        oracle::Record::Accept(r) => Record::Accept(DLocationUpdateAccept {
            location_update_accept_type: r.location_update_accept_type as u8,
            ssi: r.ssi,
            address_extension: r.address_extension,
            subscriber_class: r.subscriber_class,
            energy_saving_information: r.energy_saving_information.as_ref().map(|e| {
                EnergySavingInformation {
                    energy_saving_mode: e.energy_saving_mode as u8,
                    frame_number: e.frame_number,
                    multiframe_number: e.multiframe_number,
                }
            }),
            scch_information_and_distribution_on_18th_frame: r
                .scch_information_and_distribution_on_18th_frame,
            new_registered_area: type4(&r.new_registered_area, 2),
            security_downlink: type3(&r.security_downlink, 3),
            group_identity_location_accept: r.group_identity_location_accept.as_ref().map(|l| {
                GroupIdentityLocationAccept {
                    group_identity_accept_reject: l.group_identity_accept_reject,
                    group_identity_downlink: l.group_identity_downlink.as_deref().map(downlinks),
                }
            }),
            default_group_attachment_lifetime: type3(&r.default_group_attachment_lifetime, 1),
            authentication_downlink: type3(&r.authentication_downlink, 10),
            group_identity_security_related_information: type4(
                &r.group_identity_security_related_information,
                12,
            ),
            cell_type_control: type3(&r.cell_type_control, 13),
            proprietary: type3(&r.proprietary, 15),
        }),
        oracle::Record::AttachDetach(r) => Record::AttachDetach(DAttachDetachGroupIdentity {
            group_identity_report: r.group_identity_report,
            group_identity_acknowledgement_request: r.group_identity_acknowledgement_request,
            group_identity_attach_detach_mode: r.group_identity_attach_detach_mode,
            proprietary: type3(&r.proprietary, 15),
            group_report_response: type3(&r.group_report_response, 4),
            group_identity_downlink: r.group_identity_downlink.as_deref().map(downlinks),
            group_identity_security_related_information: type4(
                &r.group_identity_security_related_information,
                12,
            ),
        }),
    }
}

fn type3(element: &Option<original::Type3FieldGeneric>, slot: u64) -> Option<Type3FieldGeneric> {
    element.as_ref().map(|e| {
        assert_eq!(e.field_id, slot, "the original's field_id is the slot's");
        Type3FieldGeneric { len: e.len, data: e.data }
    })
}

fn type4(element: &Option<original::Type4FieldGeneric>, slot: u64) -> Option<Type4FieldGeneric> {
    element.as_ref().map(|e| {
        assert_eq!(e.field_id, slot, "the original's field_id is the slot's");
        Type4FieldGeneric { len: e.len, elems: e.elems, data: e.data }
    })
}

fn uplinks(
    groups: &[fields::group_identity_uplink::GroupIdentityUplink],
) -> Vec<GroupIdentityUplink> {
    let uplink = |g: &fields::group_identity_uplink::GroupIdentityUplink| GroupIdentityUplink {
        class_of_usage: g.class_of_usage,
        group_identity_detachment_uplink: g.group_identity_detachment_uplink,
        gssi: g.gssi,
        address_extension: g.address_extension,
        vgssi: g.vgssi,
    };
    groups.iter().map(uplink).collect()
}

fn downlinks(
    groups: &[fields::group_identity_downlink::GroupIdentityDownlink],
) -> Vec<GroupIdentityDownlink> {
    let downlink =
        |g: &fields::group_identity_downlink::GroupIdentityDownlink| GroupIdentityDownlink {
            group_identity_attachment: g.group_identity_attachment.as_ref().map(|a| {
                GroupIdentityAttachment {
                    group_identity_attachment_lifetime: a.group_identity_attachment_lifetime,
                    class_of_usage: a.class_of_usage,
                }
            }),
            group_identity_detachment_uplink: g.group_identity_detachment_uplink,
            gssi: g.gssi,
            address_extension: g.address_extension,
            vgssi: g.vgssi,
        };
    groups.iter().map(downlink).collect()
}

/// Does `$do` with each field of a class of MS, in the struct's order.
macro_rules! class_fields {
    ($do:ident) => {
        $do! {
            freq_simplex_duplex, multislot_phase_mod, concurrent_multicarrier, voice,
            e2e_encryption_not_supported, circuit_mode_data, tetra_packet_data, fast_switching,
            dck_encryption, clch_needed, concurrent_circuit_mode, original_advanced_link,
            minimum_mode, carrier_specific_signalling, authentication, sck_encryption,
            air_interface_version, common_scch, reserved_21, mac_d_blck, extended_advanced_link,
            d8psk
        }
    };
}

fn class_of_ms(class: &fields::class_of_ms::ClassOfMs) -> ClassOfMs {
    macro_rules! copy {
        ($($field:ident),*) => { ClassOfMs { $($field: class.$field),* } };
    }
    class_fields!(copy)
}

fn class_numbers(class: &ClassOfMs) -> [u64; 22] {
    macro_rules! numbers {
        ($($field:ident),*) => { [$(class.$field.into()),*] };
    }
    class_fields!(numbers)
}

/// The flat form: the count skipped, and the record.
pub fn flat(read: &Read) -> Vec<u8> {
    let mut form = Form(Vec::with_capacity(FLAT_MAX));
    form.field(Some(read.skipped as u64));
    match &read.record {
        Record::Demand(r) => {
            form.field(Some(r.location_update_type.into()));
            form.field(Some(r.request_to_append_la.into()));
            form.field(Some(r.cipher_control.into()));
            form.field(r.ciphering_parameters);
            form.structure(&r.class_of_ms, |class| class_numbers(class).map(Some));
            form.field(r.energy_saving_mode.map(u64::from));
            form.field(r.la_information);
            form.field(r.ssi);
            form.field(r.address_extension);
            form.structure(&r.group_identity_location_demand, |l| {
                [Some(l.group_identity_attach_detach_mode.into())]
            });
            let list = r.group_identity_location_demand.as_ref();
            form.list(list.and_then(|l| l.group_identity_uplink.as_deref()), Form::uplink);
            form.type3(&r.group_report_response);
            form.type3(&r.authentication_uplink);
            form.type3(&r.extended_capabilities);
            form.type3(&r.proprietary);
        }
        Record::Accept(r) => {
            form.field(Some(r.location_update_accept_type.into()));
            form.field(r.ssi);
            form.field(r.address_extension);
            form.field(r.subscriber_class);
            form.structure(&r.energy_saving_information, |e| {
                [
                    Some(e.energy_saving_mode.into()),
                    e.frame_number.map(u64::from),
                    e.multiframe_number.map(u64::from),
                ]
            });
            form.field(r.scch_information_and_distribution_on_18th_frame);
            form.type4(&r.new_registered_area);
            form.type3(&r.security_downlink);
            form.structure(&r.group_identity_location_accept, |l| {
                [Some(l.group_identity_accept_reject.into())]
            });
            let list = r.group_identity_location_accept.as_ref();
            form.list(list.and_then(|l| l.group_identity_downlink.as_deref()), Form::downlink);
            form.type3(&r.default_group_attachment_lifetime);
            form.type3(&r.authentication_downlink);
            form.type4(&r.group_identity_security_related_information);
            form.type3(&r.cell_type_control);
            form.type3(&r.proprietary);
        }
        Record::AttachDetach(r) => {
            form.field(Some(r.group_identity_report.into()));
            form.field(Some(r.group_identity_acknowledgement_request.into()));
            form.field(Some(r.group_identity_attach_detach_mode.into()));
            form.type3(&r.proprietary);
            form.type3(&r.group_report_response);
            form.list(r.group_identity_downlink.as_deref(), Form::downlink);
            form.type4(&r.group_identity_security_related_information);
        }
    }
    form.0
}

struct Form(Vec<u8>);

impl Form {
    fn field(&mut self, value: Option<u64>) {
        self.0.push(value.is_some().into());
        self.0.extend(value.unwrap_or(0).to_be_bytes());
    }

    fn structure<T, const N: usize>(
        &mut self,
        structure: &Option<T>,
        fields: impl Fn(&T) -> [Option<u64>; N],
    ) {
        self.0.push(structure.is_some().into());
        for field in structure.as_ref().map_or([None; N], fields) {
            self.field(field);
        }
    }

    fn type3(&mut self, element: &Option<Type3FieldGeneric>) {
        self.field(element.as_ref().map(|e| e.len as u64));
        self.field(element.as_ref().map(|e| e.data));
    }

    fn type4(&mut self, element: &Option<Type4FieldGeneric>) {
        self.field(element.as_ref().map(|e| e.len as u64));
        self.field(element.as_ref().map(|e| e.elems as u64));
        self.field(element.as_ref().map(|e| e.data));
    }

    fn list<G>(&mut self, groups: Option<&[G]>, put: impl Fn(&mut Self, &G)) {
        self.field(groups.map(|groups| groups.len() as u64));
        for group in groups.unwrap_or_default() {
            self.0.push(1);
            put(self, group);
        }
    }

    fn address(&mut self, gssi: Option<u32>, extension: Option<u32>, vgssi: Option<u32>) {
        for address in [gssi, extension, vgssi] {
            self.field(address.map(u64::from));
        }
    }

    fn uplink(&mut self, group: &GroupIdentityUplink) {
        self.field(group.class_of_usage.map(u64::from));
        self.field(group.group_identity_detachment_uplink.map(u64::from));
        self.address(group.gssi, group.address_extension, group.vgssi);
    }

    fn downlink(&mut self, group: &GroupIdentityDownlink) {
        self.structure(&group.group_identity_attachment, |a| {
            [Some(a.group_identity_attachment_lifetime.into()), Some(a.class_of_usage.into())]
        });
        self.field(group.group_identity_detachment_uplink.map(u64::from));
        self.address(group.gssi, group.address_extension, group.vgssi);
    }
}
