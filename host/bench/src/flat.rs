//! Time of one message read into the flat form: the original's `from_bitbuf` and a fill from its
//! record, against our `tetra_mm_read`.

use std::hint::black_box;

use tetra_core::BitBuffer;
use tetra_core::typed_pdu_fields::{Type3FieldGeneric, Type4FieldGeneric};
use tetra_pdus::mm::fields::class_of_ms::ClassOfMs;
use tetra_pdus::mm::fields::energy_saving_information::EnergySavingInformation;
use tetra_pdus::mm::fields::group_identity_attachment::GroupIdentityAttachment;
use tetra_pdus::mm::fields::group_identity_downlink::GroupIdentityDownlink;
use tetra_pdus::mm::fields::group_identity_location_accept::GroupIdentityLocationAccept;
use tetra_pdus::mm::fields::group_identity_location_demand::GroupIdentityLocationDemand;
use tetra_pdus::mm::fields::group_identity_uplink::GroupIdentityUplink;
use tetra_pdus::mm::pdus::d_attach_detach_group_identity::DAttachDetachGroupIdentity;
use tetra_pdus::mm::pdus::d_location_update_accept::DLocationUpdateAccept;
use tetra_pdus::mm::pdus::u_location_update_demand::ULocationUpdateDemand;

use crate::messages::{Message, Table, fastest};

const STRICT: u64 = 0;
/// Room for the longest form, an accept with 63 groups, and some octets that must stay.
const ROOM: usize = 245 + 63 * 56 + 5;
/// What stands in a buffer before the first reading.
const UNTOUCHED: u8 = 0xa7;

pub struct IntoFlat;

impl Table for IntoFlat {
    fn times<M: Message>(octets: &[u8], end: usize) -> (f64, f64) {
        let mut buffer = BitBuffer::from_bytes(octets);
        buffer.set_raw_end(end);
        let (mut by_original, mut by_us) = ([UNTOUCHED; ROOM], [UNTOUCHED; ROOM]);
        let number = original_read::<M>(&mut buffer, &mut by_original);
        assert_eq!(number, 64 * end as u64, "the original consumed another number of bits");
        let number = our_read::<M>(octets, end, &mut by_us);
        assert_eq!(number, 64 * end as u64, "ours refused or consumed otherwise");
        assert!(by_original == by_us, "the two gave different forms");

        fastest(
            || original_read::<M>(&mut buffer, black_box(&mut by_original)),
            || our_read::<M>(octets, end, black_box(&mut by_us)),
        )
    }
}

fn original_read<M: Message>(buffer: &mut BitBuffer, flat: &mut [u8]) -> u64 {
    buffer.set_raw_pos(0);
    let record = M::read(buffer).expect("a message that the original reads");
    let mut form = Form { octets: flat, at: 0 };
    form.always(0u64);
    record.put(&mut form);
    64 * buffer.get_pos() as u64
}

fn our_read<M: Message>(octets: &[u8], end: usize, flat: &mut [u8]) -> u64 {
    tetra_mm::read_into(M::NUMBER, STRICT, octets, 0, end as u64, flat)
}

/// A flat form that is being filled.
pub struct Form<'a> {
    octets: &'a mut [u8],
    at: usize,
}

impl Form<'_> {
    fn presence(&mut self, present: bool) {
        self.octets[self.at] = present as u8;
        self.at += 1;
    }

    fn field(&mut self, value: Option<impl Into<u64>>) {
        let (presence, value) = match value {
            Some(value) => (1, value.into()),
            None => (0, 0),
        };
        let field = &mut self.octets[self.at..self.at + 9];
        field[0] = presence;
        field[1..].copy_from_slice(&value.to_be_bytes());
        self.at += 9;
    }

    fn always(&mut self, value: impl Into<u64>) {
        self.field(Some(value));
    }

    fn type3(&mut self, element: &Option<Type3FieldGeneric>) {
        self.field(element.as_ref().map(|e| e.len as u64));
        self.field(element.as_ref().map(|e| e.data));
    }

    fn type4(&mut self, element: &Option<Type4FieldGeneric>) {
        self.field(element.as_ref().map(|e| e.len as u64));
        self.field(element.as_ref().map(|e| e.elems as u64));
        self.field(element.as_ref().map(|e| e.data));
    }

    fn list<G>(&mut self, groups: Option<&Vec<G>>, put: impl Fn(&mut Self, &G)) {
        self.field(groups.map(|groups| groups.len() as u64));
        for group in groups.into_iter().flatten() {
            self.presence(true);
            put(self, group);
        }
    }

    fn class(&mut self, class: &Option<ClassOfMs>) {
        self.presence(class.is_some());
        let Some(class) = class else {
            for _ in 0..22 {
                self.field(None::<u64>);
            }
            return;
        };
        self.always(class.freq_simplex_duplex);
        self.always(class.multislot_phase_mod);
        self.always(class.concurrent_multicarrier);
        self.always(class.voice);
        self.always(class.e2e_encryption_not_supported);
        self.always(class.circuit_mode_data);
        self.always(class.tetra_packet_data);
        self.always(class.fast_switching);
        self.always(class.dck_encryption);
        self.always(class.clch_needed);
        self.always(class.concurrent_circuit_mode);
        self.always(class.original_advanced_link);
        self.always(class.minimum_mode);
        self.always(class.carrier_specific_signalling);
        self.always(class.authentication);
        self.always(class.sck_encryption);
        self.always(class.air_interface_version);
        self.always(class.common_scch);
        self.always(class.reserved_21);
        self.always(class.mac_d_blck);
        self.always(class.extended_advanced_link);
        self.always(class.d8psk);
    }

    fn saving(&mut self, saving: &Option<EnergySavingInformation>) {
        let saving = saving.as_ref();
        self.presence(saving.is_some());
        self.field(saving.map(|s| s.energy_saving_mode));
        self.field(saving.and_then(|s| s.frame_number));
        self.field(saving.and_then(|s| s.multiframe_number));
    }

    fn attachment(&mut self, attachment: &Option<GroupIdentityAttachment>) {
        let attachment = attachment.as_ref();
        self.presence(attachment.is_some());
        self.field(attachment.map(|a| a.group_identity_attachment_lifetime));
        self.field(attachment.map(|a| a.class_of_usage));
    }

    fn uplink(&mut self, group: &GroupIdentityUplink) {
        self.field(group.class_of_usage);
        self.field(group.group_identity_detachment_uplink);
        self.field(group.gssi);
        self.field(group.address_extension);
        self.field(group.vgssi);
    }

    fn downlink(&mut self, group: &GroupIdentityDownlink) {
        self.attachment(&group.group_identity_attachment);
        self.field(group.group_identity_detachment_uplink);
        self.field(group.gssi);
        self.field(group.address_extension);
        self.field(group.vgssi);
    }

    fn location_demand(&mut self, location: &Option<GroupIdentityLocationDemand>) {
        let location = location.as_ref();
        self.presence(location.is_some());
        self.field(location.map(|l| l.group_identity_attach_detach_mode));
        self.list(location.and_then(|l| l.group_identity_uplink.as_ref()), Self::uplink);
    }

    fn location_accept(&mut self, location: &Option<GroupIdentityLocationAccept>) {
        let location = location.as_ref();
        self.presence(location.is_some());
        self.field(location.map(|l| l.group_identity_accept_reject));
        self.list(location.and_then(|l| l.group_identity_downlink.as_ref()), Self::downlink);
    }
}

/// The form behind the count skipped.
pub trait Flat {
    fn put(&self, form: &mut Form);
}

impl Flat for ULocationUpdateDemand {
    fn put(&self, form: &mut Form) {
        form.always(self.location_update_type);
        form.always(self.request_to_append_la);
        form.always(self.cipher_control);
        form.field(self.ciphering_parameters);
        form.class(&self.class_of_ms);
        form.field(self.energy_saving_mode);
        form.field(self.la_information);
        form.field(self.ssi);
        form.field(self.address_extension);
        form.location_demand(&self.group_identity_location_demand);
        form.type3(&self.group_report_response);
        form.type3(&self.authentication_uplink);
        form.type3(&self.extended_capabilities);
        form.type3(&self.proprietary);
    }
}

impl Flat for DLocationUpdateAccept {
    fn put(&self, form: &mut Form) {
        form.always(self.location_update_accept_type);
        form.field(self.ssi);
        form.field(self.address_extension);
        form.field(self.subscriber_class);
        form.saving(&self.energy_saving_information);
        form.field(self.scch_information_and_distribution_on_18th_frame);
        form.type4(&self.new_registered_area);
        form.type3(&self.security_downlink);
        form.location_accept(&self.group_identity_location_accept);
        form.type3(&self.default_group_attachment_lifetime);
        form.type3(&self.authentication_downlink);
        form.type4(&self.group_identity_security_related_information);
        form.type3(&self.cell_type_control);
        form.type3(&self.proprietary);
    }
}

impl Flat for DAttachDetachGroupIdentity {
    fn put(&self, form: &mut Form) {
        form.always(self.group_identity_report);
        form.always(self.group_identity_acknowledgement_request);
        form.always(self.group_identity_attach_detach_mode);
        form.type3(&self.proprietary);
        form.type3(&self.group_report_response);
        form.list(self.group_identity_downlink.as_ref(), Form::downlink);
        form.type4(&self.group_identity_security_related_information);
    }
}
