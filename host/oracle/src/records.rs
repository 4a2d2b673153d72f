//! Records of the original to start from: those of 26 00, 56 and A6, and what is added to them.

use tetra_core::typed_pdu_fields::{Type3FieldGeneric, Type4FieldGeneric};
use tetra_pdus::mm::enums::location_update_type::LocationUpdateType;
use tetra_pdus::mm::fields::class_of_ms::ClassOfMs;
use tetra_pdus::mm::fields::group_identity_attachment::GroupIdentityAttachment;
use tetra_pdus::mm::fields::group_identity_downlink::GroupIdentityDownlink;
use tetra_pdus::mm::fields::group_identity_location_accept::GroupIdentityLocationAccept;
use tetra_pdus::mm::fields::group_identity_location_demand::GroupIdentityLocationDemand;
use tetra_pdus::mm::fields::group_identity_uplink::GroupIdentityUplink;
use tetra_pdus::mm::pdus::d_attach_detach_group_identity::DAttachDetachGroupIdentity;
use tetra_pdus::mm::pdus::d_location_update_accept::DLocationUpdateAccept;
use tetra_pdus::mm::pdus::u_location_update_demand::ULocationUpdateDemand;

use crate::Record;

pub fn demand() -> ULocationUpdateDemand {
    ULocationUpdateDemand {
        location_update_type: LocationUpdateType::ItsiAttach,
        request_to_append_la: false,
        cipher_control: false,
        ciphering_parameters: None,
        class_of_ms: None,
        energy_saving_mode: None,
        la_information: None,
        ssi: None,
        address_extension: None,
        group_identity_location_demand: None,
        group_report_response: None,
        authentication_uplink: None,
        extended_capabilities: None,
        proprietary: None,
    }
}

pub fn accept() -> DLocationUpdateAccept {
    DLocationUpdateAccept {
        location_update_accept_type: LocationUpdateType::ItsiAttach,
        ssi: None,
        address_extension: None,
        subscriber_class: None,
        energy_saving_information: None,
        scch_information_and_distribution_on_18th_frame: None,
        new_registered_area: None,
        security_downlink: None,
        group_identity_location_accept: None,
        default_group_attachment_lifetime: None,
        authentication_downlink: None,
        group_identity_security_related_information: None,
        cell_type_control: None,
        proprietary: None,
    }
}

pub fn attach_detach() -> DAttachDetachGroupIdentity {
    DAttachDetachGroupIdentity {
        group_identity_report: false,
        group_identity_acknowledgement_request: true,
        group_identity_attach_detach_mode: true,
        proprietary: None,
        group_report_response: None,
        group_identity_downlink: None,
        group_identity_security_related_information: None,
    }
}

/// All 0 but the version.
pub fn class_of_ms(air_interface_version: u8) -> ClassOfMs {
    ClassOfMs {
        freq_simplex_duplex: false,
        multislot_phase_mod: false,
        concurrent_multicarrier: false,
        voice: false,
        e2e_encryption_not_supported: false,
        circuit_mode_data: false,
        tetra_packet_data: false,
        fast_switching: false,
        dck_encryption: false,
        clch_needed: false,
        concurrent_circuit_mode: false,
        original_advanced_link: false,
        minimum_mode: false,
        carrier_specific_signalling: false,
        authentication: false,
        sck_encryption: false,
        air_interface_version,
        common_scch: false,
        reserved_21: false,
        mac_d_blck: false,
        extended_advanced_link: false,
        d8psk: false,
    }
}

pub fn demand_with_groups(groups: Option<Vec<GroupIdentityUplink>>) -> Record {
    Record::Demand(ULocationUpdateDemand {
        group_identity_location_demand: Some(location_demand(groups)),
        ..demand()
    })
}

pub fn location_demand(groups: Option<Vec<GroupIdentityUplink>>) -> GroupIdentityLocationDemand {
    GroupIdentityLocationDemand {
        group_identity_attach_detach_mode: 1,
        group_identity_uplink: groups,
    }
}

pub fn accept_with_groups(groups: Option<Vec<GroupIdentityDownlink>>) -> Record {
    Record::Accept(DLocationUpdateAccept {
        group_identity_location_accept: Some(location_accept(groups)),
        ..accept()
    })
}

pub fn location_accept(groups: Option<Vec<GroupIdentityDownlink>>) -> GroupIdentityLocationAccept {
    GroupIdentityLocationAccept { group_identity_accept_reject: 1, group_identity_downlink: groups }
}

pub fn attach_detach_with_groups(groups: Option<Vec<GroupIdentityDownlink>>) -> Record {
    Record::AttachDetach(DAttachDetachGroupIdentity {
        group_identity_downlink: groups,
        ..attach_detach()
    })
}

/// With element 9, type 3.
pub fn demand_with_generic(len: usize, data: u64) -> Record {
    Record::Demand(ULocationUpdateDemand {
        authentication_uplink: Some(type3(9, len, data)),
        ..demand()
    })
}

/// With element 2, type 4.
pub fn accept_with_generic(len: usize, elems: usize, data: u64) -> Record {
    let new_registered_area = Some(type4(2, len, elems, data));
    Record::Accept(DLocationUpdateAccept { new_registered_area, ..accept() })
}

pub fn type3(field_id: u64, len: usize, data: u64) -> Type3FieldGeneric {
    Type3FieldGeneric { field_id, len, data }
}

pub fn type4(field_id: u64, len: usize, elems: usize, data: u64) -> Type4FieldGeneric {
    Type4FieldGeneric { field_id, len, elems, data }
}

/// A group of usage 4.
pub fn uplink(gssi: u32, extension: Option<u32>) -> GroupIdentityUplink {
    GroupIdentityUplink {
        class_of_usage: Some(4),
        group_identity_detachment_uplink: None,
        gssi: Some(gssi),
        address_extension: extension,
        vgssi: None,
    }
}

/// Attached with lifetime 3 and usage 4.
pub fn downlink(gssi: u32, extension: Option<u32>, vgssi: Option<u32>) -> GroupIdentityDownlink {
    GroupIdentityDownlink {
        group_identity_attachment: Some(attachment(3, 4)),
        group_identity_detachment_uplink: None,
        gssi: Some(gssi),
        address_extension: extension,
        vgssi,
    }
}

pub fn attachment(lifetime: u8, class_of_usage: u8) -> GroupIdentityAttachment {
    GroupIdentityAttachment { group_identity_attachment_lifetime: lifetime, class_of_usage }
}
