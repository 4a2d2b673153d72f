//! The records, with the original's names and types of fields; enumerations are their numbers, and a
//! generic element has no `field_id`, which is always the slot's.

#[derive(Clone, Debug, PartialEq, Eq)]
pub enum Record {
    Demand(ULocationUpdateDemand),
    Accept(DLocationUpdateAccept),
    AttachDetach(DAttachDetachGroupIdentity),
}

#[derive(Clone, Debug, PartialEq, Eq)]
pub struct ULocationUpdateDemand {
    pub location_update_type: u8,
    pub request_to_append_la: bool,
    pub cipher_control: bool,
    pub ciphering_parameters: Option<u64>,
    pub class_of_ms: Option<ClassOfMs>,
    pub energy_saving_mode: Option<u8>,
    pub la_information: Option<u64>,
    pub ssi: Option<u64>,
    pub address_extension: Option<u64>,
    pub group_identity_location_demand: Option<GroupIdentityLocationDemand>,
    pub group_report_response: Option<Type3FieldGeneric>,
    pub authentication_uplink: Option<Type3FieldGeneric>,
    pub extended_capabilities: Option<Type3FieldGeneric>,
    pub proprietary: Option<Type3FieldGeneric>,
}

#[derive(Clone, Debug, PartialEq, Eq)]
pub struct DLocationUpdateAccept {
    pub location_update_accept_type: u8,
    pub ssi: Option<u64>,
    pub address_extension: Option<u64>,
    pub subscriber_class: Option<u64>,
    pub energy_saving_information: Option<EnergySavingInformation>,
    pub scch_information_and_distribution_on_18th_frame: Option<u64>,
    pub new_registered_area: Option<Type4FieldGeneric>,
    pub security_downlink: Option<Type3FieldGeneric>,
    pub group_identity_location_accept: Option<GroupIdentityLocationAccept>,
    pub default_group_attachment_lifetime: Option<Type3FieldGeneric>,
    pub authentication_downlink: Option<Type3FieldGeneric>,
    pub group_identity_security_related_information: Option<Type4FieldGeneric>,
    pub cell_type_control: Option<Type3FieldGeneric>,
    pub proprietary: Option<Type3FieldGeneric>,
}

#[derive(Clone, Debug, PartialEq, Eq)]
pub struct DAttachDetachGroupIdentity {
    pub group_identity_report: bool,
    pub group_identity_acknowledgement_request: bool,
    pub group_identity_attach_detach_mode: bool,
    pub proprietary: Option<Type3FieldGeneric>,
    pub group_report_response: Option<Type3FieldGeneric>,
    pub group_identity_downlink: Option<Vec<GroupIdentityDownlink>>,
    pub group_identity_security_related_information: Option<Type4FieldGeneric>,
}

#[derive(Clone, Debug, PartialEq, Eq)]
pub struct Type3FieldGeneric {
    /// The declared length.
    pub len: usize,
    /// The first 64 bits of the content, as a number.
    pub data: u64,
}

#[derive(Clone, Debug, PartialEq, Eq)]
pub struct Type4FieldGeneric {
    /// The declared length, less the 6 bits of the count.
    pub len: usize,
    pub elems: usize,
    /// The first 64 bits behind the count, as a number.
    pub data: u64,
}

#[derive(Clone, Debug, PartialEq, Eq)]
pub struct ClassOfMs {
    pub freq_simplex_duplex: bool,
    pub multislot_phase_mod: bool,
    pub concurrent_multicarrier: bool,
    pub voice: bool,
    pub e2e_encryption_not_supported: bool,
    pub circuit_mode_data: bool,
    pub tetra_packet_data: bool,
    pub fast_switching: bool,
    pub dck_encryption: bool,
    pub clch_needed: bool,
    pub concurrent_circuit_mode: bool,
    pub original_advanced_link: bool,
    pub minimum_mode: bool,
    pub carrier_specific_signalling: bool,
    pub authentication: bool,
    pub sck_encryption: bool,
    pub air_interface_version: u8,
    pub common_scch: bool,
    pub reserved_21: bool,
    pub mac_d_blck: bool,
    pub extended_advanced_link: bool,
    pub d8psk: bool,
}

#[derive(Clone, Debug, PartialEq, Eq)]
pub struct EnergySavingInformation {
    pub energy_saving_mode: u8,
    pub frame_number: Option<u8>,
    pub multiframe_number: Option<u8>,
}

#[derive(Clone, Debug, PartialEq, Eq)]
pub struct GroupIdentityLocationDemand {
    pub group_identity_attach_detach_mode: u8,
    pub group_identity_uplink: Option<Vec<GroupIdentityUplink>>,
}

#[derive(Clone, Debug, PartialEq, Eq)]
pub struct GroupIdentityLocationAccept {
    pub group_identity_accept_reject: u8,
    pub group_identity_downlink: Option<Vec<GroupIdentityDownlink>>,
}

#[derive(Clone, Debug, PartialEq, Eq)]
pub struct GroupIdentityUplink {
    pub class_of_usage: Option<u8>,
    pub group_identity_detachment_uplink: Option<u8>,
    pub gssi: Option<u32>,
    pub address_extension: Option<u32>,
    pub vgssi: Option<u32>,
}

#[derive(Clone, Debug, PartialEq, Eq)]
pub struct GroupIdentityDownlink {
    pub group_identity_attachment: Option<GroupIdentityAttachment>,
    pub group_identity_detachment_uplink: Option<u8>,
    pub gssi: Option<u32>,
    pub address_extension: Option<u32>,
    pub vgssi: Option<u32>,
}

#[derive(Clone, Debug, PartialEq, Eq)]
pub struct GroupIdentityAttachment {
    pub group_identity_attachment_lifetime: u8,
    pub class_of_usage: u8,
}
