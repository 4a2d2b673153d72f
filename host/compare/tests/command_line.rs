//! What the program mm_read is held to: beside each call of `crates/mm_read/stdin` that passes
//! question 1, `stdout` has the record that the original gives, or the number of its refusal.

use std::fmt::Display;
use std::fs;

use compare::judge::{self, Answer};
use compare::window::Window;
use oracle::is_window;
use tetra_mm::{
    ClassOfMs, DAttachDetachGroupIdentity, DLocationUpdateAccept, EnergySavingInformation,
    GroupIdentityDownlink, GroupIdentityLocationAccept, GroupIdentityLocationDemand,
    GroupIdentityUplink, Message, Record, Type3FieldGeneric, Type4FieldGeneric,
    ULocationUpdateDemand,
};

#[test]
fn answers_are_the_originals() {
    let file = |name| {
        let path = format!("{}/../../crates/mm_read/{name}", env!("CARGO_MANIFEST_DIR"));
        fs::read_to_string(path).expect("crates/mm_read holds the program's input and output")
    };
    let (stdin, stdout) = (file("stdin"), file("stdout"));
    let calls: Vec<&str> = stdin.lines().collect();
    let mut lines = stdout.lines().peekable();
    let mut count = 0;
    while let Some(head) = lines.next() {
        let mut shown = vec![];
        while let Some(line) = lines.next_if(|line| line.starts_with(' ')) {
            // What a number means is said in words of our own.
            if !line.starts_with("  meaning: ") {
                shown.push(line);
            }
        }
        if let Some(call) = Call::parse(head, &calls) {
            assert_eq!(shown, call.expected().0, "{head}");
            count += 1;
        }
    }
    assert_eq!(count, 40);
}

struct Call<'a> {
    message: &'a str,
    reading: &'a str,
    octets: Vec<u8>,
    first: usize,
    end: usize,
}

impl<'a> Call<'a> {
    /// `line N: MESSAGE, READING, window FIRST to END`, with the octets of the input's Nth line; none
    /// of a line that is no call.
    fn parse(head: &'a str, calls: &[&str]) -> Option<Self> {
        let (number, call) = head.strip_prefix("line ")?.split_once(": ")?;
        let (message, rest) = call.split_once(", ")?;
        let (reading, window) = rest.split_once(", window ")?;
        let (first, end) = window.split_once(" to ")?;
        let line = calls[number.parse::<usize>().ok()? - 1];
        let digits = line.split_whitespace().nth(2)?.as_bytes();
        let octet = |pair: &[u8]| u8::from_str_radix(str::from_utf8(pair).ok()?, 16).ok();
        let octets = digits.chunks(2).map(octet).collect::<Option<_>>()?;
        let (first, end) = (first.parse().ok()?, end.parse().ok()?);
        Some(Self { message, reading, octets, first, end })
    }

    fn answer(&self) -> Answer {
        let message = match self.message {
            "demand" => Message::Demand,
            "accept" => Message::Accept,
            "attach" => Message::AttachDetach,
            _ => return Err(1),
        };
        if !is_window(self.octets.len(), self.first, self.end) {
            return Err(1);
        }
        let window = Window { octets: self.octets.clone(), first: self.first, end: self.end };
        match self.reading {
            "strict" => judge::strict(message, &window).answer,
            "skipping" => judge::skipping(message, &window).0.answer,
            other => panic!("no reading: {other}"),
        }
    }

    fn expected(&self) -> Lines {
        let mut lines = Lines(vec![]);
        match self.answer() {
            Ok(read) => {
                match &read.record {
                    Record::Demand(record) => lines.demand(record),
                    Record::Accept(record) => lines.accept(record),
                    Record::AttachDetach(record) => lines.attach_detach(record),
                }
                lines.field(2, "bits consumed", read.consumed);
                lines.field(2, "elements skipped", read.skipped);
            }
            Err(number) => {
                lines.field(2, "refusal", number);
                lines.field(2, "place", format!("bit {}", self.first));
            }
        }
        lines
    }
}

/// `name: value`, one a line; what is absent is left out.
struct Lines(Vec<String>);

impl Lines {
    fn field(&mut self, indent: usize, name: &str, value: impl Display) {
        self.0.push(format!("{:indent$}{name}: {value}", ""));
    }

    fn optional(&mut self, indent: usize, name: &str, value: Option<impl Display>) {
        if let Some(value) = value {
            self.field(indent, name, value);
        }
    }

    fn structure<T>(
        &mut self,
        indent: usize,
        name: &str,
        value: &Option<T>,
        fields: impl Fn(&mut Self, &T),
    ) {
        if let Some(value) = value {
            self.field(indent, name, "present");
            fields(self, value);
        }
    }

    fn data(&mut self, len: usize, data: u64) {
        match len {
            0..=64 => self.field(
                4,
                "data",
                format!("0x{data:0digits$x}", digits = len.div_ceil(4).max(1)),
            ),
            _ => self.field(4, "first 64 bits of the data", format!("0x{data:016x}")),
        }
    }

    fn type3(&mut self, name: &str, element: &Option<Type3FieldGeneric>) {
        self.structure(2, name, element, |lines, element| {
            lines.field(4, "length in bits", element.len);
            lines.data(element.len, element.data);
        });
    }

    fn type4(&mut self, name: &str, element: &Option<Type4FieldGeneric>) {
        self.structure(2, name, element, |lines, element| {
            lines.field(4, "entries", element.elems);
            lines.field(4, "length in bits behind the number of entries", element.len);
            lines.data(element.len, element.data);
        });
    }

    fn list<G>(
        &mut self,
        indent: usize,
        name: &str,
        groups: &Option<Vec<G>>,
        is_attached: impl Fn(&G) -> bool,
        fields: impl Fn(&mut Self, usize, &G),
    ) {
        self.structure(indent, name, groups, |lines, groups| {
            lines.field(indent + 2, "groups", groups.len());
            for (group, number) in groups.iter().zip(1..) {
                let kind = if is_attached(group) { "attachment" } else { "detachment" };
                lines.field(indent + 2, &format!("group {number}"), kind);
                fields(lines, indent + 4, group);
            }
        });
    }

    fn address(
        &mut self,
        indent: usize,
        gssi: Option<u32>,
        extension: Option<u32>,
        vgssi: Option<u32>,
    ) {
        self.optional(indent, "GSSI", gssi);
        self.optional(indent, "address extension", extension);
        self.optional(indent, "VGSSI", vgssi);
    }

    fn uplink(&mut self, indent: usize, group: &GroupIdentityUplink) {
        self.optional(indent, "class of usage", group.class_of_usage);
        self.optional(
            indent,
            "group identity detachment uplink",
            group.group_identity_detachment_uplink,
        );
        self.address(indent, group.gssi, group.address_extension, group.vgssi);
    }

    fn downlink(&mut self, indent: usize, group: &GroupIdentityDownlink) {
        if let Some(attachment) = &group.group_identity_attachment {
            let lifetime = attachment.group_identity_attachment_lifetime;
            self.field(indent, "group identity attachment lifetime", lifetime);
            self.field(indent, "class of usage", attachment.class_of_usage);
        }
        self.optional(
            indent,
            "group identity detachment uplink",
            group.group_identity_detachment_uplink,
        );
        self.address(indent, group.gssi, group.address_extension, group.vgssi);
    }

    fn downlinks(&mut self, indent: usize, groups: &Option<Vec<GroupIdentityDownlink>>) {
        let is_attached = |group: &GroupIdentityDownlink| group.group_identity_attachment.is_some();
        self.list(indent, "group identity downlink", groups, is_attached, Self::downlink);
    }

    fn class_of_ms(&mut self, class: &ClassOfMs) {
        for (name, value) in [
            ("frequency simplex/duplex", class.freq_simplex_duplex.into()),
            ("multislot phase modulation", class.multislot_phase_mod.into()),
            ("concurrent multicarrier", class.concurrent_multicarrier.into()),
            ("voice", class.voice.into()),
            ("end-to-end encryption not supported", class.e2e_encryption_not_supported.into()),
            ("circuit mode data", class.circuit_mode_data.into()),
            ("TETRA packet data", class.tetra_packet_data.into()),
            ("fast switching", class.fast_switching.into()),
            ("DCK encryption", class.dck_encryption.into()),
            ("CLCH needed", class.clch_needed.into()),
            ("concurrent circuit mode", class.concurrent_circuit_mode.into()),
            ("original advanced link", class.original_advanced_link.into()),
            ("minimum mode", class.minimum_mode.into()),
            ("carrier specific signalling", class.carrier_specific_signalling.into()),
            ("authentication", class.authentication.into()),
            ("SCK encryption", class.sck_encryption.into()),
            ("air interface version", class.air_interface_version),
            ("common SCCH", class.common_scch.into()),
            ("reserved 21", class.reserved_21.into()),
            ("MAC-D-BLCK", class.mac_d_blck.into()),
            ("extended advanced link", class.extended_advanced_link.into()),
            ("D8PSK", class.d8psk.into()),
        ] {
            self.field(4, name, value);
        }
    }

    fn saving(&mut self, saving: &EnergySavingInformation) {
        self.field(4, "energy saving mode", saving.energy_saving_mode);
        self.optional(4, "frame number", saving.frame_number);
        self.optional(4, "multiframe number", saving.multiframe_number);
    }

    fn location_demand(&mut self, location: &GroupIdentityLocationDemand) {
        let mode = location.group_identity_attach_detach_mode;
        self.field(4, "group identity attach/detach mode", mode);
        let groups = &location.group_identity_uplink;
        let is_attached = |group: &GroupIdentityUplink| group.class_of_usage.is_some();
        self.list(4, "group identity uplink", groups, is_attached, Self::uplink);
    }

    fn location_accept(&mut self, location: &GroupIdentityLocationAccept) {
        let answer = location.group_identity_accept_reject;
        self.field(4, "group identity accept/reject", answer);
        self.downlinks(4, &location.group_identity_downlink);
    }

    fn demand(&mut self, record: &ULocationUpdateDemand) {
        self.field(2, "location update type", record.location_update_type);
        self.field(2, "request to append LA", u8::from(record.request_to_append_la));
        self.field(2, "cipher control", u8::from(record.cipher_control));
        self.optional(2, "ciphering parameters", record.ciphering_parameters);
        self.structure(2, "class of MS", &record.class_of_ms, Self::class_of_ms);
        self.optional(2, "energy saving mode", record.energy_saving_mode);
        self.optional(2, "LA information", record.la_information);
        self.optional(2, "SSI", record.ssi);
        self.optional(2, "address extension", record.address_extension);
        let location = &record.group_identity_location_demand;
        self.structure(2, "group identity location demand", location, Self::location_demand);
        self.type3("group report response", &record.group_report_response);
        self.type3("authentication uplink", &record.authentication_uplink);
        self.type3("extended capabilities", &record.extended_capabilities);
        self.type3("proprietary", &record.proprietary);
    }

    fn accept(&mut self, record: &DLocationUpdateAccept) {
        self.field(2, "location update accept type", record.location_update_accept_type);
        self.optional(2, "SSI", record.ssi);
        self.optional(2, "address extension", record.address_extension);
        self.optional(2, "subscriber class", record.subscriber_class);
        let saving = &record.energy_saving_information;
        self.structure(2, "energy saving information", saving, Self::saving);
        self.optional(
            2,
            "SCCH information and distribution on 18th frame",
            record.scch_information_and_distribution_on_18th_frame,
        );
        self.type4("new registered area", &record.new_registered_area);
        self.type3("security downlink", &record.security_downlink);
        let location = &record.group_identity_location_accept;
        self.structure(2, "group identity location accept", location, Self::location_accept);
        let lifetime = &record.default_group_attachment_lifetime;
        self.type3("default group attachment lifetime", lifetime);
        self.type3("authentication downlink", &record.authentication_downlink);
        let security = &record.group_identity_security_related_information;
        self.type4("group identity security related information", security);
        self.type3("cell type control", &record.cell_type_control);
        self.type3("proprietary", &record.proprietary);
    }

    fn attach_detach(&mut self, record: &DAttachDetachGroupIdentity) {
        self.field(2, "group identity report", u8::from(record.group_identity_report));
        let request = record.group_identity_acknowledgement_request;
        self.field(2, "group identity acknowledgement request", u8::from(request));
        let mode = record.group_identity_attach_detach_mode;
        self.field(2, "group identity attach/detach mode", u8::from(mode));
        self.type3("proprietary", &record.proprietary);
        self.type3("group report response", &record.group_report_response);
        self.downlinks(2, &record.group_identity_downlink);
        let security = &record.group_identity_security_related_information;
        self.type4("group identity security related information", security);
    }
}
