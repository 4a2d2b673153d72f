//! What the program replay is run on and held to is what the original answers.

use std::collections::BTreeSet;
use std::fs;

use compare::record::{REWRITING, rewriting_line};
use tetra_mm::rewrite_into;

#[test]
fn recorded() {
    let file = |name| {
        let path = format!("{}/../../crates/replay/{name}", env!("CARGO_MANIFEST_DIR"));
        fs::read(path).expect("crates/replay holds what `host/run record` writes")
    };
    let recorded = compare::record::recorded();
    assert!(recorded.count >= 2000);
    assert!(file("stdin") == recorded.stdin, "crates/replay/stdin");
    assert!(file("stdout") == recorded.stdout.as_bytes(), "crates/replay/stdout");

    let refusals: BTreeSet<&str> =
        recorded.stdout.lines().filter_map(|line| line.split(' ').next()).collect();
    assert_eq!(
        refusals,
        BTreeSet::from(["0", "1", "2", "3", "4", "5", "6", "7", "8", "11", "14", "16"])
    );
    for reading in ["0", "1"] {
        for (message, things) in
            [("Demand", DEMAND), ("Accept", ACCEPT), ("AttachDetach", ATTACH_DETACH)]
        {
            for thing in things.split_whitespace().chain(["2", "3", "5", "6", "7"]) {
                let what = format!("{message} {reading} {thing}");
                assert!(recorded.shown.contains(&what), "{what}");
            }
        }
        assert!(recorded.shown.contains(&format!("Demand {reading} 4")));
    }
}

/// The rewritings, taken from the sample's octets as the program replay takes them and made by the
/// library, give the lines that are recorded.
#[test]
fn rewritings() {
    let recorded = compare::record::recorded();
    let mut stdin = &recorded.stdin[..];
    let mut take = |count: usize| stdin.split_off(..count);
    let pair = |octets: &[u8]| u64::from(octets[0]) * 256 + u64::from(octets[1]);
    let mut refusals = BTreeSet::new();
    let mut count = 0;
    for line in recorded.stdout.split_inclusive('\n') {
        let head = take(8).expect("a head for each line");
        let (message, first, end) = (head[0].into(), pair(&head[2..]), pair(&head[4..]));
        let octets_len = pair(&head[6..]) as usize;
        if head[1] != REWRITING {
            take(octets_len).expect("the octets of a reading");
            continue;
        }
        let output = take(7).expect("an output for each rewriting");
        let octets = take(octets_len).expect("the octets of a rewriting");
        let mut out = vec![output[6]; pair(&output[4..]) as usize];
        let (out_first, out_end) = (pair(output), pair(&output[2..]));
        let result = rewrite_into(message, octets, first, end, &mut out, out_first, out_end);
        assert_eq!(rewriting_line(result, &out), line, "{message} {octets:02x?} {first}..{end}");
        refusals.insert(result % 64);
        count += 1;
    }
    assert!(take(1).is_none(), "octets behind the last line");
    assert!(count >= 1000, "{count}");
    assert_eq!(refusals, BTreeSet::from([0, 1, 2, 3, 4, 5, 6, 7, 8, 11, 14, 16]));

    for (message, things) in
        [("Demand", DEMAND), ("Accept", ACCEPT), ("AttachDetach", ATTACH_DETACH)]
    {
        let written = things.split_whitespace().filter(|thing| !TYPE4.contains(thing));
        for thing in written.chain(["1", "2", "3", "5", "6", "7", "8", "16"]) {
            let what = format!("{message} rewriting {thing}");
            assert!(recorded.shown.contains(&what), "{what}");
        }
    }
    for what in ["Demand rewriting 4", "Demand rewriting 11", "Accept rewriting 14"] {
        assert!(recorded.shown.contains(what), "{what}");
    }
    assert!(recorded.shown.contains("AttachDetach rewriting 14"));
}

/// These can't be written.
const TYPE4: [&str; 2] = ["new_registered_area", "group_identity_security_related_information"];

const DEMAND: &str = "
    ciphering_parameters class_of_ms energy_saving_mode la_information ssi address_extension
    group_identity_location_demand group_identity_uplink class_of_usage
    group_identity_detachment_uplink gssi vgssi group_report_response authentication_uplink
    extended_capabilities proprietary";

const ACCEPT: &str = "
    ssi address_extension subscriber_class energy_saving_information frame_number multiframe_number
    scch_information_and_distribution_on_18th_frame new_registered_area security_downlink
    group_identity_location_accept group_identity_downlink group_identity_attachment
    group_identity_detachment_uplink gssi vgssi default_group_attachment_lifetime
    authentication_downlink group_identity_security_related_information cell_type_control
    proprietary";

const ATTACH_DETACH: &str = "
    proprietary group_report_response group_identity_downlink group_identity_attachment
    group_identity_detachment_uplink gssi address_extension vgssi
    group_identity_security_related_information";
