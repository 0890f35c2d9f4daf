//! What a pool tells of a file that has maps, streams, reserved numbers, options and comments.

mod tour;

use protolink::{DescriptorPool, Kind, MessageDescriptor};
use tour::TOUR;

fn trip() -> MessageDescriptor {
    let pool = DescriptorPool::decode(TOUR).unwrap();
    pool.get_message_by_name("tour.Trip").unwrap()
}

#[test]
fn maps_are_told_from_lists() {
    let trip = trip();
    let stops = trip.get_field_by_name("stops").unwrap();
    assert!(stops.is_map() && !stops.is_list());
    let entry = stops.kind().as_message().unwrap().clone();
    assert!(entry.is_map_entry() && !trip.is_map_entry());
    assert_eq!(trip.child_messages().next(), Some(entry.clone()));
    let (key, value) = (entry.map_entry_key_field(), entry.map_entry_value_field());
    assert_eq!((key.name(), key.kind()), ("key", Kind::String));
    assert_eq!(value.kind().to_string(), "tour.Stop");
    let miles = trip.get_field_by_name("miles").unwrap();
    assert!(miles.is_list() && !miles.is_map() && miles.is_packed());
}

#[test]
fn optional_fields_of_proto3_have_a_oneof_of_their_own() {
    let trip = trip();
    let days = trip.get_field_by_name("days").unwrap();
    let oneof = days.containing_oneof().unwrap();
    assert!(oneof.is_synthetic() && days.is_proto3_optional() && days.supports_presence());
    assert!(!trip.get_field_by_name("done").unwrap().is_proto3_optional());
}

#[test]
fn methods_tell_what_streams() {
    let pool = DescriptorPool::decode(TOUR).unwrap();
    let trips = pool.get_service_by_name("tour.Trips").unwrap();
    let streams = |name| {
        let method = trips.get_method_by_name(name).unwrap();
        (method.is_client_streaming(), method.is_server_streaming())
    };
    assert_eq!(streams("Get"), (false, false));
    assert_eq!(streams("Watch"), (false, true));
    assert_eq!(streams("Tell"), (true, false));
    assert_eq!(trips.get_method_by_name("Put"), None);
}

#[test]
fn what_is_reserved_is_told() {
    let trip = trip();
    assert_eq!(trip.reserved_ranges().collect::<Vec<_>>(), [7..8, 10..13]);
    assert_eq!(trip.reserved_names().collect::<Vec<_>>(), ["old", "older"]);
    assert_eq!(trip.extension_ranges().len(), 0);
    let state = trip.parent_pool().get_enum_by_name("tour.State").unwrap();
    assert_eq!(
        state.reserved_ranges().collect::<Vec<_>>(),
        [3..=5, -1..=-1]
    );
    assert_eq!(state.reserved_names().collect::<Vec<_>>(), ["GONE"]);
    assert!(!state.is_closed());
}

#[test]
fn options_are_bytes_and_what_is_deprecated_is_told() {
    let trip = trip();
    let pool = trip.parent_pool();
    assert_eq!(trip.options(), [0x18, 1]);
    assert!(trip.is_deprecated());
    let stop = pool.get_message_by_name("tour.Stop").unwrap();
    assert!(stop.options().is_empty() && !stop.is_deprecated());
    assert!(trip.get_field_by_name("done").unwrap().is_deprecated());
    let state = pool.get_enum_by_name("tour.State").unwrap();
    assert!(state.get_value_by_name("OPEN").unwrap().is_deprecated() && !state.is_deprecated());
    let trips = pool.get_service_by_name("tour.Trips").unwrap();
    assert!(trips.get_method_by_name("Tell").unwrap().is_deprecated() && !trips.is_deprecated());
    let file = trip.parent_file();
    assert!(file.options().is_empty() && !file.is_deprecated());
}

#[test]
fn records_are_bytes() {
    let trip = trip();
    let file = trip.parent_file().encode_to_vec();
    let record = trip.encode_to_vec();
    assert!(record.starts_with(b"\x0a\x04Trip"));
    assert!(file.windows(record.len()).any(|part| part == record));
    let entry = trip.child_messages().next().unwrap().encode_to_vec();
    assert!(entry.starts_with(b"\x0a\x0aStopsEntry"));
    let done = trip.get_field_by_name("done").unwrap().encode_to_vec();
    assert!(done.starts_with(b"\x0a\x04done\x18\x04"));
    let pool = trip.parent_pool();
    let trips = pool.get_service_by_name("tour.Trips").unwrap();
    let watch = trips.get_method_by_name("Watch").unwrap().encode_to_vec();
    assert!(watch.starts_with(b"\x0a\x05Watch"));
    let state = pool.get_enum_by_name("tour.State").unwrap();
    let open = state.get_value_by_name("OPEN").unwrap().encode_to_vec();
    assert!(open.starts_with(b"\x0a\x04OPEN\x10\x01"));
}

#[test]
fn places_and_comments_are_told() {
    let trip = trip();
    let location = trip.location().unwrap();
    assert_eq!(
        (location.path, location.span),
        (vec![4, 0], vec![3, 0, 11, 1])
    );
    assert_eq!(location.leading_comments.as_deref(), Some(" A trip.\n"));
    assert_eq!(location.trailing_comments.as_deref(), Some(" Behind it.\n"));
    assert!(location.leading_detached_comments.is_empty());
    let pool = trip.parent_pool();
    let stop = pool
        .get_message_by_name("tour.Stop")
        .unwrap()
        .location()
        .unwrap();
    assert_eq!((stop.leading_comments, stop.span), (None, vec![15, 0, 15]));
    assert_eq!(stop.leading_detached_comments, [" On its own.\n"]);
    assert_eq!(trip.get_field_by_name("done").unwrap().location(), None);
}
