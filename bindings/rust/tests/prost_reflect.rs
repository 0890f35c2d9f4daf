//! Lines as users of `prost-reflect` have them, which compile here as they stand, but for the name
//! of the crate.

mod tour;

use protolink::{
    Cardinality, DescriptorError, DescriptorPool, EnumDescriptor, EnumValueDescriptor,
    ExtensionDescriptor, FieldDescriptor, FileDescriptor, Kind, MessageDescriptor,
    MethodDescriptor, OneofDescriptor, ServiceDescriptor, Syntax, Value,
};
use std::collections::{BTreeMap, HashMap};
use std::sync::{Arc, Mutex};
use std::thread;

const SHOP: &str = "\
file shop/order.proto
package shop.v1
import shop/base.proto
message Order
field id 1 required int64 ~ ~
json id
field lines 2 repeated message .shop.v1.Order.Line ~
json lines
field status 3 optional enum .shop.v1.Status ~
default PAID
json status
field note 4 optional string ~ 0
default none
json note
field raw_sizes 5 repeated int32 ~ ~
json rawSizes
oneof choice
extensions 100 200
message Line
field count 1 optional int32 ~ ~
default -7
json amount
end
enum Size
value SMALL 0
end
end
extend weight 100 optional double ~ .shop.v1.Order
default 1.5
service Shop
method Get .shop.v1.Order .shop.v1.Order.Line
end
end
file shop/base.proto
package shop.v1
syntax proto2
enum Status
value UNKNOWN 0
value PAID 5
end
end
";

fn bytes() -> Vec<u8> {
    let mut pool = DescriptorPool::new();
    pool.add_script(SHOP).expect("the script");
    pool.encode_to_vec()
}

/// A gateway keeps its pool, and a message of it, without a lifetime.
struct Gateway {
    pool: DescriptorPool,
    request: MessageDescriptor,
    methods: HashMap<String, MethodDescriptor>,
}

static POOL: Mutex<Option<DescriptorPool>> = Mutex::new(None);

#[test]
fn pools() -> Result<(), DescriptorError> {
    let bytes = bytes();
    let mut pool = DescriptorPool::decode(b"".as_ref())?;
    pool.decode_file_descriptor_set(bytes.as_slice())?;
    let file: FileDescriptor = pool.get_file_by_name("shop/order.proto").expect("the file");
    pool.decode_file_descriptor_proto(file.encode_to_vec().as_slice())?;
    assert_eq!(pool.files().len(), 2);
    assert_eq!(pool.services().len(), 1);
    assert_eq!(pool.all_messages().count(), 2);
    assert_eq!(pool.all_enums().count(), 2);
    assert_eq!(pool.all_extensions().count(), 1);
    let order: MessageDescriptor = pool.get_message_by_name("shop.v1.Order").expect("Order");
    let status: Option<EnumDescriptor> = pool.get_enum_by_name("shop.v1.Status");
    let shop: Option<ServiceDescriptor> = pool.get_service_by_name("shop.v1.Shop");
    let weight: Option<ExtensionDescriptor> = pool.get_extension_by_name("shop.v1.weight");
    assert!(status.is_some() && shop.is_some() && weight.is_some());
    assert_eq!(order.parent_pool(), &pool);
    assert_eq!(pool.clone(), pool);
    assert!(DescriptorPool::default()
        .get_message_by_name("shop.v1.Order")
        .is_none());
    let mut buf = Vec::new();
    pool.encode(&mut buf)?;
    assert_eq!(buf, pool.encode_to_vec());
    buf.clear();
    file.encode(&mut buf)?;
    assert_eq!(buf, file.encode_to_vec());
    let mut copy = DescriptorPool::new();
    copy.add_file_descriptor_protos(pool.file_descriptor_protos())?;
    assert_eq!(copy.files().len(), pool.files().len());
    let copy = DescriptorPool::decode(pool.encode_to_vec().as_slice())?;
    assert_eq!(copy.files().len(), pool.files().len());
    *POOL.lock().expect("the lock") = Some(copy);
    Ok(())
}

#[test]
fn files() {
    let pool = DescriptorPool::decode(&bytes()[..]).unwrap();
    let order = pool
        .files()
        .find(|file| file.name().ends_with("order.proto"))
        .unwrap();
    let package: &str = order.package_name();
    assert_eq!((order.name(), package), ("shop/order.proto", "shop.v1"));
    assert!(matches!(order.syntax(), Syntax::Proto2));
    assert_eq!(
        order.dependencies().next().unwrap().name(),
        "shop/base.proto"
    );
    let messages: Vec<String> = order.messages().map(|m| m.full_name().to_owned()).collect();
    assert_eq!(messages, ["shop.v1.Order"]);
    assert!(order.enums().next().is_none());
    assert_eq!(order.extensions().next().unwrap().number(), 100);
    assert_eq!(order.services().next().unwrap().full_name(), "shop.v1.Shop");
    assert_eq!(order.parent_pool(), &pool);
}

/// A column of a table, as one who prints messages makes it.
fn column(field: &FieldDescriptor) -> (u32, &str, String) {
    let kind = match field.kind() {
        Kind::Message(message) => message.full_name().to_string(),
        Kind::Enum(enumeration) => enumeration.full_name().to_string(),
        Kind::Int64 => "long".to_string(),
        other => format!("{other}"),
    };
    (field.number(), field.name(), kind)
}

#[test]
fn messages_and_fields() {
    let pool = DescriptorPool::decode(&bytes()[..]).unwrap();
    let order = pool.get_message_by_name("shop.v1.Order").unwrap();
    assert_eq!(
        (order.name(), order.full_name()),
        ("Order", "shop.v1.Order")
    );
    assert_eq!(
        (order.package_name(), order.path()),
        ("shop.v1", &[4, 0][..])
    );
    assert!(order.parent_message().is_none());
    assert_eq!(order.parent_file().name(), "shop/order.proto");
    let line: MessageDescriptor = order.child_messages().next().unwrap();
    assert_eq!(line.parent_message().as_ref(), Some(&order));
    assert_eq!(order.child_enums().next().unwrap().name(), "Size");
    assert_eq!(order.child_extensions().len(), 0);
    let by_number: BTreeMap<u32, FieldDescriptor> = order
        .fields()
        .map(|field| (field.number(), field))
        .collect();
    assert_eq!(by_number[&2].name(), "lines");
    assert_eq!(column(&by_number[&1]), (1, "id", "long".to_string()));
    assert_eq!(column(&by_number[&4]).2, "string");
    let id: FieldDescriptor = order.get_field(1).unwrap();
    assert_eq!(order.get_field_by_name("id").as_ref(), Some(&id));
    let sizes = order.get_field_by_json_name("rawSizes").unwrap();
    assert_eq!(
        (sizes.json_name(), sizes.full_name()),
        ("rawSizes", "shop.v1.Order.raw_sizes")
    );
    assert!(!sizes.is_packed() && !sizes.is_group() && !sizes.is_required());
    assert!(sizes.kind().is_packable() && !sizes.supports_presence());
    assert_eq!(id.cardinality(), Cardinality::Required);
    assert!(order
        .fields()
        .any(|field| field.cardinality() == Cardinality::Repeated));
    assert_eq!(id.parent_message(), &order);
    assert_eq!(id.parent_file(), order.parent_file());
    let status = order.get_field_by_name("status").unwrap();
    assert_eq!(status.default_value(), Value::EnumNumber(5));
    assert_eq!(
        order.get_field(4).unwrap().default_value().as_str(),
        Some("none")
    );
    assert_eq!(status.kind().as_enum().unwrap().name(), "Status");
    let lines = order.get_field_by_name("lines").unwrap();
    assert_eq!(lines.kind().as_message(), Some(&line));
    assert_eq!(lines.default_value().as_list().map(<[_]>::len), Some(0));
}

/// The type that code in Rust has for a field. Each kind has an arm, and there is none for others.
fn rust_type(field: &FieldDescriptor) -> String {
    let one = match field.kind() {
        Kind::Double => "f64".to_string(),
        Kind::Float => "f32".to_string(),
        Kind::Int32 | Kind::Sint32 | Kind::Sfixed32 => "i32".to_string(),
        Kind::Int64 | Kind::Sint64 | Kind::Sfixed64 => "i64".to_string(),
        Kind::Uint32 | Kind::Fixed32 => "u32".to_string(),
        Kind::Uint64 | Kind::Fixed64 => "u64".to_string(),
        Kind::Bool => "bool".to_string(),
        Kind::String => "String".to_string(),
        Kind::Bytes => "Vec<u8>".to_string(),
        Kind::Message(message) => message.name().to_string(),
        Kind::Enum(enumeration) => enumeration.name().to_string(),
    };
    match field.cardinality() {
        Cardinality::Optional => format!("Option<{one}>"),
        Cardinality::Required => one,
        Cardinality::Repeated => format!("Vec<{one}>"),
    }
}

/// A default as code in Rust has it.
fn literal(value: &Value) -> String {
    match value {
        Value::Bool(value) => value.to_string(),
        Value::I32(value) | Value::EnumNumber(value) => value.to_string(),
        Value::I64(value) => value.to_string(),
        Value::U32(value) => value.to_string(),
        Value::U64(value) => value.to_string(),
        Value::F32(value) => value.to_string(),
        Value::F64(value) => value.to_string(),
        Value::String(value) => format!("{value:?}"),
        Value::Bytes(value) => format!("{value:?}"),
        Value::Message(_) => "None".to_string(),
        Value::List(_) => "[]".to_string(),
    }
}

#[test]
fn a_generator_matches_on_all_there_is() {
    let pool = DescriptorPool::decode(&bytes()[..]).unwrap();
    let order = pool.get_message_by_name("shop.v1.Order").unwrap();
    let types: Vec<String> = order.fields().map(|field| rust_type(&field)).collect();
    let wanted = [
        "i64",
        "Vec<Line>",
        "Option<Status>",
        "Option<String>",
        "Vec<i32>",
    ];
    assert_eq!(types, wanted);
    let defaults = order.fields().map(|field| literal(&field.default_value()));
    assert!(defaults.eq(["0", "[]", "5", "\"none\"", "[]"]));
    let edition = match order.parent_file().syntax() {
        Syntax::Proto2 => 2,
        Syntax::Proto3 => 3,
    };
    assert_eq!(edition, 2);
}

/// The set of a file `a.proto` with a message `M`, whose field has the type `.None`, which stands in
/// line 7 and column 8 of the source, both from 0.
const FAULTY: &[u8] = b"\
\n\x30\n\x07a.proto\"\x15\n\x01M\x12\x10\n\x01f\x18\x01 \x01(\x0b2\x05.None\
J\x0e\n\x0c\n\x05\x04\0\x02\0\x06\x12\x03\x07\x08\x09";

#[test]
fn errors() {
    let err: DescriptorError = DescriptorPool::decode(FAULTY).unwrap_err();
    let path: Option<&[i32]> = err.path();
    assert_eq!(
        (err.file(), path),
        (Some("a.proto"), Some(&[4, 0, 2, 0, 6][..]))
    );
    if let (Some(line), Some(column)) = (err.line(), err.column()) {
        let place = format!("{}:{}:{}", err.file().unwrap(), line + 1, column + 1);
        assert_eq!(place, "a.proto:8:9");
    } else {
        panic!("{err}");
    }
    assert!(format!("{err:?}").starts_with("a.proto:8:9: "));
    let source: Box<dyn std::error::Error> = err.into();
    assert!(source.to_string().contains(".None"));
}

#[test]
fn oneofs_and_extensions() {
    let pool = DescriptorPool::decode(&bytes()[..]).unwrap();
    let order = pool.get_message_by_name("shop.v1.Order").unwrap();
    let choice: OneofDescriptor = order.oneofs().next().unwrap();
    assert_eq!(
        (choice.name(), choice.full_name()),
        ("choice", "shop.v1.Order.choice")
    );
    assert_eq!(choice.parent_message(), &order);
    let note: FieldDescriptor = choice.fields().next().unwrap();
    assert_eq!(note.containing_oneof().as_ref(), Some(&choice));
    let weight: ExtensionDescriptor = order.get_extension(100).unwrap();
    assert_eq!(weight.containing_message(), order);
    assert_eq!(
        (weight.name(), weight.json_name()),
        ("weight", "[shop.v1.weight]")
    );
    assert_eq!(
        (weight.kind(), weight.default_value()),
        (Kind::Double, Value::F64(1.5))
    );
    assert_eq!(order.extensions().next(), Some(weight.clone()));
    assert_eq!(
        order.get_extension_by_full_name("shop.v1.weight"),
        Some(weight.clone())
    );
    assert_eq!(
        order.get_extension_by_json_name("[shop.v1.weight]"),
        Some(weight)
    );
}

#[test]
fn enums_and_services() {
    let pool = DescriptorPool::decode(&bytes()[..]).unwrap();
    let status = pool.get_enum_by_name("shop.v1.Status").unwrap();
    let paid: EnumValueDescriptor = status.get_value(5).unwrap();
    assert_eq!(status.get_value_by_name("PAID").as_ref(), Some(&paid));
    assert_eq!(
        (paid.name(), paid.full_name(), paid.number()),
        ("PAID", "shop.v1.PAID", 5)
    );
    assert_eq!(
        (paid.parent_enum(), status.default_value().number()),
        (&status, 0)
    );
    let names: HashMap<i32, String> = status
        .values()
        .map(|value| (value.number(), value.name().to_string()))
        .collect();
    assert_eq!(names[&5], "PAID");
    let shop = pool.get_service_by_name("shop.v1.Shop").unwrap();
    let get: MethodDescriptor = shop
        .methods()
        .find(|method| method.name() == "Get")
        .unwrap();
    assert_eq!(get.parent_service().full_name(), "shop.v1.Shop");
    let path = format!("/{}/{}", get.parent_service().full_name(), get.name());
    assert_eq!(path, "/shop.v1.Shop/Get");
    let (input, output): (MessageDescriptor, MessageDescriptor) = (get.input(), get.output());
    assert_eq!((input.name(), output.name()), ("Order", "Line"));
}

#[test]
fn what_is_kept_and_shared() {
    let pool = DescriptorPool::decode(&bytes()[..]).unwrap();
    let methods = pool
        .services()
        .flat_map(|service| service.methods().collect::<Vec<_>>());
    let gateway = Arc::new(Gateway {
        request: pool.get_message_by_name("shop.v1.Order").unwrap(),
        methods: methods
            .map(|method| (method.full_name().to_string(), method))
            .collect(),
        pool,
    });
    let threads = (0..4).map(|_| {
        let gateway = Arc::clone(&gateway);
        thread::spawn(move || gateway.methods["shop.v1.Shop.Get"].input() == gateway.request)
    });
    let threads: Vec<_> = threads.collect();
    assert!(threads.into_iter().all(|thread| thread.join().unwrap()));
    assert_eq!(gateway.pool.services().len(), 1);
}

#[test]
fn maps_streams_and_what_is_reserved() {
    let pool = DescriptorPool::decode(tour::TOUR).unwrap();
    let trip = pool.get_message_by_name("tour.Trip").unwrap();
    let map = trip.fields().find(FieldDescriptor::is_map).unwrap();
    let entry = map.kind().as_message().unwrap().clone();
    assert!(entry.is_map_entry() && !map.is_list());
    assert_eq!(entry.map_entry_key_field().kind(), Kind::String);
    assert_eq!(
        entry
            .map_entry_value_field()
            .kind()
            .as_message()
            .unwrap()
            .name(),
        "Stop"
    );
    assert!(trip
        .fields()
        .filter(|field| field.is_list())
        .all(|field| field.is_packed()));
    assert!(trip.oneofs().any(|oneof| oneof.is_synthetic()));
    assert!(trip.reserved_ranges().any(|range| range.contains(&11)));
    assert!(trip.reserved_names().any(|name| name == "older"));
    assert!(trip.extension_ranges().next().is_none());
    let state = pool.get_enum_by_name("tour.State").unwrap();
    assert!(state.reserved_ranges().any(|range| range.contains(&5)));
    assert!(state.reserved_names().eq(["GONE"]));
    let trips = pool.get_service_by_name("tour.Trips").unwrap();
    let watch = trips
        .methods()
        .find(|method| method.is_server_streaming())
        .unwrap();
    assert_eq!(
        (watch.name(), watch.is_client_streaming()),
        ("Watch", false)
    );
}
