//! The linked files of a pool, decoded by `prost-types`, have the messages, fields, numbers and
//! types that the pool tells by name.
//!
//! `PROTOLINK_SETS` may name a folder of descriptor sets, each of which is tried too.

use prost::bytes::BytesMut;
use prost::Message;
use prost_types::field_descriptor_proto::{Label, Type};
use prost_types::{
    DescriptorProto, EnumDescriptorProto, FieldDescriptorProto, FileDescriptorProto,
    FileDescriptorSet,
};
use protolink::{Cardinality, DescriptorPool, FileDescriptor, Kind, MessageDescriptor};
use std::path::Path;
use std::{env, fs};

/// A set with each record, as prost makes it.
fn own_set() -> FileDescriptorSet {
    let field = |name: &str, number, type_: Type, type_name: Option<&str>| FieldDescriptorProto {
        name: Some(name.to_string()),
        number: Some(number),
        label: Some(Label::Optional as i32),
        r#type: Some(type_ as i32),
        type_name: type_name.map(str::to_string),
        ..FieldDescriptorProto::default()
    };
    let line = DescriptorProto {
        name: Some("Line".to_string()),
        field: vec![field("count", 1, Type::Int32, None)],
        ..DescriptorProto::default()
    };
    let order = DescriptorProto {
        name: Some("Order".to_string()),
        field: vec![
            field("line", 1, Type::Message, Some("Line")),
            field("status", 2, Type::Enum, Some("Status")),
        ],
        nested_type: vec![line],
        ..DescriptorProto::default()
    };
    let status = EnumDescriptorProto {
        name: Some("Status".to_string()),
        value: vec![prost_types::EnumValueDescriptorProto {
            name: Some("UNKNOWN".to_string()),
            number: Some(0),
            options: None,
        }],
        ..EnumDescriptorProto::default()
    };
    let file = FileDescriptorProto {
        name: Some("shop/order.proto".to_string()),
        package: Some("shop".to_string()),
        message_type: vec![order],
        enum_type: vec![status],
        ..FileDescriptorProto::default()
    };
    FileDescriptorSet { file: vec![file] }
}

/// Links a set, and compares what prost decodes of the linked files with what the pool tells.
fn compare(bytes: &[u8]) {
    let pool = DescriptorPool::decode(bytes).unwrap_or_else(|error| panic!("{error}"));
    let linked = pool.encode_to_vec();
    let set = FileDescriptorSet::decode(&linked[..]).expect("prost decodes the linked files");
    assert_eq!(set.file.len(), pool.files().len());
    let mut seen = 0;
    for (file, told) in set.file.iter().zip(pool.files()) {
        assert_eq!(file.name(), told.name());
        assert_eq!(file.package(), told.package_name());
        let dependencies: Vec<_> = told.dependencies().collect();
        let dependencies: Vec<_> = dependencies.iter().map(|file| file.name()).collect();
        assert_eq!(file.dependency, dependencies);
        let alone = FileDescriptorProto::decode(&told.encode_to_vec()[..]).expect("one file");
        assert_eq!(&alone, file);
        compare_lists(file, &told);
        for message in &file.message_type {
            seen += compare_message(&pool, file.package(), message);
        }
        compare_services(&pool, file);
    }
    assert_eq!(seen, pool.all_messages().len());
    let mut buffer = BytesMut::new();
    pool.encode(&mut buffer).expect("memory for the set");
    assert_eq!(buffer, linked);
    let files = pool.file_descriptor_protos();
    let files: Result<Vec<_>, _> = files
        .map(|file| FileDescriptorProto::decode(&file[..]))
        .collect();
    assert_eq!(files, Ok(set.file));
    let again = DescriptorPool::decode(&linked).expect("the linked files are linked again");
    assert_eq!(again.encode_to_vec(), linked);
}

/// Compares the names of what is declared in a file and in no message.
fn compare_lists(file: &FileDescriptorProto, told: &FileDescriptor) {
    let names = told.messages().map(|message| message.name().to_string());
    assert!(names.eq(file
        .message_type
        .iter()
        .map(|message| message.name().to_string())));
    let names = told
        .enums()
        .map(|enumeration| enumeration.name().to_string());
    assert!(names.eq(file
        .enum_type
        .iter()
        .map(|enumeration| enumeration.name().to_string())));
    let names = told.services().map(|service| service.name().to_string());
    assert!(names.eq(file
        .service
        .iter()
        .map(|service| service.name().to_string())));
    let names = told
        .extensions()
        .map(|extension| extension.name().to_string());
    assert!(names.eq(file
        .extension
        .iter()
        .map(|extension| extension.name().to_string())));
}

/// The full name of what is declared in a scope.
fn join(scope: &str, name: &str) -> String {
    if scope.is_empty() {
        name.to_string()
    } else {
        format!("{scope}.{name}")
    }
}

/// Compares a message with all that is nested in it, and answers how many messages that are.
fn compare_message(pool: &DescriptorPool, scope: &str, message: &DescriptorProto) -> usize {
    let full_name = join(scope, message.name());
    let told = pool.get_message_by_name(&full_name).expect(&full_name);
    assert_eq!(told.full_name(), full_name);
    assert_eq!(
        DescriptorProto::decode(&told.encode_to_vec()[..]).as_ref(),
        Ok(message)
    );
    assert_eq!(told.fields().len(), message.field.len());
    for field in &message.field {
        compare_field(&told, field);
    }
    let children = told.child_messages().map(|child| child.name().to_string());
    assert!(children.eq(message
        .nested_type
        .iter()
        .map(|child| child.name().to_string())));
    let children = told.child_enums().map(|child| child.name().to_string());
    assert!(children.eq(message
        .enum_type
        .iter()
        .map(|child| child.name().to_string())));
    let children = told
        .child_extensions()
        .map(|child| child.name().to_string());
    assert!(children.eq(message
        .extension
        .iter()
        .map(|child| child.name().to_string())));
    for (oneof, told) in message.oneof_decl.iter().zip(told.oneofs()) {
        assert_eq!(oneof.name(), told.name());
    }
    for enumeration in &message.enum_type {
        compare_enum(pool, &full_name, enumeration);
    }
    let nested = message.nested_type.iter();
    1 + nested
        .map(|nested| compare_message(pool, &full_name, nested))
        .sum::<usize>()
}

fn compare_field(message: &MessageDescriptor, field: &FieldDescriptorProto) {
    let told = message.get_field_by_name(field.name()).expect(field.name());
    assert_eq!(
        FieldDescriptorProto::decode(&told.encode_to_vec()[..]).as_ref(),
        Ok(field)
    );
    assert_eq!(told.number() as i32, field.number());
    assert_eq!(message.get_field(told.number()), Some(told.clone()));
    assert_eq!(
        told.json_name(),
        field.json_name.as_deref().unwrap_or(field.name())
    );
    let cardinality = match field.label() {
        Label::Optional => Cardinality::Optional,
        Label::Required => Cardinality::Required,
        Label::Repeated => Cardinality::Repeated,
    };
    assert_eq!(told.cardinality(), cardinality);
    let oneof = told.containing_oneof().map(|oneof| oneof.index() as i32);
    assert_eq!(oneof, field.oneof_index);
    let type_name = match told.kind() {
        Kind::Message(message) => format!(".{}", message.full_name()),
        Kind::Enum(enumeration) => format!(".{}", enumeration.full_name()),
        plain => {
            let type_ = format!("{:?}", field.r#type());
            assert_eq!(format!("{plain:?}"), type_, "{}", told.full_name());
            return;
        }
    };
    assert_eq!(type_name, field.type_name());
}

fn compare_enum(pool: &DescriptorPool, scope: &str, enumeration: &EnumDescriptorProto) {
    let told = pool
        .get_enum_by_name(&join(scope, enumeration.name()))
        .expect("an enum");
    assert_eq!(told.values().len(), enumeration.value.len());
    for (value, told) in enumeration.value.iter().zip(told.values()) {
        assert_eq!((told.name(), told.number()), (value.name(), value.number()));
    }
}

fn compare_services(pool: &DescriptorPool, file: &FileDescriptorProto) {
    for enumeration in &file.enum_type {
        compare_enum(pool, file.package(), enumeration);
    }
    for service in &file.service {
        let full_name = join(file.package(), service.name());
        let told = pool.get_service_by_name(&full_name).expect(&full_name);
        for (method, told) in service.method.iter().zip(told.methods()) {
            assert_eq!(told.name(), method.name());
            assert_eq!(
                format!(".{}", told.input().full_name()),
                method.input_type()
            );
            assert_eq!(
                format!(".{}", told.output().full_name()),
                method.output_type()
            );
        }
    }
}

#[test]
fn a_set_of_prost_is_linked_and_decoded() {
    compare(&own_set().encode_to_vec());
}

#[test]
fn sets_from_disk_are_linked_and_decoded() {
    let folder = match env::var_os("PROTOLINK_SETS") {
        Some(folder) => folder,
        None => return,
    };
    let mut count = 0;
    for entry in fs::read_dir(Path::new(&folder)).expect("the folder of sets") {
        let path = entry.expect("an entry").path();
        if path.extension().map_or(false, |word| word == "pb") {
            compare(&fs::read(&path).expect("a set"));
            count += 1;
        }
    }
    println!("{count} sets");
    assert!(count > 0, "no set in {folder:?}");
}
