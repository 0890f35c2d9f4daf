//! A pool from its files to what it has, and why files are not linked.

use protolink::{
    Cardinality, Changes, Compatibility, Definition, DescriptorError, DescriptorPool, Direction,
    FileDescriptor, Kind, Level, MessageDescriptor, Syntax, Value,
};
use std::collections::VecDeque;
use std::fmt::Debug;
use std::sync::Barrier;
use std::thread;

/// Two files, the second of which the first imports, with one declaration of each kind.
const SHOP: &str = "\
file shop/order.proto
package shop.v1
import shop/base.proto
message Order
field id 1 required int64 ~ ~
json id
field lines 2 repeated message .shop.v1.Order.Line ~
field status 3 optional enum .shop.v1.Status ~
default PAID
field note 4 optional string ~ 0
default none
field raw 5 repeated int32 ~ ~
packed true
oneof choice
extensions 100 200
message Line
field count 1 optional int32 ~ ~
default -7
json amount
end
end
extend weight 100 optional double ~ .shop.v1.Order
default 1.5
enum Kind
value PLAIN 0
value GIFT 3
end
service Shop
method Get .shop.v1.Order .shop.v1.Order.Line
end
end
file shop/base.proto
package shop.v1
syntax proto2
enum Status
value UNKNOWN 0
value PAID 5
end
end
";

/// Two faults: the one has a place in the source, the other has none.
const FAULTY: &str = "\
file a.proto
package p
message M
field f 1 optional message .p.None ~
field g 2 optional message .p.None ~
end
at 4,0,2,0,6 7,8,9
end
";

/// The full names of descriptors, as `Debug` shows them.
fn names<D: Debug>(descriptors: impl Iterator<Item = D>) -> Vec<String> {
    let shown = descriptors.map(|descriptor| format!("{descriptor:?}"));
    shown
        .map(|shown| shown.split('"').nth(1).unwrap().to_string())
        .collect()
}

fn shop() -> DescriptorPool {
    let mut pool = DescriptorPool::new();
    if let Err(error) = pool.add_script(SHOP) {
        panic!("{}", error.report());
    }
    pool
}

#[test]
fn an_empty_pool_has_nothing() {
    let pool = DescriptorPool::new();
    assert_eq!(pool.files().len(), 0);
    assert!(pool.find("p").is_none());
    assert!(pool.get_message_by_name("p.M").is_none());
    assert_eq!(pool.encode_to_vec(), b"");
    assert_eq!(pool.clone(), pool);
    assert_ne!(DescriptorPool::new(), pool);
}

#[test]
fn files_tell_what_they_are() {
    let pool = shop();
    let files: Vec<_> = pool.files().collect();
    assert_eq!(files[0].name(), "shop/order.proto");
    assert_eq!(files[1].name(), "shop/base.proto");
    assert!(pool.files().rev().eq(files.into_iter().rev()));
    let order = pool.get_file_by_name("shop/order.proto").unwrap();
    assert_eq!(order.package_name(), "shop.v1");
    assert_eq!(order.syntax(), Syntax::Proto2);
    let imported: Vec<_> = order.dependencies().collect();
    assert_eq!(
        imported,
        [pool.get_file_by_name("shop/base.proto").unwrap()]
    );
    assert!(pool.get_file_by_name("none.proto").is_none());
    let mut pool = DescriptorPool::new();
    pool.add_script(
        "file a.proto\nimport b.proto\nimport c.proto\npublic 1\nend\nfile b.proto\nend\n\
        file c.proto\nend\n",
    )
    .unwrap();
    let mut files = pool.files();
    let public: Vec<_> = files.next().unwrap().public_dependencies().collect();
    assert_eq!(public, [files.next_back().unwrap()]);
}

#[test]
fn a_pool_lists_what_it_has() {
    let pool = shop();
    assert_eq!(
        names(pool.all_messages()),
        ["shop.v1.Order", "shop.v1.Order.Line"]
    );
    assert_eq!(names(pool.all_enums()), ["shop.v1.Kind", "shop.v1.Status"]);
    assert_eq!(names(pool.services()), ["shop.v1.Shop"]);
    assert_eq!(names(pool.all_extensions()), ["shop.v1.weight"]);
}

#[test]
fn files_and_messages_list_what_is_declared_in_them() {
    let pool = shop();
    let file = pool.get_file_by_name("shop/order.proto").unwrap();
    assert_eq!(names(file.messages()), ["shop.v1.Order"]);
    assert_eq!(names(file.enums()), ["shop.v1.Kind"]);
    assert_eq!(names(file.services()), ["shop.v1.Shop"]);
    assert_eq!(names(file.extensions()), ["shop.v1.weight"]);
    let base = pool.get_file_by_name("shop/base.proto").unwrap();
    assert_eq!(names(base.messages()), [""; 0]);
    assert_eq!(names(base.enums()), ["shop.v1.Status"]);
    let order = pool.get_message_by_name("shop.v1.Order").unwrap();
    assert_eq!(names(order.child_messages()), ["shop.v1.Order.Line"]);
    assert_eq!(order.child_enums().len(), 0);
    assert_eq!(order.child_extensions().len(), 0);
}

/// A file with a message of each depth up to three, and with what may be declared in each.
fn deep(number: u32) -> String {
    let extend = |name| format!("extend {name} {}00 optional int32 ~ .base.Open", number + 1);
    format!(
        "file {number}.proto\npackage p{number}\nimport base.proto\n\
        message A\nmessage B\nmessage C\nend\nenum D\nvalue D0 0\nend\nend\n\
        message E\nend\nenum F\nvalue F0 0\nend\n{}\nend\nmessage G\nend\n\
        enum H\nvalue H0 0\nend\nservice I\nend\n{}\nend\n",
        extend("inner"),
        extend("outer").replace("00 ", "01 "),
    )
}

/// The items of a file and of each of its messages, compared with what each item tells of itself.
fn compare_lists(pool: &DescriptorPool, file: &FileDescriptor) {
    let messages = pool.all_messages().filter(|m| m.parent_file() == *file);
    let messages: Vec<_> = messages.collect();
    let below = |parent: Option<MessageDescriptor>| {
        let below = messages
            .iter()
            .filter(move |m| m.parent_message() == parent);
        below.cloned().collect::<Vec<_>>()
    };
    assert!(file.messages().eq(below(None)));
    for message in &messages {
        assert!(message.child_messages().eq(below(Some(message.clone()))));
        let here = |parent: Option<MessageDescriptor>| parent.as_ref() == Some(message);
        let enums = pool.all_enums().filter(|e| here(e.parent_message()));
        assert!(message.child_enums().eq(enums));
        let extensions = pool.all_extensions();
        let extensions = extensions.filter(|e| here(e.parent_message()));
        assert!(message.child_extensions().eq(extensions));
    }
    let enums = pool.all_enums().filter(|e| e.parent_file() == *file);
    assert!(file
        .enums()
        .eq(enums.filter(|e| e.parent_message().is_none())));
    let services = pool.services().filter(|s| s.parent_file() == *file);
    assert!(file.services().eq(services));
}

#[test]
fn lists_are_those_of_each_item_in_whatever_order_they_are_asked_for() {
    let base = "file base.proto\npackage base\nmessage Open\nextensions 1 10000\nend\nend\n";
    for order in [[0, 1, 2, 3, 4, 5], [5, 4, 3, 2, 1, 0], [3, 2, 5, 1, 4, 0]] {
        let mut pool = DescriptorPool::new();
        for batch in [
            format!("{base}{}{}", deep(0), deep(1)),
            format!("file bare.proto\nend\n{}", deep(2)),
            deep(3),
        ] {
            pool.add_script(batch).unwrap();
        }
        assert_eq!(pool.files().len(), order.len());
        for index in order {
            compare_lists(&pool, &pool.files().nth(index).unwrap());
        }
        let last = pool.get_file_by_name("3.proto").unwrap();
        assert_eq!(names(last.messages()), ["p3.A", "p3.G"]);
        assert_eq!(names(last.extensions()), ["p3.outer"]);
        let a = pool.get_message_by_name("p3.A").unwrap();
        assert_eq!(names(a.child_messages()), ["p3.A.B", "p3.A.E"]);
        assert_eq!(names(a.child_enums()), ["p3.A.F"]);
        assert_eq!(names(a.child_extensions()), ["p3.A.inner"]);
        let bare = pool.get_file_by_name("bare.proto").unwrap();
        assert_eq!((bare.messages().len(), bare.extensions().len()), (0, 0));
    }
}

#[test]
fn messages_have_their_fields() {
    let pool = shop();
    let order = pool.get_message_by_name(".shop.v1.Order").unwrap();
    assert_eq!((order.name(), order.index()), ("Order", 0));
    assert_eq!(order.parent_file().name(), "shop/order.proto");
    assert_eq!(order.parent_message(), None);
    let fields: Vec<_> = order.fields().collect();
    let fields: Vec<_> = fields.iter().map(|f| (f.name(), f.number())).collect();
    let wanted = [
        ("id", 1),
        ("lines", 2),
        ("status", 3),
        ("note", 4),
        ("raw", 5),
    ];
    assert_eq!(fields, wanted);
    let line = pool.get_message_by_name("shop.v1.Order.Line").unwrap();
    assert_eq!(line.parent_message(), Some(order.clone()));
    let lines = order.get_field(2).unwrap();
    assert_eq!(lines.kind(), Kind::Message(line.clone()));
    assert_eq!(lines.kind().to_string(), "shop.v1.Order.Line");
    assert_eq!(lines.kind().as_message(), Some(&line));
    assert_eq!(lines.cardinality(), Cardinality::Repeated);
    assert!(!lines.supports_presence() && !lines.is_packed() && !lines.is_group());
    assert_eq!(lines.full_name(), "shop.v1.Order.lines");
    assert_eq!(lines.parent_message(), &order);
    assert_eq!(lines.path(), [4, 0, 2, 1]);
    assert_eq!(order.get_field_by_name("lines"), Some(lines.clone()));
    assert!(order.get_field_by_name("raw").unwrap().is_packed());
    assert!(order.get_field(1).unwrap().supports_presence());
    assert_eq!(order.get_field(6), None);
    assert_eq!(order.get_field_by_name("line"), None);
    assert_eq!(order.get_field_by_json_name("id"), order.get_field(1));
    assert_eq!(line.get_field_by_json_name("amount"), line.get_field(1));
    assert_eq!(line.get_field(1).unwrap().json_name(), "amount");
    assert_eq!(lines.json_name(), "lines");
    assert_eq!(order.get_field_by_json_name("lines"), Some(lines));
}

#[test]
fn fields_have_defaults() {
    let pool = shop();
    let order = pool.get_message_by_name("shop.v1.Order").unwrap();
    let default = |number| order.get_field(number).unwrap().default_value();
    let has_default = |number| order.get_field(number).unwrap().has_default_value();
    assert!(!has_default(1) && has_default(3));
    assert_eq!(default(1), Value::I64(0));
    assert_eq!(default(2), Value::List(Vec::new()));
    assert_eq!(default(3).as_enum_number(), Some(5));
    assert_eq!(default(4).as_str(), Some("none"));
    let line = pool.get_message_by_name("shop.v1.Order.Line").unwrap();
    let count = line.get_field(1).unwrap();
    assert_eq!(count.default_value().as_i32(), Some(-7));
    let weight = order.get_extension(100).unwrap();
    assert_eq!(weight.default_value().as_f64(), Some(1.5));
    let status = pool.get_enum_by_name("shop.v1.Status").unwrap();
    assert_eq!(status.default_value().name(), "UNKNOWN");
}

#[test]
fn oneofs_and_extensions_belong_to_messages() {
    let pool = shop();
    let order = pool.get_message_by_name("shop.v1.Order").unwrap();
    let choice = order.oneofs().next().unwrap();
    assert_eq!(choice.name(), "choice");
    let note = order.get_field_by_name("note").unwrap();
    assert!(choice.fields().eq([note.clone()]));
    assert_eq!(note.containing_oneof(), Some(choice.clone()));
    assert_eq!(choice.parent_message(), &order);
    assert_eq!(order.get_field(1).unwrap().containing_oneof(), None);
    let weight = pool.get_extension_by_name("shop.v1.weight").unwrap();
    assert!(order.extensions().eq([weight.clone()]));
    assert_eq!(order.get_extension(100), Some(weight.clone()));
    for found in [
        order.get_extension_by_full_name("shop.v1.weight"),
        order.get_extension_by_json_name("[shop.v1.weight]"),
    ] {
        assert_eq!(found.as_ref(), Some(&weight));
    }
    assert_eq!(order.get_extension_by_json_name("shop.v1.weight"), None);
    assert_eq!(order.get_extension(101), None);
    assert_eq!(weight.containing_message(), order);
    assert_eq!((weight.number(), weight.kind()), (100, Kind::Double));
    assert_eq!(weight.json_name(), "[shop.v1.weight]");
    assert_eq!(weight.parent_message(), None);
}

#[test]
fn enums_and_services_have_their_parts() {
    let pool = shop();
    let status = pool.get_enum_by_name("shop.v1.Status").unwrap();
    let values: Vec<_> = status.values().collect();
    let values: Vec<_> = values.iter().map(|v| (v.name(), v.number())).collect();
    assert_eq!(values, [("UNKNOWN", 0), ("PAID", 5)]);
    assert_eq!(status.get_value(5), status.get_value_by_name("PAID"));
    assert_eq!(status.get_value(6), None);
    assert_eq!(status.get_value(5).unwrap().full_name(), "shop.v1.PAID");
    assert_eq!(status.get_value(5).unwrap().parent_enum(), &status);
    assert!(!status.allows_alias());
    let shop = pool.get_service_by_name("shop.v1.Shop").unwrap();
    let get = shop.methods().next().unwrap();
    assert_eq!(get.full_name(), "shop.v1.Shop.Get");
    assert_eq!(get.input().full_name(), "shop.v1.Order");
    assert_eq!(get.output().full_name(), "shop.v1.Order.Line");
    assert_eq!(get.parent_service(), &shop);
    assert_eq!(shop.get_method_by_name("Get"), Some(get.clone()));
    assert_eq!(shop.get_method_by_name("Put"), None);
    assert_eq!(get.parent_file().name(), "shop/order.proto");
}

#[test]
fn names_mean_definitions() {
    let pool = shop();
    let order = pool.get_message_by_name("shop.v1.Order").unwrap();
    let found = pool.find("shop.v1.Order.note").unwrap();
    let note = order.get_field_by_name("note").unwrap();
    assert_eq!(found.definition, Definition::Field(note));
    assert_eq!(found.path, [4, 0, 2, 3, 1]);
    assert_eq!(found.file.name(), "shop/order.proto");
    let package = pool.find("shop").unwrap();
    assert_eq!(
        (package.definition, package.path),
        (Definition::Package, vec![2])
    );
    let gift = pool.find("shop.v1.GIFT").unwrap().definition;
    let kind = pool.get_enum_by_name("shop.v1.Kind").unwrap();
    assert_eq!(gift, Definition::EnumValue(kind.get_value(3).unwrap()));
    let get = pool.find("shop.v1.Shop.Get").unwrap().definition;
    assert!(matches!(get, Definition::Method(method) if method.name() == "Get"));
    let choice = pool.find("shop.v1.Order.choice").unwrap().definition;
    assert!(matches!(choice, Definition::Oneof(oneof) if oneof.name() == "choice"));
    assert!(pool.find("shop.v1.Order.none").is_none());
    assert!(pool.get_enum_by_name("shop.v1.Order").is_none());
}

#[test]
fn a_refusal_tells_faults_and_changes_nothing() {
    let mut pool = shop();
    let before = pool.encode_to_vec();
    let error = pool.add_script(FAULTY).unwrap_err();
    let faults = error.faults();
    assert_eq!(faults.len(), 2);
    let first = &faults[0];
    assert_eq!(first.code, "NameNotFound");
    assert_eq!(first.file(), Some("a.proto"));
    assert_eq!((first.line(), first.column()), (Some(7), Some(8)));
    assert_eq!(first.path(), Some(&[4, 0, 2, 0, 6][..]));
    assert_eq!(first.element.as_deref(), Some("p.M.f"));
    assert_eq!(first.to_string(), format!("a.proto:8:9: {}", first.message));
    assert!(!first.note.is_empty());
    assert_eq!((faults[1].line(), faults[1].column()), (None, None));
    assert_eq!(
        faults[1].to_string(),
        format!("a.proto: p.M.g: {}", first.message)
    );
    assert_eq!((error.file(), error.path()), (first.file(), first.path()));
    assert_eq!((error.line(), error.column()), (Some(7), Some(8)));
    assert_eq!(error.to_string(), format!("{first} (and 1 more)"));
    assert_eq!(format!("{error:?}"), error.to_string());
    assert!(error.report().starts_with(&format!("{first}\n")));
    assert!(error.report().contains("note: "));
    assert_eq!(pool.encode_to_vec(), before);
    assert!(pool.find("p").is_none());
}

#[test]
fn a_second_place_is_told() {
    let mut pool = shop();
    let error = pool
        .add_script("file b.proto\nmessage A\nend\nmessage A\nend\nend\n")
        .unwrap_err();
    let fault = &error.faults()[0];
    assert_eq!(fault.code, "DuplicateName");
    assert_eq!(fault.path(), Some(&[4, 1, 1][..]));
    assert_eq!(fault.related[0].file(), Some("b.proto"));
    assert_eq!(fault.related[0].path(), Some(&[4, 0, 1][..]));
    assert_eq!(fault.related[0].line(), None);
    assert_eq!(fault.related[0].element.as_deref(), Some("A"));
}

/// A file with as many faults as it has fields.
fn with_faults(count: u32) -> String {
    let fields: String = (1..=count)
        .map(|number| format!("field f{number} {number} optional message .p.None ~\n"))
        .collect();
    format!("file a.proto\nmessage M\n{fields}end\nend\n")
}

/// How many faults are told, and how many more there are.
fn told_and_more(error: &DescriptorError) -> (usize, u64) {
    match error {
        DescriptorError::Refused(faults) => (faults.len(), faults.more()),
        other => panic!("{other}"),
    }
}

#[test]
fn a_hundred_faults_are_told_or_as_many_as_are_wanted() {
    let mut pool = DescriptorPool::new();
    let script = with_faults(250);
    let error = pool.add_script(&script).unwrap_err();
    assert_eq!(told_and_more(&error), (100, 150));
    assert!(error.to_string().ends_with("(and 249 more)"), "{error}");
    assert!(error.report().contains("and 150 more\n"));
    for (most, told) in [
        (0, (0, 250)),
        (3, (3, 247)),
        (250, (250, 0)),
        (usize::MAX, (250, 0)),
    ] {
        pool.limit_faults(most).unwrap();
        let mut copy = pool.clone();
        for pool in [&mut pool, &mut copy] {
            let error = pool.add_script(&script).unwrap_err();
            assert_eq!(told_and_more(&error), told);
            assert_eq!(error.faults().len(), told.0);
        }
    }
}

#[test]
fn what_cannot_be_read_is_told() {
    let mut pool = shop();
    let error = pool.decode_file_descriptor_set([0x0a, 0x05]).unwrap_err();
    assert!(
        matches!(&error, DescriptorError::Unreadable(words) if words.contains("byte 2")),
        "{error}"
    );
    let error = pool
        .add_script("file a.proto\nnonsense\nend\n")
        .unwrap_err();
    assert!(
        matches!(&error, DescriptorError::Unreadable(words) if words.contains("line 2")),
        "{error}"
    );
    assert_eq!(error.faults(), []);
    assert_eq!((error.file(), error.line()), (None, None));
    assert_eq!(format!("{error:?}"), error.to_string());
    let refused = DescriptorError::OutOfMemory;
    assert_eq!(format!("{refused:?}"), "memory was refused");
    assert_eq!(pool.files().len(), 2);
}

#[test]
fn linked_files_are_linked_again() {
    let pool = shop();
    let set = pool.encode_to_vec();
    let again = DescriptorPool::decode(&set).unwrap();
    assert_eq!(again.counts(), pool.counts());
    assert_eq!(again.encode_to_vec(), set);
    let mut apart = DescriptorPool::new();
    let files: Vec<_> = pool.files().map(|file| file.encode_to_vec()).collect();
    assert!(apart.add_file_descriptor_proto(&files[0]).is_err());
    apart.add_file_descriptor_proto(&files[1]).unwrap();
    apart.add_file_descriptor_proto(&files[0]).unwrap();
    assert_eq!(apart.counts(), pool.counts());
    let mut together = DescriptorPool::new();
    together.add_file_descriptor_protos(files).unwrap();
    assert_eq!(together.encode_to_vec(), set);
    let mut again = DescriptorPool::new();
    again
        .add_file_descriptor_protos(pool.file_descriptor_protos())
        .unwrap();
    assert_eq!(again.encode_to_vec(), set);
    together.add_file_descriptor_set(&set).unwrap();
    assert_eq!(together.encode_to_vec(), set);
}

#[test]
fn linked_files_are_written_to_the_end_of_a_buffer() {
    let pool = shop();
    let (mut buffer, mut queue) = (b"before".to_vec(), VecDeque::new());
    pool.encode(&mut buffer).unwrap();
    pool.encode(&mut queue).unwrap();
    assert_eq!(buffer, [b"before", &pool.encode_to_vec()[..]].concat());
    assert!(queue.into_iter().eq(pool.encode_to_vec()));
    let mut files = pool.file_descriptor_protos();
    assert_eq!(files.len(), 2);
    let base = pool.get_file_by_name("shop/base.proto").unwrap();
    buffer.clear();
    base.encode(&mut buffer).unwrap();
    assert!(buffer.starts_with(b"\x0a\x0fshop/base.proto\x12\x07shop.v1"));
    assert_eq!(base.file_descriptor_proto(), buffer);
    assert_eq!(files.next_back(), Some(buffer));
}

#[test]
fn a_clone_keeps_what_it_had() {
    let mut pool = shop();
    let clone = pool.clone();
    let order = pool.get_message_by_name("shop.v1.Order").unwrap();
    pool.add_script("file c.proto\nmessage C\nend\nend\n")
        .unwrap();
    assert!(pool.get_message_by_name("C").is_some());
    assert!(clone.get_message_by_name("C").is_none());
    assert_eq!(clone.files().len(), 2);
    assert_eq!(order.parent_pool(), &clone);
    assert_ne!(pool, clone);
    assert_ne!(pool.get_message_by_name("shop.v1.Order").unwrap(), order);
}

#[test]
fn a_pool_to_which_nothing_is_added_stays_the_one_it_was() {
    let mut pool = shop();
    let order = pool.get_message_by_name("shop.v1.Order").unwrap();
    pool.add_script(FAULTY).unwrap_err();
    pool.add_script(SHOP).unwrap();
    assert_eq!(order.parent_pool(), &pool);
    assert_eq!(pool.get_message_by_name("shop.v1.Order"), Some(order));
}

#[test]
fn what_became_of_files_is_told() {
    let mut pool = shop();
    let clone = pool.clone();
    let other = SHOP.replacen("json amount", "json quantity", 1);
    let added = pool.add_script(format!("{other}file c.proto\nend\n"));
    let added = added.unwrap();
    assert_eq!((added.files, added.passed_over), (1, 2));
    let set = pool.encode_to_vec();
    let added = pool.add_file_descriptor_set(&set).unwrap();
    assert_eq!((added.files, added.passed_over), (0, 3));
    let mut again = DescriptorPool::new();
    let added = again.decode_file_descriptor_set(&set).unwrap();
    assert_eq!((added.files, added.passed_over, added.differing), (3, 0, 0));
    let added = again.decode_file_descriptor_set(&set).unwrap();
    assert_eq!((added.files, added.passed_over, added.differing), (0, 3, 0));
    let linked = pool.files().next().unwrap().encode_to_vec();
    let mut other = DescriptorPool::new();
    other.add_script("file shop/order.proto\nend\n").unwrap();
    let added = other.add_file_descriptor_proto(linked).unwrap();
    assert_eq!((added.files, added.passed_over, added.differing), (0, 1, 1));
    let added = other.decode_file_descriptor_set(b"").unwrap();
    assert_eq!((added.files, added.passed_over, added.differing), (0, 0, 0));
    assert_eq!(clone.files().len(), 2);
}

#[test]
fn a_file_twice_counts_once() {
    let mut pool = DescriptorPool::new();
    let file = shop().files().next_back().unwrap().encode_to_vec();
    let added = pool.add_file_descriptor_protos([&file, &file]).unwrap();
    assert_eq!((added.files, added.passed_over), (1, 0));
    let other = "file a.proto\nend\nfile a.proto\npackage p\nend\n";
    let faults = match pool.add_script(other) {
        Err(DescriptorError::Refused(faults)) => faults,
        ended => panic!("{ended:?}"),
    };
    assert_eq!((faults.len(), &faults[0].code[..]), (1, "UnequalFile"));
    assert_eq!(
        faults[0].message,
        "file 1 and file 2 have unequal copies: package"
    );
    assert_eq!(faults[0].file(), Some("a.proto"));
}

/// What a pool changes of an older one backward.
fn backward(new: &DescriptorPool, older: &DescriptorPool, level: Level) -> Changes {
    new.changes(older, level, Compatibility::Backward).unwrap()
}

#[test]
fn what_a_pool_changes_of_an_older_one_is_told() {
    let (older, mut new) = (shop(), DescriptorPool::new());
    let script = SHOP.replacen(
        "field raw 5 repeated int32",
        "field raw 5 repeated sint32",
        1,
    );
    let script = script.replacen("field note 4", "field remark 4", 1);
    new.add_script(script).unwrap();
    let at_wire = backward(&new, &older, Level::Wire);
    assert_eq!((at_wire.len(), at_wire.more()), (1, 0));
    let change = &at_wire[0];
    assert_eq!(
        (change.level, change.direction, &change.code[..]),
        (Level::Wire, Direction::Backward, "field-kind")
    );
    assert_eq!(
        change.message,
        "'shop.v1.Order.raw' (5): int32 became sint32"
    );
    assert_eq!(change.file(), Some("shop/order.proto"));
    assert_eq!(change.element.as_deref(), Some("shop.v1.Order.raw"));
    assert_eq!(change.related[0].path(), Some(&[4, 0, 2, 4][..]));
    assert!(!change.note.is_empty());
    let at_json = backward(&new, &older, Level::Json);
    assert_eq!((at_json.len(), &at_json[0]), (2, change));
    assert_eq!(
        (at_json[1].level, &at_json[1].code[..]),
        (Level::Json, "field-json-name")
    );
    assert!(backward(&new, &older, Level::Source).len() >= 2);
    new.limit_faults(1).unwrap();
    let limited = backward(&new, &older, Level::Json);
    assert_eq!((limited.len(), limited.more()), (1, 1));
    assert!(backward(&new, &new, Level::Source).is_empty());
    assert!(backward(&shop(), &older, Level::Source).is_empty());
    let nothing = backward(&DescriptorPool::new(), &older, Level::Wire);
    assert!(nothing
        .iter()
        .any(|change| change.code == "service-removed"));
}

/// A pool of one message with some fields.
fn with_fields(fields: &str) -> DescriptorPool {
    let mut pool = DescriptorPool::new();
    let script = format!("file m.proto\npackage m\nmessage M\n{fields}end\nend\n");
    pool.add_script(script).unwrap();
    pool
}

#[test]
fn a_field_that_is_added_changes_nothing_in_either_direction() {
    let older = with_fields("field a 1 optional int32 ~ ~\n");
    let new = with_fields("field a 1 optional int32 ~ ~\nfield b 2 optional int32 ~ ~\n");
    for compatibility in [
        Compatibility::Backward,
        Compatibility::Forward,
        Compatibility::Full,
    ] {
        let changes = new.changes(&older, Level::Wire, compatibility).unwrap();
        assert_eq!((changes.len(), changes.more()), (0, 0), "{compatibility:?}");
    }
    assert_eq!(backward(&older, &new, Level::Wire)[0].code, "number-free");
}

#[test]
fn changes_of_both_directions_are_counted_together() {
    let older = with_fields("field a 1 optional int32 ~ ~\n");
    let mut new = with_fields("field a 1 optional uint32 ~ ~\n");
    let changes = new
        .changes(&older, Level::Wire, Compatibility::Full)
        .unwrap();
    let directions: Vec<Direction> = changes.iter().map(|change| change.direction).collect();
    assert_eq!(directions, [Direction::Backward, Direction::Forward]);
    assert_eq!(changes[1].message, "'m.M.a' (1): int32 became uint32");
    new.limit_faults(0).unwrap();
    let limited = new
        .changes(&older, Level::Wire, Compatibility::Full)
        .unwrap();
    assert_eq!((limited.len(), limited.more()), (0, 2));
}

#[test]
fn names_that_were_asked_for_are_those_of_the_pool() {
    let mut pool = DescriptorPool::new();
    for number in 0..3 {
        let script = format!("file {number}.proto\nmessage M{number}\nend\nend\n");
        pool.add_script(script).unwrap();
        let last = pool.all_messages().next_back().unwrap();
        assert_eq!(last.name(), format!("M{number}"));
        let file = pool.get_file_by_name(&format!("{number}.proto")).unwrap();
        assert_eq!(file.messages().next(), Some(last));
        assert_eq!(pool.all_messages().next().unwrap().full_name(), "M0");
    }
}

#[test]
fn threads_share_a_pool() {
    let pool = shop();
    let order = pool.get_message_by_name("shop.v1.Order").unwrap();
    let threads: Vec<_> = (0..4)
        .map(|_| {
            let (pool, order) = (pool.clone(), order.clone());
            thread::spawn(move || {
                for _ in 0..100 {
                    let found = pool.get_message_by_name("shop.v1.Order").unwrap();
                    assert_eq!(found, order);
                    assert_eq!(
                        found.fields().last().unwrap().full_name(),
                        "shop.v1.Order.raw"
                    );
                }
            })
        })
        .collect();
    drop(pool);
    for thread in threads {
        thread.join().unwrap();
    }
    assert_eq!(order.parent_file().name(), "shop/order.proto");
}

/// What a pool tells of its messages, as texts and numbers.
fn told(pool: &DescriptorPool) -> Vec<String> {
    let fields = pool.all_messages().flat_map(|message| {
        let fields = message.fields().map(|field| {
            let kind = field.kind().to_string();
            let path = field.path().to_vec();
            format!("{} {} {kind} {path:?}", field.full_name(), field.number())
        });
        fields.collect::<Vec<_>>()
    });
    let found = pool.find("shop.v1.Order.id").map(|found| found.path);
    let below = pool.files().map(|file| names(file.messages()).join(" "));
    fields
        .chain(below)
        .chain([format!("{found:?} {} bytes", pool.encode_to_vec().len())])
        .collect()
}

#[test]
fn threads_read_at_once_while_one_adds_to_a_clone() {
    let alone = told(&shop());
    for _ in 0..25 {
        let (pool, start) = (shop(), Barrier::new(8));
        thread::scope(|scope| {
            for number in 0..8 {
                let (mut clone, alone, start) = (pool.clone(), &alone, &start);
                scope.spawn(move || {
                    start.wait();
                    assert_eq!(told(&clone), *alone);
                    let file = format!("file more{number}.proto\nend\n");
                    clone.add_script(file).unwrap();
                    assert_eq!(clone.counts().files, 3);
                });
            }
        });
        assert_eq!(told(&pool), alone);
        assert_eq!(pool.counts().files, 2);
    }
}

#[test]
fn the_library_has_the_version_of_the_crate() {
    assert_eq!(DescriptorPool::library_version(), env!("CARGO_PKG_VERSION"));
}
