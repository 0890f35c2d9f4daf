//! A set of one file, as `protoc` made it of
//!
//! ```proto
//! syntax = "proto3";
//! package tour;
//! // A trip.
//! message Trip { // Behind it.
//!   option deprecated = true;
//!   reserved 7, 10 to 12;
//!   reserved "old", "older";
//!   map<string, Stop> stops = 1;
//!   optional int32 days = 2;
//!   repeated int32 miles = 3;
//!   bool done = 4 [deprecated = true];
//! }
//!
//! // On its own.
//!
//! message Stop {}
//! enum State { reserved 3 to 5, -1; reserved "GONE"; UNKNOWN = 0; OPEN = 1 [deprecated = true]; }
//! service Trips {
//!   rpc Get(Stop) returns (Trip);
//!   rpc Watch(Stop) returns (stream Trip);
//!   rpc Tell(stream Trip) returns (Stop) { option deprecated = true; }
//! }
//! ```
//!
//! with the locations of both messages, of the field `stops` and of the method `Watch`.

pub const TOUR: &[u8] = b"\
\n\x9f\x04\n\ntour.proto\x12\x04tour\"\xe5\x01\n\x04Trip\x12+\n\x05stops\x18\x01 \x03(\x0b2\
\x15.tour.Trip.StopsEntryR\x05stops\x12\x17\n\x04days\x18\x02 \x01(\x05H\0R\x04days\x88\x01\
\x01\x12\x14\n\x05miles\x18\x03 \x03(\x05R\x05miles\x12\x16\n\x04done\x18\x04 \x01(\x08B\x02\
\x18\x01R\x04done\x1aD\n\nStopsEntry\x12\x10\n\x03key\x18\x01 \x01(\x09R\x03key\x12 \n\x05va\
lue\x18\x02 \x01(\x0b2\n.tour.StopR\x05value:\x028\x01:\x02\x18\x01B\x07\n\x05_daysJ\x04\x08\
\x07\x10\x08J\x04\x08\n\x10\x0dR\x03oldR\x05older\"\x06\n\x04Stop*F\n\x05State\x12\x0b\n\x07\
UNKNOWN\x10\0\x12\x0c\n\x04OPEN\x10\x01\x1a\x02\x08\x01\"\x04\x08\x03\x10\x05\"\x16\x08\xff\
\xff\xff\xff\xff\xff\xff\xff\xff\x01\x10\xff\xff\xff\xff\xff\xff\xff\xff\xff\x01*\x04GONE2p\
\n\x05Trips\x12\x1d\n\x03Get\x12\n.tour.Stop\x1a\n.tour.Trip\x12!\n\x05Watch\x12\n.tour.Stop\
\x1a\n.tour.Trip0\x01\x12%\n\x04Tell\x12\n.tour.Trip\x1a\n.tour.Stop\"\x03\x88\x02\x01(\x01J\
Y\n#\n\x02\x04\0\x12\x04\x03\0\x0b\x01\x1a\x09 A trip.\n\"\x0c Behind it.\n\n\x0b\n\x04\x04\
\0\x02\0\x12\x03\x07\x02\x1e\n\x18\n\x02\x04\x01\x12\x03\x0f\0\x0f2\x0d On its own.\n\n\x0b\
\n\x04\x06\0\x02\x01\x12\x03\x13\x02(b\x06proto3";
