//! A plain model of three serial memory chips, of the host half that talks to
//! them, and of the bench tape, written from document 01, requests P1, P3, P4 and P8
//! of document 02 and the source documents alone.
//!
//! Part M is the serial MRAM and has number 1, part P the serial PSRAM and has
//! number 2, part M32 is the serial MRAM of 32 Mbit and has number 3. A transaction
//! is worked out as a whole, in three steps: the samples are read (cut into
//! command, address, wait, data and rest), what was read is judged by the answer
//! table, and then what the answer asks for is done. One that comes in chunks is
//! worked out as a whole again with each chunk.

pub mod answer;
pub mod ask;
pub mod chunked;
pub mod chunks;
pub mod compact;
pub mod compose;
pub mod courses;
pub mod coverage;
pub mod device;
pub mod doing;
pub mod edges;
pub mod facts;
pub mod faults;
pub mod flaws;
pub mod generate;
pub mod host;
pub mod image;
pub mod imaged;
pub mod images;
pub mod judging;
pub mod latched;
pub mod limits;
pub mod pace;
pub mod parts;
pub mod places;
pub mod probe;
pub mod reading;
pub mod records;
pub mod refusals;
pub mod request;
pub mod rng;
pub mod rounds;
pub mod rows;
pub mod sequences;
pub mod spoil;
pub mod spots;
pub mod standing;
pub mod table;
pub mod tape;
pub mod wires;
