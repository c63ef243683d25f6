//! The default of an object, and of a sink's. The build script derives that of every other type which has one.

use crate::lists::EMPTY_PLACE;
use crate::objects::Object;
use crate::sinks::{SinkObject, EMPTY_SINK_PLACE};

/// What an empty place of a list holds: a fixed object with all fields zero.
impl Default for Object {
    fn default() -> Object {
        EMPTY_PLACE.object
    }
}

/// What an empty place of a sink list holds: a fixed object with all fields zero.
impl Default for SinkObject {
    fn default() -> SinkObject {
        EMPTY_SINK_PLACE.object
    }
}
