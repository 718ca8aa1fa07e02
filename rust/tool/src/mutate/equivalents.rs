//! Changes that no index file can tell, with the reason.

use super::rules::Place;

/// File, line, what stood there, reason.
const EQUIVALENTS: &[(&str, usize, &str, &str)] = &[
    (
        TYPE_RESOLUTION,
        103,
        "TypeData::Error",
        "a type expression that is no array never resolves to one, so this line isn't reached",
    ),
    (
        TYPE_RESOLUTION,
        172,
        "TypeData::Error",
        "a struct definition always has struct data, so this line isn't reached",
    ),
    (
        TYPE_RESOLUTION,
        179,
        "TypeData::Error",
        "a function definition always has a signature, so this line isn't reached",
    ),
    (
        TYPE_RESOLUTION,
        310,
        ", None)",
        "the origin is looked at only where no context is given",
    ),
    (
        TYPE_RESOLUTION,
        387,
        "|s| s.parent",
        "the first round already looks at the expression's scope and all its ancestors",
    ),
    (
        TYPE_RESOLUTION,
        459,
        "TypeData::Felt",
        "a literal with a felt context is felt by default as well",
    ),
    (
        TYPE_RESOLUTION,
        921,
        "definition.scope_id",
        "the definition alone tells structs apart, and nothing reads the scope kept with the struct",
    ),
    (TYPE_RESOLUTION, 1028, "=> true", EQUAL_BEFORE),
    (TYPE_RESOLUTION, 1029, "TypeData::Bool", FALSE_BELOW),
    (TYPE_RESOLUTION, 1032, "=> true", EQUAL_BEFORE),
    (TYPE_RESOLUTION, 1033, "TypeData::U32", FALSE_BELOW),
    (
        "types.rs",
        116,
        "TypeData::Error",
        "of a suffix only u32 and felt are looked at",
    ),
];

const TYPE_RESOLUTION: &str = "type_resolution.rs";
const EQUAL_BEFORE: &str = "equal types are compatible before this line";
const FALSE_BELOW: &str = "the last line gives the same";

pub fn reason(place: &Place) -> Option<&'static str> {
    let known = EQUIVALENTS.iter();
    let mut fitting = known.filter(|(file, line, before, _)| {
        *file == place.file && *line == place.line && *before == place.before
    });
    fitting.next().map(|(_, _, _, reason)| *reason)
}
