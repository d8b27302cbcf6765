//! Each number's name and sentence, word for word as cuddystove_name and cuddystove_sentence of the header give them.

const WORDS: [(&str, &str); 21] = [
    ("done", "Not refused."),
    ("bad field", "A field of the program is cut short, of unknown tag, of the wrong length or without a kind byte."),
    ("too many", "A field of the program is the 257th node or the 33rd definition."),
    ("out of range", "A field of the program has an unknown kind, or a byte or constant out of its range."),
    ("not given", "A field of the program names a node or definition that is not yet given."),
    ("taken", "A field of the program names a node, slot or variable that is taken already."),
    ("bad end", "The program has no main node, bytes after it, or a node that nothing names."),
    ("wrong sort", "A node has a field where a number belongs, or the other way round."),
    ("misread", "A node reads a parameter that its tree does not have, or a variable outside its rep's update."),
    ("misused definition", "A node calls a spatial definition a second time, or folds by one that may not fold."),
    ("too costly", "A round of the program costs more than 1,000,000."),
    ("unsound network", "The network is not 8,720 cells long (place 0), or a cell holds what it may not."),
    ("bad list", "An event of the list is of unknown tag, of the wrong length, cut short, missing or one too many."),
    ("short space", "The answer space is shorter than two numbers an event, or the table's slice than the table."),
    ("bad item", "A device, sensor, switch or distance of the event is out of range."),
    ("to itself", "The event goes from a device to itself."),
    ("nothing pending", "No message is pending to be delivered or lost."),
    ("divided by 0", "The round divided by 0, and the fire changed nothing."),
    ("bad file", "A file of the replay is absent, cannot be read or has more than 4,096 bytes."),
    ("outside the notation", "The text is outside the notation: no program is written so."),
    ("bad name", "A name of the text is unresolved, repeated or reserved."),
];

/// The name and the sentence of a number, also of one that is no refusal.
pub fn words(number: u32) -> (&'static str, &'static str) {
    let known = usize::try_from(number).ok().and_then(|number| WORDS.get(number));
    *known.unwrap_or(&("unknown refusal", "No refusal of the engine has this number."))
}
