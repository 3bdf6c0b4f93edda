//! JSON as the conformance file has it: texts, whole numbers, lists and objects. A float is the text of its sixteen hexadecimal
//! digits, so that no reader rounds it.

#[derive(Clone, Debug, PartialEq)]
pub enum Json {
    Text(String),
    Whole(usize),
    List(Vec<Json>),
    Object(Vec<(&'static str, Json)>),
}

impl Json {
    /// The value on one line.
    pub fn line(&self) -> String {
        match self {
            Json::Text(text) => {
                assert!(!text.contains(['"', '\\', '\n']), "no escapes: {text}");
                format!("\"{text}\"")
            }
            Json::Whole(number) => number.to_string(),
            Json::List(values) => {
                let lines: Vec<String> = values.iter().map(Json::line).collect();
                format!("[{}]", lines.join(", "))
            }
            Json::Object(fields) => {
                let line = |(name, value): &(&str, Json)| format!("\"{name}\": {}", value.line());
                let lines: Vec<String> = fields.iter().map(line).collect();
                format!("{{{}}}", lines.join(", "))
            }
        }
    }
}

pub fn text(text: impl Into<String>) -> Json {
    Json::Text(text.into())
}

pub fn whole(number: impl TryInto<usize>) -> Json {
    let Ok(number) = number.try_into() else {
        panic!("a count is above 2^64");
    };
    Json::Whole(number)
}

pub fn float(value: f64) -> Json {
    text(format!("{:016x}", value.to_bits()))
}

/// A list; one of more than 32 equal floats is the float and how many there are.
pub fn floats(values: &[f64]) -> Json {
    let is_first = |value: &f64| value.to_bits() == values[0].to_bits();
    if values.len() > 32 && values.iter().all(is_first) {
        return Json::Object(vec![
            ("of", floats(&values[..1])),
            ("times", whole(values.len())),
        ]);
    }
    Json::List(values.iter().copied().map(float).collect())
}

pub fn wholes<T: Copy + TryInto<usize>>(values: &[T]) -> Json {
    Json::List(values.iter().map(|&value| whole(value)).collect())
}

pub fn bytes(values: &[u8]) -> Json {
    text(
        values
            .iter()
            .map(|byte| format!("{byte:02x}"))
            .collect::<String>(),
    )
}
