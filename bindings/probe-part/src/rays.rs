//! Rays as text: seven numbers each, the origin, the direction, of any length, and the maximum.
use probe_rays::Ray;
use std::io::BufRead;

/// The rays of a command line.
pub fn from_words(words: &[String]) -> Result<Vec<Ray>, String> {
    if words.len() % 7 != 0 {
        return Err(format!(
            "a ray is seven numbers (origin, direction, maximum), but {} are given",
            words.len()
        ));
    }
    words
        .chunks_exact(7)
        .map(|seven| ray(seven.iter().map(String::as_str)))
        .collect()
}

/// A ray of seven words.
fn ray<'a>(words: impl Iterator<Item = &'a str>) -> Result<Ray, String> {
    let numbers: Vec<f64> = words
        .map(|word| word.parse().map_err(|_| format!("not a number: {word}")))
        .collect::<Result<_, _>>()?;
    let n = <[f64; 7]>::try_from(numbers).map_err(|numbers| {
        format!(
            "a ray is seven numbers (origin, direction, maximum), but {} are given",
            numbers.len()
        )
    })?;
    Ok(Ray::toward([n[0], n[1], n[2]], [n[3], n[4], n[5]], n[6]))
}

/// The rays of a file, one on each line. Numbers stand apart by blanks, commas or semicolons; what follows a # is passed
/// over, and so is a line without anything else.
pub struct Lines<R> {
    source: R,
    name: String,
    line: usize,
}

impl<R: BufRead> Lines<R> {
    /// The rays of a source, whose name is for messages.
    pub fn new(source: R, name: impl Into<String>) -> Lines<R> {
        Lines {
            source,
            name: name.into(),
            line: 0,
        }
    }

    /// At most so many more rays; none at the end.
    pub fn block(&mut self, most: usize) -> Result<Vec<Ray>, String> {
        let mut rays = Vec::new();
        let mut text = String::new();
        while rays.len() < most {
            text.clear();
            let read = self.source.read_line(&mut text);
            self.line += 1;
            let place = |why: String| format!("{}, line {}: {why}", self.name, self.line);
            if read.map_err(|why| place(why.to_string()))? == 0 {
                break;
            }
            let content = text.split('#').next().unwrap_or("");
            let blank = |c: char| c.is_whitespace() || c == ',' || c == ';';
            let mut words = content
                .split(blank)
                .filter(|word| !word.is_empty())
                .peekable();
            if words.peek().is_some() {
                rays.push(ray(words).map_err(place)?);
            }
        }
        Ok(rays)
    }
}
