//! The cases that are written. A case is written only if the library and the plain model give the same answer, to the bit.
use super::{
    json::{Json, floats, text, whole},
    meshes::{self, Mesh},
};
use oracle::{
    answer::{Answer, Ray},
    model::Tree,
    tree::FlatTree,
};
use probe_rays::lent::TreeRef;
use probe_rays::sys;

/// A field of a case.
pub type Field = (&'static str, Json);

pub struct Book {
    pub meshes: Vec<(&'static str, Mesh)>,
    cases: Vec<Json>,
}

/// A hit's four numbers are the same bits, NaN included.
fn same(a: &Answer, b: &Answer) -> bool {
    let hit = |answer: &Answer| match *answer {
        Answer::Hit {
            normal: [x, y, z],
            distance,
            index,
        } => Some(([x, y, z, distance].map(f64::to_bits), index)),
        _ => None,
    };
    match (hit(a), hit(b)) {
        (None, None) => a == b,
        (one, two) => one == two,
    }
}

/// The answer of both; the generator stops where they differ.
pub fn agreed(why: &str, library: Answer, model: Answer) -> Answer {
    assert!(
        same(&library, &model),
        "{why}: the library gives {library:?}, the plain model {model:?}"
    );
    model
}

/// The same for anything that is compared by `==`.
pub fn equal<T: PartialEq + std::fmt::Debug>(why: &str, library: T, model: T) -> T {
    assert_eq!(
        library, model,
        "{why}: the library's, then the plain model's"
    );
    model
}

/// What a call that writes a hit and an index answered.
pub fn answer_of(number: u32, hit: &[f64], index: Option<u32>) -> Answer {
    match number {
        sys::HIT => Answer::Hit {
            normal: [hit[0], hit[1], hit[2]],
            distance: hit[3],
            index,
        },
        sys::NONE => Answer::None,
        number => Answer::Refused(number),
    }
}

/// What a call that counts something answered.
pub fn counted(number: u32, count: usize) -> Result<usize, u32> {
    match number {
        sys::DONE => Ok(count),
        number => Err(number),
    }
}

pub fn refused(number: u32) -> Json {
    Json::Object(vec![("refused", whole(number))])
}

pub fn answer_json(answer: &Answer) -> Json {
    match answer {
        Answer::None => text("none"),
        Answer::Refused(number) => refused(*number),
        Answer::Hit {
            normal: [x, y, z],
            distance,
            index,
        } => {
            let mut fields = vec![("hit", floats(&[*x, *y, *z, *distance]))];
            fields.extend(index.map(|index| ("triangle", whole(index))));
            Json::Object(fields)
        }
    }
}

pub fn ray_json(ray: &Ray) -> Json {
    let ([x, y, z], [dx, dy, dz]) = (ray.origin, ray.direction);
    floats(&[x, y, z, dx, dy, dz, ray.maximum, ray.near])
}

/// A tree as the library takes it, and as the plain model does.
pub fn lent(tree: &FlatTree) -> (TreeRef<'_>, Tree<'_>) {
    let library = TreeRef {
        nodes: tree.node_count,
        node_boxes: &tree.node_boxes,
        triangle_boxes: &tree.triangle_boxes,
        node_words: &tree.node_words,
        order: &tree.order,
    };
    (library, Tree::from(tree))
}

impl Book {
    pub fn new() -> Book {
        Book {
            meshes: meshes::named(),
            cases: Vec::new(),
        }
    }

    pub fn mesh(&self, name: &str) -> Mesh {
        let found = self.meshes.iter().find(|(other, _)| *other == name);
        found.unwrap_or_else(|| panic!("no mesh {name}")).1.clone()
    }

    pub fn write(&mut self, call: &'static str, why: &str, arguments: Vec<Field>, answer: Json) {
        let mut fields = vec![("call", text(call)), ("why", text(why))];
        fields.extend(arguments);
        fields.push(("answer", answer));
        self.cases.push(Json::Object(fields));
    }

    /// The whole file: the meshes by name, then the cases, a line each.
    pub fn file(&self) -> String {
        let mesh = |(name, mesh): &(&str, Mesh)| format!("\"{name}\": {}", mesh.json().line());
        let meshes: Vec<String> = self.meshes.iter().map(mesh).collect();
        let cases: Vec<String> = self.cases.iter().map(Json::line).collect();
        format!(
            "{{\"meshes\": {{\n{}\n}},\n\"cases\": [\n{}\n]}}\n",
            meshes.join(",\n"),
            cases.join(",\n")
        )
    }

    pub fn len(&self) -> usize {
        self.cases.len()
    }
}
