//! What a file is that is not an STL file, by its first bytes, and what to do with it.

/// A kind of file: its name, and what makes an STL file of it.
#[derive(Clone, Copy, Debug, PartialEq, Eq)]
pub struct Kind {
    /// As it is called.
    pub name: &'static str,
    /// What to do.
    pub advice: &'static str,
}

/// How gmsh makes an STL file of a STEP file.
pub(crate) const STEP_ADVICE: &str = "convert it to STL with gmsh (docs/STEP.md):
  gmsh FILE -0 -setnumber Mesh.StlLinearDeflection 0.05 -setnumber Mesh.StlAngularDeflection 0.35 -format stl -bin -o part.stl";
const CAD_ADVICE: &str = "open it in your CAD program and export it as STEP or STL";
const MESH_ADVICE: &str =
    "convert it to STL with a mesh program such as MeshLab or Blender, or with gmsh if it reads it";
const UNPACK: &str = "unpack it first";
const PRINT_ADVICE: &str = "export it as STL from a slicer or a mesh program";
const NO_SHAPE: &str = "it contains no solid: export the part itself as STEP or STL";

/// Kinds by their first bytes.
const BY_START: &[(&[u8], &str, &str)] = &[
    (b"ISO-10303-21", "a STEP file", STEP_ADVICE),
    (b"ply\n", "a PLY file", MESH_ADVICE),
    (b"ply\r", "a PLY file", MESH_ADVICE),
    (b"OFF", "an OFF file", MESH_ADVICE),
    (b"COFF", "an OFF file", MESH_ADVICE),
    (b"glTF", "a glTF file (GLB)", MESH_ADVICE),
    (
        b"$MeshFormat",
        "a gmsh mesh (MSH)",
        "gmsh FILE -0 -format stl -o part.stl",
    ),
    (b"#VRML", "a VRML file", MESH_ADVICE),
    (
        b"DBRep_DrawableShape",
        "an OpenCASCADE BREP file",
        STEP_ADVICE,
    ),
    (b"CASCADE Topology", "an OpenCASCADE BREP file", STEP_ADVICE),
    (
        b"\x1f\x8b",
        "compressed with gzip",
        "unpack it first: gunzip FILE",
    ),
    (
        b"BZh",
        "compressed with bzip2",
        "unpack it first: bunzip2 FILE",
    ),
    (
        b"\xfd7zXZ\x00",
        "compressed with xz",
        "unpack it first: unxz FILE",
    ),
    (
        b"\x28\xb5\x2f\xfd",
        "compressed with zstd",
        "unpack it first: unzstd FILE",
    ),
    (b"7z\xbc\xaf\x27\x1c", "a 7z archive", UNPACK),
    (b"Rar!", "a RAR archive", UNPACK),
    (
        b"\xd0\xcf\x11\xe0",
        "a file of a CAD or office program (OLE)",
        CAD_ADVICE,
    ),
    (b"AC10", "a DWG drawing", CAD_ADVICE),
    (b"%PDF", "a PDF document", NO_SHAPE),
    (b"\x89PNG", "a PNG picture", NO_SHAPE),
    (b"\xff\xd8\xff", "a JPEG picture", NO_SHAPE),
    (b"\x7fELF", "a program", NO_SHAPE),
    (b"\xff\xfe", "text in UTF-16", "save it as UTF-8 or ASCII"),
    (b"\xfe\xff", "text in UTF-16", "save it as UTF-8 or ASCII"),
];

/// Kinds of zip archive, by the name of a file within.
const BY_MEMBER: &[(&[u8], &str, &str)] = &[
    (b"3D/3dmodel.model", "a 3MF file", PRINT_ADVICE),
    (b"Document.xml", "a FreeCAD document", CAD_ADVICE),
    (b"word/", "a Word document", NO_SHAPE),
    (b"xl/", "an Excel table", NO_SHAPE),
];

/// Kinds of XML, by a word within.
const BY_ELEMENT: &[(&[u8], &str, &str)] = &[
    (b"<amf", "an AMF file", PRINT_ADVICE),
    (b"<COLLADA", "a COLLADA file", MESH_ADVICE),
    (b"<X3D", "an X3D file", MESH_ADVICE),
    (b"<svg", "an SVG picture", NO_SHAPE),
    (
        b"<!DOCTYPE html",
        "a web page",
        "the download went wrong: the page was saved in place of the file",
    ),
    (
        b"<html",
        "a web page",
        "the download went wrong: the page was saved in place of the file",
    ),
];

fn found(bytes: &[u8], word: &[u8]) -> bool {
    bytes.windows(word.len()).any(|window| window == word)
}

/// What a file is by its bytes, if it is known and not an STL file.
pub fn kind_of(bytes: &[u8]) -> Option<Kind> {
    let of = |&(_, name, advice): &(&[u8], &'static str, &'static str)| Kind { name, advice };
    if bytes.is_empty() {
        let advice = "the export or the download went wrong";
        return Some(Kind {
            name: "empty",
            advice,
        });
    }
    let text = bytes.strip_prefix(b"\xef\xbb\xbf").unwrap_or(bytes);
    let text = text.trim_ascii_start();
    let start =
        |(word, ..): &&(&[u8], &str, &str)| bytes.starts_with(word) || text.starts_with(word);
    if let Some(kind) = BY_START.iter().find(start) {
        return Some(of(kind));
    }
    if bytes.starts_with(b"PK\x03\x04") {
        let member = BY_MEMBER.iter().find(|(word, ..)| found(bytes, word));
        return Some(member.map_or(
            Kind {
                name: "a zip archive",
                advice: UNPACK,
            },
            of,
        ));
    }
    let head = &text[..text.len().min(4096)];
    if text.starts_with(b"<") {
        let element = BY_ELEMENT.iter().find(|(word, ..)| found(head, word));
        return Some(element.map_or(
            Kind {
                name: "an XML file",
                advice: NO_SHAPE,
            },
            of,
        ));
    }
    text_kind(&String::from_utf8_lossy(head))
}

/// Kinds of text, by their lines.
fn text_kind(head: &str) -> Option<Kind> {
    let lines = || head.lines().map(str::trim).filter(|line| !line.is_empty());
    let mut first = lines();
    if (first.next(), first.next()) == (Some("0"), Some("SECTION")) {
        return Some(Kind {
            name: "a DXF drawing",
            advice: NO_SHAPE,
        });
    }
    // an IGES line has 80 columns, and the letter of its section in the 73rd
    let iges = |line: &str| line.as_bytes().get(72) == Some(&b'S') && line.len() <= 80;
    if head.lines().next().is_some_and(iges) {
        return Some(Kind {
            name: "an IGES file",
            advice: STEP_ADVICE,
        });
    }
    let obj = lines()
        .filter(|line| !line.starts_with('#'))
        .find_map(|line| line.split_whitespace().next());
    if matches!(
        obj,
        Some("v" | "vn" | "vt" | "mtllib" | "o" | "g" | "usemtl")
    ) {
        return Some(Kind {
            name: "an OBJ file",
            advice: MESH_ADVICE,
        });
    }
    if head.trim_start().starts_with("{") && head.contains("\"asset\"") {
        return Some(Kind {
            name: "a glTF file",
            advice: MESH_ADVICE,
        });
    }
    None
}
