//! What is recognised in a file: a [`Report`] of parts, each with its outer faces, its rows and what is left over.
//!
//! Lengths are millimetres. Places and directions are in the part's own [`Frame`], unless a field says otherwise. A row or
//! a face is named by its place in its list, from 0; people see it from 1.

/// What was recognised in a file.
#[derive(Clone, Debug, PartialEq)]
pub struct Report {
    /// The unit that the file's numbers were taken in.
    pub unit: Unit,
    /// By which whole millimetres a file that lies far from zero was shifted for the casts, from there back to the file.
    pub shift: Option<[f64; 3]>,
    /// The parts: one for each shell, in the order of their first triangles; of a STEP file, those of each solid in turn.
    pub parts: Vec<Part>,
    /// What makes the report as a whole doubtful: several shells that were not asked for.
    pub doubts: Vec<Doubt>,
}

/// The unit of a file's numbers.
#[derive(Clone, Copy, Debug, PartialEq, Eq)]
pub enum Unit {
    /// Millimetres.
    Millimetre,
    /// Centimetres.
    Centimetre,
    /// Metres.
    Metre,
    /// Inches of 25.4 mm.
    Inch,
}

/// A shell: triangles that are connected by their edges.
#[derive(Clone, Debug, PartialEq)]
pub struct Part {
    /// The name that the file gives it; empty where it gives none.
    pub name: String,
    /// How many triangles it has.
    pub triangles: usize,
    /// The area of all its triangles.
    pub area: f64,
    /// The step that the file's coordinates are rounded to, if the list needed to know it: corners may then lie further off
    /// a plane and a curve.
    pub step: Option<f64>,
    /// Its own frame.
    pub frame: Frame,
    /// The least corner of the box around it, in its own frame.
    pub low: [f64; 3],
    /// The largest corner.
    pub high: [f64; 3],
    /// Its outer faces: `top`, `bottom`, `front`, `back`, `left` and `right` first, as far as there are such.
    pub faces: Vec<Face>,
    /// Its bores, pockets and so on, ordered by face, then by place.
    pub rows: Vec<Row>,
    /// The surface that belongs to no outer face and to no row.
    pub left_over: Vec<LeftOver>,
    /// Why the list may be incomplete or wrong; empty where all of the surface is accounted for and confirmed.
    pub doubts: Vec<Doubt>,
}

/// The frame that a part is described in, in the file's coordinates, which are millimetres after the unit is applied.
///
/// A place `p` of the part is at `origin + p[0] * axes[0] + p[1] * axes[1] + p[2] * axes[2]` of the file.
#[derive(Clone, Copy, Debug, PartialEq)]
pub struct Frame {
    /// Where the frame's zero lies.
    pub origin: [f64; 3],
    /// The directions of its x, y and z, of length 1 and across each other, right-handed.
    pub axes: [[f64; 3]; 3],
}

/// An outer face: flat surface in one plane that no other part of the shell lies before, or a round outer edge.
#[derive(Clone, Debug, PartialEq)]
pub struct Face {
    /// `top` (+z), `bottom` (-z), `front` (-y), `back` (+y), `left` (-x), `right` (+x); others are `slanted 1`, `round 1`
    /// and so on.
    pub name: String,
    /// Its unit normal, outwards; of a round one, that of its middle.
    pub normal: [f64; 3],
    /// A point of it.
    pub point: [f64; 3],
    /// Whether it is a round edge, and not flat.
    pub is_round: bool,
    /// The radius of a round one that is part of a cylinder.
    pub radius: Option<f64>,
    /// Its area.
    pub area: f64,
    /// How many triangles it has.
    pub triangles: usize,
    /// The polygons around it, in its plane, to the left around where somebody looks at it: around what its rows take away
    /// along its sides too, and without its openings. A round one has none.
    pub outline: Vec<Vec<[f64; 3]>>,
}

/// What a row is.
#[derive(Clone, Copy, Debug, PartialEq, Eq)]
pub enum Kind {
    /// A round bore, along any axis.
    Bore,
    /// A cone that narrows from its entry, as for a screw's head.
    Countersink,
    /// Walls all around, with a flat floor or right through.
    Pocket,
    /// A pocket that runs out at two faces or more that are not neighbours, or at one end of its length; or a ring.
    Groove,
    /// A pocket that is open along a side of its face.
    Rabbet,
    /// Right through, and open at a side of its face: a notch, a cut-out of the outline.
    Notch,
    /// What is left standing within a pocket.
    Island,
    /// What stands out of an outer face: a pin, a dowel.
    Boss,
}

/// The outline of a row, in the plane across its axis.
#[derive(Clone, Debug, PartialEq)]
pub enum Outline {
    /// A circle, **through the corners** of its sides, as CAD programs place them on the curve.
    Circle {
        /// Its diameter.
        diameter: f64,
        /// How many sides the mesh gives it.
        sides: usize,
    },
    /// The surface between two circles of one centre.
    Ring {
        /// The outer diameter.
        outer: f64,
        /// The inner diameter.
        inner: f64,
    },
    /// A rectangle.
    Rectangle {
        /// Its sides: along the face's first and second axis where `angle` is 0, else the longer one first.
        size: [f64; 2],
        /// How many degrees its first side is turned from the face's first axis, from 0 to below 180.
        angle: f64,
    },
    /// A rectangle with round corners.
    Rounded {
        /// As of a rectangle.
        size: [f64; 2],
        /// The radius of its corners.
        radius: f64,
        /// As of a rectangle.
        angle: f64,
    },
    /// A rectangle whose short sides are half circles.
    Slot {
        /// As of a rectangle, over the half circles.
        size: [f64; 2],
        /// As of a rectangle.
        angle: f64,
    },
    /// A slot bent along an arc, its ends half circles or straight.
    Arc {
        /// How wide it is.
        width: f64,
        /// The radius of its middle line.
        radius: f64,
        /// How many degrees the middle line goes round, without the round ends.
        sweep: f64,
    },
    /// Anything else: the box around it, along the face's axes.
    Other {
        /// The sides of the box.
        size: [f64; 2],
    },
}

/// How a row ends, along its axis.
#[derive(Clone, Copy, Debug, PartialEq)]
pub enum End {
    /// At a flat floor across the axis.
    Floor,
    /// At the tip that a drill leaves, below the cylinder's end.
    Tip {
        /// The full angle of the cone, in degrees.
        angle: f64,
        /// How deep the point is below the row's own entry.
        depth: f64,
    },
    /// At an outer face.
    Through,
    /// In another row.
    OpensInto(usize),
    /// At a surface that is none of these; the row is marked.
    Unknown,
}

/// What the casts say of a row.
#[derive(Clone, Debug, PartialEq, Eq)]
pub enum Check {
    /// All agree.
    Confirmed,
    /// One does not: which, and what it hit.
    Differs(String),
}

/// A bore, a pocket, or another part of the surface that is understood.
#[derive(Clone, Debug, PartialEq)]
pub struct Row {
    /// What it is.
    pub kind: Kind,
    /// The feature that it belongs to: rows whose surfaces are connected have the same number, from 0.
    pub feature: usize,
    /// The outer face that it is entered from, among the part's faces.
    pub face: Option<usize>,
    /// Its outline.
    pub outline: Outline,
    /// The middle of its outline, at its own entry.
    pub centre: [f64; 3],
    /// The unit direction from its entry into the part.
    pub axis: [f64; 3],
    /// How far its entry lies below the outer face, along the face's normal: 0 where it is entered from the face itself.
    pub entry_depth: f64,
    /// How deep it is below its own entry, along its axis: to the floor, to the end of a bore's cylinder, to the other
    /// end of what goes through, to where its axis meets the wall of the bore that it opens into; of an island or a boss,
    /// how far it stands out.
    pub depth: f64,
    /// How it ends.
    pub end: End,
    /// The full angle of a countersink's cone, in degrees.
    pub cone: Option<f64>,
    /// What is left behind a blind bore or a blind round pocket, along its axis over the whole of its diameter, up to the next
    /// surface; none where that is more than 30 mm (or than was asked, if more was), where it has no such end, or where another
    /// row goes on from it.
    pub web: Option<f64>,
    /// The row that its entry lies in.
    pub within: Option<usize>,
    /// The outer faces that it runs out at, beside the one that it is entered from.
    pub open: Vec<usize>,
    /// The polygons around it, at its entry: the outer one first, then those of islands.
    pub loops: Vec<Vec<[f64; 3]>>,
    /// How many triangles it has.
    pub triangles: usize,
    /// Their area.
    pub area: f64,
    /// What the casts say.
    pub check: Check,
}

/// A cone, from its wide end at a row's entry.
#[derive(Clone, Copy, Debug, PartialEq)]
pub struct Cone {
    /// Its full angle, in degrees.
    pub angle: f64,
    /// Its diameter at the row's entry.
    pub entry_diameter: f64,
    /// Its diameter at the row's end: 0 where it ends in a point.
    pub end_diameter: f64,
}

/// Connected triangles that belong to no outer face and to no row.
#[derive(Clone, Copy, Debug, PartialEq)]
pub struct LeftOver {
    /// How many.
    pub triangles: usize,
    /// Their area.
    pub area: f64,
    /// The least corner of the box around them.
    pub low: [f64; 3],
    /// The largest corner.
    pub high: [f64; 3],
}

/// Why a list may be incomplete or wrong.
#[derive(Clone, Debug, PartialEq)]
pub enum Doubt {
    /// So many edges have one triangle only: the mesh has gaps.
    OpenEdges(usize),
    /// So many edges have two triangles of which one is the wrong way round.
    TurnedEdges(usize),
    /// So many edges have more than two triangles.
    CrowdedEdges(usize),
    /// The shell is inside out, and lies within another one: a hollow.
    Hollow,
    /// So many triangles are not understood.
    LeftOver(usize),
    /// So many rows are not confirmed by the casts.
    NotConfirmed(usize),
    /// So many rows leave less behind their floor than is asked, and the least that one leaves.
    ThinWeb(usize, f64),
    /// The volume that the rows take away, and add, differs from that of the mesh by so many cubic millimetres.
    Volume(f64),
    /// So many rows end at a surface that is not understood.
    UnknownEnds(usize),
    /// The file holds so many shells, and one was expected.
    SeveralShells(usize),
    /// No board has this size: the unit may be another.
    OddSize,
    /// The shell has no flat face.
    NoFlatFace,
    /// The outline of the row of this place is listed as other, and nearly is one that has measures.
    Nearly(usize, Outline),
}

impl Report {
    /// Whether the list is complete and confirmed: no part has a doubt, nor has the report.
    pub fn is_certain(&self) -> bool {
        self.doubts.is_empty() && self.parts.iter().all(|part| part.doubts.is_empty())
    }
}

impl Unit {
    /// The unit of a name: mm, cm, m or in.
    pub fn named(name: &str) -> Option<Unit> {
        Some(match name {
            "mm" => Unit::Millimetre,
            "cm" => Unit::Centimetre,
            "m" => Unit::Metre,
            "in" => Unit::Inch,
            _ => return None,
        })
    }

    /// Its name.
    pub fn name(self) -> &'static str {
        match self {
            Unit::Millimetre => "mm",
            Unit::Centimetre => "cm",
            Unit::Metre => "m",
            Unit::Inch => "in",
        }
    }

    /// How many millimetres it has.
    pub fn millimetres(self) -> f64 {
        match self {
            Unit::Millimetre => 1.0,
            Unit::Centimetre => 10.0,
            Unit::Metre => 1000.0,
            Unit::Inch => 25.4,
        }
    }
}

impl Frame {
    /// The file's own frame.
    pub const AS_DRAWN: Frame = Frame {
        origin: [0.0; 3],
        axes: [[1.0, 0.0, 0.0], [0.0, 1.0, 0.0], [0.0, 0.0, 1.0]],
    };

    /// Whether it is the file's own frame.
    pub fn is_as_drawn(&self) -> bool {
        *self == Frame::AS_DRAWN
    }

    /// A place of the file, in this frame.
    pub fn place(&self, point: [f64; 3]) -> [f64; 3] {
        let from: [f64; 3] = std::array::from_fn(|axis| point[axis] - self.origin[axis]);
        self.direction(from)
    }

    /// A direction of the file, in this frame.
    pub fn direction(&self, way: [f64; 3]) -> [f64; 3] {
        self.axes
            .map(|axis| axis[0] * way[0] + axis[1] * way[1] + axis[2] * way[2])
    }

    /// A place of this frame, in the file.
    pub fn place_in_file(&self, point: [f64; 3]) -> [f64; 3] {
        let way = self.direction_in_file(point);
        std::array::from_fn(|axis| self.origin[axis] + way[axis])
    }

    /// A direction of this frame, in the file.
    pub fn direction_in_file(&self, way: [f64; 3]) -> [f64; 3] {
        let [x, y, z] = self.axes;
        std::array::from_fn(|axis| way[0] * x[axis] + way[1] * y[axis] + way[2] * z[axis])
    }
}

impl Part {
    /// The sides of the box around it, in its own frame.
    pub fn size(&self) -> [f64; 3] {
        std::array::from_fn(|axis| self.high[axis] - self.low[axis])
    }
}

impl Row {
    /// The cone of a countersink, by its measures.
    pub fn cone_measures(&self) -> Option<Cone> {
        let (Some(angle), Outline::Circle { diameter, .. }) = (self.cone, &self.outline) else {
            return None;
        };
        let narrowed = diameter - 2.0 * self.depth * (angle / 2.0).to_radians().tan();
        let is_point = matches!(self.end, End::Tip { .. });
        Some(Cone {
            angle,
            entry_diameter: *diameter,
            end_diameter: if is_point { 0.0 } else { narrowed.max(0.0) },
        })
    }

    /// Whether the casts confirm it.
    pub fn is_confirmed(&self) -> bool {
        self.check == Check::Confirmed
    }
}
