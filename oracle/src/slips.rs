//! Altered models: the plain models with one operand, bound, order or constant changed at a time. A slip that no stored record
//! and no case tells could stand in a definition and in the code together; differential/tests/slips.rs shows that every one is
//! told. Five changes are none, since no input tells them: a length taken for its square within 2e-12 (the same rays pass,
//! `close-by-square` in crates/geometry/proofs/UnitLength.antt); half to even where a cell is told (a coordinate that lies half way
//! and still within 16 EPS of a whole number is above 2^47, and every cell index ends at 254; K15 tells the function); an end
//! beyond the exit kept in one of its two places (either one alone cuts it); the value's overflow at the hit ignored (an
//! interpolation between finite values is finite, and where a value is not, the cell's samples refuse first); two floats below
//! the last node in place of one where that node's way from the origin overflows (both ways round to one number; `DrawnRight` in
//! crates/grid_laws/specs/Drawing.antt tells the two apart).

use std::cell::Cell;

thread_local! {
    static ALTERED: Cell<Option<Slip>> = const { Cell::new(None) };
}

/// Runs with one slip made. None where the altered model panics, which tells it too.
pub fn with<T>(slip: Slip, run: impl FnOnce() -> T) -> Option<T> {
    ALTERED.set(Some(slip));
    let result = std::panic::catch_unwind(std::panic::AssertUnwindSafe(run));
    ALTERED.set(None);
    result.ok()
}

/// Whether this slip is made.
pub fn slipped(slip: Slip) -> bool {
    ALTERED.get() == Some(slip)
}

/// What the rule says, or what the slip makes of it.
pub fn or<T>(slip: Slip, rule: T, otherwise: T) -> T {
    if slipped(slip) { otherwise } else { rule }
}

macro_rules! slips {
    ($($name:ident: $what:literal,)*) => {
        #[derive(Clone, Copy, Debug, PartialEq, Eq)]
        pub enum Slip { $($name,)* }

        impl Slip {
            /// Every slip, and what it changes.
            pub const ALL: &'static [(Slip, &'static str)] = &[$((Slip::$name, $what),)*];
        }
    };
}

slips! {
    // refusals 1 and 2
    LengthBySquare: "a ray's length is told by its square",
    LengthBelow: "a ray's length may be less than 1 - 1e-12",
    MaximumOfZero: "a maximum of 0 is refused",
    OriginNotLooked: "an origin that is not finite is admitted",
    ShapeBeforeRay: "2 is tested before 1",
    PlaneLength: "a plane normal's length is not looked at",
    PlaneDistance: "a plane's distance may be infinite",
    FieldSides: "rows and columns may be 1",
    GridSides: "a grid's sides may be 1",
    GridMost: "a grid's sides end at 255",
    GridMore: "a grid's sides end at 257",
    SpacingOfZero: "a spacing of 0 is admitted",
    GridOrigin: "a grid's origin may be infinite",
    // the plane
    PlaneOriginFirst: "the plane's origin dot refuses before the parallel test",
    PlaneParallel: "a plane is parallel at less than 32 EPS",
    PlaneStrict: "a plane is parallel below 32 EPS, not at it",
    PlaneOverflow: "a plane's distance that is not finite is none",
    PlaneMaximum: "a plane at the maximum is none",
    PlaneAtOrigin: "a plane at distance 0 is none",
    PlaneNormal: "a plane's normal is given as it is",
    PlaneTurned: "a plane's normal is turned as 0 - x",
    DotOrder: "a dot adds z and y before x",
    // the triangle
    TriangleDeterminant: "a determinant that is not finite is none",
    TriangleStrict: "a triangle is flat below the threshold, not at it",
    TriangleScale: "the triangle's scale may be below 1",
    TriangleScaleOne: "the triangle's scale looks at the first edge alone",
    TriangleFactor: "a triangle is flat up to scale EPS 64",
    TriangleLow: "u of 0 is a miss",
    TriangleHigh: "u of 1 is a miss",
    TriangleLowV: "v of 0 is a miss",
    TriangleFar: "u + v of 1 is a miss",
    TriangleDivided: "u is divided by the determinant",
    TriangleMaximum: "a triangle at the maximum is none",
    TriangleAtOrigin: "a triangle at distance 0 is none",
    TriangleNormal: "the normal is not turned to the ray",
    TriangleTurned: "a triangle's normal is turned as 0 - x",
    NearKept: "a surface nearer than near is hit",
    NearLost: "a surface at near is not hit",
    NearAtMaximum: "near equal to the maximum is refused",
    NearAfterNormal: "near is asked after a triangle's normal",
    NearGrid: "a distance grid is walked from 0",
    NanKept: "a distance that is not a number is a hit",
    NanAfterNormal: "a distance that is not a number is asked after the normal",
    NanSeven: "a distance that is not a number is 7",
    TriangleEdges: "the normal is the cross of the edges in the other order",
    NormalLeast: "a dot below 2^-1022 tells a length",
    NormalZero: "normalising fails at a dot of 0",
    NormalHalf: "the largest component is brought to at least 1/2 and below 1",
    // the fold over triangles
    FoldTies: "of equal distances the last one wins",
    FoldFirst: "the first hit wins",
    FoldRefusal: "a refusal after a hit does not count",
    FoldAll: "triangles whose box does not touch are cast at",
    // boxes
    MinimumSecond: "minimum gives the second operand if equal",
    MaximumSecond: "maximum gives the second operand if equal",
    MinimumNan: "minimum gives NaN if one operand is NaN",
    TouchOpen: "boxes touch on open intervals",
    SegmentEnd: "a segment's end that is not finite is 5",
    CentreSum: "a centre is (min + max) / 2",
    // the build
    BuildEmpty: "a build of no triangle is a tree of no node",
    BuildLeaf: "at most five make a leaf",
    BuildThree: "at most three make a leaf",
    BuildTies: "of equal extents the last axis is taken",
    BuildExtent: "an extent that is not finite is 5",
    BuildOrder: "equal centres stand in falling order of index",
    BuildZeros: "-0 and +0 are equal keys",
    BuildHalf: "the cut is at half rounded up",
    BuildZeroed: "after 5 and 6 the order is left as it was",
    BuildIndex: "an index past the vertices is 6",
    BuildRoom: "node boxes of 12n - 1 places are room enough",
    BuildWork: "the build's work may be one short",
    // query, check, areas
    QueryBox: "a query's box is not looked at",
    QueryNodes: "a node count of 2n is refused",
    QueryStack: "a stack of as many places as nodes is room enough",
    QueryChild: "a child below its parent's index is followed",
    QueryLeaf: "a leaf that ends past n is none of 5",
    QueryTaken: "one node more than the node count may be taken",
    QueryList: "a list past n is no 5",
    QueryUnsorted: "the list stands as the walk found it",
    QueryZeros: "after 5 the list is left as it was",
    CheckNamed: "a node need not be named once",
    CheckPlaces: "an order place in two leaves passes",
    CheckOrder: "a triangle twice in the order passes",
    CheckEmpty: "an empty leaf passes",
    CheckSame: "both children may be one node",
    CheckBoxes: "a triangle box may be larger than its vertices'",
    CheckBits: "boxes are equal by their bits",
    CheckValid: "a node's box need not be valid",
    CheckChildren: "a right child need not be enclosed",
    CheckTriangles: "a leaf's triangles need not be enclosed",
    CheckNone: "a tree of no node passes for any n",
    CheckMarks: "marks of 2n are room enough",
    PoseFirst: "4 is tested before 3",
    // the mesh without a tree
    PlainEmpty: "without a tree no triangles is 5",
    PlainIndex: "without a tree an index past the vertices is skipped",
    PlainUnfit: "without a tree a triangle without a valid box is skipped",
    PlainLate: "without a tree 5 is found while casting",
    PlainEnd: "without a tree 5 goes before the segment end's 6",
    // the exact cast
    ExactSide: "the side opposite the first corner is left out",
    ExactCorner: "a corner is left out",
    ExactMaximum: "a depth at the maximum is none",
    ExactNear: "a depth at near is none",
    ExactParallel: "a triangle whose plane the line lies in is none",
    ExactInside: "such a triangle is none where the line enters it before near",
    ExactFlat: "a triangle that the grid flattens counts",
    ExactFar: "a corner at 8,193 is admitted",
    ExactFarAt: "a corner at 8,192 is refused",
    ExactOrigin: "an origin at 8,193 is admitted",
    ExactOriginAt: "an origin at 8,192 is refused",
    ExactReach: "a maximum of 32,769 is admitted",
    ExactReachAt: "a maximum of 32,768 is refused",
    ExactNan: "a corner that is NaN is read as 0",
    ExactTie: "a tie on the grid goes away from 0",
    ExactUnit: "the grid is of 2^-16 mm",
    ExactParts: "a direction is read in 2^-29",
    ExactRounded: "the distance is a quotient of two rounded numbers",
    ExactCut: "the distance is cut and not rounded",
    ExactTies: "of equal distances the highest index wins",
    ExactNearest: "12 of a corner does not count where a triangle is hit",
    ExactCandidates: "12 is looked for only where a triangle's box touches the segment's",
    ExactNormal: "the normal is of the floats' edges",
    ExactLate: "12 of a corner goes before 5",
    ExactShape: "2 goes before 12 of the ray",
    ExactTreeShape: "through a tree 2 goes before 12 of the ray",
    ExactTreePose: "through a tree 4 goes before 3",
    ExactTreeStack: "through a tree a stack of as many places as nodes is room enough",
    // the listing of exact hits
    ExactAllFirst: "of exact hits only that of the lowest index is listed",
    ExactAllUnsorted: "exact hits are listed in the order of the triangles",
    ExactAllTies: "of equal exact depths the higher index is first",
    ExactAllList: "a listing of exact hits needs a place less of the list",
    NumbersThird: "the third corner may be NaN",
    NumbersIndex: "an index past the vertices has numbers",
    NumbersInfinite: "an infinity is no number",
    // the drill
    DrillRim: "a point at the radius is not in the drill",
    DrillStart: "what lies in the flat start alone is not in the drill",
    DrillEnd: "what lies in the flat end alone is not in the drill",
    DrillRound: "a corner within the radius of an end of the axis is in the drill",
    DrillEndless: "the drill has no end",
    DrillNear: "near is read as 0",
    DrillNearest: "the radius is read to the nearest unit",
    DrillLine: "the drill is its axis",
    DrillSides: "only the corners of a part in the drill's reach are looked at",
    DrillInside: "a triangle that the axis alone passes through is clear",
    DrillFlat: "a triangle without area is clear",
    DrillHighest: "the highest index is named",
    DrillNegative: "a radius below 0 is admitted",
    DrillZero: "a radius of 0 is refused",
    DrillWide: "a radius of 129 is admitted",
    DrillWideAt: "a radius of 128 is refused",
    DrillOrder: "12 of the ray goes before 1 of the radius",
    DrillShape: "2 goes before 12 of ray and radius",
    DrillFar: "12 of a corner does not count where a triangle is touched",
    DrillLate: "12 of a corner goes before 5",
    DrillStack: "a drill's stack of as many places as nodes is room enough",
    DrillList: "a drill's list may be one short",
    // the merge
    MergeVertices: "a merge's vertices end at 65,535",
    MergeTriangles: "a merge's triangles end at 65,535",
    MergeNodes: "in a merge a node count above 2n is 2",
    MergeMarks: "a merge's marks for the larger board are room enough",
    MergeIndices: "a merge moves the second's indices by the triangles",
    MergeRoot: "a merge has a root over a board without triangles",
    MergeZeros: "after 5 a merge's order is zeros",
    MergeTies: "of equal distances the second board's wins",
    // the cabinet
    CabinetOrigin: "the ray's origin is taken off a part's, and the difference negated",
    // the height grid
    HeightSpan: "a span that is not finite is none",
    HeightEarly: "the first cell is not one early",
    HeightLast: "the last cell of a range is left out",
    HeightVertex: "a vertex that is not finite is 5",
    HeightRows: "cells run by column, then row",
    HeightSwapped: "rows and columns of the vertices are changed",
    HeightOther: "the second triangle is cut along the other diagonal",
    HeightListing: "a triangle's refusal comes before a later cell's",
    // the distance grid
    GridEntry: "the interval starts at the entry, though it is below 0",
    GridParallel: "a parallel axis is not tested against the box",
    GridParallelZero: "an axis is parallel at 0 alone",
    GridOpen: "an interval of one point is a miss",
    CellsThree: "the sum of the sides + 3 cells",
    CellsFive: "the sum of the sides + 5 cells",
    CellsMany: "no limit of the cells",
    CellEnd: "an end beyond the exit is kept",
    CellBack: "a falling ray at a node takes the cell above",
    CellSlack: "a node is near within 1 EPS",
    RoundEven: "rounding takes half to even",
    BoundaryNear: "a boundary at hand counts though it is within 16 EPS",
    SampleThirds: "the second and third sample are at 1/4 and 3/4",
    SampleOutside: "a sample past the last node is taken at the origin",
    SampleBelow: "a sample past the last node is taken at the float below that node",
    SampleGradient: "a gradient that is not finite does not refuse a sample",
    SampleLast: "the last node belongs to no cell",
    LerpForm: "a + (b - a) t for a (1 - t) + b t",
    RootOverflow: "coefficients that are not finite are no root",
    RootTolerance: "the tolerance is scale EPS 32",
    RootScale: "the tolerance's scale may be below 1",
    RootHighFirst: "the high end is accepted before the low end",
    RootTurns: "turning points are not looked at",
    RootLinear: "the turning point of a parabola is not looked at",
    RootDouble: "a discriminant of 0 has no turning point",
    Halvings63: "63 halvings",
    Halvings65: "65 halvings",
    HalvingEarly: "a middle within the tolerance is not accepted",
    GradientLength: "a gradient that cannot be normalised is 7",
    GradientFacing: "a distance grid's normal is turned to the ray",
    StoppedValue: "a walk that stands still is none, whatever the value",
    // ranges of heights
    RangeLows: "only the lows of the ranges are looked at",
    RangeHighs: "only the highs of the ranges are looked at",
    RangeEither: "the grid of the lows or that of the highs touches",
    RangeEqual: "a range of equal ends is out of order",
    RangeColumns: "the cells of a range cast run by column",
    RangeCells: "9 is looked for cell by cell, up to the first that may touch",
    RangeWhole: "9 is looked for in the whole grid",
}
