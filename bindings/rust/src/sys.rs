//! The library's calls as C sees them: a slice is a pointer and a length.
//!
//! include/probe_rays.h says what each call requires and returns. tests/declarations.sh compares these lines
//! with that header and with the proved source, crates/exports_c.
//! The safe functions of this crate wrap these calls and offer all that they offer.

extern "C" {
    /// The version of the linked library. It is [`VERSION`] if this crate belongs to that library.
    pub fn probe_version() -> u32;

    /// Casts a ray at a plane.
    pub fn probe_ray_plane(
        origin_x: f64,
        origin_y: f64,
        origin_z: f64,
        direction_x: f64,
        direction_y: f64,
        direction_z: f64,
        max_distance: f64,
        normal_x: f64,
        normal_y: f64,
        normal_z: f64,
        distance: f64,
        hit: *mut f64,
        hit_length: usize,
    ) -> u32;

    /// Casts a ray at a triangle.
    pub fn probe_ray_triangle(
        origin_x: f64,
        origin_y: f64,
        origin_z: f64,
        direction_x: f64,
        direction_y: f64,
        direction_z: f64,
        max_distance: f64,
        a_x: f64,
        a_y: f64,
        a_z: f64,
        b_x: f64,
        b_y: f64,
        b_z: f64,
        c_x: f64,
        c_y: f64,
        c_z: f64,
        hit: *mut f64,
        hit_length: usize,
    ) -> u32;

    /// Casts a ray at a height grid.
    pub fn probe_ray_height_field(
        origin_x: f64,
        origin_y: f64,
        origin_z: f64,
        direction_x: f64,
        direction_y: f64,
        direction_z: f64,
        max_distance: f64,
        rows: usize,
        columns: usize,
        spacing_x: f64,
        spacing_y: f64,
        heights: *const f64,
        heights_length: usize,
        hit: *mut f64,
        hit_length: usize,
    ) -> u32;

    /// Casts a ray at a height grid with a low and a high for each node.
    pub fn probe_ray_height_ranges(
        origin_x: f64,
        origin_y: f64,
        origin_z: f64,
        direction_x: f64,
        direction_y: f64,
        direction_z: f64,
        max_distance: f64,
        near_distance: f64,
        rows: usize,
        columns: usize,
        spacing_x: f64,
        spacing_y: f64,
        lows: *const f64,
        lows_length: usize,
        highs: *const f64,
        highs_length: usize,
        cell: *mut u32,
        cell_length: usize,
    ) -> u32;

    /// Casts a ray at a distance grid.
    pub fn probe_ray_level_set(
        origin_x: f64,
        origin_y: f64,
        origin_z: f64,
        direction_x: f64,
        direction_y: f64,
        direction_z: f64,
        max_distance: f64,
        side_x: u32,
        side_y: u32,
        side_z: u32,
        grid_x: f64,
        grid_y: f64,
        grid_z: f64,
        spacing_x: f64,
        spacing_y: f64,
        spacing_z: f64,
        values: *const f64,
        values_length: usize,
        hit: *mut f64,
        hit_length: usize,
    ) -> u32;

    /// Casts a ray at a mesh through its tree.
    pub fn probe_ray_mesh(
        origin_x: f64,
        origin_y: f64,
        origin_z: f64,
        direction_x: f64,
        direction_y: f64,
        direction_z: f64,
        max_distance: f64,
        vertices: *const f64,
        vertices_length: usize,
        triangles: *const u32,
        triangles_length: usize,
        pose: *const f64,
        pose_length: usize,
        nodes: usize,
        node_boxes: *const f64,
        node_boxes_length: usize,
        triangle_boxes: *const f64,
        triangle_boxes_length: usize,
        node_words: *const u32,
        node_words_length: usize,
        order: *const u32,
        order_length: usize,
        list: *mut u32,
        list_length: usize,
        stack: *mut u32,
        stack_length: usize,
        hit: *mut f64,
        hit_length: usize,
        index: *mut u32,
        index_length: usize,
    ) -> u32;

    /// Casts a ray at a mesh without a tree.
    pub fn probe_ray_mesh_plain(
        origin_x: f64,
        origin_y: f64,
        origin_z: f64,
        direction_x: f64,
        direction_y: f64,
        direction_z: f64,
        max_distance: f64,
        near_distance: f64,
        vertices: *const f64,
        vertices_length: usize,
        triangles: *const u32,
        triangles_length: usize,
        hit: *mut f64,
        hit_length: usize,
        index: *mut u32,
        index_length: usize,
    ) -> u32;

    /// Casts a ray at a mesh on a grid of 2^-15 mm, without a tree: a miss is certain.
    pub fn probe_ray_mesh_exact_plain(
        origin_x: f64,
        origin_y: f64,
        origin_z: f64,
        direction_x: f64,
        direction_y: f64,
        direction_z: f64,
        max_distance: f64,
        near_distance: f64,
        vertices: *const f64,
        vertices_length: usize,
        triangles: *const u32,
        triangles_length: usize,
        hit: *mut f64,
        hit_length: usize,
        index: *mut u32,
        index_length: usize,
    ) -> u32;

    /// Casts a ray at a mesh on a grid of 2^-15 mm, through its tree.
    pub fn probe_ray_mesh_exact(
        origin_x: f64,
        origin_y: f64,
        origin_z: f64,
        direction_x: f64,
        direction_y: f64,
        direction_z: f64,
        max_distance: f64,
        near_distance: f64,
        vertices: *const f64,
        vertices_length: usize,
        triangles: *const u32,
        triangles_length: usize,
        pose: *const f64,
        pose_length: usize,
        nodes: usize,
        node_boxes: *const f64,
        node_boxes_length: usize,
        triangle_boxes: *const f64,
        triangle_boxes_length: usize,
        node_words: *const u32,
        node_words_length: usize,
        order: *const u32,
        order_length: usize,
        stack: *mut u32,
        stack_length: usize,
        hit: *mut f64,
        hit_length: usize,
        index: *mut u32,
        index_length: usize,
    ) -> u32;

    /// Casts many rays at a mesh through its tree, each result at its own places.
    pub fn probe_ray_mesh_many(
        rays: *const f64,
        rays_length: usize,
        vertices: *const f64,
        vertices_length: usize,
        triangles: *const u32,
        triangles_length: usize,
        pose: *const f64,
        pose_length: usize,
        nodes: usize,
        node_boxes: *const f64,
        node_boxes_length: usize,
        triangle_boxes: *const f64,
        triangle_boxes_length: usize,
        node_words: *const u32,
        node_words_length: usize,
        order: *const u32,
        order_length: usize,
        list: *mut u32,
        list_length: usize,
        stack: *mut u32,
        stack_length: usize,
        codes: *mut u32,
        codes_length: usize,
        hits: *mut f64,
        hits_length: usize,
        indices: *mut u32,
        indices_length: usize,
    ) -> u32;

    /// Casts many rays at a mesh on a grid of 2^-15 mm, through its tree.
    pub fn probe_ray_mesh_exact_many(
        rays: *const f64,
        rays_length: usize,
        vertices: *const f64,
        vertices_length: usize,
        triangles: *const u32,
        triangles_length: usize,
        pose: *const f64,
        pose_length: usize,
        nodes: usize,
        node_boxes: *const f64,
        node_boxes_length: usize,
        triangle_boxes: *const f64,
        triangle_boxes_length: usize,
        node_words: *const u32,
        node_words_length: usize,
        order: *const u32,
        order_length: usize,
        stack: *mut u32,
        stack_length: usize,
        codes: *mut u32,
        codes_length: usize,
        hits: *mut f64,
        hits_length: usize,
        indices: *mut u32,
        indices_length: usize,
    ) -> u32;

    /// Whether a drill of a radius about a ray's segment touches a mesh, without a tree.
    pub fn probe_drill_plain(
        origin_x: f64,
        origin_y: f64,
        origin_z: f64,
        direction_x: f64,
        direction_y: f64,
        direction_z: f64,
        max_distance: f64,
        near_distance: f64,
        radius: f64,
        vertices: *const f64,
        vertices_length: usize,
        triangles: *const u32,
        triangles_length: usize,
        index: *mut u32,
        index_length: usize,
    ) -> u32;

    /// The same through a tree.
    pub fn probe_drill(
        origin_x: f64,
        origin_y: f64,
        origin_z: f64,
        direction_x: f64,
        direction_y: f64,
        direction_z: f64,
        max_distance: f64,
        near_distance: f64,
        radius: f64,
        vertices: *const f64,
        vertices_length: usize,
        triangles: *const u32,
        triangles_length: usize,
        nodes: usize,
        node_boxes: *const f64,
        node_boxes_length: usize,
        triangle_boxes: *const f64,
        triangle_boxes_length: usize,
        node_words: *const u32,
        node_words_length: usize,
        order: *const u32,
        order_length: usize,
        list: *mut u32,
        list_length: usize,
        stack: *mut u32,
        stack_length: usize,
        index: *mut u32,
        index_length: usize,
    ) -> u32;

    /// Many drills at a mesh, through its tree.
    pub fn probe_drill_many(
        drills: *const f64,
        drills_length: usize,
        vertices: *const f64,
        vertices_length: usize,
        triangles: *const u32,
        triangles_length: usize,
        nodes: usize,
        node_boxes: *const f64,
        node_boxes_length: usize,
        triangle_boxes: *const f64,
        triangle_boxes_length: usize,
        node_words: *const u32,
        node_words_length: usize,
        order: *const u32,
        order_length: usize,
        list: *mut u32,
        list_length: usize,
        stack: *mut u32,
        stack_length: usize,
        codes: *mut u32,
        codes_length: usize,
        indices: *mut u32,
        indices_length: usize,
    ) -> u32;

    /// Lists every triangle of a mesh that a ray hits.
    pub fn probe_ray_mesh_all(
        origin_x: f64,
        origin_y: f64,
        origin_z: f64,
        direction_x: f64,
        direction_y: f64,
        direction_z: f64,
        max_distance: f64,
        near_distance: f64,
        vertices: *const f64,
        vertices_length: usize,
        triangles: *const u32,
        triangles_length: usize,
        pose: *const f64,
        pose_length: usize,
        nodes: usize,
        node_boxes: *const f64,
        node_boxes_length: usize,
        triangle_boxes: *const f64,
        triangle_boxes_length: usize,
        node_words: *const u32,
        node_words_length: usize,
        order: *const u32,
        order_length: usize,
        list: *mut u32,
        list_length: usize,
        stack: *mut u32,
        stack_length: usize,
        indices: *mut u32,
        indices_length: usize,
        numbers: *mut f64,
        numbers_length: usize,
        found: *mut usize,
        found_length: usize,
    ) -> u32;

    /// Lists every exact hit of a ray at a mesh, through a tree.
    pub fn probe_ray_mesh_exact_all(
        origin_x: f64,
        origin_y: f64,
        origin_z: f64,
        direction_x: f64,
        direction_y: f64,
        direction_z: f64,
        max_distance: f64,
        near_distance: f64,
        vertices: *const f64,
        vertices_length: usize,
        triangles: *const u32,
        triangles_length: usize,
        pose: *const f64,
        pose_length: usize,
        nodes: usize,
        node_boxes: *const f64,
        node_boxes_length: usize,
        triangle_boxes: *const f64,
        triangle_boxes_length: usize,
        node_words: *const u32,
        node_words_length: usize,
        order: *const u32,
        order_length: usize,
        list: *mut u32,
        list_length: usize,
        stack: *mut u32,
        stack_length: usize,
        indices: *mut u32,
        indices_length: usize,
        numbers: *mut f64,
        numbers_length: usize,
        found: *mut usize,
        found_length: usize,
    ) -> u32;

    /// Builds a mesh's tree.
    pub fn probe_build(
        vertices: *const f64,
        vertices_length: usize,
        triangles: *const u32,
        triangles_length: usize,
        node_boxes: *mut f64,
        node_boxes_length: usize,
        triangle_boxes: *mut f64,
        triangle_boxes_length: usize,
        node_words: *mut u32,
        node_words_length: usize,
        order: *mut u32,
        order_length: usize,
        work: *mut u32,
        work_length: usize,
        nodes: *mut usize,
        nodes_length: usize,
    ) -> u32;

    /// Lists the triangles whose boxes touch a box.
    pub fn probe_query(
        min_x: f64,
        min_y: f64,
        min_z: f64,
        max_x: f64,
        max_y: f64,
        max_z: f64,
        triangles: usize,
        nodes: usize,
        node_boxes: *const f64,
        node_boxes_length: usize,
        triangle_boxes: *const f64,
        triangle_boxes_length: usize,
        node_words: *const u32,
        node_words_length: usize,
        order: *const u32,
        order_length: usize,
        list: *mut u32,
        list_length: usize,
        stack: *mut u32,
        stack_length: usize,
        found: *mut usize,
        found_length: usize,
    ) -> u32;

    /// Merges two boards into one.
    pub fn probe_merge(
        first_vertices: *const f64,
        first_vertices_length: usize,
        first_triangles: *const u32,
        first_triangles_length: usize,
        first_nodes: usize,
        first_node_boxes: *const f64,
        first_node_boxes_length: usize,
        first_triangle_boxes: *const f64,
        first_triangle_boxes_length: usize,
        first_node_words: *const u32,
        first_node_words_length: usize,
        first_order: *const u32,
        first_order_length: usize,
        second_vertices: *const f64,
        second_vertices_length: usize,
        second_triangles: *const u32,
        second_triangles_length: usize,
        second_nodes: usize,
        second_node_boxes: *const f64,
        second_node_boxes_length: usize,
        second_triangle_boxes: *const f64,
        second_triangle_boxes_length: usize,
        second_node_words: *const u32,
        second_node_words_length: usize,
        second_order: *const u32,
        second_order_length: usize,
        vertices: *mut f64,
        vertices_length: usize,
        triangles: *mut u32,
        triangles_length: usize,
        node_boxes: *mut f64,
        node_boxes_length: usize,
        triangle_boxes: *mut f64,
        triangle_boxes_length: usize,
        node_words: *mut u32,
        node_words_length: usize,
        order: *mut u32,
        order_length: usize,
        marks: *mut u32,
        marks_length: usize,
        nodes: *mut usize,
        nodes_length: usize,
    ) -> u32;

    /// Whether a tree fits a mesh.
    pub fn probe_tree_check(
        vertices: *const f64,
        vertices_length: usize,
        triangles: *const u32,
        triangles_length: usize,
        nodes: usize,
        node_boxes: *const f64,
        node_boxes_length: usize,
        triangle_boxes: *const f64,
        triangle_boxes_length: usize,
        node_words: *const u32,
        node_words_length: usize,
        order: *const u32,
        order_length: usize,
        marks: *mut u32,
        marks_length: usize,
    ) -> u32;

    /// Whether every corner of every triangle of a mesh is three numbers.
    pub fn probe_mesh_has_numbers(
        vertices: *const f64,
        vertices_length: usize,
        triangles: *const u32,
        triangles_length: usize,
    ) -> u32;

    /// Casts a ray with a near distance at a plane.
    pub fn probe_ray_plane_near(
        origin_x: f64,
        origin_y: f64,
        origin_z: f64,
        direction_x: f64,
        direction_y: f64,
        direction_z: f64,
        max_distance: f64,
        near_distance: f64,
        normal_x: f64,
        normal_y: f64,
        normal_z: f64,
        distance: f64,
        hit: *mut f64,
        hit_length: usize,
    ) -> u32;

    /// Casts a ray with a near distance at a triangle.
    pub fn probe_ray_triangle_near(
        origin_x: f64,
        origin_y: f64,
        origin_z: f64,
        direction_x: f64,
        direction_y: f64,
        direction_z: f64,
        max_distance: f64,
        near_distance: f64,
        a_x: f64,
        a_y: f64,
        a_z: f64,
        b_x: f64,
        b_y: f64,
        b_z: f64,
        c_x: f64,
        c_y: f64,
        c_z: f64,
        hit: *mut f64,
        hit_length: usize,
    ) -> u32;

    /// Casts a ray with a near distance at a height grid.
    pub fn probe_ray_height_field_near(
        origin_x: f64,
        origin_y: f64,
        origin_z: f64,
        direction_x: f64,
        direction_y: f64,
        direction_z: f64,
        max_distance: f64,
        near_distance: f64,
        rows: usize,
        columns: usize,
        spacing_x: f64,
        spacing_y: f64,
        heights: *const f64,
        heights_length: usize,
        hit: *mut f64,
        hit_length: usize,
    ) -> u32;

    /// Casts a ray with a near distance at a distance grid.
    pub fn probe_ray_level_set_near(
        origin_x: f64,
        origin_y: f64,
        origin_z: f64,
        direction_x: f64,
        direction_y: f64,
        direction_z: f64,
        max_distance: f64,
        near_distance: f64,
        side_x: u32,
        side_y: u32,
        side_z: u32,
        grid_x: f64,
        grid_y: f64,
        grid_z: f64,
        spacing_x: f64,
        spacing_y: f64,
        spacing_z: f64,
        values: *const f64,
        values_length: usize,
        hit: *mut f64,
        hit_length: usize,
    ) -> u32;

    /// Casts a ray with a near distance at a mesh through its tree.
    pub fn probe_ray_mesh_near(
        origin_x: f64,
        origin_y: f64,
        origin_z: f64,
        direction_x: f64,
        direction_y: f64,
        direction_z: f64,
        max_distance: f64,
        near_distance: f64,
        vertices: *const f64,
        vertices_length: usize,
        triangles: *const u32,
        triangles_length: usize,
        pose: *const f64,
        pose_length: usize,
        nodes: usize,
        node_boxes: *const f64,
        node_boxes_length: usize,
        triangle_boxes: *const f64,
        triangle_boxes_length: usize,
        node_words: *const u32,
        node_words_length: usize,
        order: *const u32,
        order_length: usize,
        list: *mut u32,
        list_length: usize,
        stack: *mut u32,
        stack_length: usize,
        hit: *mut f64,
        hit_length: usize,
        index: *mut u32,
        index_length: usize,
    ) -> u32;

    /// Casts a ray with a near distance at a plane, with both in slices, of eight and four numbers.
    pub fn probe_ray_plane_slices(
        ray: *const f64,
        ray_length: usize,
        plane: *const f64,
        plane_length: usize,
        hit: *mut f64,
        hit_length: usize,
    ) -> u32;

    /// Casts a ray with a near distance at a triangle, with both in slices, of eight and nine numbers.
    pub fn probe_ray_triangle_slices(
        ray: *const f64,
        ray_length: usize,
        triangle: *const f64,
        triangle_length: usize,
        hit: *mut f64,
        hit_length: usize,
    ) -> u32;

    /// Casts a ray at a cabinet of many parts under one limit on the nodes.
    pub fn probe_ray_cabinet(
        origin_x: f64,
        origin_y: f64,
        origin_z: f64,
        direction_x: f64,
        direction_y: f64,
        direction_z: f64,
        max_distance: f64,
        near_distance: f64,
        parts: *const Part,
        parts_length: usize,
        vertices: *const f64,
        vertices_length: usize,
        triangles: *const u32,
        triangles_length: usize,
        node_boxes: *const f64,
        node_boxes_length: usize,
        triangle_boxes: *const f64,
        triangle_boxes_length: usize,
        node_words: *const u32,
        node_words_length: usize,
        order: *const u32,
        order_length: usize,
        limit: usize,
        list: *mut u32,
        list_length: usize,
        stack: *mut u32,
        stack_length: usize,
        hit: *mut f64,
        hit_length: usize,
        index: *mut u32,
        index_length: usize,
        part: *mut usize,
        part_length: usize,
        spent: *mut usize,
        spent_length: usize,
    ) -> u32;

    /// Converts a record of version 2 to version 3.
    pub fn probe_record_to_short(
        bytes: *const u8,
        bytes_length: usize,
        out: *mut u8,
        out_length: usize,
        written: *mut usize,
        written_length: usize,
    ) -> u32;

    /// Converts a record of version 3 to version 2.
    pub fn probe_record_to_long(
        bytes: *const u8,
        bytes_length: usize,
        out: *mut u8,
        out_length: usize,
        written: *mut usize,
        written_length: usize,
    ) -> u32;
}

/// A range of a buffer: its first element and its length.
#[repr(C)]
#[derive(Clone, Copy, Debug, Default, PartialEq, Eq, Hash)]
pub struct Span {
    /// The first element.
    pub start: usize,
    /// The length.
    pub length: usize,
}

/// A point.
#[repr(C)]
#[derive(Clone, Copy, Debug, Default, PartialEq)]
pub struct Vec3 {
    /// Along x.
    pub x: f64,
    /// Along y.
    pub y: f64,
    /// Along z.
    pub z: f64,
}

/// A part of a cabinet, 128 bytes: its origin, its tree's node count, and the ranges of its mesh and its tree in the buffers
/// that all parts share.
#[repr(C)]
#[derive(Clone, Copy, Debug, Default, PartialEq)]
pub struct Part {
    /// The part's origin: the ray's origin less this one is the ray's origin in the part's own frame.
    pub origin: Vec3,
    /// Its tree's node count.
    pub nodes: usize,
    /// Three numbers a vertex.
    pub vertices: Span,
    /// Three indices a triangle.
    pub triangles: Span,
    /// At least 12 a triangle.
    pub node_boxes: Span,
    /// At least 6 a triangle.
    pub triangle_boxes: Span,
    /// At least 6 a triangle.
    pub node_words: Span,
    /// At least one a triangle.
    pub order: Span,
}

/// The version of these calls. It changes when one of them changes.
pub const VERSION: u32 = 3;

/// A hit: its values are written.
pub const HIT: u32 = 256;
/// A miss: no hit from near to the maximum, as the cast reads them, by the cast's definition.
pub const NONE: u32 = 257;
/// The tree fits the mesh; the mesh's corners are numbers.
pub const YES: u32 = 258;
/// The tree does not fit the mesh; they are not numbers.
pub const NO: u32 = 259;
/// The results are written: a tree, a list, a record.
pub const DONE: u32 = 260;
/// No grid within the ranges has a triangle whose box touches the box of the ray's segment.
pub const CLEAR: u32 = 261;
/// Some grid within the ranges has one: `cell` is written. No cast need be a hit.
pub const POSSIBLE: u32 = 262;

/// Refusal 1.
pub const REFUSED_INVALID_INPUT: u32 = 1;
/// Refusal 2.
pub const REFUSED_BAD_SHAPE: u32 = 2;
/// Refusal 3.
pub const REFUSED_NO_ROOM: u32 = 3;
/// Refusal 4.
pub const REFUSED_WRONG_POSE: u32 = 4;
/// Refusal 5.
pub const REFUSED_OUT_OF_BOUNDS: u32 = 5;
/// Refusal 6.
pub const REFUSED_OVERFLOW: u32 = 6;
/// Refusal 7.
pub const REFUSED_NO_NORMAL: u32 = 7;
/// Refusal 8.
pub const REFUSED_NOT_CONVERGENT: u32 = 8;
/// A range of a visited cell is out of order or not finite.
pub const REFUSED_BAD_RANGE: u32 = 9;
/// Refusal 10.
pub const REFUSED_LIMIT_REACHED: u32 = 10;
/// A float of a record is NaN, or no f32 is exactly that number.
pub const REFUSED_NOT_REPRESENTABLE: u32 = 11;
/// Refusal 12.
pub const REFUSED_OUT_OF_RANGE: u32 = 12;
