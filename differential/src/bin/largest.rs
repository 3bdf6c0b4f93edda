//! The largest admitted meshes, once: build, tree check, queries and casts of the
//! library, beside the Rust and the model.

use differential::{
    calls,
    library::{Build, Cast, Check, Query},
    listing,
    log::Log,
    merge, panel,
    run::Mesh as Part,
    shapes,
};
use oracle::{
    answer::{MOST_TRIANGLES, MOST_VERTICES, Ray},
    cases,
    random::Random,
    tree::FlatTree,
    trees,
};
use std::{process::exit, time::Instant};

struct Mesh {
    name: &'static str,
    vertices: Vec<f64>,
    indices: Vec<u32>,
}

/// A bumpy panel of 65,536 triangles.
fn whole_panel(random: &mut Random) -> Mesh {
    let (vertices, indices) = panel::panel(256, 128, |_, _| random.between(0.0, 0.5));
    Mesh {
        name: "a panel of 256 by 128 squares",
        vertices,
        indices,
    }
}

/// 65,536 vertices, and 65,536 of the triangles between them in any order: a panel with
/// holes.
fn panel_with_holes(random: &mut Random) -> Mesh {
    let (vertices, indices) = panel::panel(255, 255, |_, _| random.coordinate());
    let mut indices = panel::shuffled(random, &indices);
    indices.truncate(3 * MOST_TRIANGLES);
    Mesh {
        name: "a panel of 65,536 vertices with holes",
        vertices,
        indices,
    }
}

/// One square's two triangles over and over: every centre equal to many others.
fn pile() -> Mesh {
    let (vertices, indices) = panel::panel(1, 1, |_, _| 0.0);
    Mesh {
        name: "two triangles, 32,768 times each",
        vertices,
        indices: indices.repeat(MOST_TRIANGLES / 2),
    }
}

/// A tree as deep as can be: each branch has one leaf of one triangle, and the rest.
fn comb(built: &FlatTree) -> FlatTree {
    let n = built.order.len();
    let mut tree = built.clone();
    tree.node_count = 2 * n - 1;
    for k in 0..n {
        let (branch, leaf) = (2 * k, if k + 1 < n { 2 * k + 1 } else { 2 * k });
        if leaf != branch {
            let words = [1, leaf as u32, branch as u32 + 2];
            tree.node_words[3 * branch..3 * branch + 3].copy_from_slice(&words);
            tree.node_boxes.copy_within(..6, 6 * branch);
        }
        tree.node_words[3 * leaf..3 * leaf + 3].copy_from_slice(&[0, k as u32, 1]);
        let triangle = 6 * tree.order[k] as usize;
        tree.node_boxes[6 * leaf..6 * leaf + 6]
            .copy_from_slice(&built.triangle_boxes[triangle..triangle + 6]);
    }
    tree
}

/// Short probes from above, long slanted rays, and rays beside the mesh.
fn rays(random: &mut Random, mesh: &Mesh, count: usize) -> Vec<Ray> {
    let last = mesh.vertices.len() - 3;
    let [wide, deep] = [mesh.vertices[last], mesh.vertices[last + 1]];
    let ray = |k: usize| {
        let (x, y) = (
            random.between(-0.1, 1.1) * wide,
            random.between(-0.1, 1.1) * deep,
        );
        let (x, y) = if random.once_in(3) {
            (x.round(), y.round())
        } else {
            (x, y)
        };
        let (direction, maximum) = match k % 4 {
            0 => ([0.0, 0.0, -1.0], 2.0),
            1 => ([0.0, 0.0, -1.0], 20.0),
            2 => ([0.6, 0.0, -0.8], 12.5),
            _ => ([0.8, 0.6 - 1e-13, -1e-3], 400.0),
        };
        Ray {
            origin: [x, y, random.pick(&[0.25, 1.0, 8.0])],
            direction: unit(direction),
            maximum,
            near: 0.0,
        }
    };
    (0..count).map(ray).collect()
}

fn unit(a: [f64; 3]) -> [f64; 3] {
    let length = (a[0] * a[0] + a[1] * a[1] + a[2] * a[2]).sqrt();
    a.map(|x| x / length)
}

/// Boxes: all, none, one square, a strip, one plane exactly on a row of vertices.
const BOXES: [[f64; 6]; 6] = [
    [-1e9, -1e9, -1e9, 1e9, 1e9, 1e9],
    [0.0, 0.0, 100.0, 256.0, 128.0, 101.0],
    [100.0, 50.0, -9.0, 101.0, 51.0, 9.0],
    [0.0, 63.5, -9.0, 256.0, 64.5, 9.0],
    [17.0, 0.0, -9.0, 17.0, 128.0, 9.0],
    [256.0, 128.0, 0.0, 300.0, 300.0, 0.0],
];

/// FNV-1a over the tree's bits.
fn checksum(tree: &FlatTree) -> u64 {
    let floats = tree.node_boxes[..6 * tree.node_count]
        .iter()
        .chain(&tree.triangle_boxes);
    let words = tree.node_words[..3 * tree.node_count]
        .iter()
        .chain(&tree.order);
    let all = floats
        .map(|x| x.to_bits())
        .chain(words.map(|&word| word.into()));
    all.flat_map(u64::to_le_bytes)
        .fold(0xcbf2_9ce4_8422_2325, |sum, byte| {
            (sum ^ u64::from(byte)).wrapping_mul(0x0100_0000_01b3)
        })
}

/// The library's tree in areas of the stated lengths.
fn built(log: &mut Log, random: &mut Random, mesh: &Mesh) -> Option<FlatTree> {
    let n = mesh.indices.len() / 3;
    let areas = cases::areas(random, n);
    let build = Build {
        vertices: &mesh.vertices,
        indices: &mesh.indices,
        areas: &areas,
        work: &cases::filled(random, n),
        nodes: &[0],
    };
    calls::build(log, &build)
}

/// Check, queries and casts over one tree for the mesh.
fn with_tree(log: &mut Log, random: &mut Random, mesh: &Mesh, tree: &FlatTree, rays: &[Ray]) {
    let n = mesh.indices.len() / 3;
    let check = Check {
        vertices: &mesh.vertices,
        indices: &mesh.indices,
        tree,
        marks: &vec![7; 3 * n],
    };
    calls::check(log, &check, Some(true));
    let (list, stack) = (vec![7; n], vec![7; tree.node_count + 1]);
    for bounds in BOXES {
        let query = Query {
            bounds,
            triangles: n,
            tree,
            list: &list,
            stack: &stack,
            found: &[0],
        };
        calls::query(log, &query);
    }
    for ray in rays {
        let cast = Cast {
            ray: *ray,
            vertices: &mesh.vertices,
            indices: &mesh.indices,
            pose: &mesh.vertices,
            tree,
            list: &list,
            stack: &stack,
            hit: &[7.0; 4],
            index: &[7],
        };
        calls::cast(log, &cast);
        listing::listing(log, random, &cast);
    }
}

/// One triangle or one vertex more is refused with 2; one place less with 3.
fn past_the_limits(log: &mut Log, random: &mut Random, mesh: &Mesh) {
    log.context = "past the limits";
    let mut more = Mesh {
        name: "",
        vertices: mesh.vertices.clone(),
        indices: mesh.indices.clone(),
    };
    more.indices.extend([0, 0, 0]);
    built(log, random, &more);
    more.indices.truncate(3);
    more.vertices.resize(3 * MOST_VERTICES + 3, 0.0);
    built(log, random, &more);
    let n = mesh.indices.len() / 3;
    let build = Build {
        vertices: &mesh.vertices,
        indices: &mesh.indices,
        areas: &cases::areas(random, n),
        work: &cases::filled(random, n - 1),
        nodes: &[0],
    };
    calls::build(log, &build);
}

fn compare(log: &mut Log, random: &mut Random, mesh: &Mesh, count: usize) {
    let start = Instant::now();
    log.context = "the library's tree";
    let Some(tree) = built(log, random, mesh) else {
        return;
    };
    let rays = rays(random, mesh, count);
    with_tree(log, random, mesh, &tree, &rays);
    log.context = "another builder's tree";
    let other = trees::valid(random, &tree);
    with_tree(log, random, mesh, &other, &rays[..count / 8]);
    log.context = "the deepest tree";
    with_tree(log, random, mesh, &comb(&tree), &rays[..count / 8]);
    past_the_limits(log, random, mesh);
    println!(
        "{}: {} vertices, {} triangles, {} nodes, tree {:016x}, {count} rays, {:.1} s",
        mesh.name,
        mesh.vertices.len() / 3,
        mesh.indices.len() / 3,
        tree.node_count,
        checksum(&tree),
        start.elapsed().as_secs_f64()
    );
}

/// Two bumpy panels of 32,768 triangles, one 3 above the other, glued into one of 65,536.
fn glue(log: &mut Log, random: &mut Random, count: usize) {
    let start = Instant::now();
    let mut part = |above: f64| {
        let (vertices, indices) = panel::panel(128, 128, |_, _| above + random.between(0.0, 0.5));
        Mesh {
            name: "",
            vertices,
            indices,
        }
    };
    let (first, second) = (part(0.0), part(3.0));
    let rays = rays(random, &first, count);
    let [a, b] = [first, second].map(|mesh| Part {
        ray: rays[0],
        vertices: mesh.vertices,
        indices: mesh.indices,
    });
    merge::largest(log, random, &a, &b, &rays);
    println!(
        "two panels of 32,768 triangles glued, {count} rays, {:.1} s",
        start.elapsed().as_secs_f64()
    );
}

fn main() {
    let (mut log, random) = (Log::default(), &mut Random::new(65_536));
    for (mesh, count) in [
        (whole_panel(random), 320),
        (panel_with_holes(random), 160),
        (pile(), 16),
    ] {
        compare(&mut log, random, &mesh, count);
    }
    glue(&mut log, random, 64);
    merge::at_the_limits(&mut log, random);
    shapes::at_the_limits(&mut log);
    log.print();
    for found in log.differences.iter().take(10) {
        println!("{}, {}: {}", found.call, found.context, found.text);
    }
    println!("largest meshes: {} differences", log.differences.len());
    exit(i32::from(!log.differences.is_empty()));
}
