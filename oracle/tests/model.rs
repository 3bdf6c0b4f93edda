//! The model of what document 01 adds, held against the Rust wherever both answer.

use oracle::{
    answer::{self, Answer, Ray, agree},
    cases, generate,
    model::{self, BuildAreas, Check},
    plain,
    random::Random,
    record::Shape,
    tree::{self, FlatTree},
    trees,
};

type Mesh = (Ray, Vec<f64>, Vec<u32>);

fn meshes(seed: u64, count: u64) -> Vec<Mesh> {
    let record = |number| generate::record(seed, number, &[3]);
    let mesh = |number| match record(number).shape {
        Shape::Mesh { vertices, indices } => (record(number).ray, vertices, indices),
        _ => unreachable!(),
    };
    (0..count).map(mesh).collect()
}

fn same(a: &Answer, b: &Answer) -> bool {
    match (a, b) {
        (
            Answer::Hit {
                normal,
                distance,
                index,
            },
            Answer::Hit {
                normal: other_normal,
                distance: other_distance,
                index: other_index,
            },
        ) => {
            agree(*distance, *other_distance)
                && (0..3).all(|k| agree(normal[k], other_normal[k]))
                && index == other_index
        }
        _ => a == b,
    }
}

/// A build by the model in areas that hold 7 everywhere and are a little too long.
fn model_build(vertices: &[f64], indices: &[u32]) -> (Result<usize, u32>, FlatTree) {
    let n = indices.len() / 3;
    let mut areas = FlatTree {
        node_boxes: vec![7.0; 12 * n + 2],
        triangle_boxes: vec![7.0; 6 * n + 2],
        node_words: vec![7; 6 * n + 2],
        order: vec![7; n + 2],
        node_count: 0,
    };
    let built = model::build(
        vertices,
        indices,
        &mut BuildAreas {
            node_boxes: &mut areas.node_boxes,
            triangle_boxes: &mut areas.triangle_boxes,
            node_words: &mut areas.node_words,
            order: &mut areas.order,
        },
        n,
    );
    (built, areas)
}

#[test]
fn build_is_the_rusts() {
    let (mut built_count, mut refused) = (0, [0; 9]);
    for (_, vertices, indices) in meshes(11, 4_000) {
        let (built, areas) = model_build(&vertices, &indices);
        match (built, tree::build(&vertices, &indices)) {
            (Ok(nodes), Ok(rust)) => {
                built_count += 1;
                let n = indices.len() / 3;
                assert_eq!(nodes, rust.node_count);
                assert_eq!(areas.node_boxes[..6 * nodes], rust.node_boxes);
                assert_eq!(areas.triangle_boxes[..6 * n], rust.triangle_boxes);
                assert_eq!(areas.node_words[..3 * nodes], rust.node_words);
                assert_eq!(areas.order[..n], rust.order);
                assert!(areas.node_boxes[6 * nodes..].iter().all(|&x| x == 7.0));
                assert!(areas.node_words[3 * nodes..].iter().all(|&x| x == 7));
                assert_eq!(areas.triangle_boxes[6 * n..], [7.0; 2]);
                assert_eq!(areas.order[n..], [7; 2]);
            }
            (Err(number), Err(rust)) => {
                refused[number as usize] += 1;
                assert_eq!(number, rust);
                let floats = areas.node_boxes.iter().chain(&areas.triangle_boxes);
                assert!(floats.copied().all(|x| x == 0.0));
                let words = areas.node_words.iter().chain(&areas.order);
                assert!(words.copied().all(|x| x == 0));
            }
            other => panic!("{other:?}"),
        }
    }
    assert!(
        built_count > 3_000 && refused[5] > 50 && refused[6] > 10,
        "{refused:?}"
    );
}

#[test]
fn built_and_other_trees_pass_and_give_the_rusts_answers() {
    let random = &mut Random::new(5);
    let mut hits = 0;
    for (ray, vertices, indices) in meshes(12, 3_000) {
        let Ok(built) = tree::build(&vertices, &indices) else {
            continue;
        };
        let n = indices.len() / 3;
        let (plain, reason) =
            plain::beside_the_rust(|| model::ray_mesh_without_tree(&ray, &vertices, &indices));
        if reason.is_some() {
            continue;
        }
        let rust = answer::mesh(&ray, &vertices, &indices);
        assert!(same(&plain, &rust));
        hits += i32::from(matches!(plain, Answer::Hit { .. }));
        for lent in [built.clone().padded(n), trees::valid(random, &built)] {
            let view = (&lent).into();
            assert_eq!(
                model::tree_check(&vertices, &indices, view, 3 * n),
                Check::Yes
            );
            let stack = lent.node_count + 1;
            let cast = model::ray_mesh(&ray, &vertices, &indices, &vertices, view, n, stack);
            assert!(same(&plain, &cast));
            let rust = answer::mesh_with_tree(&ray, &vertices, &indices, &vertices, &lent);
            assert!(same(&plain, &rust));
            if let Some(bounds) = tree::segment_box(&ray) {
                let mut list = vec![u32::MAX; n + 1];
                let count = model::query(view, n, bounds, &mut list, stack).unwrap();
                assert_eq!(Ok(list[..count].to_vec()), tree::query(&lent, n, bounds));
                assert!(list[count..].iter().all(|&t| t == u32::MAX));
            }
        }
    }
    assert!(hits > 500, "{hits}");
}

#[test]
fn a_cast_at_other_vertices_is_the_rusts() {
    let random = &mut Random::new(6);
    for (ray, vertices, indices) in meshes(13, 1_000) {
        let Ok(built) = tree::build(&vertices, &indices) else {
            continue;
        };
        let n = indices.len() / 3;
        let mut posed = vertices.clone();
        let place = random.below(posed.len());
        posed[place] = if random.once_in(4) {
            random.special()
        } else {
            random.coordinate()
        };
        if random.once_in(8) {
            posed.truncate(posed.len() - 3);
        }
        let lent = built.padded(n);
        let stack = lent.node_count + 1;
        let (cast, reason) = plain::beside_the_rust(|| {
            model::ray_mesh(&ray, &vertices, &indices, &posed, (&lent).into(), n, stack)
        });
        if reason.is_some() {
            continue;
        }
        let rust = answer::mesh_with_tree(&ray, &vertices, &indices, &posed, &lent);
        assert!(same(&cast, &rust), "{cast:?} {rust:?}");
    }
}

#[test]
fn damaged_trees_are_refused_or_harmless() {
    let random = &mut Random::new(7);
    let (mut said_no, mut fives, mut twos) = ([0; trees::DAMAGES.len()], 0, 0);
    for (ray, vertices, indices) in meshes(14, 8_000) {
        let Ok(built) = tree::build(&vertices, &indices) else {
            continue;
        };
        let n = indices.len() / 3;
        let sound = trees::valid(random, &built);
        let (lent, name) = trees::damaged(random, &sound);
        let view = (&lent).into();
        let stack = lent.node_count.saturating_add(1);
        let cast = model::ray_mesh(&ray, &vertices, &indices, &vertices, view, n, stack);
        match model::tree_check(&vertices, &indices, view, 3 * n) {
            Check::Yes => {
                let plain = model::ray_mesh_without_tree(&ray, &vertices, &indices);
                assert!(same(&plain, &cast), "{name}");
            }
            Check::No => {
                let kind = trees::DAMAGES
                    .iter()
                    .position(|&damage| damage == name)
                    .unwrap();
                said_no[kind] += 1;
            }
            Check::Refused(number) => panic!("{name} gives {number}"),
        }
        fives += i32::from(cast == Answer::Refused(5));
        twos += i32::from(cast == Answer::Refused(2));
        let mut list = vec![9; n + 1];
        let bounds = [-1e9, -1e9, -1e9, 1e9, 1e9, 1e9];
        match model::query(view, n, bounds, &mut list, stack) {
            Ok(count) => {
                assert_eq!(
                    Ok(list[..count].to_vec()),
                    tree::query(&lent, n, bounds),
                    "{name}"
                );
                assert!(list[count..].iter().all(|&t| t == 9));
            }
            Err(5) => {
                assert!(list.iter().all(|&t| t == 0));
                // The Rust would walk on in these.
                let endless = [
                    "child is the node itself",
                    "child below the node",
                    "both children equal",
                ];
                if !endless.contains(&name) {
                    let rust = tree::query(&lent, n, bounds);
                    let past_the_list = rust.as_ref().is_ok_and(|listed| listed.len() > n);
                    assert!(rust == Err(5) || past_the_list, "{name}");
                }
            }
            Err(2) => assert!(list.iter().all(|&t| t == 9)),
            Err(number) => panic!("{name} gives {number}"),
        }
    }
    assert!(said_no.iter().all(|&count| count > 0), "{said_no:?}");
    assert!(fives > 100 && twos > 50, "{fives} {twos}");
}

#[test]
fn areas_one_too_short_are_no_room() {
    let vertices = [0.0, 0.0, 0.0, 1.0, 0.0, 0.0, 0.0, 1.0, 0.0];
    let indices = [0, 1, 2].repeat(5);
    let n = 5;
    let ray = Ray {
        origin: [0.25, 0.25, 1.0],
        direction: [0.0, 0.0, -1.0],
        maximum: 1.0,
        near: 0.0,
    };
    let whole = tree::build(&vertices, &indices).unwrap().padded(n);
    let stack = whole.node_count + 1;
    let bounds = tree::segment_box(&ray).unwrap();
    let shorten: [fn(&mut FlatTree); 5] = [
        |_| {},
        |tree| tree.node_boxes.truncate(59),
        |tree| tree.triangle_boxes.truncate(29),
        |tree| tree.node_words.truncate(29),
        |tree| tree.order.truncate(4),
    ];
    for (k, shorten) in shorten.iter().enumerate() {
        let mut lent = whole.clone();
        shorten(&mut lent);
        let view = (&lent).into();
        let check = model::tree_check(&vertices, &indices, view, 3 * n);
        let cast = model::ray_mesh(&ray, &vertices, &indices, &vertices, view, n, stack);
        let queried = model::query(view, n, bounds, &mut [9; 5], stack);
        assert_eq!(check == Check::Refused(3), k > 0);
        assert_eq!(cast == Answer::Refused(3), k > 0);
        assert_eq!(queried == Err(3), k > 0);
    }
    let view = (&whole).into();
    assert_eq!(
        model::tree_check(&vertices, &indices, view, 14),
        Check::Refused(3)
    );
    let mut list = [9; 5];
    assert_eq!(model::query(view, n, bounds, &mut list[..4], stack), Err(3));
    assert_eq!(model::query(view, n, bounds, &mut list, stack - 1), Err(3));
    assert_eq!(list, [9; 5]);
    for (list, stack) in [(4, stack), (5, stack - 1)] {
        let cast = model::ray_mesh(&ray, &vertices, &indices, &vertices, view, list, stack);
        assert_eq!(cast, Answer::Refused(3));
    }
    let pose = model::ray_mesh(&ray, &vertices, &indices, &vertices[3..], view, n, stack);
    assert_eq!(pose, Answer::Refused(4));
    let ragged = model::ray_mesh(&ray, &vertices, &indices, &vertices[1..], view, n, stack);
    assert_eq!(ragged, Answer::Refused(2));
}

#[test]
fn empty_trees() {
    let none = FlatTree::default();
    assert_eq!(model::tree_check(&[], &[], (&none).into(), 0), Check::Yes);
    assert_eq!(model::query((&none).into(), 0, [0.0; 6], &mut [], 1), Ok(0));
    assert_eq!(
        model::query((&none).into(), 0, [0.0; 6], &mut [], 0),
        Err(3)
    );
    assert_eq!(
        model::query((&none).into(), 0, [f64::NAN; 6], &mut [], 0),
        Err(1)
    );
    let one = FlatTree {
        node_count: 1,
        ..FlatTree::default()
    };
    assert_eq!(model::tree_check(&[], &[], (&one).into(), 0), Check::No);
    assert_eq!(model::query((&one).into(), 0, [0.0; 6], &mut [], 2), Err(2));
}

#[test]
fn cases_meet_every_refusal_of_every_call() {
    let mut met = [[0u32; 10]; 4];
    for number in 0..20_000 {
        let mut case = cases::case(21, number);
        let tree = (&case.tree).into();
        let cast = model::ray_mesh(
            &case.ray,
            &case.vertices,
            &case.indices,
            &case.cast_vertices,
            tree,
            case.list.len(),
            case.stack.len(),
        );
        met[0][if let Answer::Refused(number) = cast {
            number as usize
        } else {
            0
        }] += 1;
        let check = model::tree_check(&case.vertices, &case.indices, tree, case.marks.len());
        met[1][match check {
            Check::Yes => 0,
            Check::No => 9,
            Check::Refused(number) => number as usize,
        }] += 1;
        let (n, bounds) = (case.query_triangles, case.query_box);
        let before = case.list.clone();
        let queried = model::query(tree, n, bounds, &mut case.list, case.stack.len());
        met[2][queried.map_or_else(|number| number as usize, |_| 0)] += 1;
        assert!(!matches!(queried, Err(1..=4)) || case.list == before);
        let mut areas = BuildAreas {
            node_boxes: &mut case.build.node_boxes,
            triangle_boxes: &mut case.build.triangle_boxes,
            node_words: &mut case.build.node_words,
            order: &mut case.build.order,
        };
        let built = model::build(&case.vertices, &case.indices, &mut areas, case.work.len());
        met[3][built.map_or_else(|number| number as usize, |_| 0)] += 1;
    }
    let kinds = |met: &[u32]| (0..10).filter(|&k| met[k] > 0).collect::<Vec<usize>>();
    assert_eq!(kinds(&met[0]), [0, 1, 2, 3, 4, 5, 6, 7], "{met:?}");
    assert_eq!(kinds(&met[1]), [0, 2, 3, 9], "{met:?}");
    assert_eq!(kinds(&met[2]), [0, 1, 2, 3, 5], "{met:?}");
    assert_eq!(kinds(&met[3]), [0, 2, 3, 5, 6], "{met:?}");
}

/// The fold over a list of triangles that some slip would make.
fn slipped(ray: &Ray, mesh: &Mesh, list: &[u32], keep: fn(f64, f64) -> bool) -> Answer {
    let mut best: Option<(f64, Answer)> = None;
    for &triangle in list {
        let corner = |k: usize| 3 * mesh.2[3 * triangle as usize + k] as usize;
        let corners = [0, 1, 2].map(|k| mesh.1[corner(k)..corner(k) + 3].try_into().unwrap());
        match answer::triangle_of_admitted_ray(ray, corners) {
            Answer::Refused(number) => return Answer::Refused(number),
            Answer::None => {}
            Answer::Hit {
                normal, distance, ..
            } => {
                if best.is_none_or(|(least, _)| keep(distance, least)) {
                    let index = Some(triangle);
                    let hit = Answer::Hit {
                        normal,
                        distance,
                        index,
                    };
                    best = Some((distance, hit));
                }
            }
        }
    }
    best.map_or(Answer::None, |(_, hit)| hit)
}

#[test]
fn generated_meshes_tell_the_slips_apart() {
    let (mut boxes_ignored, mut first_hit, mut last_of_equals) = (0, 0, 0);
    for mesh in meshes(15, 6_000) {
        let ray = &mesh.0;
        let right = answer::mesh(ray, &mesh.1, &mesh.2);
        let built = tree::build(&mesh.1, &mesh.2).is_ok() && tree::segment_box(ray).is_some();
        if right == Answer::Refused(1) || !built {
            continue;
        }
        let all: Vec<u32> = (0..mesh.2.len() as u32 / 3).collect();
        let listed = model::candidates(ray, &mesh.1, &mesh.2);
        let wrong = |list: &[u32], keep| i32::from(!same(&right, &slipped(ray, &mesh, list, keep)));
        assert_eq!(wrong(&listed, |distance, least| distance < least), 0);
        boxes_ignored += wrong(&all, |distance, least| distance < least);
        first_hit += wrong(&listed, |_, _| false);
        last_of_equals += wrong(&listed, |distance, least| distance <= least);
    }
    let met = [boxes_ignored, first_hit, last_of_equals];
    assert!(met.iter().all(|&count| count > 20), "{met:?}");
}
