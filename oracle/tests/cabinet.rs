//! The model of the cast at a cabinet: what document 02 says of M-110, worked out by hand.

use oracle::{
    answer::{Answer, Ray},
    cabinet::{Areas, CabinetAnswer, Part, Span, ray_cabinet},
};

fn refused(number: u32, spent: Option<usize>) -> CabinetAnswer {
    CabinetAnswer {
        answer: Answer::Refused(number),
        part: 0,
        spent,
    }
}

/// One triangle in one node, twice: document 02's sentences, by hand.
fn two_parts() -> (Areas, [Part; 2]) {
    let areas = Areas {
        vertices: vec![0.0, 0.0, 0.0, 1.0, 0.0, 0.0, 0.0, 1.0, 0.0],
        triangles: vec![0, 1, 2],
        node_boxes: vec![0.0, 0.0, 0.0, 1.0, 1.0, 0.0, 0.0, 0.0, 0.0, 0.0, 0.0, 0.0],
        triangle_boxes: vec![0.0, 0.0, 0.0, 1.0, 1.0, 0.0],
        node_words: vec![0, 0, 1, 0, 0, 0],
        order: vec![0],
    };
    let whole = |length| Span { start: 0, length };
    let part = Part {
        origin: [0.0; 3],
        nodes: 1,
        vertices: whole(9),
        triangles: whole(3),
        node_boxes: whole(12),
        triangle_boxes: whole(6),
        node_words: whole(6),
        order: whole(1),
    };
    let raised = Part {
        origin: [0.0, 0.0, 0.5],
        ..part
    };
    (areas, [part, raised])
}

const DOWN: Ray = Ray {
    origin: [0.25, 0.25, 1.0],
    direction: [0.0, 0.0, -1.0],
    maximum: 3.0,
    near: 0.0,
};

#[test]
fn limits() {
    let (areas, parts) = two_parts();
    let cast = |parts: &[Part], limit| ray_cabinet(&DOWN, parts, &areas, limit, 1, 2, true);
    let hit = cast(&parts, 2);
    assert!(matches!(
        hit.answer,
        Answer::Hit {
            distance: 0.5,
            index: Some(0),
            ..
        }
    ));
    assert_eq!((hit.part, hit.spent), (1, Some(2)));
    // a hit does not stand against a later 10, and the nodes spent never pass the limit
    assert_eq!(cast(&parts, 1), refused(10, Some(1)));
    assert_eq!(cast(&parts, 0), refused(10, Some(0)));
    // "An empty list is none with nothing spent."
    let none = cast(&[], 0);
    assert_eq!((none.answer, none.spent), (Answer::None, Some(0)));
    // an origin that overflows is 6 before a node is taken
    let far = Part {
        origin: [f64::INFINITY, 0.0, 0.0],
        ..parts[0]
    };
    assert_eq!(cast(&[far, parts[0]], 0), refused(6, Some(0)));
}

#[test]
fn ranges() {
    let (areas, [part, _]) = two_parts();
    let cast = |parts: &[Part], stack| ray_cabinet(&DOWN, parts, &areas, 9, 1, stack, true);
    let past = Part {
        order: Span {
            start: 1,
            length: 1,
        },
        ..part
    };
    let wraps = Part {
        order: Span {
            start: 2,
            length: usize::MAX,
        },
        ..part
    };
    let empty_past = Part {
        order: Span {
            start: 2,
            length: 0,
        },
        ..part
    };
    let short = Part {
        order: Span {
            start: 1,
            length: 0,
        },
        ..part
    };
    for bad in [past, wraps, empty_past] {
        // 2 of any part before 3 of any part
        assert_eq!(cast(&[short, bad], 2), refused(2, None));
    }
    assert_eq!(cast(&[part, short], 2), refused(3, None));
    assert_eq!(cast(&[part], 1), refused(3, None));
}
