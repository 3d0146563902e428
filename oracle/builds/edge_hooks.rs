//! The places of obstacles.rs where the counted build notes which branch is taken, and which edge makes a line. Text is
//! only inserted, as in linear_programming.rs.

use crate::Hook;

/// In the branch itself, behind its brace.
macro_rules! taken {
    ($branch:literal) => {
        concat!(
            " counters::edge_branches::EdgeBranch::",
            $branch,
            ".take();"
        )
    };
}

/// In the branch itself, before its first statement.
macro_rules! first_taken {
    ($branch:literal) => {
        concat!(
            "counters::edge_branches::EdgeBranch::",
            $branch,
            ".take(); "
        )
    };
}

/// A call before the tests that it names.
macro_rules! noted {
    ($call:literal) => {
        concat!("counters::edge_branches::", $call, "; ")
    };
}

/// Before an edge's line joins the others.
const MAKER: &str = "counters::makers::note(left_index); ";

pub const EDGE_HOOKS: [Hook; 42] = [
    Hook {
        name: "a closed obstacle's vertex",
        before: "\n        let right = vertices[if i == vertices.len() - 1 { 0 } else { i + 1 }];\n        ",
        inserted: noted!("vertex(true, determinant(right - center, left - center), left, center, right)"),
        after: "convexity.push(",
    },
    Hook {
        name: "an open obstacle's end vertex",
        before: "      } else if i == 0 || i == vertices.len() - 1 {",
        inserted: taken!("OpenEnd"),
        after: "\n        convexity.push(true);",
    },
    Hook {
        name: "an open obstacle's other vertex",
        before: "\n        let right = vertices[i + 1];\n        ",
        inserted: noted!("vertex(false, determinant(right - center, left - center), left, center, right)"),
        after: "convexity.push(",
    },
    Hook {
        name: "an edge of a closed obstacle makes a line",
        before: "        Some(vertices[right_right_index]),\n        obstacle_margin,\n        time_horizon,\n        &lines,\n      ) {\n        ",
        inserted: MAKER,
        after: "lines.push(line);",
    },
    Hook {
        name: "an edge of an open obstacle makes a line",
        before: "          Some(vertices[right_index + 1])\n        },\n        obstacle_margin,\n        time_horizon,\n        &lines,\n      ) {\n        ",
        inserted: MAKER,
        after: "lines.push(line);",
    },
    Hook {
        name: "the agent is behind the edge",
        before: "  if determinant(agent_from_left_vertex, edge_vector) < 0.0 {",
        inserted: taken!("BackSide"),
        after: "\n    return None;",
    },
    Hook {
        name: "the agent is in front of the edge",
        before: "\n  ",
        inserted: noted!("in_front(determinant(agent_from_left_vertex, edge_vector))"),
        after: "fn is_edge_covered(",
    },
    Hook {
        name: "whether an earlier line covers the edge",
        before: "\n      ",
        inserted: noted!(
            "earlier_line(std::ptr::eq(line, &existing_lines[0]), \
             determinant(left_vertex / time_horizon - line.point, line.direction), \
             determinant(right_vertex / time_horizon - line.point, line.direction), \
             edge_margin / time_horizon - EDGE_COVER_EPSILON)"
        ),
        after: "if determinant(left_vertex / time_horizon - line.point, line.direction)\n",
    },
    Hook {
        name: "the edge is covered",
        before: "    edge_margin,\n    existing_lines,\n  ) {",
        inserted: taken!("Covered"),
        after: "\n    return None;",
    },
    Hook {
        name: "the edge is not covered",
        before: "\n  ",
        inserted: noted!("not_covered(existing_lines.len())"),
        after: "let edge_unit_vector = edge_vector.normalize();",
    },
    Hook {
        name: "where the agent projects to the edge",
        before: "\n  ",
        inserted: noted!("edge_time(edge_t)"),
        after: "let dist_to_edge_line_squared =\n",
    },
    Hook {
        name: "how far away the edge is",
        before: "\n  ",
        inserted: noted!(
            "distances(edge_t, [dist_left_squared, dist_right_squared, \
             dist_to_edge_line_squared], squared_radius)"
        ),
        after: "if edge_t < 0.0 && dist_left_squared <= squared_radius {",
    },
    Hook {
        name: "collision with a concave left vertex",
        before: "    if !left_vertex.convex {",
        inserted: taken!("LeftCornerConcave"),
        after: "\n      return Some(",
    },
    Hook {
        name: "collision with a convex left vertex",
        before: "\n    ",
        inserted: first_taken!("LeftCornerConvex"),
        after: "return Some(Line {\n      point: Vec2::ZERO,\n      direction: relative_left_vertex.perp().normalize(),",
    },
    Hook {
        name: "collision with a concave right vertex",
        before: "    if !right_vertex.convex {",
        inserted: taken!("RightCornerConcave"),
        after: "\n      return Some(",
    },
    Hook {
        name: "collision with a right vertex that the next edge handles",
        before: "      ) < 0.0\n      {",
        inserted: taken!("RightCornerOfNextEdge"),
        after: "\n        return None;",
    },
    Hook {
        name: "collision with a right vertex that this edge handles",
        before: "\n    ",
        inserted: noted!(
            "right_corner(right_right_vertex.map(|vertex| \
             determinant(relative_right_vertex, vertex - right_vertex.point)))"
        ),
        after: "return Some(Line {\n      point: Vec2::ZERO,\n      direction: relative_right_vertex.perp().normalize(),",
    },
    Hook {
        name: "collision with the edge",
        before: "    && dist_to_edge_line_squared <= squared_radius\n  {",
        inserted: taken!("EdgeHit"),
        after: "\n    return Some(",
    },
    Hook {
        name: "a concave left vertex shadows the right one",
        before: "    if !left_vertex.convex {",
        inserted: taken!("LeftShadowsConcave"),
        after: "\n      return None;",
    },
    Hook {
        name: "a convex left vertex shadows the right one",
        before: "\n    ",
        inserted: first_taken!("LeftShadowsConvex"),
        after: "right_right_vertex = Some(right_vertex.point);",
    },
    Hook {
        name: "a concave right vertex shadows the left one",
        before: "    if !right_vertex.convex {",
        inserted: taken!("RightShadowsConcave"),
        after: "\n      return None;",
    },
    Hook {
        name: "a convex right vertex shadows the left one",
        before: "\n    ",
        inserted: first_taken!("RightShadowsConvex"),
        after: "left_left_vertex = Some(left_vertex.point);",
    },
    Hook {
        name: "the leg of a left vertex that shadows the right one",
        before: "\n    ",
        inserted: noted!("leg(dist_left_squared - squared_radius)"),
        after: "let tangent_triangle_leg = (dist_left_squared - squared_radius).sqrt();",
    },
    Hook {
        name: "the leg of a right vertex that shadows the left one",
        before: "\n    ",
        inserted: noted!("leg(dist_right_squared - squared_radius)"),
        after: "let tangent_triangle_leg = (dist_right_squared - squared_radius).sqrt();",
    },
    Hook {
        name: "no shadow over the other, the left vertex convex",
        before: "    if left_vertex.convex {",
        inserted: taken!("NeitherLeftConvex"),
        after: "\n      // The left of the shadow is defined",
    },
    Hook {
        name: "no shadow over the other, the leg of the left vertex",
        before: "\n      ",
        inserted: noted!("leg(dist_left_squared - squared_radius)"),
        after: "let left_tangent_triangle_leg =",
    },
    Hook {
        name: "no shadow over the other, the left vertex concave",
        before: "\n      ",
        inserted: first_taken!("NeitherLeftConcave"),
        after: "left_shadow_direction = -edge_unit_vector;",
    },
    Hook {
        name: "no shadow over the other, the right vertex convex",
        before: "    if right_vertex.convex {",
        inserted: taken!("NeitherRightConvex"),
        after: "\n      let right_tangent_triangle_leg =",
    },
    Hook {
        name: "no shadow over the other, the leg of the right vertex",
        before: "\n      let right_tangent_triangle_leg =\n        (dist_right_squared - squared_radius).sqrt();\n      ",
        inserted: noted!("leg(dist_right_squared - squared_radius)"),
        after: "right_shadow_direction = (relative_right_vertex\n",
    },
    Hook {
        name: "no shadow over the other, the right vertex concave",
        before: "\n      ",
        inserted: first_taken!("NeitherRightConcave"),
        after: "right_shadow_direction = edge_unit_vector;",
    },
    Hook {
        name: "whether the edge beyond covers the left shadow",
        before: "\n  ",
        inserted: noted!(
            "left_shadow(left_vertex.convex, \
             left_edge_direction.map(|edge| determinant(left_shadow_direction, edge)))"
        ),
        after: "if left_vertex.convex\n    && left_edge_direction.is_some()",
    },
    Hook {
        name: "whether the edge beyond covers the right shadow",
        before: "\n  ",
        inserted: noted!(
            "right_shadow(right_vertex.convex, \
             right_edge_direction.map(|edge| determinant(right_shadow_direction, edge)))"
        ),
        after: "if right_vertex.convex\n    && right_edge_direction.is_some()",
    },
    Hook {
        name: "whether the edge is degenerate",
        before: "\n  ",
        inserted: noted!("degenerate(is_degenerate_edge, edge_vector)"),
        after: "let velocity = agent.velocity;",
    },
    Hook {
        name: "where the velocity projects to",
        before: "\n  ",
        inserted: noted!("times(t_cutoff_edge, t_left_shadow, t_right_shadow)"),
        after: "if t_cutoff_edge < 0.0 && t_left_shadow < 0.0\n",
    },
    Hook {
        name: "it projects to the left cutoff",
        before: "\n    ",
        inserted: noted!("left_cutoff(t_cutoff_edge)"),
        after: "let velocity_from_left_cutoff =",
    },
    Hook {
        name: "it projects to the right cutoff",
        before: "\n    ",
        inserted: first_taken!("RightCutoff"),
        after: "let velocity_from_right_cutoff =",
    },
    Hook {
        name: "which of the three is closest",
        before: "\n  ",
        inserted: noted!(
            "last_choice(cutoff_edge_distance_squared, left_shadow_distance_squared, \
             right_shadow_distance_squared)"
        ),
        after: "if cutoff_edge_distance_squared <= left_shadow_distance_squared\n",
    },
    Hook {
        name: "the cutoff line",
        before: "\n    ",
        inserted: first_taken!("ChoseCutoff"),
        after: "let line_direction = -cutoff_vector.normalize();",
    },
    Hook {
        name: "the left shadow, covered",
        before: "    if is_left_shadow_covered {",
        inserted: taken!("ChoseLeftCovered"),
        after: "\n      None",
    },
    Hook {
        name: "the left shadow",
        before: "    } else {",
        inserted: taken!("ChoseLeft"),
        after: "\n      Some(Line {\n        direction: left_shadow_direction,",
    },
    Hook {
        name: "the right shadow, covered",
        before: "  } else if is_right_shadow_covered {",
        inserted: taken!("ChoseRightCovered"),
        after: "\n    None",
    },
    Hook {
        name: "the right shadow",
        before: "  } else {",
        inserted: taken!("ChoseRight"),
        after: "\n    Some(Line {\n      direction: -right_shadow_direction,",
    },
];
