//! The polynomials of the example jobs, typed as formulas.

/// The name of a job, and a formula for each of its polynomials.
pub const EXAMPLES: &[(&str, &[&str])] = &[
    ("case_a", &["2*x^2+2*y^2-1"]),
    ("case_c", &["x", "y"]),
    ("case_c_4", &["x", "y", "z"]),
    ("circle_through_grid_points", &["x^2+y^2-5^2"]),
    ("crossing_lines", &["(3*x-1)*(3*y-1)"]),
    ("crossing_lines_biased", &["9*x*y-3*x-3*y+1"]),
    ("document_001_example_1", &["4*y^4+17*x^2*y^2-20*15^2*y^2+4*x^4-20*15^2*x^2+17*15^4"]),
    ("document_001_example_2", &["x^3+3*x^2*y+100*x^2-100*y^2"]),
    ("document_001_example_3", &["x^3-x*y^2-3*40*x^2+2*40*y^2+3*40^2*x-40^3"]),
    ("document_001_example_4", &["3*x^3-5*x*y^2-40*(4*x^2+10*x*y-10*y^2)-40^2*(6*x-20*y)+12*40^3"]),
    (
        "document_001_example_4_point",
        &["3*x^3-5*x*y^2-160*x^2-400*x*y+400*y^2-9600*x+32000*y+768000"],
    ),
    ("ellipsoid_contour", &["x^2+y^2+2*z^2+x*z-y*z-225", "4*z+x-y"]),
    ("half_steps", &["2048*y-x"]),
    (
        "hinged_volume",
        &[
            "(x^2+y^2+z^2+12^2-5^2)*(576+w^2)-24*(x*(576-w^2)+48*y*w)",
            "(x^2+y^2+z^2+119)*w+24*(x*w-24*y)",
            "x-15",
        ],
    ),
    ("narrow_waist", &["x^4-120*x^2+260*(2*y-1)^2-60"]),
    ("narrow_waist_biased", &["x^4-120*x^2+260*(1-2*y)^2-60"]),
    ("nested_outlines", &["(2-(2*x-7*y)^2)*(x^2+y^2-79)"]),
    ("ring", &["(x^2+y^2+z^2+55)^2-256*(x^2+y^2)", "x-2*y+3*z-1"]),
    (
        "ring_off_centre",
        &["((x-20)^2+(y-10)^2+z^2+55)^2-256*((x-20)^2+(y-10)^2)", "(x-20)-2*(y-10)+3*z-1"],
    ),
    ("several_outlines", &["5300*((x^2-4*y^2)*(x^2+y^2-49)-190)"]),
    ("sphere_and_cylinder", &["x^2+y^2+z^2-12^2", "(x-4)^2+y^2-4^2"]),
    ("sphere_and_plane", &["x^2+y^2+z^2-10^2", "x+2*y+3*z-4"]),
    (
        "tangle_cube_contour",
        &[
            "x^4-5*8^2*x^2+y^4-5*8^2*y^2+z^4-5*8^2*z^2+10*8^4",
            "4*x^3-640*x+3*(4*y^3-640*y)+10*(4*z^3-640*z)",
        ],
    ),
];

/// The name of a job, its grid steps to a unit, its degree, and the formula as document 001 has it.
pub const OF_DOCUMENT_001: &[(&str, i64, u32, &str)] = &[
    ("document_001_example_1", 15, 4, "4*y^4+17*x^2*y^2-20*y^2+4*x^4-20*x^2+17"),
    ("document_001_example_2", 100, 3, "x^3+3*x^2*y+x^2-y^2"),
    ("document_001_example_3", 40, 3, "x^3-x*y^2-3*x^2+2*y^2+3*x-1"),
    ("document_001_example_4", 40, 3, "3*x^3-5*x*y^2-4*x^2-10*x*y+10*y^2-6*x+20*y+12"),
];

/// Examples 5 and 6 of document 001, whose degree is 10 and 8: as they stand there, example 5 with
/// its fractions and example 6 with its powers; and typed so that they are in the language.
pub const TOO_LARGE: &[(&str, u64)] = &[
    ("(x^2+y^2-0.7225)*((x+0.45)^2+y^2-0.04)", 14),
    ("(400*x^2+400*y^2-289)*((20*x+9)^2+400*y^2-16)*(400*x^2+(20*y-9)^2-36)", 15),
    ("-3+12*y^2+2*y^4-12*y^6+y^8+12*x^2-28*y^2*x^2", 14),
    ("-3+12*y^2+2*y^4-12*y^4*y^2+y^4*y^4+12*x^2-28*y^2*x^2", 15),
];
