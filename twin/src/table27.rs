//! Regulation 27(6): table 27.1, the freeboard increase for a type B ship with portable covers in
//! position 1, whole mm at each whole metre of length.

/// Length of the first row, m; the increase is the same for every shorter ship.
pub const FIRST: usize = 108;
/// Length of the last row, m; a longer ship with portable covers is refused (22).
pub const LAST: usize = 200;
/// Rows, for 108 m to 200 m.
pub const ROWS: usize = LAST - FIRST + 1;

/// Table 27.1.
#[rustfmt::skip]
pub const INCREASE: [u16; ROWS] = [
     50,  52, // 108
     55,  57,  59,  62,  64,  68,  70,  73,  76,  80, // 110
     84,  87,  91,  95,  99, 103, 108, 112, 116, 121, // 120
    126, 131, 136, 142, 147, 153, 159, 164, 170, 175, // 130
    181, 186, 191, 196, 201, 206, 210, 215, 219, 224, // 140
    228, 232, 236, 240, 244, 247, 251, 254, 258, 261, // 150
    264, 267, 270, 273, 275, 278, 280, 283, 285, 287, // 160
    290, 292, 294, 297, 299, 301, 304, 306, 308, 311, // 170
    313, 315, 318, 320, 322, 325, 327, 329, 332, 334, // 180
    336, 339, 341, 343, 346, 348, 350, 353, 355, 357, // 190
    358, // 200
];
