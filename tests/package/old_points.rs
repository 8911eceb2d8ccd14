//! A program as written for version 0.5.1: the nets of old_points.c through the Rust crate, each made in another way.

use gedrovit::{Net, NetView, Tally};

fn print(tally: &mut Tally, name: &str, rounds: u32, net: NetView<'_>) {
    let fine = net.refined(tally, rounds).unwrap();
    println!("{name}, rounds {rounds}, vertices {}", fine.marks.len());
    for point in fine.vertices.chunks(3) {
        println!("{} {} {}", point[0], point[1], point[2]);
    }
}

#[rustfmt::skip]
fn main() {
    let mut tally = Tally::new();
    let seat = Net::new(
        vec![
            0,   0, 3,   100,   0, 20,   200,   0, -7,   300,   0, 0,
            0, 100, 9,   110,  95, 60,   190, 105, 81,   300, 100, 5,
            0, 200, 0,    90, 205, 77,   215, 200, 50,   300, 200, 8,
            0, 300, 1,   100, 300, 13,   200, 300,  4,   300, 300, 2,
        ],
        vec![0, 1, 5, 4, 1, 2, 6, 5, 2, 3, 7, 6, 4, 5, 9, 8, 5, 6, 10, 9, 6, 7, 11, 10, 8, 9, 13, 12, 9, 10, 14, 13, 10, 11, 15, 14],
        vec![1, 0, 0, 1, 0, 0, 0, 0, 0, 0, 0, 0, 1, 0, 0, 1],
    );
    print(&mut tally, "seat", 2, seat.view());
    let cube = [
        [-540, -540, -540], [540, -540, -540], [540, 540, -540], [-540, 540, -540],
        [-540, -540, 540], [540, -540, 540], [540, 540, 540], [-540, 540, 540],
    ];
    let faces = [[0, 3, 2, 1], [4, 5, 6, 7], [0, 1, 5, 4], [1, 2, 6, 5], [2, 3, 7, 6], [3, 0, 4, 7]];
    print(&mut tally, "cube", 1, NetView::new(cube.as_flattened(), faces.as_flattened(), &[0; 8]));
    let mut row = Net::default();
    row.vertices = vec![0, 20, 0, 24, 0, 0, 24, 40, 0, 48, 50, 9, 72, 40, 0, 72, 0, 0, 96, 20, 0];
    row.faces = vec![0, 1, 2, 1, 5, 4, 3, 2, 5, 6, 4];
    row.marks = vec![1, 0, 0, 0, 0, 0, 1];
    print(&mut tally, "row", 1, row.with_sides(vec![3, 5, 3]).view());
    println!("new points {}", tally.points());
}
