//! Lists of vectors, one a clock.

use crate::random::Random;

/// So many vectors of n samples: any, all at one end and in the next clock at the other, each sample at an end, a ramp from one end
/// to the other with all samples of a vector equal, or one vector alone among zeros.
pub fn any_list(random: &mut Random, width: u8, n: usize, clocks: usize) -> Vec<i32> {
    let end = 1 << (width - 1);
    let ends = random.choose(&[[-end, end - 1], [end - 1, -end]]);
    match random.between(0, 5) {
        0 => {
            let steep = (0..clocks).flat_map(|clock| vec![ends[clock % 2]; n]);
            steep.collect()
        }
        1 => (0..n * clocks).map(|_| random.choose(&ends)).collect(),
        2 => {
            let step = (2 * end - 1) / clocks.max(1) as i32;
            let ramp = (0..clocks).flat_map(|clock| vec![step * clock as i32 - end; n]);
            ramp.collect()
        }
        3 => {
            let mut list = vec![0; n * clocks];
            if clocks > 0 {
                let at = n * random.between(0, clocks - 1);
                list[at..at + n].copy_from_slice(&random.samples(width, n));
            }
            list
        }
        _ => random.samples(width, n * clocks),
    }
}
