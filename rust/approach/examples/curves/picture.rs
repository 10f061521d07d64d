//! What is drawn: the distances of a case, and where each lies in the field.
use crate::svg::{Point, LEFT, RIGHT};
use approach::{row, Kmh, Millimetre, PerMille, Train, CURVES, LONGEST_ROW};

/// A train that brakes to a target speed on a gradient.
#[derive(Clone, Copy, Debug, PartialEq, Eq)]
pub struct Case {
    pub train: Train,
    pub gradient: PerMille,
    pub target: Kmh,
}

/// Head and foot of the field in which the curves lie, and the legend's, below where any curve comes.
pub const TOP: f64 = 70.0;
pub const BOTTOM: f64 = 530.0;
pub const LEGEND: f64 = 590.0;

/// Each curve's distances by speed, the target's first, as `CURVES` has them, and the ends of the axes.
pub struct Picture {
    pub rows: [Vec<Millimetre>; 4],
    pub farthest: Millimetre,
    pub target: Kmh,
    pub top_speed: Kmh,
}

impl Picture {
    pub fn of(case: Case) -> Result<Picture, String> {
        let Case { train, gradient, target } = case;
        let top_speed = train.top_speed;
        let [ebi, sbi, w, p] = CURVES.map(|curve| {
            let mut list = [Millimetre(0); LONGEST_ROW];
            let row = row(curve, train, target, gradient, &mut list);
            row.map(<[Millimetre]>::to_vec).map_err(|refusal| refusal.to_string())
        });
        let rows = [ebi?, sbi?, w?, p?];
        if target == top_speed {
            return Err(format!(
                "V0 is the top speed, {target}: each curve is one point, and there is nothing to draw"
            ));
        }
        let farthest = *rows.iter().flatten().max().expect("a row has a place");
        Ok(Picture { rows, farthest, target, top_speed })
    }

    /// The target lies at the right. Above it there is a speed, whose P distance is not 0.
    pub fn x(&self, distance: Millimetre) -> f64 {
        RIGHT - f64::from(distance.0) / f64::from(self.farthest.0) * (RIGHT - LEFT)
    }

    /// The axis begins at the target speed: no curve comes lower.
    pub fn y(&self, v: Kmh) -> f64 {
        let (above, span) = (v.0 - self.target.0, self.top_speed.0 - self.target.0);
        BOTTOM - f64::from(above) / f64::from(span) * (BOTTOM - TOP)
    }

    pub fn points(&self, row: &[Millimetre]) -> Vec<Point> {
        (self.target.0..).zip(row).map(|(v, &distance)| (self.x(distance), self.y(Kmh(v)))).collect()
    }
}

/// Metres, with no more decimals than they need.
pub fn metres(distance: Millimetre) -> String {
    let metres = distance.to_string().replace(" m", "");
    metres.trim_end_matches('0').trim_end_matches('.').to_owned()
}
