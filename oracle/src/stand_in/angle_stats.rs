//! Stand-in for the published `angle_stats`: no statistics, as no angle fails.

use crate::angle::AngleError;

pub(crate) fn failure(_error: AngleError) {
    unreachable!("no angle was ever made")
}
