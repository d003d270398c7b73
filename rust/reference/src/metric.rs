//! The link metric (document 01, "Link metric"; RFC 8500, 3.1).

use crate::settings::MAX_METRIC;
use crate::tlvs::Reverse;

/// The metric of a link that no path may use; reached only with U.
const UNREACHABLE_METRIC: u32 = 16_777_215;

/// The configured metric plus the neighbour's offset, held to a limit that U raises by one. W is ignored.
pub(crate) fn with_reverse(configured: u32, reverse: Reverse) -> u32 {
    let limit = if reverse.unreachable { UNREACHABLE_METRIC } else { MAX_METRIC };
    (configured + reverse.offset).min(limit)
}
