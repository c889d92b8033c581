//! Followed targets by the gear they take.

use super::Tally;
use crate::sheet::{is_long, Sheet};

/// The last difference that is narrow and the first that is wide, above zero and below; and the product nearest to the edge
/// that places of 28 bits allow.
pub(super) const EDGES: [(&str, i64); 4] = [
    ("narrow gear, last above zero", (1 << 31) - 2),
    ("wide gear, first above zero", 1 << 31),
    ("narrow gear, last below zero", -(1 << 31)),
    ("wide gear, first below zero", -(1 << 31) - 2),
];

/// What is to be seen on each edge.
pub(super) const ON_EDGE: [&str; 8] = [
    "exact",
    "rounded",
    "clamped",
    "not clamped",
    "numerator below 2^16",
    "numerator from 2^16 on",
    "numerator no power of two",
    "the product nearest to the edge",
];

/// What is to be seen by either gear.
pub(super) const BY_BOTH: [&str; 12] = [
    "followed",
    "exact above zero",
    "exact below zero",
    "rounded above zero",
    "rounded below zero",
    "count 2^30",
    "count -2^30",
    "difference 2^28 - 1",
    "difference -2^28 + 1",
    "denominator 2^20",
    "target less offset above 32 bits, clamped",
    "target less offset below 32 bits, clamped",
];

/// What only places beyond 28 bits allow.
pub(super) const ON_LONG_RAILS: [&str; 25] = [
    "narrow gear: product 2^31 - 1",
    "narrow gear: difference -2^31",
    "narrow gear: offset and both stops long",
    "wide gear: offset and both stops long",
    "wide gear: product -2^31 - 1, its difference fits",
    "wide gear: product -2^31 - 1, its difference does not",
    "wide gear: difference 2^31",
    "wide gear: difference 2^32 - 1",
    "wide gear: difference -2^32 + 1",
    "wide gear: difference beyond 32 bits: exact above zero",
    "wide gear: difference beyond 32 bits: exact below zero",
    "wide gear: difference beyond 32 bits: rounded above zero",
    "wide gear: difference beyond 32 bits: rounded below zero",
    "wide gear: difference beyond 32 bits: its low half 0",
    "gear 1 to 1: count 2^30",
    "gear 1 to 1: count -2^30",
    "gear 1 to 2: count 2^30",
    "gear 1 to 4: count 2^30 - 1",
    "gear 1 to 4: count -2^30",
    "long target: -2^31 not clamped",
    "long target: 2^31 - 1 not clamped",
    "long target: between the stops",
    "long target: clamped to a long lower stop",
    "long target: clamped to a long upper stop",
    "long target: clamped to a stop with the same low 28 bits",
];

fn fits(number: i64) -> bool {
    i32::try_from(number).is_ok()
}

impl Tally {
    /// By 64 bits alone, so that no slip of the narrow gear is passed on.
    pub(super) fn saw_gear(&mut self, sheet: &Sheet, target: i32) {
        let place = i64::from(target.clamp(sheet.lower_stop(), sheet.upper_stop()));
        let [target, offset, numerator, denominator] =
            [target, sheet.offset(), sheet.numerator(), sheet.denominator()].map(i64::from);
        let difference = place - offset;
        let product = difference * numerator;
        let (count, exact) = (product.div_euclid(denominator), product % denominator == 0);

        let narrow = fits(difference) && fits(product);
        let gear = if narrow { "narrow gear" } else { "wide gear" };
        let side = if product > 0 { "above" } else { "below" };
        let how = if exact { "exact" } else { "rounded" };
        self.saw(&format!("{gear}: followed"));
        self.saw_if(product != 0, &format!("{gear}: {how} {side} zero"));
        self.saw_if(count == 1 << 30, &format!("{gear}: count 2^30"));
        self.saw_if(count == -(1 << 30), &format!("{gear}: count -2^30"));
        self.saw_if(difference == (1 << 28) - 1, &format!("{gear}: difference 2^28 - 1"));
        self.saw_if(difference == 1 - (1 << 28), &format!("{gear}: difference -2^28 + 1"));
        self.saw_if(denominator == 1 << 20, &format!("{gear}: denominator 2^20"));
        let beyond = if target > place { "above" } else { "below" };
        self.saw_if(!fits(target - offset), &format!("{gear}: target less offset {beyond} 32 bits, clamped"));
        if narrow {
            self.saw_if(denominator == 1, "narrow gear: denominator 1");
            self.saw_if(!fits(place * numerator), "narrow gear: wide without the offset");
            self.saw_if(!fits((target - offset) * numerator), "narrow gear: wide without the clamp");
        } else {
            self.saw_if(denominator == 2, "wide gear: denominator 2");
            self.saw_if(fits(place * numerator), "wide gear: narrow without the offset");
            self.saw_if(fits((target - offset) * numerator), "wide gear: narrow without the clamp");
            self.saw_if(count == 2048, "wide gear: the least count above zero");
            self.saw_if(count == -2049, "wide gear: the least count below zero");
            let short = difference.abs().max(numerator) < 1 << 16;
            self.saw_if(short, &format!("wide gear: 16 bits times 16 bits, {side} zero"));
            let low_half = product as i32;
            self.saw_if(low_half == 0, "wide gear: the low half is 0");
            let alike = i64::from(low_half.signum()) == product.signum();
            self.saw_if(alike, &format!("wide gear: the low half is {side} zero as well"));
        }

        self.saw_rail(sheet, target);

        let outwards = difference.signum() * numerator;
        if narrow != fits(if narrow { product + outwards } else { product - outwards }) {
            let which = if narrow { "last" } else { "first" };
            let edge = format!("{gear}, {which} {side} zero");
            self.saw(&format!("{edge}: {how}"));
            self.saw(&format!("{edge}: {}", if place == target { "not clamped" } else { "clamped" }));
            let size = if numerator < 1 << 16 { "below 2^16" } else { "from 2^16 on" };
            self.saw(&format!("{edge}: numerator {size}"));
            self.saw_if(numerator.count_ones() > 1, &format!("{edge}: numerator no power of two"));
            let nearest = EDGES.contains(&(&edge[..], product));
            self.saw_if(nearest, &format!("{edge}: the product nearest to the edge"));
        }
    }

    /// The same where offset, stops or target are beyond 28 bits.
    fn saw_rail(&mut self, sheet: &Sheet, target: i64) {
        let [offset, lower, upper, numerator, denominator] =
            [sheet.offset(), sheet.lower_stop(), sheet.upper_stop(), sheet.numerator(), sheet.denominator()].map(i64::from);
        let place = target.clamp(lower, upper);
        let difference = place - offset;
        let product = difference * numerator;
        let (count, exact) = (product.div_euclid(denominator), product % denominator == 0);

        let gear = if fits(difference) && fits(product) { "narrow gear" } else { "wide gear" };
        let all_long = [offset, lower, upper].into_iter().all(is_long);
        self.saw_if(all_long, &format!("{gear}: offset and both stops long"));
        self.saw_if(product == (1 << 31) - 1, "narrow gear: product 2^31 - 1");
        self.saw_if(difference == -(1 << 31) && numerator == 1, "narrow gear: difference -2^31");
        if product == -(1 << 31) - 1 {
            let does = if fits(difference) { "fits" } else { "does not" };
            self.saw(&format!("wide gear: product -2^31 - 1, its difference {does}"));
        }
        self.saw_if(difference == 1 << 31, "wide gear: difference 2^31");
        self.saw_if(difference == (1 << 32) - 1, "wide gear: difference 2^32 - 1");
        self.saw_if(difference == 1 - (1 << 32), "wide gear: difference -2^32 + 1");
        if !fits(difference) {
            let side = if product > 0 { "above" } else { "below" };
            let how = if exact { "exact" } else { "rounded" };
            self.saw(&format!("wide gear: difference beyond 32 bits: {how} {side} zero"));
            self.saw_if(product as i32 == 0, "wide gear: difference beyond 32 bits: its low half 0");
        }
        let ratio = |denominators: i64| numerator * denominators == denominator;
        self.saw_if(ratio(1) && count == 1 << 30, "gear 1 to 1: count 2^30");
        self.saw_if(ratio(1) && count == -(1 << 30), "gear 1 to 1: count -2^30");
        self.saw_if(ratio(2) && count == 1 << 30, "gear 1 to 2: count 2^30");
        self.saw_if(ratio(4) && count == (1 << 30) - 1, "gear 1 to 4: count 2^30 - 1");
        self.saw_if(ratio(4) && count == -(1 << 30), "gear 1 to 4: count -2^30");
        self.saw_if(place == -(1 << 31), "long target: -2^31 not clamped");
        self.saw_if(place == (1 << 31) - 1, "long target: 2^31 - 1 not clamped");
        self.saw_if(
            place == target && is_long(target) && (lower + 1..upper).contains(&target),
            "long target: between the stops",
        );
        self.saw_if(target < lower && is_long(lower), "long target: clamped to a long lower stop");
        self.saw_if(target > upper && is_long(upper), "long target: clamped to a long upper stop");
        let alike = place != target && (place - target) % (1 << 28) == 0;
        self.saw_if(alike, "long target: clamped to a stop with the same low 28 bits");
    }
}
