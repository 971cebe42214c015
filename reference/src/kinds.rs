//! Leaf kinds and sets of them. A set is a plain list of kinds, and a join puts one list behind another.

use crate::groups::{Element, Group, NEUTRAL};
use crate::refusal::{refuse, Refusal};

pub type Image = [u64; 4];

/// What stands for no image.
pub const NONE: Image = [0; 4];

#[derive(Clone, Copy, Debug, PartialEq, Eq)]
pub enum Form {
    Single,
    Twin,
    Mixed,
}

#[derive(Clone, Copy, Debug, PartialEq, Eq)]
pub struct Kind {
    pub form: Form,
    pub group: Group,
}

impl Kind {
    pub fn width(&self) -> usize {
        match self.form {
            Form::Single | Form::Twin => 1,
            Form::Mixed => 2,
        }
    }

    /// One element and two zeros, or two elements.
    fn image_of(&self, first: Element, second: Element) -> Image {
        match self.form {
            Form::Twin => [first.0, first.1, second.0, second.1],
            Form::Single | Form::Mixed => [first.0, first.1, 0, 0],
        }
    }

    pub fn neutral(&self) -> Image {
        self.image_of(NEUTRAL, NEUTRAL)
    }

    pub fn has_image(&self, image: Image) -> bool {
        let [a, b, c, d] = image;
        let second = match self.form {
            Form::Twin => self.group.has((c, d)),
            Form::Single | Form::Mixed => (c, d) == (0, 0),
        };
        second && self.group.has((a, b))
    }

    pub fn has_key(&self, u: u64, v: u64) -> bool {
        u < self.group.q && v < self.group.q && (v == 0 || self.width() == 2)
    }

    pub fn image_of_key(&self, u: u64, v: u64) -> Image {
        if !self.has_key(u, v) {
            return NONE;
        }
        let group = &self.group;
        let first = group.power(group.g, u);
        match self.form {
            Form::Single => self.image_of(first, NEUTRAL),
            Form::Twin => self.image_of(first, group.power(group.h, u)),
            Form::Mixed => self.image_of(group.multiply(first, group.power(group.h, v)), NEUTRAL),
        }
    }

    /// Element by element: what is done to one or two elements is done to the image.
    fn each(&self, images: &[Image], work: impl Fn(&[Element]) -> Element) -> Image {
        if !images.iter().all(|image| self.has_image(*image)) {
            return NONE;
        }
        let firsts: Vec<Element> = images.iter().map(|image| (image[0], image[1])).collect();
        let first = work(&firsts);
        if self.form != Form::Twin {
            return self.image_of(first, NEUTRAL);
        }
        let seconds: Vec<Element> = images.iter().map(|image| (image[2], image[3])).collect();
        self.image_of(first, work(&seconds))
    }

    pub fn multiply(&self, x: Image, y: Image) -> Image {
        self.each(&[x, y], |elements| self.group.multiply(elements[0], elements[1]))
    }

    pub fn power(&self, x: Image, exponent: u64) -> Image {
        if exponent == 0 {
            return self.neutral();
        }
        self.each(&[x], |elements| self.group.power(elements[0], exponent))
    }
}

#[derive(Clone, Debug, PartialEq, Eq)]
pub struct Set {
    pub q: u64,
    pub kinds: Vec<Kind>,
}

impl Set {
    /// The three kinds over one group.
    pub fn over(group: Group) -> Set {
        let forms = [Form::Single, Form::Twin, Form::Mixed];
        let kinds = forms.iter().map(|form| Kind { form: *form, group }).collect();
        Set { q: group.q, kinds }
    }

    pub fn join(left: &Set, right: &Set) -> Result<Set, Refusal> {
        if left.q != right.q {
            return refuse(5, 1);
        }
        if left.kinds.len() + right.kinds.len() > 255 {
            return refuse(5, 2);
        }
        let kinds = left.kinds.iter().chain(&right.kinds).copied().collect();
        Ok(Set { q: left.q, kinds })
    }

    /// A join that is put together though it would be refused shows the left side alone.
    pub fn join_anyway(left: &Set, right: &Set) -> Set {
        Set::join(left, right).unwrap_or_else(|_| left.clone())
    }

    pub fn supplied(residue: Group, circle: Group) -> Result<Set, Refusal> {
        Set::join(&Set::over(residue), &Set::over(circle))
    }

    fn kind(&self, number: u64) -> Option<&Kind> {
        let position = usize::try_from(number).ok()?.checked_sub(1)?;
        self.kinds.get(position)
    }

    pub fn width(&self, number: u64) -> usize {
        self.kind(number).map_or(0, Kind::width)
    }

    pub fn neutral(&self, number: u64) -> Image {
        self.kind(number).map_or(NONE, Kind::neutral)
    }

    pub fn has_image(&self, number: u64, image: Image) -> bool {
        self.kind(number).is_some_and(|kind| kind.has_image(image))
    }

    pub fn image_of_key(&self, number: u64, u: u64, v: u64) -> Image {
        self.kind(number).map_or(NONE, |kind| kind.image_of_key(u, v))
    }

    pub fn multiply(&self, number: u64, x: Image, y: Image) -> Image {
        self.kind(number).map_or(NONE, |kind| kind.multiply(x, y))
    }

    pub fn power(&self, number: u64, x: Image, exponent: u64) -> Image {
        self.kind(number).map_or(NONE, |kind| kind.power(x, exponent))
    }
}

#[cfg(test)]
mod tests {
    use super::*;
    use crate::groups::Shape;

    fn residue() -> Group {
        Group::make(Shape::Residue, 11, 23, (4, 0), (9, 0)).unwrap()
    }

    fn circle() -> Group {
        Group::make(Shape::Circle, 11, 43, (2, 13), (26, 23)).unwrap()
    }

    fn supplied() -> Set {
        Set::supplied(residue(), circle()).unwrap()
    }

    #[test]
    fn hand_worked_images() {
        let set = supplied();
        assert_eq!(set.image_of_key(2, 5, 0), [12, 0, 8, 0]);
        assert_eq!(set.image_of_key(6, 1, 2), [11, 3, 0, 0]);
        assert_eq!(set.image_of_key(2, 5, 1), NONE);
        assert_eq!(set.image_of_key(3, 11, 0), NONE);
    }

    #[test]
    fn widths_and_what_stands_outside() {
        let set = supplied();
        let widths: Vec<usize> = (0..9).map(|number| set.width(number)).collect();
        assert_eq!(widths, [0, 1, 1, 2, 1, 1, 2, 0, 0]);
        for number in [0, 7, 255] {
            assert_eq!(set.neutral(number), NONE);
            assert_eq!(set.power(number, [1, 0, 0, 0], 0), NONE);
            assert_eq!(set.multiply(number, [1, 0, 0, 0], [1, 0, 0, 0]), NONE);
            assert!(!set.has_image(number, NONE));
        }
    }

    #[test]
    fn images_of_sums_are_products_of_images() {
        let set = supplied();
        for number in 1..=6 {
            let second = if set.width(number) == 2 { 11 } else { 1 };
            let keys = (0..11).flat_map(|u| (0..second).map(move |v| (u, v)));
            let keys: Vec<(u64, u64)> = keys.collect();
            for (a, b) in &keys {
                let left = set.image_of_key(number, *a, *b);
                assert!(set.has_image(number, left));
                for (c, d) in &keys {
                    let right = set.image_of_key(number, *c, *d);
                    let sum = set.image_of_key(number, (a + c) % 11, (b + d) % 11);
                    assert_eq!(set.multiply(number, left, right), sum);
                }
            }
        }
    }

    #[test]
    fn powers_are_repeated_products() {
        let set = supplied();
        for number in 0..8 {
            for image in [set.image_of_key(number, 3, 0), NONE, [4, 1, 0, 0]] {
                let mut product = set.neutral(number);
                for exponent in 0..24 {
                    assert_eq!(set.power(number, image, exponent), product);
                    product = set.multiply(number, product, image);
                }
            }
        }
    }

    #[test]
    fn joins() {
        let six = supplied();
        let other = Group::make(Shape::Circle, 13, 103, base(13, 103), base(13, 103)).unwrap();
        let refused = Set::join(&six, &Set::over(other)).unwrap_err();
        assert_eq!((refused.number, refused.place), (5, 1));
        assert_eq!(Set::join_anyway(&six, &Set::over(other)), six);
        let mut many = Set::over(residue());
        while many.kinds.len() + 3 <= 255 {
            many = Set::join(&Set::over(circle()), &many).unwrap();
        }
        assert_eq!(many.kinds.len(), 255);
        let refused = Set::join(&many, &six).unwrap_err();
        assert_eq!((refused.number, refused.place), (5, 2));
        assert_eq!(Set::join_anyway(&many, &six), many);
        assert_eq!(many.image_of_key(254, 5, 0), [12, 0, 8, 0]);
    }

    /// The first element of a circle group that is not the neutral one.
    fn base(q: u64, p: u64) -> Element {
        let all = (0..p).flat_map(|a| (0..p).map(move |b| (a, b)));
        let mut bases = all.filter(|x| Group::make(Shape::Circle, q, p, *x, *x).is_ok());
        bases.next().unwrap()
    }
}
