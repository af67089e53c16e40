//! The wrapper's `Shelf` held against the model, answer by answer.

use crate::sequences::some_shelf;
use designs::{catalogue, rounds, seeded, Random};
use model::Shown;
use shqemtuli::{Cost, Found, Place, Refusal, Shelf, Unit};

const SHELVES_PER_ROUND: u64 = 60;

/// A shelf of the wrapper and one of the model, an image for each.
struct Pair {
    ours: Shelf,
    model: model::Shelf,
    image: Vec<u8>,
    twin: Vec<u8>,
}

fn number<T>(answer: Result<T, Refusal>) -> Result<T, u64> {
    answer.map_err(Refusal::number)
}

fn cost(answer: Result<Cost, Refusal>) -> Result<(u64, u64), u64> {
    number(answer).map(|cost| (cost.read, cost.written))
}

fn model_cost(answer: Result<model::Cost, u64>) -> Result<(u64, u64), u64> {
    answer.map(|cost| (cost.read, cost.written))
}

fn place_of(record: model::Record) -> Place {
    Place {
        disk: record.data.disk,
        offset: record.data.offset,
        parity_disk: record.parity.disk,
        parity_offset: record.parity.offset,
    }
}

fn found_of(found: model::Found) -> Found {
    Found {
        stripe: found.stripe,
        unit: found.address.map_or(Unit::Parity, Unit::Data),
    }
}

impl Pair {
    fn new(model: model::Shelf, random: &mut Random) -> Pair {
        let mut sheet = vec![0; model::sheet_length(&model) as usize];
        model::write_back(&model, &mut sheet).unwrap();
        let ours = Shelf::open(&sheet).unwrap();
        assert_eq!(ours.write_back(), sheet);
        let image = random.bytes(model.image_size() as usize);
        let twin = image.clone();
        Pair {
            ours,
            model,
            image,
            twin,
        }
    }

    fn numbers_agree(&self) {
        let (ours, model) = (&self.ours, &self.model);
        assert_eq!((ours.v(), ours.k(), ours.b()), (model.v, model.k, model.b));
        assert_eq!((ours.full_tables(), ours.u()), (model.t, model.u));
        assert_eq!((ours.r(), ours.lambda()), (model.r, model.lambda));
        assert_eq!(ours.lost(), model.lost.map(u64::from));
        assert_eq!(ours.stripes(), model.stripes());
        assert_eq!(ours.addresses(), model.addresses());
        assert_eq!(ours.offsets(), model.offsets());
        assert_eq!(ours.unit_size(), model.unit_size());
        assert_eq!(ours.image_size(), model.image_size());
        assert!(ours.tuples().zip(0..).all(|(t, q)| t == model.tuple(q)));
        assert_eq!(Shelf::from_bytes(ours.as_bytes()).as_ref(), Ok(ours));
    }

    /// One call. The image is compared after it.
    fn step(&mut self, random: &mut Random) {
        if random.chance(1, 2) {
            self.store(random);
        } else {
            self.ask(random);
        }
        assert!(self.image == self.twin, "the images differ");
    }

    /// A call that may change something.
    fn store(&mut self, random: &mut Random) {
        let (ours, model) = (&mut self.ours, &mut self.model);
        let (image, twin) = (&mut self.image, &mut self.twin);
        let longer = usize::from(random.chance(1, 8));
        let unit = model.unit_size() as usize;
        let address = somewhat_below(model.addresses(), random);
        let stripe = somewhat_below(model.stripes(), random);
        let disk = random.below(model.v + 2);
        match random.below(6) {
            0..=2 => {
                let buffer = random.bytes(unit + longer);
                let cost = cost(ours.write(image, address, &buffer));
                let wanted = model::write(model, twin, address, &buffer);
                assert_eq!(cost, model_cost(wanted));
            }
            3 => {
                let buffer = random.bytes((model.k as usize - 1) * unit + longer);
                let cost = cost(ours.write_stripe(image, stripe, &buffer));
                let wanted = model::write_stripe(model, twin, stripe, &buffer);
                assert_eq!(cost, model_cost(wanted));
            }
            4 => assert_eq!(number(ours.lose(disk)), model::lose(model, disk)),
            _ => assert_eq!(number(ours.rebuild(image)), model::rebuild(model, twin)),
        }
    }

    /// A call that changes neither shelf nor image.
    fn ask(&self, random: &mut Random) {
        let (ours, model, image) = (&self.ours, &self.model, &self.image);
        let unit = model.unit_size() as usize;
        let longer = usize::from(random.chance(1, 8));
        let mut buffer = random.bytes(unit + longer);
        let address = somewhat_below(model.addresses(), random);
        let disk = random.below(model.v + 2);
        let offset = somewhat_below(model.offsets(), random);
        match random.below(7) {
            0 => {
                let mut other = buffer.clone();
                let wanted = model::read(model, image, address, &mut other);
                let cost = cost(ours.read(image, address, &mut buffer));
                assert_eq!((cost, buffer), (model_cost(wanted), other));
            }
            1 => assert_eq!(number(ours.scrub(image)), model::scrub(model, image)),
            2 => {
                let wanted = model::place(model, address).map(place_of);
                assert_eq!(number(ours.place(address)), wanted);
            }
            3 => {
                let wanted = model::look_up(model, disk, offset).map(found_of);
                assert_eq!(number(ours.look_up(disk, offset)), wanted);
            }
            4 => {
                let wanted = model::show_place(model, image, disk, offset);
                let shown = ours.show_place(image, disk, offset);
                same_part(shown, wanted, image, &buffer[..unit]);
            }
            5 => {
                let wanted = model::show_address(model, image, address, &buffer);
                let shown = ours.show_address(image, address, &buffer);
                same_part(shown, wanted, image, &buffer);
            }
            _ => same_run(ours, model, address, random.index(9)),
        }
    }
}

/// A number below this, or now and then a little above.
fn somewhat_below(end: u64, random: &mut Random) -> u64 {
    random.below(end + end / 8 + 1)
}

/// The part is the very one, not a copy.
fn same_part(shown: Option<&[u8]>, wanted: Result<Shown, u64>, image: &[u8], other: &[u8]) {
    match (shown, wanted) {
        (None, Err(_)) => {}
        (Some(part), Ok(Shown::Image(at))) => {
            assert_eq!(part.as_ptr(), image[at as usize..].as_ptr());
            assert_eq!(part.len(), other.len());
        }
        (Some(part), Ok(Shown::Other)) => assert_eq!(part.as_ptr_range(), other.as_ptr_range()),
        _ => panic!("shown {shown:?}, wanted {wanted:?}"),
    }
}

fn same_run(ours: &Shelf, model: &model::Shelf, first: u64, many: usize) {
    let mut list = vec![Place::default(); many];
    let kept = list.clone();
    let answer = number(ours.run(first, &mut list));
    if answer.is_err() {
        assert_eq!(list, kept);
    }
    let addresses = first..first + many as u64;
    let wanted: Result<Vec<Place>, u64> = addresses
        .map(|address| model::place(model, address).map(place_of))
        .collect();
    if many > 0 {
        assert_eq!(answer.map(|()| list), wanted);
    }
}

#[test]
fn the_wrapper_answers_alike() {
    let mut random = seeded("wrapper");
    let all = catalogue();
    for _ in 0..SHELVES_PER_ROUND * rounds() {
        let mut pair = Pair::new(some_shelf(&all, &mut random), &mut random);
        for _ in 0..100 {
            pair.step(&mut random);
        }
        pair.numbers_agree();
    }
}

#[test]
fn every_refusal_has_its_number() {
    for (refusal, number) in Refusal::ALL.into_iter().zip(1..) {
        assert_eq!(refusal.number(), number);
    }
}
