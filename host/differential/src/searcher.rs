//! Looks up names in accepted sheets (document 02, C-17).

use kerdzhusi::{Refusal, INDEX_PLACES};
use sheets::Random;

use crate::call::{Answer, Call, Value};
use crate::desk::{Desk, Difference};
use crate::lent::Side;
use crate::names::{class_names, ABSENT};
use crate::searches::Searches;
use crate::stock::{Stock, MOST_PLACES};

type Checked<T> = Result<T, Box<Difference>>;

/// In sheets of more bytes not every name is looked up each time: they would take most of it.
const LONG: usize = 1_000;
/// How many names of long sheets are looked up, and how many absent ones of any sheets.
const SOME: usize = 4;
const SOME_ABSENT: usize = 3;

/// The answer to a name that is not there.
const NOT_THERE: Answer = Answer(Err(Refusal {
    number: 13,
    sheet: 0,
    byte: 0,
}));

pub struct Searcher<'a> {
    stock: &'a Stock,
    /// Calls here borrow the sheets, a name and a row of places alone.
    desk: Desk,
}

impl<'a> Searcher<'a> {
    pub fn new(stock: &'a Stock) -> Searcher<'a> {
        let places = stock.lend_places(&mut Random::new(0));
        Searcher {
            stock,
            desk: Desk::new(Side {
                places,
                ..Side::default()
            }),
        }
    }

    /// Has both look up names of accepted sheets, and some that no class has.
    pub fn search(
        &mut self,
        random: &mut Random,
        sheets: &Side,
        searches: &mut Searches,
    ) -> Checked<()> {
        self.desk.lend_sheets(sheets);
        let names = class_names(sheets);
        let places = self.index(random, names.len())?;
        let bytes = sheets.library.part().len() + sheets.used;
        let all = bytes <= LONG || random.percent(4);
        let classes = if all {
            (0..names.len()).collect()
        } else {
            draw_some(random, names.len(), SOME)
        };
        searches.indexes += 1;
        searches.whole += all as u64;
        for class in classes {
            self.look_up(random, names[class], Some(class), &places)?;
            searches.count_found(&places, names[class], class);
        }
        for kind in draw_some(random, ABSENT.len(), SOME_ABSENT) {
            let of_class = random.pick(&names);
            let name = ABSENT[kind].0.draw(random, of_class);
            let class = names.iter().position(|other| *other == name);
            self.look_up(random, &name, class, &places)?;
            match class {
                Some(class) => searches.count_found(&places, &name, class),
                None => searches.count_absent(&places, &name, kind),
            }
        }
        Ok(())
    }

    /// The index of the sheets, which have so many classes.
    fn index(&mut self, random: &mut Random, classes: usize) -> Checked<[u16; INDEX_PLACES]> {
        self.lend_places(random);
        let answer = self.desk.call(Call::Index)?;
        if answer != Answer(Ok(Value::Number(classes))) {
            let what = format!("of {classes} classes there entered: {answer}");
            return Err(self.desk.difference(Call::Index, what));
        }
        let mut places = [0; INDEX_PLACES];
        places.copy_from_slice(&self.desk.side().places.part()[..INDEX_PLACES]);
        Ok(places)
    }

    /// Has both look up a name, which this class has to have, and fill this index then.
    fn look_up(
        &mut self,
        random: &mut Random,
        name: &[u8],
        class: Option<usize>,
        places: &[u16],
    ) -> Checked<()> {
        let lent = self.stock.lend(random, name);
        self.desk.change(|side| side.name.copy(&lent));
        self.lend_places(random);
        let expected = class.map_or(NOT_THERE, |class| Answer(Ok(Value::Number(class))));
        let answer = self.desk.call(Call::Lookup)?;
        let row = &self.desk.side().places.part()[..INDEX_PLACES];
        if answer != expected || class.is_some() && row != places {
            let what = format!("the name is looked up as {answer}, or in another index");
            return Err(self.desk.difference(Call::Lookup, what));
        }
        if kerdzhusi::fingerprint(name) != reference::fingerprint(name) {
            let what = "the name has another fingerprint".to_string();
            return Err(self.desk.difference(Call::Lookup, what));
        }
        Ok(())
    }

    /// Noise to write over.
    fn lend_places(&mut self, random: &mut Random) {
        let noise = self.stock.noise(random);
        let length = random.pick(&[INDEX_PLACES, MOST_PLACES]);
        self.desk.change(|side| {
            side.places.overwrite(noise);
            side.places.lend(length);
        });
    }
}

fn draw_some(random: &mut Random, end: usize, count: usize) -> Vec<usize> {
    (0..count).map(|_| random.below(end)).collect()
}
