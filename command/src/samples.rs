//! The samples of a CSV: which columns are channels, the numbers, and the words for what is refused of them.
//!
//! What is no whole number is refused here. Ranges and numbers of samples the proved library judges; here is found the line that it refused.

use crate::csv::{Bad, Row};
use field_axes::{Refused, Table};

/// The most characters that the name of a channel has, so that a sheet has room for it.
const LONGEST_NAME: usize = 40;

/// Which columns are named on the command line.
#[derive(Default)]
pub struct Columns {
    /// The channels, in this order.
    pub channels: Option<Vec<String>>,
    /// Columns that are no channels, wherever they stand.
    pub labels: Vec<String>,
}

pub struct Samples {
    pub channels: Vec<String>,
    pub labels: Vec<String>,
    pub dilutions: Vec<u32>,
    /// A count for each channel, sample after sample.
    pub counts: Vec<u32>,
    /// Where each sample stands.
    places: Vec<Place>,
    header_line: usize,
}

/// A sample's line, and what its labels say.
#[derive(Clone)]
struct Place {
    line: usize,
    label: String,
}

impl Samples {
    /// The samples of these rows: the first is the header row. Each column to the right of `dilution` is a channel, and the others are
    /// labels, unless the command line says otherwise.
    pub fn read(rows: &[Row], columns: &Columns) -> Result<Samples, Bad> {
        let Some((header, rows)) = rows.split_first() else {
            return Err(Bad::new(1, "there is no header row"));
        };
        let dilution = dilution_column(header)?;
        let taken = channel_columns(header, dilution, columns)?;
        let others = (0..header.fields.len()).filter(|at| *at != dilution && !taken.contains(at));
        let others: Vec<usize> = others.collect();
        let names = |columns: &[usize]| {
            columns
                .iter()
                .map(|&at| header.fields[at].clone())
                .collect()
        };
        let mut samples = Samples {
            channels: names(&taken),
            labels: names(&others),
            dilutions: Vec::new(),
            counts: Vec::new(),
            places: Vec::new(),
            header_line: header.line,
        };
        for row in rows {
            samples.add(header, row, dilution, &taken, &others)?;
        }
        Ok(samples)
    }

    fn add(
        &mut self,
        header: &Row,
        row: &Row,
        dilution: usize,
        channels: &[usize],
        labels: &[usize],
    ) -> Result<(), Bad> {
        let (here, there) = (row.fields.len(), header.fields.len());
        if here != there {
            let why = format!("{here} fields, where the header row has {there}");
            return Err(Bad::new(row.line, why));
        }
        let label: Vec<&str> = labels.iter().map(|&at| row.fields[at].as_str()).collect();
        let place = Place {
            line: row.line,
            label: label.join(" ").trim().to_string(),
        };
        let number = |at: usize| {
            let (name, field) = (&header.fields[at], &row.fields[at]);
            whole(field).ok_or_else(|| place.bad(&no_number(name, field, at == dilution)))
        };
        self.dilutions.push(number(dilution)?);
        for &at in channels {
            self.counts.push(number(at)?);
        }
        self.places.push(place);
        Ok(())
    }

    /// These samples with their channels in the order of others, if they have the same.
    pub fn with_channels_as(&self, others: &Samples) -> Option<Samples> {
        let n = self.channels.len();
        let at = |name| self.channels.iter().position(|channel| channel == name);
        let order: Vec<usize> = others.channels.iter().map(at).collect::<Option<_>>()?;
        if order.len() != n {
            return None;
        }
        let counts = self.counts.chunks(n.max(1));
        Some(Samples {
            channels: others.channels.clone(),
            labels: self.labels.clone(),
            dilutions: self.dilutions.clone(),
            counts: counts
                .flat_map(|counts| order.iter().map(|&at| counts[at]))
                .collect(),
            places: self.places.clone(),
            header_line: self.header_line,
        })
    }

    /// These samples, then others of the same channels.
    pub fn followed_by(&self, others: &Samples) -> Samples {
        Samples {
            channels: self.channels.clone(),
            labels: self.labels.clone(),
            dilutions: [&self.dilutions[..], &others.dilutions].concat(),
            counts: [&self.counts[..], &others.counts].concat(),
            places: [&self.places[..], &others.places].concat(),
            header_line: self.header_line,
        }
    }

    /// What is wrong with the header row.
    pub fn header(&self, why: &str) -> Bad {
        Bad::new(self.header_line, why)
    }

    /// What is wrong with the last sample.
    pub fn last(&self, why: &str) -> Bad {
        let place = self.places.last();
        place.map_or_else(|| self.header(why), |place| place.bad(why))
    }

    pub fn number(&self) -> usize {
        self.dilutions.len()
    }

    /// Their job text.
    pub fn job(&self, limit: u64, tolerance: u64) -> Result<String, Bad> {
        let n = self.channels.len();
        field_axes::job(n, limit, tolerance, &self.dilutions, &self.counts)
            .map_err(|refused| self.explained(refused))
    }

    /// Their table.
    pub fn table(&self) -> Result<Table, Bad> {
        field_axes::table(self.channels.len(), &self.dilutions, &self.counts)
            .map_err(|refused| self.explained(refused))
    }

    /// Why the library refuses them, and the line.
    pub fn explained(&self, refused: Refused) -> Bad {
        let found = match refused {
            Refused(2) => self.out_of_range(),
            Refused(3) => Some(self.wrong_number()),
            _ => None,
        };
        found.unwrap_or_else(|| Bad::new(self.header_line, refused.to_string()))
    }

    /// What is out of its range first: the number of channels, then line by line.
    fn out_of_range(&self) -> Option<Bad> {
        let n = self.channels.len();
        if !(2..=8).contains(&n) {
            let names = self.channels.join(", ");
            let why = match n {
                0 => "no channel; there must be 2 to 8".to_string(),
                1 => format!("1 channel, {names}; there must be 2 to 8"),
                _ => format!("{n} channels, {names}; there must be 2 to 8"),
            };
            let hint = "a column to the right of `dilution` is a channel; --channels and --labels say otherwise";
            return Some(Bad::new(self.header_line, format!("{why} ({hint})")));
        }
        let samples = self.places.iter().zip(&self.dilutions);
        for ((place, &dilution), counts) in samples.zip(self.counts.chunks(n)) {
            if !(1..=100).contains(&dilution) {
                let why = format!("dilution: {} is outside 1 to 100", shown(dilution));
                return Some(place.bad(&why));
            }
            if let Some((name, &count)) = self
                .channels
                .iter()
                .zip(counts)
                .find(|(_, &count)| count > 65_535)
            {
                let why = format!("{name}: {} is outside 0 to 65535", shown(count));
                return Some(place.bad(&why));
            }
        }
        None
    }

    fn wrong_number(&self) -> Bad {
        match (self.places.get(256), self.places.last()) {
            (Some(place), _) => place.bad("the 257th sample; there must be 2 to 256"),
            (None, Some(place)) => place.bad("the only sample; there must be 2 to 256"),
            (None, None) => Bad::new(
                self.header_line,
                "no sample follows the header row; there must be 2 to 256",
            ),
        }
    }
}

impl Place {
    fn bad(&self, why: &str) -> Bad {
        if self.label.is_empty() {
            return Bad::new(self.line, why);
        }
        let label: String = self.label.chars().take(LONGEST_NAME).collect();
        Bad::new(self.line, format!("({}) {why}", label.replace('\n', " ")))
    }
}

/// Where the column `dilution` stands.
fn dilution_column(header: &Row) -> Result<usize, Bad> {
    let is_dilution = |name: &String| name.eq_ignore_ascii_case("dilution");
    let found: Vec<usize> = (0..header.fields.len())
        .filter(|&at| is_dilution(&header.fields[at]))
        .collect();
    match found[..] {
        [at] => Ok(at),
        [] => {
            let why = "the header row has no column `dilution`; of undiluted samples it has 1 in every row";
            Err(Bad::new(header.line, why))
        }
        _ => Err(Bad::new(
            header.line,
            "the header row has two columns `dilution`",
        )),
    }
}

/// Where the channels stand, in their order.
fn channel_columns(header: &Row, dilution: usize, columns: &Columns) -> Result<Vec<usize>, Bad> {
    let labels = columns.labels.iter().map(|name| named(header, name));
    let labels = labels.collect::<Result<Vec<usize>, Bad>>()?;
    let taken: Vec<usize> = match &columns.channels {
        Some(names) => names
            .iter()
            .map(|name| named(header, name))
            .collect::<Result<_, _>>()?,
        None => (dilution + 1..header.fields.len())
            .filter(|at| !labels.contains(at))
            .collect(),
    };
    for (place, &at) in taken.iter().enumerate() {
        let name = &header.fields[at];
        let why = if at == dilution {
            "`dilution` is no channel".to_string()
        } else if labels.contains(&at) {
            format!("`{name}` is named both a channel and a label")
        } else if taken[..place]
            .iter()
            .any(|&other| header.fields[other] == *name)
        {
            format!("two channels are named `{name}`")
        } else if name.is_empty() {
            format!("column {} is a channel and has no name", at + 1)
        } else if name.chars().count() > LONGEST_NAME || name.contains('\n') {
            format!(
                "the name of column {} is longer than {LONGEST_NAME} characters or a line",
                at + 1
            )
        } else {
            continue;
        };
        return Err(Bad::new(header.line, why));
    }
    Ok(taken)
}

/// The column of a name that is given on the command line.
fn named(header: &Row, name: &str) -> Result<usize, Bad> {
    let mut found = (0..header.fields.len()).filter(|&at| header.fields[at] == name);
    match (found.next(), found.next()) {
        (Some(at), None) => Ok(at),
        (Some(_), Some(_)) => Err(Bad::new(
            header.line,
            format!("the header row has two columns `{name}`"),
        )),
        (None, _) => {
            let names = header.fields.join(", ");
            Err(Bad::new(
                header.line,
                format!("the header row has no column `{name}`; it has {names}"),
            ))
        }
    }
}

/// A whole number; one that is beyond 32 bits, and so beyond every range, as the largest of them.
fn whole(field: &str) -> Option<u32> {
    if field.is_empty() || !field.bytes().all(|byte| byte.is_ascii_digit()) {
        return None;
    }
    Some(field.parse().unwrap_or(u32::MAX))
}

fn shown(number: u32) -> String {
    if number == u32::MAX {
        return "the number".to_string();
    }
    number.to_string()
}

fn no_number(name: &str, field: &str, is_dilution: bool) -> String {
    let hint = if is_dilution {
        ""
    } else {
        "; if the column is no channel, name it in --labels"
    };
    if field.is_empty() {
        return format!("{name} is empty; every sample has all its numbers{hint}");
    }
    let field: String = field.chars().take(LONGEST_NAME).collect();
    let field = field.replace('\n', " ");
    format!("{name}: `{field}` is no whole number{hint}")
}
