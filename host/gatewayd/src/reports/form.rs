//! The forms of a line: text with tabs, JSON, CSV.

use super::missing::Gap;
use super::Line;
use crate::hex;
use serde::ser::{Serialize, SerializeStruct, Serializer};

#[derive(Clone, Copy, PartialEq, Eq, Debug)]
pub enum Form {
    Text,
    Json,
    Csv,
}

impl Form {
    /// What stands above the lines.
    pub fn head(self, of_gaps: bool) -> &'static str {
        match (self, of_gaps) {
            (Form::Csv, false) => "ship,time,opening,number,length,bytes\n",
            (Form::Csv, true) => "ship,opening,first,last,count\n",
            _ => "",
        }
    }

    /// Ship, time, opening, number, length, bytes.
    pub fn line(self, line: &Line) -> String {
        let (ship, time, opening, number) = (&line.ship, line.received, line.opening, line.number);
        let (length, bytes) = (line.bytes.len(), hex::write(&line.bytes));
        match self {
            // No name has a tab.
            Form::Text => format!("{ship}\t{time}\t{opening}\t{number}\t{length}\t{bytes}\n"),
            Form::Json => json(line),
            Form::Csv => format!("{},{time},{opening},{number},{length},{bytes}\n", quoted(ship)),
        }
    }

    /// Ship, opening, the first and the last number that is missing, and how many.
    pub fn gap(self, gap: &Gap) -> String {
        let Gap { ship, opening, first, last } = gap;
        let count = last - first + 1;
        match self {
            Form::Text => format!("{ship}\t{opening}\t{first}\t{last}\t{count}\n"),
            Form::Json => json(gap),
            Form::Csv => format!("{},{opening},{first},{last},{count}\n", quoted(ship)),
        }
    }
}

fn json(of: &impl Serialize) -> String {
    serde_json::to_string(of).expect("text and numbers") + "\n"
}

impl Serialize for Line {
    fn serialize<S: Serializer>(&self, to: S) -> Result<S::Ok, S::Error> {
        let mut fields = to.serialize_struct("report", 6)?;
        fields.serialize_field("ship", &self.ship)?;
        fields.serialize_field("time", &self.received.to_string())?;
        fields.serialize_field("opening", &self.opening)?;
        fields.serialize_field("number", &self.number)?;
        fields.serialize_field("length", &self.bytes.len())?;
        fields.serialize_field("bytes", &hex::write(&self.bytes))?;
        fields.end()
    }
}

impl Serialize for Gap {
    fn serialize<S: Serializer>(&self, to: S) -> Result<S::Ok, S::Error> {
        let mut fields = to.serialize_struct("gap", 5)?;
        fields.serialize_field("ship", &self.ship)?;
        fields.serialize_field("opening", &self.opening)?;
        fields.serialize_field("first", &self.first)?;
        fields.serialize_field("last", &self.last)?;
        fields.serialize_field("count", &(self.last - self.first + 1))?;
        fields.end()
    }
}

fn quoted(name: &str) -> String {
    match name.contains([',', '"']) {
        true => format!("\"{}\"", name.replace('"', "\"\"")),
        false => name.to_string(),
    }
}

#[cfg(test)]
mod tests {
    use super::*;
    use crate::clock::Moment;

    #[test]
    fn the_forms_of_a_line() {
        let line = Line {
            id: 1,
            ship: "a\"b,c".to_string(),
            received: Moment(1_794_700_800_007),
            opening: 2,
            number: 17,
            bytes: vec![0x48, 0x69],
        };
        assert_eq!(Form::Text.line(&line), "a\"b,c\t2026-11-15T00:00:00.007Z\t2\t17\t2\t4869\n");
        assert_eq!(
            Form::Json.line(&line),
            concat!(
                r#"{"ship":"a\"b,c","time":"2026-11-15T00:00:00.007Z","opening":2,"#,
                r#""number":17,"length":2,"bytes":"4869"}"#,
                "\n"
            )
        );
        assert_eq!(Form::Csv.line(&line), "\"a\"\"b,c\",2026-11-15T00:00:00.007Z,2,17,2,4869\n");
        let gap = Gap { ship: "Sea Star".to_string(), opening: 1, first: 3, last: 5 };
        assert_eq!(Form::Text.gap(&gap), "Sea Star\t1\t3\t5\t3\n");
        assert_eq!(
            Form::Json.gap(&gap),
            "{\"ship\":\"Sea Star\",\"opening\":1,\"first\":3,\"last\":5,\"count\":3}\n"
        );
    }
}
