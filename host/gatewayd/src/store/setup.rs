//! What a PostgreSQL database needs before the first gateway: two roles, the tables, and who may do what with them.

use super::postgres::WORDS;
use super::schema::{self, VERSION};

/// The gateways write, and delete nothing. Planners read; the connections are not for them.
const ROLES: &str = "\
DO $$ BEGIN
    IF NOT EXISTS (SELECT FROM pg_roles WHERE rolname = 'gatewayd') THEN CREATE ROLE gatewayd LOGIN; END IF;
    IF NOT EXISTS (SELECT FROM pg_roles WHERE rolname = 'planner') THEN CREATE ROLE planner LOGIN; END IF;
END $$;
";

const RIGHTS: &str = "\
GRANT SELECT ON store TO gatewayd, planner;
GRANT UPDATE (layout) ON store TO gatewayd;
GRANT SELECT, INSERT, UPDATE ON ships TO gatewayd;
GRANT SELECT (identifier, name, tally, route, opening, heard, barred) ON ships TO planner;
GRANT SELECT, INSERT ON reports TO gatewayd;
GRANT USAGE ON SEQUENCE reports_id_seq TO gatewayd;
GRANT SELECT ON reports TO planner;
GRANT SELECT, INSERT, UPDATE ON refusals TO gatewayd;
GRANT SELECT ON refusals TO planner;
";

/// For `psql`, as one who may create roles and tables.
pub fn script() -> String {
    let tables = schema::statements(&WORDS).join(";\n\n");
    format!(
        "\\set ON_ERROR_STOP on\nBEGIN;\n{ROLES}\n{tables};\n\n\
         INSERT INTO store (version, layout) VALUES ({VERSION}, '{}');\n\n{RIGHTS}COMMIT;\n",
        schema::layout()
    )
}
