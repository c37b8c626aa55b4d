//! Plan P and the events of the one whole run that document 01 sets out.

pub const PLAN: &str = "S\t10\t4\nS\t20\t6\nT\t0\nT\t0\nT\t1\nR\tG\nR\tL\n\
U\t0\t0\t2\nU\t0\t1\t0\nU\t1\t1\t0\nU\t2\t0\t3\n";

pub const EVENTS: &str = "release\t2\ntick\nrelease\t1\nlock\t1\t1\nrelease\t0\ntick\ntick\n\
unlock\t1\t1\nlock\t0\t0\ntick\nlock\t2\t0\ntick\ntick\ntick\ntick\nend\t2\ntick\ntick\ntick\n";
