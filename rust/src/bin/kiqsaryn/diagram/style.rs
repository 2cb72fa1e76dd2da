//! How pictures look. Every rule stands under the class of a picture, so that a page can hold the style once for all its pictures. Colours stand in
//! the style alone: a dark screen has its own, and paper gets those of a light screen.

pub const STYLE: &str = "svg.kiqsaryn{background:#fff}
svg.kiqsaryn text{font-family:monospace;font-size:12px;fill:#111}
svg.kiqsaryn .big{font-size:15px;font-weight:bold}
svg.kiqsaryn .head{font-weight:bold;text-anchor:middle}
svg.kiqsaryn .gap{font-style:italic;text-anchor:middle;fill:#666}
svg.kiqsaryn .race{fill:#b00020;font-weight:bold}
svg.kiqsaryn .free{fill:#0b6b2e;font-weight:bold}
svg.kiqsaryn .tag{font-weight:bold;text-anchor:end}
svg.kiqsaryn rect{stroke:#555;stroke-width:1}
svg.kiqsaryn .paper{fill:#fff;stroke:none}
svg.kiqsaryn .read{fill:#d6e6fb}
svg.kiqsaryn .write{fill:#fde3ae}
svg.kiqsaryn .share{fill:#d5efd8}
svg.kiqsaryn .message{fill:#ececec}
svg.kiqsaryn .posted{fill:#fff;stroke-dasharray:4 3}
svg.kiqsaryn .barrier{fill:#e4d7f5;stroke:#5b2a9d}
svg.kiqsaryn .plain{fill:#fff}
svg.kiqsaryn .racing{stroke:#b00020;stroke-width:3}
svg.kiqsaryn .named{stroke:#0a58ca;stroke-width:3}
svg.kiqsaryn .lane{stroke:#bbb;stroke-width:1;fill:none}
svg.kiqsaryn .arrow{stroke:#333;stroke-width:1.3;fill:none}
svg.kiqsaryn .tip{fill:#333;stroke:none}
svg.kiqsaryn .meet{stroke:#5b2a9d;stroke-width:3;fill:none}
svg.kiqsaryn .pair{stroke:#b00020;stroke-width:1.5;stroke-dasharray:5 4;fill:none}
@media screen and (prefers-color-scheme:dark){
svg.kiqsaryn{background:#15171b}
svg.kiqsaryn text{fill:#e8e8e8}
svg.kiqsaryn .gap{fill:#a0a0a0}
svg.kiqsaryn .race{fill:#ff8a93}
svg.kiqsaryn .free{fill:#7fd89b}
svg.kiqsaryn rect{stroke:#8a8f98}
svg.kiqsaryn .paper{fill:#15171b;stroke:none}
svg.kiqsaryn .read{fill:#1d3a5f}
svg.kiqsaryn .write{fill:#5a4310}
svg.kiqsaryn .share{fill:#1d4a2a}
svg.kiqsaryn .message{fill:#3a3d43}
svg.kiqsaryn .posted{fill:#15171b}
svg.kiqsaryn .barrier{fill:#3d2a5c;stroke:#b794f0}
svg.kiqsaryn .plain{fill:#15171b}
svg.kiqsaryn .racing{stroke:#ff5c6c}
svg.kiqsaryn .named{stroke:#6ea8fe}
svg.kiqsaryn .lane{stroke:#4a4e55}
svg.kiqsaryn .arrow{stroke:#cfd3da}
svg.kiqsaryn .tip{fill:#cfd3da}
svg.kiqsaryn .meet{stroke:#b794f0}
svg.kiqsaryn .pair{stroke:#ff5c6c}
}
";
