//! The page of `kiqsaryn report` in a real browser, where one is installed: its parts are there and can be seen, nothing is fetched, it is light or dark
//! as the reader has it, and it is printed on A4. The line that starts with `browser: ` says what ran.

#[allow(dead_code)]
mod running;

use running::page::well_kept;
use running::{examples, out, run};
use std::fs::{self, File};
use std::os::unix::process::CommandExt;
use std::path::{Path, PathBuf};
use std::process::{Command, Stdio};
use std::time::{Duration, Instant};

const BROWSERS: [&str; 4] = ["chromium", "chromium-browser", "google-chrome", "google-chrome-stable"];
/// How long the browser may take for one call.
const PATIENCE: Duration = Duration::from_secs(60);
/// The size of A4 in points, and how much a printer's number may differ.
const A4: [f64; 2] = [595.28, 841.89];
const POINT: f64 = 1.0;

/// What the browser tells of a page: a script that the test puts into a copy of it writes this into the page's title.
const MEASURE: &str = "<script>
const seen = [...document.querySelectorAll('section, table, figure, svg[role=img]')].every(e => e.getBoundingClientRect().height > 0);
const wide = document.documentElement.scrollWidth > document.documentElement.clientWidth;
const paper = getComputedStyle(document.documentElement).backgroundColor;
window.addEventListener('load', () => {
  const fetched = performance.getEntriesByType('resource').length;
  document.title = `seen ${seen}, wider than the window ${wide}, paper ${paper}, fetched ${fetched}`;
});
</script>
";

struct Browser {
    program: PathBuf,
    folder: PathBuf,
}

impl Browser {
    /// The first browser that a shell would find, with a folder for what it keeps.
    fn installed() -> Option<Browser> {
        let paths = std::env::var_os("PATH")?;
        let mut programs = BROWSERS.iter().flat_map(|name| std::env::split_paths(&paths).map(move |path| path.join(name)));
        let program = programs.find(|program| program.is_file())?;
        let folder = std::env::temp_dir().join(format!("kiqsaryn-browser-{}", std::process::id()));
        let _ = fs::remove_dir_all(&folder);
        fs::create_dir(&folder).expect("a folder");
        Some(Browser { program, folder })
    }

    fn path(&self, name: &str) -> PathBuf {
        self.folder.join(name)
    }

    /// Runs the browser on a page of the folder; what it prints, or nothing where it does not answer in time.
    fn open(&self, page: &str, options: &[String]) -> Option<String> {
        let said = self.path("said.txt");
        let url = format!("file://{}", self.path(page).display());
        let keep = format!("--user-data-dir={}", self.path("keep").display());
        let quiet = ["--headless=new", "--no-sandbox", "--disable-gpu", "--no-first-run", "--disable-dev-shm-usage"];
        let mut child = Command::new(&self.program)
            .args(quiet)
            .args([keep.as_str(), "--disable-background-networking", "--disable-component-update", "--disable-sync"])
            .args(options)
            .arg(url)
            .env("HOME", &self.folder)
            .stdin(Stdio::null())
            .stdout(File::create(&said).expect("a file"))
            .stderr(Stdio::null())
            .process_group(0)
            .spawn()
            .ok()?;
        let started = Instant::now();
        while started.elapsed() < PATIENCE {
            if child.try_wait().expect("the browser's state").is_some() {
                return fs::read(&said).ok().map(|bytes| String::from_utf8_lossy(&bytes).into_owned());
            }
            std::thread::sleep(Duration::from_millis(50));
        }
        // The browser and the processes that it has started are one group.
        let _ = Command::new("kill").args(["-KILL", "--", &format!("-{}", child.id())]).status();
        let _ = child.wait();
        None
    }
}

impl Drop for Browser {
    fn drop(&mut self) {
        let _ = fs::remove_dir_all(&self.folder);
    }
}

/// The text between two others.
fn between<'a>(text: &'a str, from: &str, to: &str) -> &'a str {
    text.split_once(from).and_then(|(_, rest)| rest.split_once(to)).map_or("", |(inside, _)| inside)
}

/// The page as the browser has understood it holds every part of the page as it was written.
fn compare_parts(page: &str, dom: &str) {
    let written = well_kept(page);
    for e in written.each().into_iter().filter(|e| !e.value("id").is_empty()) {
        assert!(dom.contains(&format!("id=\"{}\"", e.value("id"))), "{} is in the browser's page", e.value("id"));
    }
    for name in ["section", "figure", "svg", "table", "tr", "th", "td", "dl", "dd", "a", "rect", "text", "path"] {
        let count = dom.split(&format!("<{name}")).skip(1).filter(|rest| rest.starts_with([' ', '>'])).count();
        assert_eq!(count, written.all(name).len(), "so many {name} in the browser's page");
    }
    for heading in ["What was read", "Verdicts", "Races", "Stale reads", "How to read this page"] {
        assert!(dom.contains(&format!("<h2>{heading}</h2>")), "{heading}");
    }
}

/// The sizes of the pages of a PDF, in points.
fn page_sizes(pdf: &Path) -> Vec<[f64; 2]> {
    let bytes = fs::read(pdf).expect("a PDF");
    let text = String::from_utf8_lossy(&bytes);
    assert!(text.starts_with("%PDF-"), "a PDF");
    let boxes = text.split("/MediaBox").skip(1).map(|rest| between(rest, "[", "]").to_string());
    boxes
        .map(|corners| {
            let numbers: Vec<f64> = corners.split_whitespace().map(|n| n.parse().expect("a number")).collect();
            [numbers[2] - numbers[0], numbers[3] - numbers[1]]
        })
        .collect()
}

/// The width and the height of a PNG picture.
fn png_size(png: &Path) -> [u32; 2] {
    let bytes = fs::read(png).expect("a picture");
    assert!(bytes.starts_with(b"\x89PNG\r\n\x1a\n") && bytes.len() > 1_000, "a PNG picture");
    [16, 20].map(|at| bytes[at..at + 4].iter().fold(0, |n, byte| n << 8 | u32::from(*byte)))
}

/// What a reader with this window and these settings sees of the page.
fn measured(browser: &Browser, page: &str, more: &[&str]) -> Option<String> {
    fs::write(browser.path("measured.html"), page.replace("</body>", &format!("{MEASURE}</body>"))).expect("a page");
    let options: Vec<String> = ["--dump-dom"].iter().chain(more).map(|option| option.to_string()).collect();
    browser.open("measured.html", &options).map(|dom| between(&dom, "<title>", "</title>").to_string())
}

const LIGHT: &str = "rgb(255, 255, 255)";
const DARK: &str = "rgb(21, 23, 27)";

/// Opens the page in every way; what was done, or nothing where the browser does not answer.
fn look(browser: &Browser, page: &str) -> Option<String> {
    fs::write(browser.path("report.html"), page).expect("a page");
    compare_parts(page, &browser.open("report.html", &["--dump-dom".to_string()])?);
    let dark = "--blink-settings=preferredColorScheme=0";
    let seen = |paper: &str, fetched: u32| format!("seen true, wider than the window false, paper {paper}, fetched {fetched}");
    assert_eq!(measured(browser, page, &["--window-size=1100,900"])?, seen(LIGHT, 0));
    assert_eq!(measured(browser, page, &["--window-size=1100,900", dark])?, seen(DARK, 0));
    assert_eq!(measured(browser, page, &["--window-size=520,900"])?, seen(LIGHT, 0), "a narrow window");
    // A page that fetches something is told from one that does not.
    let fetching = page.replace("</main>", "<img src=\"http://127.0.0.1:9/x.png\"/></main>");
    assert_eq!(measured(browser, &fetching, &["--window-size=1100,900"])?, seen(LIGHT, 1), "a page that fetches a picture");
    let (pdf, png) = (browser.path("report.pdf"), browser.path("report.png"));
    browser.open("report.html", &[format!("--print-to-pdf={}", pdf.display()), "--no-pdf-header-footer".to_string()])?;
    let sizes = page_sizes(&pdf);
    let is_a4 = |size: &[f64; 2]| size.iter().zip(A4).all(|(have, want)| (have - want).abs() <= POINT);
    assert!(!sizes.is_empty() && sizes.iter().all(is_a4), "{sizes:?}");
    browser.open("report.html", &[format!("--screenshot={}", png.display()), "--window-size=1000,700".to_string()])?;
    assert_eq!(png_size(&png), [1000, 700]);
    Some(format!("its parts are there, light and dark, nothing is fetched, {} pages of A4", sizes.len()))
}

#[test]
fn the_report_is_opened_in_a_real_browser() {
    let Some(browser) = Browser::installed() else {
        println!("browser: none is installed; the report was not opened");
        return;
    };
    let name = browser.program.display().to_string();
    let mut done = Vec::new();
    let join = ["report", "join/left.csv", "join/right.csv", "--headers", "yes,no"];
    for args in [&["report", "many_races.csv", "--header", "yes"][..], &join] {
        assert!(examples().is_dir());
        match look(&browser, &out(&run(args, b""))) {
            Some(what) => done.push(format!("{}: {what}", args[1])),
            None => {
                println!("browser: {name} did not answer; the report was not looked at to the end");
                return;
            }
        }
    }
    println!("browser: {name} opened the reports: {}", done.join("; "));
}
