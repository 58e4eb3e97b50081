//! A browser driven over its debugging pipe: messages of JSON, each ended by a zero byte. The pipe is two named ones, which a
//! shell opens as the browser's descriptors 3 and 4.
use std::fs::{File, OpenOptions};
use std::io::{BufRead, BufReader, Write};
use std::path::{Path, PathBuf};
use std::process::{Child, Command, Stdio};
use std::sync::mpsc::{Receiver, channel};
use std::time::Duration;

const WAIT: Duration = Duration::from_secs(60);

/// The browser's program, if there is one.
pub fn installed() -> Option<PathBuf> {
    let path = std::env::var_os("PATH")?;
    std::env::split_paths(&path).map(|folder| folder.join("chromium")).find(|program| program.is_file())
}

pub struct Browser {
    child: Child,
    to: File,
    from: Receiver<String>,
    sent: usize,
    session: String,
    folder: PathBuf,
}

impl Browser {
    /// A browser with one empty page. `folder` is for its profile and the pipes.
    pub fn start(program: &Path, folder: &Path) -> Browser {
        let (to, from) = (folder.join("to"), folder.join("from"));
        for pipe in [&to, &from] {
            assert!(Command::new("mkfifo").arg(pipe).status().unwrap().success());
        }
        let command = format!(
            "exec '{}' --headless --no-sandbox --disable-gpu --disable-dev-shm-usage --no-first-run \
             --user-data-dir='{}' --remote-debugging-pipe 3<'{}' 4>'{}'",
            program.display(),
            folder.join("profile").display(),
            to.display(),
            from.display()
        );
        let mut shell = Command::new("sh");
        shell.arg("-c").arg(command).stdout(Stdio::null()).stderr(Stdio::null());
        let child = shell.spawn().unwrap();
        let to = OpenOptions::new().write(true).open(to).unwrap();
        let from = messages(File::open(from).unwrap());
        let (session, folder) = (String::new(), folder.to_path_buf());
        let mut browser = Browser { child, to, from, sent: 0, session, folder };
        browser.attach();
        browser
    }

    fn attach(&mut self) {
        let page = self.call("Target.createTarget", r#"{"url":"about:blank"}"#);
        let page = text_of(&page, "targetId");
        let session =
            self.call("Target.attachToTarget", &format!(r#"{{"targetId":"{page}","flatten":true}}"#));
        self.session = text_of(&session, "sessionId");
        self.call("Page.enable", "{}");
    }

    /// Sends a message and waits for its answer; what comes between is passed over.
    fn call(&mut self, method: &str, params: &str) -> String {
        self.sent += 1;
        let session = match self.session.as_str() {
            "" => String::new(),
            s => format!(r#","sessionId":"{s}""#),
        };
        let id = format!(r#"{{"id":{},"#, self.sent);
        write!(self.to, r#"{id}"method":"{method}","params":{params}{session}}}{}"#, '\0').unwrap();
        loop {
            let message = self.from.recv_timeout(WAIT).expect("the browser does not answer");
            if message.starts_with(&id) {
                assert!(!message.contains(r#""error":{"#), "{method}: {message}");
                return message;
            }
        }
    }

    pub fn open(&mut self, page: &Path) {
        self.call("Page.navigate", &format!(r#"{{"url":"file://{}"}}"#, page.display()));
        while self.ask("document.readyState") != "complete" {
            std::thread::sleep(Duration::from_millis(20));
        }
    }

    /// What an expression of the page comes to, as text.
    pub fn ask(&mut self, expression: &str) -> String {
        let quoted = expression.replace('\\', "\\\\").replace('"', "\\\"");
        let params = format!(r#"{{"expression":"String({quoted})","returnByValue":true}}"#);
        let answer = self.call("Runtime.evaluate", &params);
        assert!(!answer.contains("exceptionDetails"), "{expression}: {answer}");
        text_of(&answer, "value")
    }

    /// Presses a key where the page's focus is.
    pub fn press(&mut self, key: &str, code: u32) {
        for kind in ["keyDown", "keyUp"] {
            let params =
                format!(r#"{{"type":"{kind}","key":"{key}","code":"{key}","windowsVirtualKeyCode":{code}}}"#);
            self.call("Input.dispatchKeyEvent", &params);
        }
    }

    /// Clicks the middle of an element, wherever the page has it.
    pub fn click(&mut self, id: &str) {
        self.ask(&format!("document.getElementById('{id}').scrollIntoView({{ block: 'center' }})"));
        let middle = |side: &str, long: &str| {
            format!("(r => r.{side} + r.{long} / 2)(document.getElementById('{id}').getBoundingClientRect())")
        };
        let (x, y) = (self.ask(&middle("x", "width")), self.ask(&middle("y", "height")));
        for kind in ["mousePressed", "mouseReleased"] {
            let params = format!(r#"{{"type":"{kind}","x":{x},"y":{y},"button":"left","clickCount":1}}"#);
            self.call("Input.dispatchMouseEvent", &params);
        }
    }
}

impl Drop for Browser {
    fn drop(&mut self) {
        let _ = self.child.kill();
        let _ = self.child.wait();
        let _ = std::fs::remove_dir_all(&self.folder);
    }
}

/// The messages as they come, so that waiting for one can have an end.
fn messages(pipe: File) -> Receiver<String> {
    let (send, receive) = channel();
    std::thread::spawn(move || {
        for message in BufReader::new(pipe).split(0) {
            let Ok(message) = message else { return };
            if send.send(String::from_utf8_lossy(&message).into_owned()).is_err() {
                return;
            }
        }
    });
    receive
}

/// The text of a field; what is asked here has no quotes in its answer.
fn text_of(message: &str, field: &str) -> String {
    let name = format!(r#""{field}":""#);
    let start = message.find(&name).unwrap_or_else(|| panic!("no {field}: {message}")) + name.len();
    let mut parts = message[start..].split('"').next().unwrap().split("\\u");
    let mut text = parts.next().unwrap().to_string();
    for part in parts {
        let (code, rest) = part.split_at(4);
        text.extend(char::from_u32(u32::from_str_radix(code, 16).unwrap()));
        text.push_str(rest);
    }
    text
}
