//! A private server on a socket in a folder of its own, without TCP; it goes when this object does.

use std::ffi::c_int;
use std::io::Write;
use std::os::unix::fs::chown;
use std::path::{Path, PathBuf};
use std::process::{Child, Command, Stdio};
use std::sync::atomic::{AtomicU32, Ordering};
use std::time::{Duration, Instant};

extern "C" {
    fn kill(process: c_int, signal: c_int) -> c_int;
    fn geteuid() -> u32;
}

const INTERRUPT: c_int = 2;

/// Where Debian puts PostgreSQL 15; FIDDLECOMET_POSTGRES names another folder.
fn programs() -> PathBuf {
    std::env::var_os("FIDDLECOMET_POSTGRES").map_or_else(|| PathBuf::from("/usr/lib/postgresql/15/bin"), PathBuf::from)
}

pub fn is_installed() -> bool {
    programs().join("initdb").exists()
}

pub struct Server {
    folder: PathBuf,
    process: Child,
}

/// The numbers of a user without rights, since the server refuses to run as root.
fn plain_user() -> (u32, u32) {
    let number = |option: &str, name: &str| -> Option<u32> {
        let output = Command::new("id").args([option, name]).output().ok()?;
        String::from_utf8(output.stdout).ok()?.trim().parse().ok()
    };
    let of = |name: &str| Some((number("-u", name)?, number("-g", name)?));
    of("postgres").or_else(|| of("nobody")).expect("a user without rights")
}

/// A command that is run as the plain user where we are root, and ends with us.
fn unprivileged(program: &Path) -> Command {
    let mut command = Command::new("setpriv");
    command.args(["--pdeathsig", "INT"]);
    // SAFETY: asks for a number.
    if unsafe { geteuid() } == 0 {
        let (user, group) = plain_user();
        command.args([format!("--reuid={user}"), format!("--regid={group}"), "--clear-groups".into()]);
    }
    command.arg(program);
    command
}

impl Server {
    /// Starts a fresh server; it takes a few seconds.
    pub fn start() -> Result<Server, String> {
        static NUMBER: AtomicU32 = AtomicU32::new(0);
        let name = format!("fiddlecomet-{}-{}", std::process::id(), NUMBER.fetch_add(1, Ordering::Relaxed));
        let folder = std::env::temp_dir().join(name);
        std::fs::create_dir(&folder).map_err(|fault| format!("{}: {fault}", folder.display()))?;
        // SAFETY: asks for a number.
        if unsafe { geteuid() } == 0 {
            let (user, group) = plain_user();
            chown(&folder, Some(user), Some(group)).map_err(|fault| fault.to_string())?;
        }
        let data = folder.join("data");
        let made = unprivileged(&programs().join("initdb"))
            .args(["--no-sync", "--auth=trust", "--username=owner", "--encoding=UTF8", "--locale=C", "-D"])
            .arg(&data)
            .current_dir("/")
            .output()
            .map_err(|fault| fault.to_string())?;
        if !made.status.success() {
            return Err(format!("initdb: {}", String::from_utf8_lossy(&made.stderr)));
        }
        let settings =
            ["fsync=off", "synchronous_commit=off", "full_page_writes=off", "autovacuum=off", "max_connections=8"];
        let process = unprivileged(&programs().join("postgres"))
            .arg("-D")
            .arg(&data)
            .arg("-k")
            .arg(&folder)
            .args(["-h", ""])
            .args(settings.iter().flat_map(|setting| ["-c", setting]))
            .current_dir("/")
            .stdin(Stdio::null())
            .stdout(Stdio::null())
            .stderr(Stdio::null())
            .spawn()
            .map_err(|fault| fault.to_string())?;
        let server = Server { folder, process };
        server.wait_until_ready()?;
        Ok(server)
    }

    fn wait_until_ready(&self) -> Result<(), String> {
        let start = Instant::now();
        while start.elapsed() < Duration::from_secs(60) {
            if self.run("select 1;\n").is_ok() {
                return Ok(());
            }
            std::thread::sleep(Duration::from_millis(100));
        }
        Err("the server doesn't answer".to_string())
    }

    /// Runs a script as the server's owner and gives what it prints: a line a row, fields parted by `|`.
    pub fn run(&self, script: &str) -> Result<String, String> {
        let mut psql = Command::new("psql")
            .args(["-X", "-q", "-A", "-t", "-v", "ON_ERROR_STOP=1", "-U", "owner", "-d", "postgres", "-h"])
            .arg(&self.folder)
            .stdin(Stdio::piped())
            .stdout(Stdio::piped())
            .stderr(Stdio::piped())
            .spawn()
            .map_err(|fault| fault.to_string())?;
        let mut input = psql.stdin.take().expect("asked for");
        let script = script.to_string();
        let writer = std::thread::spawn(move || input.write_all(script.as_bytes()));
        let output = psql.wait_with_output().map_err(|fault| fault.to_string())?;
        let _ = writer.join();
        if output.status.success() {
            String::from_utf8(output.stdout).map_err(|fault| fault.to_string())
        } else {
            Err(String::from_utf8_lossy(&output.stderr).into_owned())
        }
    }
}

impl Drop for Server {
    fn drop(&mut self) {
        // SAFETY: our own child, asked by its number to stop at once.
        unsafe { kill(self.process.id() as c_int, INTERRUPT) };
        let _ = self.process.wait();
        let _ = std::fs::remove_dir_all(&self.folder);
    }
}
